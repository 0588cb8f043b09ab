/* planner.h: the proved mesh core, for C and for whatever links C.
 *
 * Every function answers every input: none stops, none asks its caller to check first, none keeps anything between calls.
 *
 * WHAT IS RETURNED. One 64-bit number r. planner_number(r) is the number of a refusal in document 01's table, or 0; planner_value(r)
 * is then its place, counted from 0, and otherwise the answer: a count, a vertex, or 1 and 0 for yes and no. Two calls answer a count with a
 * yes beside it: planner_count(r) is the count, planner_yes(r) is 1 for yes.
 *
 * LISTS are a pointer and a length in elements, one after the other. A list may be empty, and its pointer is then not looked at: NULL will do. Lists that are written must not overlap any other list of the call. The order of parameters is: numbers, lists
 * that are read, result lists, working lists, arrays of fixed length.
 *
 * RESULT LISTS get exactly as many elements as the meaning of the call says, from the start; what lies past them keeps its values. A
 * refusal changes no result list. One that is too short is refused with 12.
 *
 * WORKING LISTS: keys, rows, spare, counts (ten lists for a refinement). A call says how many elements it needs of each, and planner_need_... works it out; fewer are refused with 12. Their values before the
 * call do not matter. After the call what is needed of them is all zero, unless the call was refused before it tested them: then they are as
 * they were. What lies past the need is never touched.
 *
 * A GRID is its dimension d, a list `axes` with two numbers for each axis, its count of cells and its gluing, and a list `sides` where the
 * call reads them. A gluing is PLANNER_OPEN, PLANNER_PERIODIC or PLANNER_TWISTED(mask), where bit j of the mask is set if axis j is
 * reflected. Of the other numbers 1 to 255 are open and 257 to 511 periodic; from 768 on the mask names an axis past the eighth, which no grid
 * has, and is refused with 9. PLANNER_TWISTED cuts no mask: one from 256 on gives such a number. An axis
 * that is not in the list has no cells (refused with 8), one whose count is in the list and whose gluing is not is open, a side that is not
 * there is 0 (refused with 10). What stands past d is not looked at.
 *
 * FLOATS are rounded to the nearest, as a program starts out; where the caller has set another rounding mode, lengths, shares and counts made
 * from sides follow it. STACK: a call takes less than 8 KB of the thread's stack, unless its text tells
 * another number, and no memory but its lists.
 *
 * A CELL LIST is its dimension d and a list `words` of d+1 vertex numbers for each cell, in any order. n is the length of `words`.
 */
#ifndef PLANNER_H
#define PLANNER_H

#include <stddef.h>
#include <stdint.h>

#define PLANNER_VERSION "0.2.0"

#ifdef __cplusplus
extern "C" {
#endif

/* ---- answers */

#define planner_number(r) ((uint32_t)((uint64_t)(r) >> 32))
#define planner_value(r) ((uint32_t)((uint64_t)(r) & 0xFFFFFFFFu))
#define planner_count(r) ((uint32_t)((uint64_t)(r) & 0x7FFFFFFFu))
#define planner_yes(r) ((uint32_t)((uint64_t)(r) >> 31 & 1u))

enum {
    PLANNER_FINE = 0,
    PLANNER_BAD_DIMENSION = 1,      /* d outside its range: cells 0 to 3, grids 1 to 3 */
    PLANNER_RAGGED_WORDS = 2,       /* word list empty or no multiple of d+1 */
    PLANNER_TOO_MANY_CELLS = 3,     /* more than 4,096 cells */
    PLANNER_VERTEX_TWICE = 4,       /* a word names a vertex twice; place: the first such word */
    PLANNER_UNUSED_NUMBER = 5,      /* some number below the largest is unused; place: the least such number */
    PLANNER_TOO_MANY_VERTICES = 6,  /* more than 4,096 vertices, or a number above 4,095 */
    PLANNER_CROWDED_FACET = 7,      /* a facet in three or more cells */
    PLANNER_SHORT_AXIS = 8,         /* open axis under 1 cell, closed under 3; place: the least such axis */
    PLANNER_BAD_REFLECTION = 9,     /* an axis reflects itself, or one outside the grid; place: the least such axis */
    PLANNER_BAD_SIDE = 10,          /* a side not a number from 2^-100 to 2^100; place: the least such axis */
    PLANNER_BAD_REFINEMENT = 11,    /* R outside 1 to 64 */
    PLANNER_TOO_SHORT = 12,         /* a lent list too short for the exact result, or working space too short */
    PLANNER_NO_SIGNS = 13,          /* no coherent signs exist */
    PLANNER_BAD_SIGNS = 14,         /* sign list not one +1 or -1 for each cell */
    PLANNER_TWO_LENGTHS = 15,       /* some grid edge gets two lengths */
    PLANNER_BAD_ORDER = 16,         /* order words not one for each cell, no more */
    PLANNER_OTHER_GRID = 18,        /* no band: not two dimensions with axis 0 periodic and axis 1 open */
    PLANNER_BAD_LATITUDES = 19,     /* south not below north, or either beyond 90 degrees */
    PLANNER_FILE_ENDS = 20,         /* a mesh file ends inside a record, or before the record that ends it */
    PLANNER_UNKNOWN_KIND = 21,      /* a mesh file has a record of an unknown kind */
    PLANNER_BAD_FILE = 22,          /* a mesh file has a wrong length, order, count, field or birth, or bytes after its end */
    PLANNER_NO_SUCH_CELL = 23,      /* a set of cells names one that is not there */
    PLANNER_BAD_FACES = 24          /* a dimension of faces that the call has none of */
};

/* ---- grids */

#define PLANNER_OPEN 0u
#define PLANNER_PERIODIC 256u
#define PLANNER_TWISTED(mask) ((uint64_t)(mask) < 256u ? 512u + (uint32_t)(mask) : 768u)
#define PLANNER_NO_VERTEX 4294967295u
#define PLANNER_NO_CELL 4294967295u

/* The makers write count and gluing of the three axes to axes[6], those past d as 0 and PLANNER_OPEN; the grid's sides are the caller's. They
 * return 0. A refusal leaves axes as it was. */

/* n cells on every axis, all periodic. Refused: 1, 10, 8 (n under 3), 3. */
uint64_t planner_torus(uint32_t d, uint32_t n, const double *sides, size_t sides_len, uint32_t axes[6]);

/* n cells on both axes; axis 0 reflects axis 1, axis 1 is periodic. Refused: 1 (d other than 2), 10, 8 (n under 3), 3. */
uint64_t planner_klein(uint32_t d, uint32_t n, const double *sides, size_t sides_len, uint32_t axes[6]);

/* Axis 0 reflects axis 1, axis 1 is open; counts from the sides, n cells on the longer one, at least 3 and 1. Refused: 10, 3. */
uint64_t planner_moebius(uint32_t n, double circumference, double width, uint32_t axes[6]);

/* These gluings; counts from the sides, n cells on the longest, at least 3 on a closed axis and 1 on an open one. Refused: 1, 10, 9, 3 (n above
 * 4,096 too), 6. */
uint64_t planner_quasi_uniform(uint32_t d, uint32_t n, const uint32_t *gluings, size_t gluings_len, const double *sides, size_t sides_len,
                               uint32_t axes[6]);

/* The glued vertex of grid point v; PLANNER_NO_VERTEX where v is past the last point. Refused: 1, 9, 8, 3, 6. */
uint64_t planner_reduce(uint32_t d, uint32_t v, const uint32_t *axes, size_t axes_len);

/* The same vertex, and where v crossed the seam: sets[0] gets the mask of the closed axes on which it was wrapped (its coordinate as given is their last), sets[1]
 * that of the axes that came out reversed (an odd number of the wrapped axes reflects them). Bit a of a mask is axis a. Both are 0 where v is past the last point. A
 * refusal leaves them. Refused: 1, 9, 8, 3, 6. */
uint64_t planner_crossing(uint32_t d, uint32_t v, const uint32_t *axes, size_t axes_len, uint32_t sets[2]);

/* The glued vertex of each of the points, equal in every place to planner_reduce's; PLANNER_NO_VERTEX where one is past the last point. The grid is checked once.
 * Returns 0; as many numbers are needed of glued as there are points, and an empty list succeeds. Refused: 1, 9, 8, 3, 6, 12 (glued). */
uint64_t planner_swath(uint32_t d, const uint32_t *axes, size_t axes_len, const uint32_t *points, size_t points_len, uint32_t *glued, size_t glued_len);

/* How many vertices there are after gluing. Refused: 1, 9, 8, 3, 6. */
uint64_t planner_nvertices(uint32_t d, const uint32_t *axes, size_t axes_len);

/* 1 where every axis reflects an even number of axes, else 0. Refused: 1, 9, 8, 3, 6. */
uint64_t planner_is_orientation_preserving(uint32_t d, const uint32_t *axes, size_t axes_len);

/* The words of the grid's cells, d+1 glued vertices each, in the order of the sorted grid cells. Returns how many words there are, d! times the boxes; d+1 times
 * as many numbers, n, are needed of words. Refused: 1, 9, 8, 3, 6, 12 (working lists), 7, 12 (words). Working lists: keys d * n, rows n, spare n, counts n. */
uint64_t planner_cell_words(
    uint32_t d, const uint32_t *axes, size_t axes_len, uint32_t *words, size_t words_len, uint32_t *keys, size_t keys_len, uint32_t *rows, size_t rows_len,
    uint32_t *spare, size_t spare_len, uint32_t *counts, size_t counts_len);

/* The grid's cells, d+1 glued vertices each, in colex order without repeats, and an order of them exactly where no two words sort to one cell and all facets agree:
 * to each cell its word, at the cell's place. planner_count is the number of cells, planner_yes tells whether the order is handed out; d+1 times as many numbers as
 * cells are needed of cells, and as many of order where it is handed out: else it is neither asked for nor changed. Refused: 1, 9, 8, 3, 6, 12 (working lists), 7,
 * 12 (cells, order). Working lists, where the words have n numbers as in planner_cell_words: keys (d + 2) * n, rows n, spare n, counts n. */
uint64_t planner_triangulate_ordered(
    uint32_t d, const uint32_t *axes, size_t axes_len, uint32_t *cells, size_t cells_len, uint32_t *order, size_t order_len, uint32_t *keys, size_t keys_len,
    uint32_t *rows, size_t rows_len, uint32_t *spare, size_t spare_len, uint32_t *counts, size_t counts_len);

/* The squared length of each edge, in the colex order of the edges; each is the sum over the axes, axis 0 first, of (step times side/count) squared. Returns how many
 * edges there are, which is the length needed of lengths. Refused: 1, 10, 9, 8, 3, 6, 12 (working lists), 15, 12 (lengths). Working lists, where the words have n
 * numbers as in planner_cell_words: keys, rows, spare and counts d * n each. */
uint64_t planner_edge_lengths_sq(
    uint32_t d, const uint32_t *axes, size_t axes_len, const double *sides, size_t sides_len, double *lengths, size_t lengths_len, uint32_t *keys, size_t keys_len,
    uint32_t *rows, size_t rows_len, uint32_t *spare, size_t spare_len, uint32_t *counts, size_t counts_len);

/* The edge between two glued vertices, in either order. Returns how many squared lengths are written to squares: 1 is its squared length, 2 the two that clash first, 0
 * no such edge (equal or unknown ends too). The rest of squares keeps its values. Refused: 1, 10, 9, 8, 3, 6. */
uint64_t planner_edge_length_sq(
    uint32_t d, uint32_t from, uint32_t to, const uint32_t *axes, size_t axes_len, const double *sides, size_t sides_len, double squares[2]);

/* ---- honest gluing: a second mode of a grid
 *
 * Grid points are one class exactly where a chain of gluing steps joins them: a step leads from a point with the last coordinate on a closed axis to the point with 0 there,
 * and c replaced by count - c on the axes that this one reflects. Classes are numbered in the order of their least grid points. A class is neither a grid point nor a glued
 * vertex of the calls above. Where no axis with a non-empty set is itself reflected both modes make the same classes under other numbers. Of the room n numbers are needed,
 * d+1 for each cell, as in planner_cell_words; each call numbers the whole grid. */

/* The class of grid point v; PLANNER_NO_VERTEX where v is past the last point. Refused: 1, 9, 8, 3, 12 (room), 6 (more than 4,096 classes). */
uint64_t planner_chained_reduce(uint32_t d, uint32_t v, const uint32_t *axes, size_t axes_len, uint32_t *room, size_t room_len);

/* How many classes there are. Refused: 1, 9, 8, 3, 12 (room), 6. */
uint64_t planner_chained_nvertices(uint32_t d, const uint32_t *axes, size_t axes_len, uint32_t *room, size_t room_len);

/* The class of each grid point. Returns how many classes there are; of classes as many numbers are needed as there are grid points, the product of count + 1 over the axes.
 * Refused: 1, 9, 8, 3, 12 (room), 6, 12 (classes). */
uint64_t planner_chained_classes(
    uint32_t d, const uint32_t *axes, size_t axes_len, uint32_t *classes, size_t classes_len, uint32_t *room, size_t room_len);

/* The same by an engine that closes the relation step by step. */
uint64_t planner_chained_closed_classes(
    uint32_t d, const uint32_t *axes, size_t axes_len, uint32_t *classes, size_t classes_len, uint32_t *room, size_t room_len);

/* The words of the grid's cells, d+1 classes each, in the order of the sorted grid cells. Returns how many words there are; n numbers are needed of words. Refused: 1, 9,
 * 8, 3, 12 (working lists), 6, 4 (a word names a class twice; place: the first such word), 7, 12 (words). Working lists: keys d * n, rows n, spare n, counts n. */
uint64_t planner_chained_cell_words(
    uint32_t d, const uint32_t *axes, size_t axes_len, uint32_t *words, size_t words_len, uint32_t *keys, size_t keys_len, uint32_t *rows, size_t rows_len,
    uint32_t *spare, size_t spare_len, uint32_t *counts, size_t counts_len);

/* ---- maps */

/* The band of a grid of two dimensions, axis 0 periodic (a twist without axes is periodic) and axis 1 open, as an RFC 7946 GeoJSON file between two latitudes in whole
 * degrees: a FeatureCollection with one Polygon for each grid cell, in the order of planner_cell_words. Grid points before gluing are drawn, column 0 at longitude -180,
 * the last one at 180, so that no ring crosses the seam; the first row at south, the last at north. Positions are exact fractions to six decimals, halves away from zero;
 * rings close, run counterclockwise and begin at their lowest grid vertex. A feature's "id" and its property "cell" are the cell's number in the mesh: its place in
 * planner_cells' list, by which signs, parents and sets of cells count. With x the feature's place in the file and m twice the columns it is x + 1, but at the last three
 * places of a row, x % m = m - 3, m - 2, m - 1: x + 2, x - x % m, x - 1. No spaces, one final line feed. Edges are straight in degrees (plate carree); at a pole one edge
 * of a cell is a single point of the sphere.
 * Returns how many bytes are written; 43 bytes and 276 for each cell are always enough. Sides are not read. Refused: 1, 9, 8, 3, 6, 12 (working lists), 7, 18, 19,
 * 12 (bytes). Working lists, where the words have n numbers as in planner_cell_words: keys d * n, rows n, spare n, counts n. */
uint64_t planner_geojson(
    uint32_t d, int32_t south, int32_t north, const uint32_t *axes, size_t axes_len, uint8_t *bytes, size_t bytes_len, uint32_t *keys, size_t keys_len,
    uint32_t *rows, size_t rows_len, uint32_t *spare, size_t spare_len, uint32_t *counts, size_t counts_len);

/* ---- cell lists */

/* The cells, d+1 vertices each, in colex order without repeats. Returns how many; d+1 times as many numbers are needed of cells. Refused: 1, 2, 3, 4, 6,
 * 5, 12 (working lists), 7, 12 (cells). Working lists: keys max(1, d) * n, rows n, spare n, counts n. */
uint64_t planner_cells(
    uint32_t d, const uint32_t *words, size_t n, uint32_t *cells, size_t cells_len, uint32_t *keys, size_t keys_len, uint32_t *rows, size_t rows_len,
    uint32_t *spare, size_t spare_len, uint32_t *counts, size_t counts_len);

/* The edges, two vertices each, the lower first, in colex order without repeats. Returns how many; twice as many numbers are needed of edges.
 * Refused: 1, 2, 3, 4, 6, 5, 12 (working lists), 7, 12 (edges). Working lists: keys 2 * max(1, d) * n, rows, spare and counts max(1, d) * n each. */
uint64_t planner_edges(
    uint32_t d, const uint32_t *words, size_t n, uint32_t *edges, size_t edges_len, uint32_t *keys, size_t keys_len, uint32_t *rows, size_t rows_len,
    uint32_t *spare, size_t spare_len, uint32_t *counts, size_t counts_len);

/* The facets, d vertices each, in colex order without repeats, and in table four numbers for each facet: its lower cell, the position dropped there, its other cell,
 * the position dropped there; the last two are PLANNER_NO_CELL where the facet lies in one cell. A cell is its place in planner_cells' list. Returns how many facets
 * there are; d times as many numbers are needed of facets, 4 times as many of table. In dimension 0 there are none. Refused: 1, 2, 3, 4, 6, 5, 12 (working lists), 7,
 * 12 (facets, table). Working lists: keys max(1, d) * n, rows n, spare n, counts n. */
uint64_t planner_facets(
    uint32_t d, const uint32_t *words, size_t n, uint32_t *facets, size_t facets_len, uint32_t *table, size_t table_len, uint32_t *keys, size_t keys_len,
    uint32_t *rows, size_t rows_len, uint32_t *spare, size_t spare_len, uint32_t *counts, size_t counts_len);

/* The facets as planner_facets hands them out, and in records five numbers for each facet: its lower cell and the induced sign there, its other cell and the induced sign
 * there, 1 for + and 2 for -, or PLANNER_NO_CELL and 0 where the facet lies in one cell; and 1 where its cells' words list its vertices in one sequence, which sorted cells
 * always do. Returns how many facets there are; d times as many numbers are needed of facets, 5 times as many of records. Refused: 1, 2, 3, 4, 6, 5, 12 (working lists), 7,
 * 12 (facets, records). Working lists: keys max(1, d) * n, rows n, spare n, counts n. */
uint64_t planner_facet_records(
    uint32_t d, const uint32_t *words, size_t n, uint32_t *facets, size_t facets_len, uint32_t *records, size_t records_len, uint32_t *keys, size_t keys_len,
    uint32_t *rows, size_t rows_len, uint32_t *spare, size_t spare_len, uint32_t *counts, size_t counts_len);

/* The facets that lie in one cell, d vertices each, in colex order. Returns how many; d times as many numbers are needed of border. Refused: 1, 2, 3, 4, 6, 5, 12
 * (working lists), 7, 12 (border). Working lists: keys max(1, d) * n, rows n, spare n, counts n. */
uint64_t planner_border(
    uint32_t d, const uint32_t *words, size_t n, uint32_t *border, size_t border_len, uint32_t *keys, size_t keys_len, uint32_t *rows, size_t rows_len,
    uint32_t *spare, size_t spare_len, uint32_t *counts, size_t counts_len);

/* One sign a cell, in the colex order of the cells: +1 or -1, coherent, +1 at the lowest cell of each facet-connected piece. Returns how many
 * cells there are, which is the length needed of signs. Refused: 1, 2, 3, 4, 6, 5, 12 (working lists), 7, 13, 12 (signs).
 * Working lists: keys 5 * n, rows n, spare n, counts n. */
uint64_t planner_orientation(
    uint32_t d, const uint32_t *words, size_t n, int32_t *signs, size_t signs_len, uint32_t *keys, size_t keys_len, uint32_t *rows, size_t rows_len,
    uint32_t *spare, size_t spare_len, uint32_t *counts, size_t counts_len);

/* The same, and the facet looks of the walk that finds the signs: one for each facet of each cell taken off its stack. With signs they are (d+1) times the cells, none in
 * dimension 0; with 13 those up to and with the look that meets the conflict, at most as many. Another refusal leaves looks as it was. */
uint64_t planner_orientation_looks(
    uint32_t d, const uint32_t *words, size_t n, int32_t *signs, size_t signs_len, uint32_t *keys, size_t keys_len, uint32_t *rows, size_t rows_len,
    uint32_t *spare, size_t spare_len, uint32_t *counts, size_t counts_len, uint32_t looks[1]);

/* 1 exactly if the caller's signs are coherent, else 0; in dimension 0 always 0. Refused: 1, 2, 3, 4, 6, 5, 12 (working lists), 7, 14 (the list is not one
 * +1 or -1 for each cell). Working lists: keys 5 * n, rows n, spare n, counts n. */
uint64_t planner_orient_by(
    uint32_t d, const uint32_t *words, size_t n, const int32_t *signs, size_t signs_len, uint32_t *keys, size_t keys_len, uint32_t *rows, size_t rows_len,
    uint32_t *spare, size_t spare_len, uint32_t *counts, size_t counts_len);

/* ---- orders: one word for each cell, d+1 vertex numbers each, in any order */

/* The order's words by cell: to each cell its word, at the cell's place. planner_count is the number of cells, planner_yes tells whether on every facet of two cells both
 * words list the facet's vertices in one sequence; d+1 times as many numbers as cells are needed of listed. Refused: 1, 2, 3, 4, 6, 5, 12 (working lists), 7, 16, 12
 * (listed). Working lists: keys 7 * n, rows n, spare n, counts n. */
uint64_t planner_ordering(
    uint32_t d, const uint32_t *words, size_t n, const uint32_t *order, size_t order_len, uint32_t *listed, size_t listed_len, uint32_t *keys, size_t keys_len,
    uint32_t *rows, size_t rows_len, uint32_t *spare, size_t spare_len, uint32_t *counts, size_t counts_len);

/* The facets, d vertices each, in colex order, and for each a record of five numbers as planner_facet_records has it, but the last is 1 only where the order's words of its
 * cells list its vertices in one sequence, else 0; it is 1 where the facet lies in one cell. Returns how many facets there are; d times as many numbers are needed of facets,
 * 5 times as many of records. Refused: 1, 2, 3, 4, 6, 5, 12 (working lists), 7, 16, 12 (facets, records). Working lists: keys 7 * n, rows n, spare n,
 * counts n. */
uint64_t planner_facet_records_with(
    uint32_t d, const uint32_t *words, size_t n, const uint32_t *order, size_t order_len, uint32_t *facets, size_t facets_len, uint32_t *records,
    size_t records_len, uint32_t *keys, size_t keys_len, uint32_t *rows, size_t rows_len, uint32_t *spare, size_t spare_len, uint32_t *counts,
    size_t counts_len);

/* 1 exactly if the signs of the order's words are coherent, else 0; a word's sign is + when an even number of swaps sorts it. In dimension 0 always 0. Refused: 1, 2, 3,
 * 4, 6, 5, 12 (working lists), 7, 16. Working lists: keys 7 * n, rows n, spare n, counts n. */
uint64_t planner_induced_orientation(
    uint32_t d, const uint32_t *words, size_t n, const uint32_t *order, size_t order_len, uint32_t *keys, size_t keys_len, uint32_t *rows, size_t rows_len,
    uint32_t *spare, size_t spare_len, uint32_t *counts, size_t counts_len);

/* ---- faces by dimension, the boundary operator, the cells at each vertex
 *
 * The calls on faces need, where m is the number of words, rows, spare and counts of 1, 2, 6, 12 times m elements each in dimension 0, 1, 2, 3, and keys of 1, 2, 6, 24
 * times m: no result has more elements than rows has, but for the bytes of a file. */

/* The cells at each vertex, rising, as places in planner_cells' list: those of vertex v stand in touching from starts[v] on, up to starts[v + 1]. Returns how many vertices
 * there are; one number more is needed of starts, and d+1 numbers for each cell of touching. Refused: 1, 2, 3, 4, 6, 5, 12 (working lists), 7, 12 (starts, touching).
 * Working lists as planner_cells. */
uint64_t planner_incidence(
    uint32_t d, const uint32_t *words, size_t n, uint32_t *starts, size_t starts_len, uint32_t *touching, size_t touching_len, uint32_t *keys, size_t keys_len,
    uint32_t *rows, size_t rows_len, uint32_t *spare, size_t spare_len, uint32_t *counts, size_t counts_len);

/* The faces of dimension k, k+1 vertices each, in colex order without repeats. Returns how many; k+1 times as many numbers are needed of faces. Refused: 1, 2, 3, 4, 6, 5,
 * 12 (working lists), 7, 24 (k above d), 12 (faces). */
uint64_t planner_faces(
    uint32_t d, uint32_t k, const uint32_t *words, size_t n, uint32_t *faces, size_t faces_len, uint32_t *keys, size_t keys_len, uint32_t *rows, size_t rows_len,
    uint32_t *spare, size_t spare_len, uint32_t *counts, size_t counts_len);

/* The boundary operator from the faces of dimension k to those of dimension k - 1: entry i is signs[i], +1 or -1, in row faces[i] and column cofaces[i], places in the
 * lists of planner_faces; by rising coface, then by dropped position. Returns how many entries there are, the length needed of each of the three lists. Refused: 1, 2, 3,
 * 4, 6, 5, 12 (working lists), 7, 24 (k is 0 or above d), 12 (signs, faces, cofaces). */
uint64_t planner_boundary(
    uint32_t d, uint32_t k, const uint32_t *words, size_t n, int32_t *signs, size_t signs_len, uint32_t *faces, size_t faces_len, uint32_t *cofaces, size_t cofaces_len,
    uint32_t *keys, size_t keys_len, uint32_t *rows, size_t rows_len, uint32_t *spare, size_t spare_len, uint32_t *counts, size_t counts_len);

/* The same operator as a Matrix Market file: coordinate, integer, general, rows and columns counted from one, the entries in that order, one final line feed. Returns how
 * many bytes it has, the length needed of bytes; 83 and 34 for each entry are enough. Refused: as planner_boundary, 12 (bytes) last. */
uint64_t planner_matrix_market(
    uint32_t d, uint32_t k, const uint32_t *words, size_t n, uint8_t *bytes, size_t bytes_len, uint32_t *keys, size_t keys_len, uint32_t *rows, size_t rows_len,
    uint32_t *spare, size_t spare_len, uint32_t *counts, size_t counts_len);

/* ---- cells dropped from a mesh */

/* The words of the cells that do not go, in the order given and by new vertex numbers; `gone` names cells by their places in planner_cells' list, in any order, and a place
 * given twice counts once. Vertices that no word has any more are freed; the others are numbered without gaps in their old order, and old has the old number of each.
 * Returns how many words stay, a word given twice counted twice: d+1 times as many numbers are needed of kept. vertices[0] gets how many vertices they have, the length
 * needed of old; a refusal leaves it as it was. Refused: 1, 2, 3, 4, 6, 5, 12 (working lists), 7, 23 (a place past the last cell), 2 (all cells would go), 12 (kept,
 * old). Working lists as planner_cells. */
uint64_t planner_drop_cells(
    uint32_t d, const uint32_t *words, size_t n, const uint32_t *gone, size_t gone_len, uint32_t *kept, size_t kept_len, uint32_t *old, size_t old_len,
    uint32_t *keys, size_t keys_len, uint32_t *rows, size_t rows_len, uint32_t *spare, size_t spare_len, uint32_t *counts, size_t counts_len, uint32_t vertices[1]);

/* ---- refinement: every cell is cut into r^d children, along a word of its vertices
 *
 * Results, m children in the colex order of the refined cells and b births, the new vertices in the order of their numbers, which follow the coarse ones:
 *   out_cells        (d+1) * m   the refined cells, sorted
 *   out_words        (d+1) * m   each child's word
 *   parents          m           the coarse cell that a child lies in, by its place in planner_cells' list
 *   jacobians        9 * m       d * d numbers by column, then zeros: column j is the child's sorted corner j+1 less its corner 0, in the parent's local coordinates
 *   wholes           9 * m       the same times r, whole numbers
 *   birth_vertices   (d+1) * b   the coarse vertices with a positive weight, rising, then PLANNER_NO_VERTEX
 *   birth_weights    (d+1) * b   their weights, whole numbers over r, then 0
 *   birth_shares     (d+1) * b   weight times (1/r), then 0.0
 *   vertices[0]                  how many vertices there are, coarse and new together
 * The call returns m. Refused: 1, 2, 3, 4, 6, 5, 12 (working lists), 7, 16 (planner_refine_with and its sibling below), 11 (r outside 1 to 64), 3 and 6 (of the refined complex), 12 (a result
 * list). Working lists, where c is the lesser of 4,096 and (n / (d + 1)) * r^d (r as 1 where it is outside 1 to 64) and k = c * (d + 1): cells n, along n,
 * pattern (d + 1) * k, keys 4 * n + 8 * k, rows n + k, spare n + k, counts n + k + 65, sorted k, firsts c, buckets n + k. */

/* Along each cell's sorted vertices. */
uint64_t planner_refine(
    uint32_t d, uint32_t r, const uint32_t *words, size_t n,
    uint32_t *out_cells, size_t out_cells_len, uint32_t *out_words, size_t out_words_len, uint32_t *parents, size_t parents_len, double *jacobians, size_t jacobians_len,
    int32_t *wholes, size_t wholes_len, uint32_t *birth_vertices, size_t birth_vertices_len, uint32_t *birth_weights, size_t birth_weights_len, double *birth_shares,
    size_t birth_shares_len, uint32_t *cells, size_t cells_len, uint32_t *along, size_t along_len, uint32_t *pattern, size_t pattern_len, uint32_t *keys, size_t keys_len,
    uint32_t *rows, size_t rows_len, uint32_t *spare, size_t spare_len, uint32_t *counts, size_t counts_len, uint32_t *sorted, size_t sorted_len, uint32_t *firsts,
    size_t firsts_len, uint32_t *buckets, size_t buckets_len, uint32_t vertices[1]);

/* Along the caller's word for each cell: one word for each cell, in any order. */
uint64_t planner_refine_with(
    uint32_t d, uint32_t r, const uint32_t *words, size_t n, const uint32_t *order, size_t order_len,
    uint32_t *out_cells, size_t out_cells_len, uint32_t *out_words, size_t out_words_len, uint32_t *parents, size_t parents_len, double *jacobians, size_t jacobians_len,
    int32_t *wholes, size_t wholes_len, uint32_t *birth_vertices, size_t birth_vertices_len, uint32_t *birth_weights, size_t birth_weights_len, double *birth_shares,
    size_t birth_shares_len, uint32_t *cells, size_t cells_len, uint32_t *along, size_t along_len, uint32_t *pattern, size_t pattern_len, uint32_t *keys, size_t keys_len,
    uint32_t *rows, size_t rows_len, uint32_t *spare, size_t spare_len, uint32_t *counts, size_t counts_len, uint32_t *sorted, size_t sorted_len, uint32_t *firsts,
    size_t firsts_len, uint32_t *buckets, size_t buckets_len, uint32_t vertices[1]);

/* The same two with the pattern of a cell made by the stepping rule and never read from the table: they say and write what planner_refine and planner_refine_with do, on
 * every input. */
uint64_t planner_refine_by_steps(
    uint32_t d, uint32_t r, const uint32_t *words, size_t n,
    uint32_t *out_cells, size_t out_cells_len, uint32_t *out_words, size_t out_words_len, uint32_t *parents, size_t parents_len, double *jacobians, size_t jacobians_len,
    int32_t *wholes, size_t wholes_len, uint32_t *birth_vertices, size_t birth_vertices_len, uint32_t *birth_weights, size_t birth_weights_len, double *birth_shares,
    size_t birth_shares_len, uint32_t *cells, size_t cells_len, uint32_t *along, size_t along_len, uint32_t *pattern, size_t pattern_len, uint32_t *keys, size_t keys_len,
    uint32_t *rows, size_t rows_len, uint32_t *spare, size_t spare_len, uint32_t *counts, size_t counts_len, uint32_t *sorted, size_t sorted_len, uint32_t *firsts,
    size_t firsts_len, uint32_t *buckets, size_t buckets_len, uint32_t vertices[1]);

uint64_t planner_refine_with_by_steps(
    uint32_t d, uint32_t r, const uint32_t *words, size_t n, const uint32_t *order, size_t order_len,
    uint32_t *out_cells, size_t out_cells_len, uint32_t *out_words, size_t out_words_len, uint32_t *parents, size_t parents_len, double *jacobians, size_t jacobians_len,
    int32_t *wholes, size_t wholes_len, uint32_t *birth_vertices, size_t birth_vertices_len, uint32_t *birth_weights, size_t birth_weights_len, double *birth_shares,
    size_t birth_shares_len, uint32_t *cells, size_t cells_len, uint32_t *along, size_t along_len, uint32_t *pattern, size_t pattern_len, uint32_t *keys, size_t keys_len,
    uint32_t *rows, size_t rows_len, uint32_t *spare, size_t spare_len, uint32_t *counts, size_t counts_len, uint32_t *sorted, size_t sorted_len, uint32_t *firsts,
    size_t firsts_len, uint32_t *buckets, size_t buckets_len, uint32_t vertices[1]);

/* ---- the pattern of one cell: the corners of its children
 *
 * The children of a cell of dimension d refined by r, in the order in which a refinement visits them, their corners in the order of each child's word; a corner is d+1
 * weights over the places of the cell's word, whole numbers over r. corners gets r^d * (d+1) * (d+1) numbers; the call returns r^d * (d+1), the number of corners. Refused:
 * 1, 11 (r outside 1 to 64), 3 (r^d is more than the limit of cells), 12; then no number changes. */
uint64_t planner_corners(uint32_t d, uint32_t r, uint32_t *corners, size_t corners_len);

/* The same by the stepping rule alone, also for dimensions 2 and 3 refined by 2, 3 and 4, which planner_corners reads from a table: equal on every input. */
uint64_t planner_corners_stepping(uint32_t d, uint32_t r, uint32_t *corners, size_t corners_len);

/* ---- one child, one birth by number, read from the lists that a refinement handed out. (The word of cell number k of an order or a cell list is the d+1 numbers from
 * place k * (d+1) of its list on.) */

/* The child of that number. Returns its parent; jacobian gets its nine floats, whole its nine whole numbers over r. Refused: 12 where a list has none of that number; then
 * the arrays keep their values. */
uint64_t planner_child_of(
    uint32_t number, const uint32_t *parents, size_t parents_len, const double *jacobians, size_t jacobians_len, const int32_t *wholes, size_t wholes_len,
    double jacobian[9], int32_t whole[9]);

/* The birth of that number, counted from the first new vertex on. Returns how many coarse vertices support it, those before the first 4294967295 of its row;
 * vertices gets the d+1 numbers of its row, weights and shares theirs, and 4294967295, 0 and 0.0 past these. Refused: 1 where d is more than 3, 12 where a list has none of that number; then the arrays keep their
 * values. */
uint64_t planner_birth_of(
    uint32_t d, uint32_t number, const uint32_t *birth_vertices, size_t birth_vertices_len, const uint32_t *birth_weights, size_t birth_weights_len,
    const double *birth_shares, size_t birth_shares_len, uint32_t vertices[4], uint32_t weights[4], double shares[4]);

/* ---- mesh files: words and births as bytes, to be carried home and read again
 *
 * A file is records, all numbers little-endian: four bytes that count what follows them, two bytes of kind, and then
 *   kind 1   the dimension and the number of cells, two bytes each: the first record
 *   kind 2   one cell's word, four bytes a vertex: in the order of their cells (colex)
 *   kind 3   one birth: its number in four bytes, R in two, the number of its pairs in two, and for each pair a vertex in four and a weight in two: by number
 *   kind 4   nothing: the last record
 * A birth has two or more pairs, vertices rising and below the first birth's number, positive weights with sum R, one R from 2 to 64 in the whole file; birth numbers run on
 * to the last vertex. births has three numbers for each birth (number, R, how many pairs), pairs two for each pair (vertex, weight), those of one birth after those of the
 * birth before it. Working lists of both calls, n corners of the words: keys max(1, d) * n, rows n, spare n, counts n. */

/* Writes the file and returns how many bytes it has: 16 + (10 + 4 * d) * cells + 14 * births + 6 * pairs. Refused: 1, 2, 3, 4, 6, 5, 12 (working lists), 7, 22 (the lists
 * break the rules of a file), 12 (bytes). */
uint64_t planner_write_mesh(
    uint32_t d, const uint32_t *words, size_t n, const uint32_t *births, size_t births_len, const uint32_t *pairs, size_t pairs_len, uint8_t *bytes, size_t bytes_len,
    uint32_t *keys, size_t keys_len, uint32_t *rows, size_t rows_len, uint32_t *spare, size_t spare_len, uint32_t *counts, size_t counts_len);

/* Reads a file and returns how many cells it has; shape gets the dimension and how many births and pairs there are. For any file words of bytes_len / 4, births of
 * bytes_len / 8 and pairs of bytes_len / 3 numbers are long enough, keys of 3 * (bytes_len / 4) and rows, spare and counts of bytes_len / 4; no accepted file has more than
 * 16,384 numbers in words, 12,288 in births and 524,288 in pairs. Refused: 20, 21, 22 as the bytes come, then 1, 2, 3, 4, 6, 5, 12 (working lists), 7, 12 (a result list). A
 * refusal leaves shape as it was. STACK: less than 72 KB. */
uint64_t planner_read_mesh(
    const uint8_t *bytes, size_t bytes_len, uint32_t *words, size_t words_len, uint32_t *births, size_t births_len, uint32_t *pairs, size_t pairs_len, uint32_t *keys,
    size_t keys_len, uint32_t *rows, size_t rows_len, uint32_t *spare, size_t spare_len, uint32_t *counts, size_t counts_len, uint32_t shape[3]);

/* ---- how long the lists of a call must be
 *
 * Each function writes to need the lengths of a call's result lists and working lists, in the order of the call's parameters: of a result list the call never needs more, of
 * a working list it needs just that. With lists of these lengths the call never says 12. d is the dimension and n the length of words; for a call on a grid n is the
 * number that planner_grid_corners says. Where a call with this d and n is refused with 1 or 3 before it looks at its lists, they are those for n = 0. */

/* How many corners the words of a grid have: d+1 for each cell. Refused: 1, 9, 8, 3, 6. */
uint64_t planner_grid_corners(uint32_t d, const uint32_t *axes, size_t axes_len);

/* The same for the calls of honest gluing, which ask 6 of their classes and later. Refused: 1, 9, 8, 3. */
uint64_t planner_chained_corners(uint32_t d, const uint32_t *axes, size_t axes_len);

void planner_need_cell_words(uint32_t d, size_t n, size_t need[5]);          /* words, keys, rows, spare, counts; planner_chained_cell_words too */
void planner_need_triangulate_ordered(uint32_t d, size_t n, size_t need[6]); /* cells, order, keys, rows, spare, counts */
void planner_need_edge_lengths_sq(uint32_t d, size_t n, size_t need[5]);     /* lengths, keys, rows, spare, counts */
void planner_need_geojson(uint32_t d, size_t n, size_t need[5]);             /* bytes, keys, rows, spare, counts */
void planner_need_chained_classes(uint32_t d, size_t n, size_t need[2]);     /* classes, room; the room of all calls of honest gluing that have one */
void planner_need_cells(uint32_t d, size_t n, size_t need[5]);               /* cells, keys, rows, spare, counts */
void planner_need_edges(uint32_t d, size_t n, size_t need[5]);               /* edges, keys, rows, spare, counts */
void planner_need_facets(uint32_t d, size_t n, size_t need[6]);              /* facets, table, keys, rows, spare, counts */
void planner_need_border(uint32_t d, size_t n, size_t need[5]);              /* border, keys, rows, spare, counts */
void planner_need_orientation(uint32_t d, size_t n, size_t need[5]);         /* signs, keys, rows, spare, counts; planner_orientation_looks too */
void planner_need_orient_by(uint32_t d, size_t n, size_t need[4]);           /* keys, rows, spare, counts */
void planner_need_ordering(uint32_t d, size_t n, size_t need[5]);            /* listed, keys, rows, spare, counts */
void planner_need_induced_orientation(uint32_t d, size_t n, size_t need[4]); /* keys, rows, spare, counts */
void planner_need_incidence(uint32_t d, size_t n, size_t need[6]);           /* starts, touching, keys, rows, spare, counts */
void planner_need_faces(uint32_t d, size_t n, size_t need[5]);               /* faces, keys, rows, spare, counts; for every k */
void planner_need_boundary(uint32_t d, size_t n, size_t need[7]);            /* signs, faces, cofaces, keys, rows, spare, counts; for every k */
void planner_need_matrix_market(uint32_t d, size_t n, size_t need[5]);       /* bytes, keys, rows, spare, counts; for every k */
void planner_need_drop_cells(uint32_t d, size_t n, size_t need[6]);          /* kept, old, keys, rows, spare, counts */

/* The four refinements by r: out_cells, out_words, parents, jacobians, wholes, birth_vertices, birth_weights, birth_shares, cells, along, pattern, keys, rows, spare, counts,
 * sorted, firsts, buckets. */
void planner_need_refine(uint32_t d, uint32_t r, size_t n, size_t need[18]);

/* planner_corners, planner_corners_stepping: corners. */
void planner_need_corners(uint32_t d, uint32_t r, size_t need[1]);

/* Where births and pairs have so many numbers: bytes, keys, rows, spare, counts. */
void planner_need_write_mesh(uint32_t d, size_t n, size_t births_len, size_t pairs_len, size_t need[5]);

/* A file of so many bytes: words, births, pairs, keys, rows, spare, counts; the working lists at most too, since only the file tells its dimension and cells. */
void planner_need_read_mesh(size_t bytes_len, size_t need[7]);

#ifdef __cplusplus
}
#endif
#endif
