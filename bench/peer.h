/* The planner's calls written by hand in plain C: the second anchor of the benchmark beside the Rust, for what this machine can do. Nothing is proved, and nothing is tested
 * that the answer does not need (a function that says so makes the planner's own tests too): an input must be one that the planner takes, of dimension 1 to 3, with at most
 * 4,096 cells and vertices. Lists are lent; `room` is working memory whose values before and after a call do not matter. Answers are those of the planner, bit for bit:
 * bench/time.c compares every list before it times. */
#ifndef PEER_H
#define PEER_H
#include <stdint.h>

typedef struct {
    uint64_t a[32768], b[32768], mark[4096], bits[64];
    uint32_t h[4][4096 + 1], table[16384], edge[2][16384], stack[4096];
    uint16_t low[32768], mate[16384];
    int8_t sign[4096];
    /* refinement: children of one cell and their corners, points of one cell, births found by hash */
    uint16_t point[8192], child[4 * 4096], slot[8192];
    uint32_t corner[4 * 4096], glob[4096];
    uint64_t found[4096];
    uint8_t weight[4 * 4096];
    double share[4 * 4096];
} peer_room;

enum { PEER_NONE = 0xFFFFFFFFu, PEER_TWO_LENGTHS = 0xFFFFFFF0u, PEER_NO_SIGNS = 0xFFFFFFF1u, PEER_CROWDED = 0xFFFFFFF2u };

uint64_t peer_check(uint32_t d, const uint32_t *axes, uint64_t axes_len);     /* the planner's check of a grid, its refusal or 0 */
uint64_t peer_check_words(uint32_t d, const uint32_t *words, uint32_t n, peer_room *room); /* and of a word list */
uint32_t peer_nvertices(uint32_t d, const uint32_t *axes);
uint32_t peer_preserving(uint32_t d, const uint32_t *axes);
uint32_t peer_reduce(uint32_t d, uint32_t v, const uint32_t *axes);          /* one point */
uint32_t peer_reduce_all(uint32_t d, const uint32_t *axes, uint32_t *table); /* all points, in one pass; returns how many */
uint32_t peer_cell_words(uint32_t d, const uint32_t *axes, uint32_t *words, peer_room *room);
uint32_t peer_edge_lengths_sq(uint32_t d, const uint32_t *axes, const double *sides, double *lengths, peer_room *room);
uint32_t peer_cells(uint32_t d, const uint32_t *words, uint32_t n, uint32_t *cells, peer_room *room);
uint32_t peer_cells_tested(uint32_t d, const uint32_t *words, uint32_t n, uint32_t *cells, peer_room *room); /* and PEER_CROWDED, as the planner says 7 */
uint32_t peer_edges(uint32_t d, const uint32_t *words, uint32_t n, uint32_t *edges, peer_room *room);
uint32_t peer_facets(uint32_t d, const uint32_t *words, uint32_t n, uint32_t *facets, uint32_t *table, peer_room *room);
uint32_t peer_border(uint32_t d, const uint32_t *words, uint32_t n, uint32_t *border, peer_room *room);
uint32_t peer_orientation(uint32_t d, const uint32_t *words, uint32_t n, int32_t *signs, peer_room *room);
uint32_t peer_crowded(uint32_t d, const uint32_t *words, uint32_t n, peer_room *room); /* 1 where a facet lies in three or more cells */

typedef struct {
    uint32_t *cells, *words, *parents;
    double *jacobians;
    int32_t *wholes;
    uint32_t *birth_vertices, *birth_weights;
    double *birth_shares;
    uint32_t vertices;
} peer_refined;
uint32_t peer_refine(uint32_t d, uint32_t r, const uint32_t *words, uint32_t n, peer_refined *out, peer_room *room);
#endif
