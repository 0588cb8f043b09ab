/* How much stack a call takes: each is made on a stack of its own that was filled beforehand, on the largest inputs. Prints the most, or with an argument a table of all, and
 * stops with status 1 where one is not under the bound that include/planner.h tells. */
#include <stdio.h>
#include <stdlib.h>
#include <string.h>
#include <ucontext.h>
#include "../include/planner.h"

enum { BOUND = 8 * 1024, MESH_BOUND = 72 * 1024, STACK = 512 * 1024, LONG = 1 << 20 };
static ucontext_t home, away;
static unsigned char *stack;
static uint64_t answer;
static uint32_t words[LONG], order[LONG], lists[20][LONG], fixed[16];
static int32_t signed_lists[2][LONG];
static double floats[3][LONG], sides[3] = {1.0, 1.0, 1.0};
static uint32_t solid[6] = {8, PLANNER_PERIODIC, 8, PLANNER_PERIODIC, 10, PLANNER_PERIODIC};
static uint32_t chain[24] = {0, 1, 2, 3, 1, 2, 3, 4, 2, 3, 4, 5, 3, 4, 5, 6, 4, 5, 6, 7, 5, 6, 7, 8};
static uint32_t band[4] = {64, PLANNER_PERIODIC, 32, PLANNER_OPEN};
static uint8_t file[4 * LONG];
static size_t n, cells_len, file_len;

#define ROOM(k) lists[k], LONG, lists[k + 1], LONG, lists[k + 2], LONG, lists[k + 3], LONG
#define REFINED lists[0], LONG, lists[1], LONG, lists[2], LONG, floats[0], LONG, signed_lists[0], LONG, lists[3], LONG, lists[4], LONG, floats[1], LONG, lists[5], LONG, \
    lists[6], LONG, lists[7], LONG, lists[8], LONG, lists[9], LONG, lists[10], LONG, lists[11], LONG, lists[12], LONG, lists[13], LONG, lists[14], LONG, fixed

static void torus(void) { answer = planner_torus(3, 8, sides, 3, fixed); }
static void klein(void) { answer = planner_klein(2, 8, sides, 2, fixed); }
static void moebius(void) { answer = planner_moebius(40, 1.0, 0.5, fixed); }
static void quasi_uniform(void) { answer = planner_quasi_uniform(3, 8, solid + 1, 3, sides, 3, fixed); }
static void reduce(void) { answer = planner_reduce(3, 890, solid, 6); }
static void crossing(void) { answer = planner_crossing(3, 890, solid, 6, fixed); }
static void nvertices(void) { answer = planner_nvertices(3, solid, 6); }
static void preserving(void) { answer = planner_is_orientation_preserving(3, solid, 6); }
static void cell_words(void) { answer = planner_cell_words(3, solid, 6, words, LONG, ROOM(0)); }
static void triangulate(void) { answer = planner_triangulate_ordered(3, solid, 6, lists[4], LONG, order, LONG, ROOM(0)); }
static void lengths(void) { answer = planner_edge_lengths_sq(3, solid, 6, sides, 3, floats[0], LONG, ROOM(0)); }
static void length(void) { answer = planner_edge_length_sq(3, 0, 1, solid, 6, sides, 3, floats[0]); }
static void cells(void) { answer = planner_cells(3, words, n, lists[4], LONG, ROOM(0)); }
static void write_mesh(void) { answer = planner_write_mesh(3, lists[4], cells_len, NULL, 0, NULL, 0, file, LONG, ROOM(0)); }
static void read_mesh(void) { answer = planner_read_mesh(file, file_len, lists[5], LONG, lists[6], LONG, lists[7], LONG, ROOM(0), fixed); }
static void edges(void) { answer = planner_edges(3, words, n, lists[4], LONG, ROOM(0)); }
static void facets(void) { answer = planner_facets(3, words, n, lists[4], LONG, lists[5], LONG, ROOM(0)); }
static void border(void) { answer = planner_border(3, words, n, lists[4], LONG, ROOM(0)); }
static void orientation(void) { answer = planner_orientation(3, words, n, signed_lists[0], LONG, ROOM(0)); }
static void looks(void) { answer = planner_orientation_looks(3, words, n, signed_lists[0], LONG, ROOM(0), fixed); }
static void orient_by(void) { answer = planner_orient_by(3, words, n, signed_lists[0], n / 4, ROOM(0)); }
static void ordering(void) { answer = planner_ordering(3, words, n, words, n, lists[4], LONG, ROOM(0)); }
static void induced(void) { answer = planner_induced_orientation(3, words, n, words, n, ROOM(0)); }
static void swath(void) { answer = planner_swath(3, solid, 6, words, n, lists[4], LONG); }
static void geojson(void) { answer = planner_geojson(2, -60, 60, band, 4, file, LONG, ROOM(0)); }
static void chained_classes(void) { answer = planner_chained_classes(3, solid, 6, lists[4], LONG, lists[5], LONG); }
static void chained_closed(void) { answer = planner_chained_closed_classes(3, solid, 6, lists[4], LONG, lists[5], LONG); }
static void chained_words(void) { answer = planner_chained_cell_words(3, solid, 6, lists[4], LONG, ROOM(0)); }
static void incidence(void) { answer = planner_incidence(3, words, n, lists[4], LONG, lists[5], LONG, ROOM(0)); }
static void faces(void) { answer = planner_faces(3, 1, words, n, lists[4], LONG, ROOM(0)); }
static void boundary(void) { answer = planner_boundary(3, 2, words, n, signed_lists[0], LONG, lists[4], LONG, lists[5], LONG, ROOM(0)); }
static void matrix_market(void) { answer = planner_matrix_market(3, 1, words, n, file, LONG, ROOM(0)); }
static void drop_cells(void) { answer = planner_drop_cells(3, words, n, words, 4, lists[4], LONG, lists[5], LONG, ROOM(0), fixed); }
static void corners(void) { answer = planner_corners(3, 16, lists[4], LONG); }
static void corners_stepping(void) { answer = planner_corners_stepping(3, 16, lists[4], LONG); }
static void refine_by_steps(void) { answer = planner_refine_by_steps(3, 8, chain, 24, REFINED); }
static void refine(void) { answer = planner_refine(3, 8, chain, 24, REFINED); }
static void refine_with(void) { answer = planner_refine_with(3, 8, chain, 24, chain, 24, REFINED); }

/* those with a bound of their own have it in their text */
static const struct { const char *name; void (*call)(void); size_t bound; } calls[] = {
    {"cell_words", cell_words, BOUND}, {"torus", torus, BOUND}, {"klein", klein, BOUND}, {"moebius", moebius, BOUND}, {"quasi_uniform", quasi_uniform, BOUND}, {"reduce", reduce, BOUND}, {"crossing", crossing, BOUND},
    {"nvertices", nvertices, BOUND}, {"is_orientation_preserving", preserving, BOUND}, {"triangulate_ordered", triangulate, BOUND}, {"edge_lengths_sq", lengths, BOUND}, {"edge_length_sq", length, BOUND},
    {"cells", cells, BOUND}, {"write_mesh", write_mesh, BOUND}, {"read_mesh", read_mesh, MESH_BOUND}, {"edges", edges, BOUND}, {"facets", facets, BOUND}, {"border", border, BOUND}, {"orientation", orientation, BOUND}, {"orientation_looks", looks, BOUND}, {"orient_by", orient_by, BOUND},
    {"ordering", ordering, BOUND}, {"induced_orientation", induced, BOUND}, {"refine", refine, BOUND}, {"refine_with", refine_with, BOUND},
    {"refine_by_steps", refine_by_steps, BOUND}, {"corners", corners, BOUND}, {"corners_stepping", corners_stepping, BOUND}, {"swath", swath, BOUND}, {"geojson", geojson, BOUND},
    {"chained_classes", chained_classes, BOUND}, {"chained_closed_classes", chained_closed, BOUND}, {"chained_cell_words", chained_words, BOUND}, {"incidence", incidence, BOUND},
    {"faces", faces, BOUND}, {"boundary", boundary, BOUND}, {"matrix_market", matrix_market, BOUND}, {"drop_cells", drop_cells, BOUND},
};

/* The bytes of the stack that the call wrote to, from its top down to the lowest. */
static size_t taken(void (*call)(void)) {
    memset(stack, 0xA5, STACK);
    getcontext(&away);
    away.uc_stack.ss_sp = stack;
    away.uc_stack.ss_size = STACK;
    away.uc_link = &home;
    makecontext(&away, call, 0);
    swapcontext(&home, &away);
    size_t low = 0;
    while (low < STACK && stack[low] == 0xA5) low++;
    return STACK - low;
}

int main(int argc, char **argv) {
    (void)argv;
    if (argc > 1) puts("| Call | bytes of stack |\n|---|---|");
    const char *deepest = "";
    size_t most = 0;
    stack = malloc(STACK);
    for (size_t i = 0; i < sizeof calls / sizeof *calls; i++) {
        size_t bytes = taken(calls[i].call);
        if (calls[i].call == cell_words) n = 4 * (size_t)planner_value(answer);
        if (calls[i].call == cells) cells_len = 4 * (size_t)planner_value(answer);
        if (calls[i].call == write_mesh) file_len = planner_value(answer);
        if (planner_number(answer) != 0) {
            printf("stack: %s was refused with %u\n", calls[i].name, planner_number(answer));
            return 1;
        }
        if (bytes >= calls[i].bound) {
            printf("stack: %s takes %zu bytes\n", calls[i].name, bytes);
            return 1;
        }
        if (argc > 1) printf("| `%s` | %zu |\n", calls[i].name, bytes);
        if (bytes > most) { most = bytes; deepest = calls[i].name; }
    }
    printf("stack: %zu calls, the most is %zu bytes, by %s\n", sizeof calls / sizeof *calls, most, deepest);
    return 0;
}
