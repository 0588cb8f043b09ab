/* Times calls of the planner, and beside each the same call in hand-written C (peer.h) where there is one. Each line of the input is a call and its input as numbers (bench.py
 * writes them); each line of the output has the best of many runs of both in nanoseconds of CPU time, 0 where there is no peer. Which function a call is is found before the
 * clock starts. Every list is lent once and used again; none is cleared outside the clock: a call that clears its working lists does so inside it. Where both are there, every
 * result list of both is compared first, past the results too, and the program stops with status 1 where they differ. With an argument every call is made once, for valgrind
 * (--toggle-collect=clocked): ours, or with `peer` the peer's. */
#define _GNU_SOURCE
#include <stdio.h>
#include <stdlib.h>
#include <string.h>
#include <time.h>
#include "peer.h"
#include "planner.h"

#define MOST 400000
#define RUNS 2001
#define MANY 1000          /* how often a call that takes nanoseconds is made in one run */

static uint32_t axes[8], words[MOST], order[MOST], second[MOST], given[MOST];          /* second: every second number, given: every number */
static int32_t signs[MOST], wholes[MOST], psigns[MOST], pwholes[MOST];
static double sides[4], floats[MOST], shares[MOST], pfloats[MOST], pshares[MOST];
static uint8_t bytes[8 * MOST];
static uint32_t out[MOST], more[MOST], parents[MOST], vertices[MOST], weights[MOST], room[10][MOST];
static uint32_t pout[MOST], pmore[MOST], pparents[MOST], pvertices[MOST], pweights[MOST];
static peer_room proom;
static peer_refined refined = {pout, pmore, pparents, pfloats, pwholes, pvertices, pweights, pshares, 0};
static size_t naxes, nsides, nwords, norder, nsigns, need[18];
static uint32_t d, r, total, points;

#define OUT out, MOST
#define ROOM room[0], MOST, room[1], MOST, room[2], MOST, room[3], MOST
#define WORDS words, nwords
#define PWORDS words, (uint32_t)nwords
#define AXES axes, naxes
#define REFINED out, MOST, more, MOST, parents, MOST, floats, MOST, wholes, MOST, vertices, MOST, weights, MOST, shares, MOST, \
    ROOM, room[4], MOST, room[5], MOST, room[6], MOST, room[7], MOST, room[8], MOST, room[9], MOST, &total
#define CALL(name, value) \
    static uint64_t name(void) { return value; }
#define EACH(name, value)                                                     \
    static uint64_t name(void) {                                              \
        uint64_t sum = 0;                                                     \
        for (uint32_t v = 0; v < points; v++) sum += out[v] = (uint32_t)(value); \
        return sum;                                                           \
    }
#define OFTEN(name, value)                             \
    static uint64_t name(void) {                       \
        uint64_t sum = 0;                              \
        for (int k = 0; k < MANY; k++) sum += (value); \
        return sum;                                    \
    }

EACH(reduce, planner_reduce(d, v, AXES))
EACH(crossing, planner_crossing(d, v, AXES, more))
CALL(swath, planner_swath(d, AXES, given, points, OUT))
OFTEN(nvertices, planner_nvertices(d, AXES))
OFTEN(preserving, planner_is_orientation_preserving(d, AXES))
CALL(cell_words, planner_cell_words(d, AXES, OUT, ROOM))
CALL(triangulate, planner_triangulate_ordered(d, AXES, OUT, more, MOST, ROOM))
CALL(lengths, planner_edge_lengths_sq(d, AXES, sides, nsides, floats, MOST, ROOM))
CALL(one_length, planner_edge_length_sq(d, 0, 1, AXES, sides, nsides, floats))
CALL(chained_nvertices, planner_chained_nvertices(d, AXES, room[0], MOST))
CALL(chained_classes, planner_chained_classes(d, AXES, OUT, room[0], MOST))
CALL(chained_closed, planner_chained_closed_classes(d, AXES, OUT, room[0], MOST))
CALL(chained_words, planner_chained_cell_words(d, AXES, OUT, ROOM))
CALL(geojson, planner_geojson(d, -90, 90, AXES, bytes, sizeof bytes, ROOM))
CALL(cells, planner_cells(d, WORDS, OUT, ROOM))
CALL(edges, planner_edges(d, WORDS, OUT, ROOM))
CALL(facets, planner_facets(d, WORDS, OUT, more, MOST, ROOM))
CALL(facet_records, planner_facet_records(d, WORDS, OUT, more, MOST, ROOM))
CALL(border, planner_border(d, WORDS, OUT, ROOM))
CALL(orientation, planner_orientation(d, WORDS, signs, MOST, ROOM))
CALL(looks, planner_orientation_looks(d, WORDS, signs, MOST, ROOM, &total))
CALL(orient_by, planner_orient_by(d, WORDS, signs, nsigns, ROOM))
CALL(ordering, planner_ordering(d, WORDS, order, norder, OUT, ROOM))
CALL(facet_records_with, planner_facet_records_with(d, WORDS, order, norder, OUT, more, MOST, ROOM))
CALL(induced, planner_induced_orientation(d, WORDS, order, norder, ROOM))
CALL(drop_cells, planner_drop_cells(d, WORDS, second, nwords / (d + 1) / 2, OUT, more, MOST, ROOM, &total))
CALL(incidence, planner_incidence(d, WORDS, OUT, more, MOST, ROOM))
CALL(faces, planner_faces(d, d - 1, WORDS, OUT, ROOM))
CALL(boundary, planner_boundary(d, d, WORDS, signs, MOST, OUT, more, MOST, ROOM))
CALL(matrix_market, planner_matrix_market(d, d, WORDS, bytes, sizeof bytes, ROOM))
CALL(refine, planner_refine(d, r, WORDS, REFINED))
CALL(refine_with, planner_refine_with(d, r, WORDS, order, norder, REFINED))
CALL(refine_by_steps, planner_refine_by_steps(d, r, WORDS, REFINED))
CALL(corners, planner_corners(d, r, OUT))
CALL(corners_stepping, planner_corners_stepping(d, r, OUT))
static uint64_t need_refine(void) {
    for (int k = 0; k < MANY; k++) planner_need_refine(d, r, nwords, need);
    return 0;
}

/* the peer's, with the tests that the planner makes: of the grid or the words, and of 7 but for facets and border, which have it beside them */
#define TAKEN(value) (peer_check_words(d, PWORDS, &proom) ? 0 : (value))
static uint64_t peer_reduce_each(void) {
    uint64_t sum = 0;
    for (uint32_t v = 0; v < points; v++) sum += pout[v] = peer_check(d, AXES) ? 0 : peer_reduce(d, v, axes);
    return sum;
}
CALL(peer_swath, peer_check(d, AXES) ? 0 : 0 * peer_reduce_all(d, axes, pout))
OFTEN(peer_count, peer_check(d, AXES) ? 0 : peer_nvertices(d, axes))
OFTEN(peer_parity, peer_check(d, AXES) ? 0 : peer_preserving(d, axes))
static uint64_t peer_words(void) {
    uint32_t k = peer_check(d, AXES) ? 0 : peer_cell_words(d, axes, pout, &proom);
    return peer_crowded(d, pout, k * (d + 1), &proom) ? 0 : k;
}
CALL(peer_spans, peer_check(d, AXES) ? 0 : peer_edge_lengths_sq(d, axes, sides, pfloats, &proom))
CALL(peer_cell_list, TAKEN(peer_cells_tested(d, PWORDS, pout, &proom)))
static uint64_t peer_edge_list(void) { return TAKEN(peer_crowded(d, PWORDS, &proom) ? 0 : peer_edges(d, PWORDS, pout, &proom)); }
CALL(peer_facet_list, TAKEN(peer_facets(d, PWORDS, pout, pmore, &proom)))
CALL(peer_border_list, TAKEN(peer_border(d, PWORDS, pout, &proom)))
CALL(peer_signs, TAKEN(peer_orientation(d, PWORDS, psigns, &proom)))
static uint64_t peer_refinement(void) { return TAKEN(peer_crowded(d, PWORDS, &proom) ? 0 : peer_refine(d, r, PWORDS, &refined, &proom)); }

static const struct {
    const char *name;
    uint64_t (*ours)(void), (*peer)(void);
    int many;
} calls[] = {
    {"reduce", reduce, peer_reduce_each, 1}, {"crossing", crossing, 0, 1}, {"swath", swath, peer_swath, 1}, {"nvertices", nvertices, peer_count, MANY},
    {"is_orientation_preserving", preserving, peer_parity, MANY}, {"cell_words", cell_words, peer_words, 1}, {"triangulate_ordered", triangulate, 0, 1},
    {"edge_lengths_sq", lengths, peer_spans, 1}, {"edge_length_sq", one_length, 0, 1}, {"chained_nvertices", chained_nvertices, 0, 1},
    {"chained_classes", chained_classes, 0, 1}, {"chained_closed_classes", chained_closed, 0, 1}, {"chained_cell_words", chained_words, 0, 1}, {"geojson", geojson, 0, 1},
    {"cells", cells, peer_cell_list, 1}, {"edges", edges, peer_edge_list, 1}, {"facets", facets, peer_facet_list, 1}, {"facet_records", facet_records, 0, 1}, {"border", border, peer_border_list, 1},
    {"orientation", orientation, peer_signs, 1}, {"orientation_looks", looks, 0, 1}, {"orient_by", orient_by, 0, 1}, {"ordering", ordering, 0, 1},
    {"facet_records_with", facet_records_with, 0, 1},
    {"induced_orientation", induced, 0, 1}, {"drop_cells", drop_cells, 0, 1}, {"incidence", incidence, 0, 1}, {"faces", faces, 0, 1}, {"boundary", boundary, 0, 1},
    {"matrix_market", matrix_market, 0, 1}, {"refine", refine, peer_refinement, 1}, {"refine_with", refine_with, 0, 1}, {"refine_by_steps", refine_by_steps, 0, 1},
    {"corners", corners, 0, 1}, {"corners_stepping", corners_stepping, 0, 1}, {"need_refine", need_refine, 0, MANY},
};

static size_t numbers(uint32_t *list) {
    size_t n = 0;
    if (scanf("%zu", &n) != 1 || n > MOST) exit(1);
    for (size_t i = 0; i < n; i++)
        if (scanf("%u", &list[i]) != 1) exit(1);
    return n;
}

#define WIPE(x) memset(x, 0xAB, sizeof x)
static void wipe(void) {
    WIPE(out), WIPE(more), WIPE(parents), WIPE(vertices), WIPE(weights), WIPE(wholes), WIPE(floats), WIPE(shares);
    WIPE(pout), WIPE(pmore), WIPE(pparents), WIPE(pvertices), WIPE(pweights), WIPE(pwholes), WIPE(pfloats), WIPE(pshares);
    memcpy(psigns, signs, sizeof signs);
    total = refined.vertices = 0;
}

/* every result list, whole: past the results both must be as they were */
static int same(void) {
    return !memcmp(out, pout, sizeof out) && !memcmp(more, pmore, sizeof out) && !memcmp(parents, pparents, sizeof out) && !memcmp(vertices, pvertices, sizeof out) &&
           !memcmp(weights, pweights, sizeof out) && !memcmp(signs, psigns, sizeof out) && !memcmp(wholes, pwholes, sizeof out) &&
           !memcmp(floats, pfloats, sizeof floats) && !memcmp(shares, pshares, sizeof shares) && total == refined.vertices;
}

__attribute__((noinline)) static uint64_t clocked(uint64_t (*f)(void)) { return f(); }

static double now(void) {
    struct timespec t;
    clock_gettime(CLOCK_THREAD_CPUTIME_ID, &t);
    return (double)t.tv_sec * 1e9 + (double)t.tv_nsec;
}

/* one run, made often enough that the clock's own step does not matter */
static double timed(uint64_t (*f)(void), int batch) {
    double s = now();
    for (int k = 0; k < batch; k++) clocked(f);
    return (now() - s) / batch;
}

static int batch_of(double ns) { return ns > 20000 ? 1 : 1 + (int)(20000 / (ns + 1)); }

static void best(size_t i, double shown[2]) {
    uint64_t (*f[2])(void) = {calls[i].ours, calls[i].peer};
    int many[2] = {1, 1}, runs = 0;
    for (int k = 0; k < 2; k++)
        if (f[k]) many[k] = batch_of(shown[k] = timed(f[k], 3));
    for (double start = now(); runs < RUNS && (runs < 9 || now() - start < 3e8); runs++)
        for (int k = 0; k < 2; k++)
            if (f[k]) {
                double t = timed(f[k], many[k]);
                if (t < shown[k]) shown[k] = t;
            }
    for (int k = 0; k < 2; k++) shown[k] /= calls[i].many;
}

int main(int argc, char **argv) {
    char name[64];
    for (uint32_t i = 0; i < MOST; i++) second[i] = 2 * i, given[i] = i;
    while (scanf("%63s %u %u", name, &d, &r) == 3) {
        size_t i = 0, n = sizeof calls / sizeof *calls;
        double shown[2] = {0, 0};
        while (i < n && strcmp(name, calls[i].name)) i++;
        naxes = numbers(axes);
        nsides = numbers(words);
        for (size_t k = 0; k < nsides; k++) sides[k] = words[k];
        nwords = numbers(words);
        norder = numbers(order);
        nsigns = numbers(out);
        for (size_t k = 0; k < nsigns; k++) signs[k] = out[k] ? 1 : -1;
        points = 1;
        for (size_t a = 0; a + 1 < naxes; a += 2) points *= axes[a] + 1;
        if (i == n) return fprintf(stderr, "unknown call %s\n", name), 1;
        if (argc > 1) {
            clocked(argv[1][0] == 'p' && calls[i].peer ? calls[i].peer : calls[i].ours);
            continue;
        }
        wipe();
        uint64_t ours = calls[i].ours(), peer = calls[i].peer ? calls[i].peer() : ours;
        if (planner_number(ours) != 0) return fprintf(stderr, "%s was refused with %u\n", name, planner_number(ours)), 1;
        if (ours != peer || (calls[i].peer && !same())) return fprintf(stderr, "%s differs from the peer's\n", name), 1;
        best(i, shown);
        printf("%.2f %.2f\n", shown[0], shown[1]);
        fflush(stdout);
    }
    return 0;
}
