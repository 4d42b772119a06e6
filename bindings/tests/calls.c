/* Each call of gco.h: worked examples, every status once, every field that a call tells, what a refusal leaves, and four
 * threads at once. It exits with the first line that fails. */
#include <pthread.h>
#include <stddef.h>
#include <stdio.h>
#include <stdlib.h>
#include <string.h>
#include "gco.h"
#include "told.h"

#define WANT(x)                                                   \
    do {                                                          \
        if (!(x)) {                                               \
            printf("tests/calls.c:%d: %s\n", __LINE__, #x);       \
            return 1;                                             \
        }                                                         \
    } while (0)

static int64_t data[] = {4, 6, 9, 7, 5, 6, 8, 4, 7, 9, 7, 3, 6, 8, 5};
static int64_t smooth[] = {0, 1, 1, 1, 0, 1, 1, 1, 0};
static gco_pair pairs[] = {{0, 1, 3}, {1, 2, 2}, {2, 3, 2}, {3, 4, 4}, {1, 3, 1}, {0, 4, 1}};
static int64_t costs[] = {0, 0, 0};
static uint32_t labels[5];
static const uint32_t zero[5];

static uint32_t run(uint32_t label_count, size_t data_count, size_t smooth_count, size_t cost_count, uint32_t moves, uint32_t cycles) {
    memset(&told, 0xff, sizeof told);
    return gco_label(label_count, data, data_count, smooth, smooth_count, costs, cost_count, pairs, 6, moves, cycles, labels, 5, &told);
}

static int labels_are(uint32_t a, uint32_t b, uint32_t c, uint32_t d, uint32_t e) {
    return labels[0] == a && labels[1] == b && labels[2] == c && labels[3] == d && labels[4] == e;
}

static int worked(void) {
    WANT(run(3, 15, 9, 0, GCO_EXPANSION, GCO_ALL_CYCLES) == GCO_OK);
    WANT(labels_are(1, 1, 1, 2, 2) && tells((gco_outcome){.data = 23, .smooth = 4, .vmin = 1, .vmax = 1, .cycles = 2, .settled = 1}));
    /* no cycle: the energy of the labels */
    WANT(run(3, 15, 9, 0, GCO_EXPANSION, 0) == GCO_OK && tells((gco_outcome){.data = 23, .smooth = 4}));
    memset(labels, 0, sizeof labels);
    WANT(run(3, 15, 9, 3, GCO_SWAP, GCO_ALL_CYCLES) == GCO_OK && tells((gco_outcome){.data = 23, .smooth = 4, .cycles = 2, .settled = 1}));
    /* one move after another: docs/BINDINGS.md, "One move" */
    memset(labels, 0, sizeof labels);
    WANT(FRESH(gco_expand(3, data, 15, smooth, 9, NULL, 0, pairs, 6, 2, labels, 5, &told)) == GCO_OK);
    WANT(labels_are(0, 2, 2, 2, 2) && tells((gco_outcome){.data = 25, .smooth = 4, .changed = 1}));
    WANT(FRESH(gco_swap(3, data, 15, smooth, 9, NULL, 0, pairs, 6, 2, 1, labels, 5, &told)) == GCO_OK);
    WANT(labels_are(0, 1, 1, 2, 2) && tells((gco_outcome){.data = 21, .smooth = 7, .changed = 1}));
    WANT(FRESH(gco_swap(3, data, 15, smooth, 9, NULL, 0, pairs, 6, 2, 1, labels, 5, &told)) == GCO_OK);
    WANT(labels_are(0, 1, 1, 2, 2) && tells((gco_outcome){.data = 21, .smooth = 7}));
    /* a label that costs too much by itself goes: the labels 1 1 1 2 2 cost 27, 1 everywhere 30 and 2 everywhere 30 */
    memset(labels, 0, sizeof labels);
    costs[2] = 100;
    WANT(run(3, 15, 9, 3, GCO_EXPANSION, GCO_ALL_CYCLES) == GCO_OK && labels_are(1, 1, 1, 1, 1));
    WANT(tells((gco_outcome){.data = 30, .cycles = 2, .settled = 1}));
    costs[1] = 5;
    WANT(run(3, 15, 9, 3, GCO_EXPANSION, 0) == GCO_OK && tells((gco_outcome){.data = 30, .label = 5}));
    costs[1] = costs[2] = 0;
    /* an asymmetric table: 0 beside 1 costs 5, 1 beside 0 costs 1, so the first site takes 1 */
    int64_t free[] = {0, 0, 0, 0}, apart[] = {0, 5, 1, 0};
    gco_pair one = {0, 1, 1};
    uint32_t two[2] = {1, 0};
    WANT(FRESH(gco_label(2, free, 4, apart, 4, NULL, 0, &one, 1, GCO_EXPANSION, 0, two, 2, &told)) == GCO_OK);
    WANT(tells((gco_outcome){.smooth = 1}));
    two[0] = 0;
    two[1] = 1;
    WANT(FRESH(gco_label(2, free, 4, apart, 4, NULL, 0, &one, 1, GCO_EXPANSION, 0, two, 2, &told)) == GCO_OK);
    WANT(tells((gco_outcome){.smooth = 5}));
    /* nothing at all */
    WANT(FRESH(gco_label(1, NULL, 0, smooth, 1, NULL, 0, NULL, 0, GCO_SWAP, 1, NULL, 0, &told)) == GCO_OK);
    WANT(tells((gco_outcome){.cycles = 1, .settled = 1}));
    return 0;
}

static int refused(void) {
    memset(labels, 0, sizeof labels);
    REFUSED(run(3, 15, 9, 0, 2, 1), GCO_NO_SUCH_MOVES, 0);
    REFUSED(gco_label(3, data, 15, smooth, 9, costs, 0, pairs, 6, 0, 1, labels, (size_t)GCO_SITE_LIMIT + 1, &told), GCO_TOO_MANY_SITES, 0);
    REFUSED(run(0, 0, 0, 0, 0, 1), GCO_LABEL_COUNT, 0);
    REFUSED(run(257, 15, 9, 0, 0, 1), GCO_LABEL_COUNT, 0);
    REFUSED(run(3, 14, 9, 0, 0, 1), GCO_DATA_COUNT, 0);
    REFUSED(run(3, 0, 9, 0, 0, 1), GCO_DATA_COUNT, 0);
    REFUSED(run(3, 15, 8, 0, 0, 1), GCO_SMOOTH_COUNT, 0);
    REFUSED(run(3, 15, 9, 2, 0, 1), GCO_LABEL_COST_COUNT, 0);
    data[7] = -1;
    REFUSED(run(3, 15, 9, 0, 0, 1), GCO_DATA_RANGE, 7);
    data[7] = GCO_DATA_LIMIT + 1;
    REFUSED(run(3, 15, 9, 0, 0, 1), GCO_DATA_RANGE, 7);
    data[7] = 4;
    smooth[5] = INT64_MIN;
    REFUSED(run(3, 15, 9, 0, 0, 1), GCO_SMOOTH_RANGE, 5);
    smooth[5] = 1;
    costs[1] = GCO_LABEL_COST_LIMIT + 1;
    REFUSED(run(3, 15, 9, 3, 0, 1), GCO_LABEL_COST_RANGE, 1);
    costs[1] = 0;
    pairs[4].second = 5;
    REFUSED(run(3, 15, 9, 0, 0, 1), GCO_NO_SUCH_SITE, 4);
    pairs[4].second = 1;
    REFUSED(run(3, 15, 9, 0, 0, 1), GCO_SAME_SITE, 4);
    pairs[4].second = 3;
    pairs[2].weight = 1001;
    REFUSED(run(3, 15, 9, 0, 0, 1), GCO_WEIGHT_RANGE, 2);
    pairs[2].weight = 2;
    labels[3] = 3;
    REFUSED(run(3, 15, 9, 0, 0, 1), GCO_NO_SUCH_LABEL, 3);
    WANT(labels[3] == 3);
    labels[3] = 0;
    costs[0] = 1;
    REFUSED(run(3, 15, 9, 3, GCO_SWAP, 0), GCO_LABEL_COST_IN_SWAP, 0);
    REFUSED(gco_swap(3, data, 15, smooth, 9, costs, 3, pairs, 6, 0, 1, labels, 5, &told), GCO_LABEL_COST_IN_SWAP, 0);
    costs[0] = 0;
    REFUSED(gco_swap(3, data, 15, smooth, 9, costs, 0, pairs, 6, 0, 3, labels, 5, &told), GCO_NO_SUCH_MOVE, 0);
    REFUSED(gco_expand(3, data, 15, smooth, 9, costs, 0, pairs, 6, 3, labels, 5, &told), GCO_NO_SUCH_MOVE, 0);
    REFUSED(gco_expand(3, data, 15, smooth, 8, costs, 0, pairs, 6, 3, labels, 5, &told), GCO_SMOOTH_COUNT, 0);
    WANT(!memcmp(labels, zero, sizeof labels));
    /* one more pair than there may be */
    size_t many = (size_t)GCO_PAIR_LIMIT + 1;
    gco_pair *list = malloc(many * sizeof *list);
    WANT(list != NULL);
    for (size_t i = 0; i < many; i++) list[i] = pairs[0];
    REFUSED(gco_label(3, data, 15, smooth, 9, NULL, 0, list, many, 0, 1, labels, 5, &told), GCO_TOO_MANY_PAIRS, 0);
    free(list);
    /* docs/LABEL.md's example of a term that is not regular */
    int64_t far[] = {0, 9, 9, 9, 9, 0}, square[] = {0, 1, 4, 1, 0, 1, 4, 1, 0};
    uint32_t ends[2] = {0, 2};
    gco_pair two[] = {{0, 1, 0}, {0, 1, 1}};
    gco_outcome due = {.place = 1, .alpha = 1, .beta = 1};
    WANT(FRESH(gco_label(3, far, 6, square, 9, NULL, 0, two, 2, 0, 1, ends, 2, &told)) == GCO_NOT_REGULAR && tells(due));
    WANT(FRESH(gco_expand(3, far, 6, square, 9, NULL, 0, two, 2, 1, ends, 2, &told)) == GCO_NOT_REGULAR && tells(due));
    WANT(ends[0] == 0 && ends[1] == 2);
    return 0;
}

/* costs of 32 bits: the answers of 64, and each refusal of the costs */
static int32_t data32[15], smooth32[9], costs32[3];

static void fill_narrow(void) {
    for (int i = 0; i < 15; i++) data32[i] = (int32_t)data[i];
    for (int i = 0; i < 9; i++) smooth32[i] = (int32_t)smooth[i];
    for (int i = 0; i < 3; i++) costs32[i] = 2;
}

static int narrow(void) {
    uint32_t ends[5] = {0};
    gco_outcome wide;
    fill_narrow();
    memset(labels, 0, sizeof labels);
    WANT(run(3, 15, 9, 0, GCO_EXPANSION, GCO_ALL_CYCLES) == GCO_OK);
    wide = told;
#define RUN32(count, costs_given) \
    gco_label_int32(3, data32, count, smooth32, 9, costs32, costs_given, pairs, 6, GCO_EXPANSION, GCO_ALL_CYCLES, ends, 5, &told)
    WANT(FRESH(RUN32(15, 0)) == GCO_OK && !memcmp(ends, labels, sizeof ends) && tells(wide));
    WANT(FRESH(RUN32(15, 3)) == GCO_OK && tells((gco_outcome){.data = 23, .smooth = 4, .label = 4, .cycles = 1, .settled = 1}));
    WANT(FRESH(gco_label_int32(3, data32, 15, smooth32, 9, NULL, 0, pairs, 6, GCO_SWAP, 0, ends, 5, &told)) == GCO_OK);
    WANT(tells((gco_outcome){.data = 23, .smooth = 4}));
    REFUSED(gco_label_int32(3, data32, 15, smooth32, 9, NULL, 0, pairs, 6, 2, 0, ends, 5, &told), GCO_NO_SUCH_MOVES, 0);
    /* single moves, as those of 64 bits above */
    memset(ends, 0, sizeof ends);
    memset(labels, 0, sizeof labels);
    WANT(FRESH(gco_expand(3, data, 15, smooth, 9, NULL, 0, pairs, 6, 2, labels, 5, &told)) == GCO_OK);
    wide = told;
    WANT(FRESH(gco_expand_int32(3, data32, 15, smooth32, 9, NULL, 0, pairs, 6, 2, ends, 5, &told)) == GCO_OK);
    WANT(!memcmp(ends, labels, sizeof ends) && tells(wide) && told.changed);
    WANT(FRESH(gco_swap(3, data, 15, smooth, 9, NULL, 0, pairs, 6, 2, 1, labels, 5, &told)) == GCO_OK);
    wide = told;
    WANT(FRESH(gco_swap_int32(3, data32, 15, smooth32, 9, NULL, 0, pairs, 6, 2, 1, ends, 5, &told)) == GCO_OK);
    WANT(!memcmp(ends, labels, sizeof ends) && tells(wide) && told.changed);
    REFUSED(gco_expand_int32(3, data32, 15, smooth32, 8, NULL, 0, pairs, 6, 2, ends, 5, &told), GCO_SMOOTH_COUNT, 0);
    REFUSED(gco_expand_int32(3, data32, 15, smooth32, 9, NULL, 0, pairs, 6, 3, ends, 5, &told), GCO_NO_SUCH_MOVE, 0);
    REFUSED(gco_swap_int32(3, data32, 15, smooth32, 9, costs32, 3, pairs, 6, 2, 1, ends, 5, &told), GCO_LABEL_COST_IN_SWAP, 0);
    REFUSED(RUN32(14, 0), GCO_DATA_COUNT, 0);
    REFUSED(RUN32(15, 2), GCO_LABEL_COST_COUNT, 0);
    data32[14] = INT32_MIN;
    REFUSED(RUN32(15, 0), GCO_DATA_RANGE, 14);
    data32[3] = GCO_DATA_LIMIT + 1;
    REFUSED(RUN32(15, 0), GCO_DATA_RANGE, 3);
    data32[3] = GCO_DATA_LIMIT;
    data32[14] = 5;
    smooth32[8] = GCO_SMOOTH_LIMIT + 1;
    REFUSED(RUN32(15, 0), GCO_SMOOTH_RANGE, 8);
    smooth32[8] = 0;
    costs32[2] = -1;
    REFUSED(RUN32(15, 3), GCO_LABEL_COST_RANGE, 2);
    WANT(!memcmp(ends, labels, sizeof ends));
    return 0;
}

/* what a stretch is lent */
struct lent {
    gco_course course;
    uint32_t stamps[5], made[3], labels[5];
};
static struct lent lent;

static uint32_t stretch(int wide, size_t cost_count, uint32_t moves, uint32_t cycles, uint32_t most) {
    memset(&told, 0xff, sizeof told);
    if (wide)
        return gco_label_stretch(3, data, 15, smooth, 9, costs, cost_count, pairs, 6, moves, cycles, most, &lent.course, lent.stamps, 5,
                                 lent.made, 3, lent.labels, 5, &told);
    return gco_label_stretch_int32(3, data32, 15, smooth32, 9, costs32, cost_count, pairs, 6, moves, cycles, most, &lent.course,
                                   lent.stamps, 5, lent.made, 3, lent.labels, 5, &told);
}

/* a run by so many moves a call: paused calls tell the energy of the labels and the whole cycles, the last one what gco_label does */
static int by_stretches(int wide, size_t cost_count, uint32_t moves, uint32_t cycles, uint32_t most) {
    struct lent before;
    gco_outcome whole;
    uint32_t made = 0, status;
    memset(labels, 0, sizeof labels);
    memset(&lent, 0, sizeof lent);
    WANT(run(3, 15, 9, cost_count, moves, cycles) == GCO_OK);
    whole = told;
    /* no move: nothing is done but where the cycles are 0 */
    WANT(stretch(wide, cost_count, moves, cycles, 0) == (cycles ? GCO_UNFINISHED : GCO_OK) && !memcmp(lent.labels, zero, sizeof zero));
    do {
        before = lent;
        status = stretch(wide, cost_count, moves, cycles, most);
        WANT(status == GCO_UNFINISHED || status == GCO_OK);
        if (status != GCO_UNFINISHED) break;
        made += most;
        WANT(lent.course.cycles == made / 3 && lent.course.place == made % 3);
        gco_outcome paused = told;
        WANT(gco_label(3, data, 15, smooth, 9, costs, cost_count, pairs, 6, moves, 0, lent.labels, 5, &told) == GCO_OK);
        told.cycles = made / 3;
        WANT(tells(paused));
    } while (made < 99);
    WANT(tells(whole) && !memcmp(lent.labels, labels, sizeof labels));
    WANT(!memcmp(&lent, &before, offsetof(struct lent, labels)));
    return 0;
}

/* a stretch that is refused and leaves all that it is lent */
#define UNLENT(call, status, at)                      \
    do {                                              \
        REFUSED(call, status, at);                    \
        WANT(!memcmp(&lent, &before, sizeof lent));   \
    } while (0)

static int stretched(void) {
    fill_narrow();
    for (int i = 0; i < 3; i++) costs[i] = 2;
    for (int wide = 0; wide < 2; wide++)
        for (uint32_t most = 1; most < 4; most++)
            for (uint32_t cycles = 0; cycles < 5; cycles++)
                if (by_stretches(wide, 0, GCO_EXPANSION, cycles, most) || by_stretches(wide, 3, GCO_EXPANSION, cycles, most)
                    || by_stretches(wide, 0, GCO_SWAP, cycles, most)) return 1;
    /* refusals of a run after its second move */
    memset(&lent, 0, sizeof lent);
    WANT(stretch(1, 0, GCO_EXPANSION, 3, 2) == GCO_UNFINISHED && lent.course.place == 2 && memcmp(lent.labels, zero, sizeof zero));
    struct lent before = lent;
#define LENT(stamp_count, made_count, site_count) \
    gco_label_stretch(3, data, 15, smooth, 9, NULL, 0, pairs, 6, GCO_EXPANSION, 3, 9, &lent.course, lent.stamps, stamp_count, lent.made, \
                      made_count, lent.labels, site_count, &told)
    UNLENT(LENT(4, 3, 5), GCO_NO_SUCH_COURSE, 0);
    UNLENT(LENT(6, 3, 5), GCO_NO_SUCH_COURSE, 0);
    UNLENT(LENT(0, 3, 5), GCO_NO_SUCH_COURSE, 0);
    UNLENT(LENT(5, 2, 5), GCO_NO_SUCH_COURSE, 0);
    UNLENT(LENT(5, 4, 5), GCO_NO_SUCH_COURSE, 0);
    UNLENT(LENT(5, 3, 4), GCO_DATA_COUNT, 0);
    UNLENT(stretch(0, 3, GCO_SWAP, 3, 9), GCO_LABEL_COST_IN_SWAP, 0);
    UNLENT(stretch(0, 2, GCO_EXPANSION, 3, 9), GCO_LABEL_COST_COUNT, 0);
    UNLENT(stretch(1, 0, 2, 3, 9), GCO_NO_SUCH_MOVES, 0);
    /* a course past the end: no move has that place, and so many cycles are no run */
    before.course.place = lent.course.place = 3;
    UNLENT(stretch(1, 0, GCO_EXPANSION, 3, 9), GCO_NO_SUCH_COURSE, 0);
    before.course.place = lent.course.place = 2;
    before.course.cycles = lent.course.cycles = 3;
    UNLENT(stretch(0, 0, GCO_EXPANSION, 3, 9), GCO_NO_SUCH_COURSE, 0);
    before.course.cycles = lent.course.cycles = 0;
    data[7] = data32[7] = -1;
    UNLENT(stretch(1, 0, GCO_EXPANSION, 3, 9), GCO_DATA_RANGE, 7);
    UNLENT(stretch(0, 0, GCO_EXPANSION, 3, 9), GCO_DATA_RANGE, 7);
    data[7] = data32[7] = 4;
    before.labels[4] = lent.labels[4] = 3;
    UNLENT(stretch(1, 0, GCO_EXPANSION, 3, 9), GCO_NO_SUCH_LABEL, 4);
    for (int i = 0; i < 3; i++) costs[i] = 0;
    return 0;
}

/* a run that is refused in a later move: docs/LABEL.md's term is not regular in the expansion of 1 once the labels are 0 and 2 */
static int stretched_to_refusal(void) {
    int64_t far[] = {0, 9, 9, 9, 9, 0}, square[] = {0, 1, 4, 1, 0, 1, 4, 1, 0};
    gco_pair one = {0, 1, 1};
    gco_course course = {0};
    uint32_t stamps[2] = {0}, made[3] = {0}, ends[2] = {0};
#define ONE_MOVE FRESH(gco_label_stretch(3, far, 6, square, 9, NULL, 0, &one, 1, GCO_EXPANSION, 9, 1, &course, stamps, 2, made, 3, ends, 2, &told))
    for (int i = 0; i < 4; i++) WANT(ONE_MOVE == GCO_UNFINISHED);
    WANT(ends[0] == 0 && ends[1] == 2 && course.cycles == 1 && course.place == 1 && tells((gco_outcome){.smooth = 4, .cycles = 1}));
    gco_course kept = course;
    uint32_t stamped[2], made_before[3];
    memcpy(stamped, stamps, sizeof stamps);
    memcpy(made_before, made, sizeof made);
    WANT(ONE_MOVE == GCO_NOT_REGULAR && tells((gco_outcome){.alpha = 1, .beta = 1}) && ends[0] == 0 && ends[1] == 2);
    WANT(!memcmp(&kept, &course, sizeof course) && !memcmp(stamped, stamps, sizeof stamps) && !memcmp(made_before, made, sizeof made));
    return 0;
}

static gco_minimum found;

/* whether the last minimum told this */
static int finds(int64_t value, uint64_t place, uint64_t fixed, uint64_t fixed_at) {
    return found.value == value && found.place == place && found.fixed == fixed && found.fixed_at == fixed_at;
}

/* a call whose minimum was filled with ones before; one that finds a value; and one that is refused and tells a place */
#define AFRESH(call) (memset(&found, 0xff, sizeof found), (call))
#define FOUND(call, value) WANT(AFRESH(call) == GCO_OK && finds(value, 0, GCO_NOTHING_FIXED, 0))
#define UNFOUND(call, status, at) WANT(AFRESH(call) == (status) && finds(0, at, GCO_NOTHING_FIXED, 0))

static int minimised(void) {
    /* docs/ENERGY.md's first example */
    gco_one ones[] = {{0, 0, 5, 2}, {1, 0, 1, 6}};
    gco_two twos[] = {{0, 1, 0, 3, 4, 0}};
    gco_three threes[] = {{0, 1, 2, 0, 3, 3, 3, 3, 3, 3, 3, 0}};
    uint8_t bits[3] = {7, 7, 7};
    FOUND(gco_minimise(0, ones, 2, twos, 1, NULL, 0, bits, 2, &found), 6);
    WANT(bits[0] == 0 && bits[1] == 0 && bits[2] == 7);
    /* an asymmetric term: 0 at 01 alone, so the second is 1 and the first 0 */
    gco_two apart[] = {{0, 1, 1, 0, 1, 0}};
    FOUND(gco_minimise(7, NULL, 0, apart, 1, NULL, 0, bits, 2, &found), 7);
    WANT(bits[0] == 0 && bits[1] == 1);
    gco_one two[] = {{0, 0, 0, 2}};
    gco_two same[] = {{1, 2, 0, 4, 4, 0}};
    FOUND(gco_minimise(10, two, 1, same, 1, threes, 1, bits, 3, &found), 12);
    WANT(bits[0] == 1 && bits[1] == 1 && bits[2] == 1);
    /* refusals, in their order; places are counted over all terms */
    memset(bits, 9, sizeof bits);
    UNFOUND(gco_minimise(0, ones, 2, twos, 1, NULL, 0, bits, (size_t)GCO_VARIABLE_LIMIT + 1, &found), GCO_TOO_MANY_SITES, 0);
    UNFOUND(gco_minimise(GCO_VALUE_LIMIT + 1, ones, 2, twos, 1, NULL, 0, bits, 2, &found), GCO_CONSTANT_RANGE, 0);
    UNFOUND(gco_minimise(0, ones, 2, twos, 1, threes, 1, bits, 2, &found), GCO_NO_SUCH_SITE, 3);
    twos[0].second = 0;
    UNFOUND(gco_minimise(0, ones, 2, twos, 1, threes, 1, bits, 3, &found), GCO_SAME_SITE, 2);
    twos[0].second = 1;
    threes[0].at110 = -GCO_VALUE_LIMIT - (int64_t)1;
    UNFOUND(gco_minimise(0, ones, 2, twos, 1, threes, 1, bits, 3, &found), GCO_WEIGHT_RANGE, 3);
    threes[0].at110 = 30;
    threes[0].at111 = 30;
    threes[0].at000 = 30;
    WANT(AFRESH(gco_minimise(0, ones, 2, twos, 1, threes, 1, bits, 3, &found)) == GCO_TERM_NOT_REGULAR && finds(0, 3, 0, 0));
    /* 1 at 010 alone: the term of the first and third is irregular where the second is 1, and no other is */
    gco_three late[] = {{2, 1, 0, 0, 0, 0, 1, 0, 0, 0, 0, 0}};
    WANT(AFRESH(gco_minimise(0, NULL, 0, NULL, 0, late, 1, bits, 3, &found)) == GCO_TERM_NOT_REGULAR && finds(0, 0, 1, 1));
    twos[0].at00 = 8;
    WANT(AFRESH(gco_minimise(0, ones, 2, twos, 1, threes, 1, bits, 3, &found)) == GCO_TERM_NOT_REGULAR && finds(0, 2, GCO_NOTHING_FIXED, 0));
    WANT(bits[0] == 9 && bits[1] == 9 && bits[2] == 9);
    size_t many = (size_t)GCO_TERM_LIMIT + 1;
    gco_one *list = calloc(many, sizeof *list);
    WANT(list != NULL);
    UNFOUND(gco_minimise(0, list, many, NULL, 0, NULL, 0, bits, 1, &found), GCO_TOO_MANY_PAIRS, 0);
    WANT(bits[0] == 9);
    free(list);
    FOUND(gco_minimise(-3, NULL, 0, NULL, 0, NULL, 0, NULL, 0, &found), -3);
    return 0;
}

static gco_bound bound;

/* a call whose bound was filled with ones before; and one that is refused and tells a place */
#define BFRESH(call) (memset(&bound, 0xff, sizeof bound), (call))
#define UNBOUND(call, status, at) WANT(BFRESH(call) == (status) && bound.low == 0 && bound.place == (at))

/* (8 * 5 + 4 * 6) * 3 bytes are what the worked example takes */
static uint32_t bound_of(uint32_t label_count, size_t data_count, size_t smooth_count, size_t cost_count, uint64_t allowed) {
    return gco_lower_bound(label_count, data, data_count, smooth, smooth_count, costs, cost_count, pairs, 6, 50, allowed, labels, 5, &bound);
}

static int bounded(void) {
    gco_pair chain[] = {{1, 0, 2}, {2, 1, 3}};
    int64_t at[] = {0, 5, 9, 7, 0, 7, 9, 4, 0}, prices[] = {0, 3, 8, 1, 0, 2, 6, 5, 0};
    uint32_t three[3] = {0};
    /* a chain whose pairs stand backwards: the least energy is 6, of the labels 0 1 1, and the bound is that */
    WANT(BFRESH(gco_lower_bound(3, at, 9, prices, 9, NULL, 0, chain, 2, 20, GCO_ANY_SIZE, three, 3, &bound)) == GCO_OK);
    WANT(bound.low == 6 && bound.place == 0);
    WANT(gco_label(3, at, 9, prices, 9, NULL, 0, chain, 2, GCO_SWAP, 0, three, 3, &told) == GCO_OK);
    WANT(told.data + told.smooth == 6 && three[0] == 0 && three[1] == 1 && three[2] == 1);
    memset(labels, 0, sizeof labels);
    /* the least energy is 27, and the cheapest labels of the sites cost 21 */
    WANT(BFRESH(bound_of(3, 15, 9, 0, 192)) == GCO_OK && bound.low <= 27 && bound.low >= 21 && bound.place == 0);
    memset(labels, 0, sizeof labels);
    UNBOUND(bound_of(3, 15, 9, 0, 191), GCO_TOO_LARGE, 0);
    UNBOUND(gco_lower_bound(3, data, 15, smooth, 9, costs, 0, pairs, 6, 1, 192, labels, (size_t)GCO_SITE_LIMIT + 1, &bound), GCO_TOO_MANY_SITES, 0);
    UNBOUND(bound_of(0, 15, 9, 0, 192), GCO_LABEL_COUNT, 0);
    UNBOUND(bound_of(3, 14, 9, 0, 192), GCO_DATA_COUNT, 0);
    UNBOUND(bound_of(3, 15, 8, 0, 192), GCO_SMOOTH_COUNT, 0);
    UNBOUND(bound_of(3, 15, 9, 2, 192), GCO_LABEL_COST_COUNT, 0);
    data[7] = -1;
    UNBOUND(bound_of(3, 15, 9, 0, 192), GCO_DATA_RANGE, 7);
    data[7] = 4;
    smooth[5] = GCO_SMOOTH_LIMIT + 1;
    UNBOUND(bound_of(3, 15, 9, 0, 192), GCO_SMOOTH_RANGE, 5);
    smooth[5] = 1;
    costs[1] = -1;
    UNBOUND(bound_of(3, 15, 9, 3, 192), GCO_LABEL_COST_RANGE, 1);
    costs[1] = 0;
    pairs[4].second = 5;
    UNBOUND(bound_of(3, 15, 9, 0, 192), GCO_NO_SUCH_SITE, 4);
    pairs[4].second = 1;
    UNBOUND(bound_of(3, 15, 9, 0, 192), GCO_SAME_SITE, 4);
    pairs[4].second = 3;
    pairs[2].weight = GCO_WEIGHT_LIMIT + 1;
    UNBOUND(bound_of(3, 15, 9, 0, 192), GCO_WEIGHT_RANGE, 2);
    pairs[2].weight = 2;
    WANT(!memcmp(labels, zero, sizeof labels));
    labels[3] = 3;
    UNBOUND(bound_of(3, 15, 9, 0, 192), GCO_NO_SUCH_LABEL, 3);
    WANT(labels[3] == 3);
    labels[3] = 0;
    /* nothing at all */
    WANT(BFRESH(gco_lower_bound(1, NULL, 0, smooth, 1, NULL, 0, NULL, 0, GCO_ALL_PASSES, 0, NULL, 0, &bound)) == GCO_OK);
    WANT(bound.low == 0 && bound.place == 0);
    return 0;
}

enum { W = 60, H = 60, K = 4, N = W * H, T = 4 };

struct job {
    int64_t data[N * K];
    uint32_t labels[N];
    gco_outcome told;
    uint32_t status;
};

static int64_t potts[K * K];
static gco_pair grid[2 * N];
static size_t grid_count;

static void *label_job(void *given) {
    struct job *job = given;
    memset(job->labels, 0, sizeof job->labels);
    job->status = gco_label(K, job->data, N * K, potts, K * K, NULL, 0, grid, grid_count, GCO_EXPANSION, GCO_ALL_CYCLES, job->labels, N, &job->told);
    return NULL;
}

static int at_once(void) {
    static struct job alone[T], beside[T];
    pthread_t threads[T];
    for (int a = 0; a < K; a++)
        for (int b = 0; b < K; b++) potts[a * K + b] = a != b ? 20 : 0;
    for (uint32_t s = 0; s < N; s++) {
        if (s % W + 1 < W) grid[grid_count++] = (gco_pair){s, s + 1, 1};
        if (s + W < N) grid[grid_count++] = (gco_pair){s, s + W, 1};
    }
    uint64_t seed = 88172645463325252u;
    for (int i = 0; i < T; i++) {
        for (int k = 0; k < N * K; k++) {
            seed ^= seed << 13;
            seed ^= seed >> 7;
            seed ^= seed << 17;
            alone[i].data[k] = (int64_t)(seed % 100);
        }
        label_job(&alone[i]);
        WANT(alone[i].status == GCO_OK && alone[i].told.settled == 1);
        memcpy(beside[i].data, alone[i].data, sizeof alone[i].data);
    }
    for (int i = 0; i < T; i++) WANT(pthread_create(&threads[i], NULL, label_job, &beside[i]) == 0);
    for (int i = 0; i < T; i++) WANT(pthread_join(threads[i], NULL) == 0);
    for (int i = 0; i < T; i++)
        WANT(!memcmp(alone[i].labels, beside[i].labels, sizeof alone[i].labels) && !memcmp(&alone[i].told, &beside[i].told, sizeof alone[i].told));
    return 0;
}

int main(void) {
    if (worked() || refused() || narrow() || stretched() || stretched_to_refusal() || bounded() || minimised() || at_once()) return 1;
    printf("c: every call, every status, four threads\n");
    return 0;
}
