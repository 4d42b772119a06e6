/* Memory: each growth of a call refused in turn, by a malloc that counts. The call answers
 * GCO_OUT_OF_MEMORY and leaves what it was given, or answers rightly all the same, and gives all of
 * its memory back. */
#include <stdio.h>
#include <stdlib.h>
#include <string.h>
#include "gco.h"

static long live, fail_at, count;

void *__real_malloc(size_t size);
void *__real_realloc(void *place, size_t size);
void __real_free(void *place);
void *__wrap_malloc(size_t size);
void *__wrap_realloc(void *place, size_t size);
void __wrap_free(void *place);

void *__wrap_malloc(size_t size) {
    if (++count == fail_at) return NULL;
    void *place = __real_malloc(size);
    if (place) live++;
    return place;
}

void *__wrap_realloc(void *place, size_t size) {
    if (++count == fail_at) return NULL;
    return __real_realloc(place, size);
}

void __wrap_free(void *place) {
    if (place) live--;
    __real_free(place);
}

static int64_t data[] = {4, 6, 9, 7, 5, 6, 8, 4, 7, 9, 7, 3, 6, 8, 5};
static int64_t smooth[] = {0, 1, 1, 1, 0, 1, 1, 1, 0};
static int64_t costs[] = {1, 1, 1};
static int32_t data32[] = {4, 6, 9, 7, 5, 6, 8, 4, 7, 9, 7, 3, 6, 8, 5};
static int32_t smooth32[] = {0, 1, 1, 1, 0, 1, 1, 1, 0};
static int32_t costs32[] = {1, 1, 1};
static gco_pair pairs[] = {{0, 1, 3}, {1, 2, 2}, {2, 3, 2}, {3, 4, 4}, {1, 3, 1}, {0, 4, 1}};
static gco_one ones[] = {{0, 0, 0, 2}};
static gco_two twos[] = {{1, 2, 0, 4, 4, 0}};
static gco_three threes[] = {{0, 1, 2, 0, 3, 3, 3, 3, 3, 3, 3, 0}};
static const uint32_t table_of[6];
static uint32_t labels[5];
static uint8_t bits[3];

enum { CALLS = 14, WROTE = 99 };

/* The rest of a run after two moves, whose memory is not refused. What a refusal writes is told by a
 * status of its own. */
static uint32_t stretched(void) {
    gco_course course = {0}, left;
    uint32_t stamps[5] = {0}, made[3] = {0}, at[5] = {0}, stamps_left[5], made_left[3], at_left[5];
    gco_outcome told;
    const long fails_at = fail_at;
    fail_at = 0;
    uint32_t status = gco_label_stretch(3, data, 15, smooth, 9, costs, 3, pairs, 6, GCO_EXPANSION,
                                        GCO_ALL_CYCLES, 2, &course, stamps, 5, made, 3, at, 5,
                                        &told);
    if (status != GCO_UNFINISHED) return WROTE;
    left = course;
    memcpy(stamps_left, stamps, sizeof stamps);
    memcpy(made_left, made, sizeof made);
    memcpy(at_left, at, sizeof at);
    count = 0;
    fail_at = fails_at;
    status = gco_label_stretch_int32(3, data32, 15, smooth32, 9, costs32, 3, pairs, 6,
                                     GCO_EXPANSION, GCO_ALL_CYCLES, GCO_ALL_CYCLES, &course,
                                     stamps, 5, made, 3, at, 5, &told);
    if (memcmp(&left, &course, sizeof left) || memcmp(stamps_left, stamps, sizeof stamps) ||
        memcmp(made_left, made, sizeof made))
        return WROTE;
    if (status == GCO_OK)
        memcpy(labels, at, sizeof at);
    else if (memcmp(at_left, at, sizeof at))
        return WROTE;
    return status;
}

static uint32_t call(int which) {
    gco_outcome told;
    gco_minimum found;
    gco_bound bound;
    switch (which) {
    case 0:
        return gco_label(3, data, 15, smooth, 9, NULL, 0, pairs, 6, GCO_EXPANSION, GCO_ALL_CYCLES,
                         labels, 5, &told);
    case 1:
        return gco_label(3, data, 15, smooth, 9, costs, 3, pairs, 6, GCO_EXPANSION, GCO_ALL_CYCLES,
                         labels, 5, &told);
    case 2: return gco_expand(3, data, 15, smooth, 9, costs, 3, pairs, 6, 2, labels, 5, &told);
    case 3: return gco_swap(3, data, 15, smooth, 9, NULL, 0, pairs, 6, 0, 2, labels, 5, &told);
    case 4:
        return gco_label_int32(3, data32, 15, smooth32, 9, costs32, 3, pairs, 6, GCO_EXPANSION,
                               GCO_ALL_CYCLES, labels, 5, &told);
    case 5:
        return gco_lower_bound(3, data, 15, smooth, 9, costs, 3, pairs, 6, 9, GCO_ANY_SIZE, labels,
                               5, &bound);
    case 6: return stretched();
    case 7:
        return gco_expand_int32(3, data32, 15, smooth32, 9, costs32, 3, pairs, 6, 2, labels, 5,
                                &told);
    case 8:
        return gco_swap_int32(3, data32, 15, smooth32, 9, NULL, 0, pairs, 6, 0, 2, labels, 5, &told);
    case 9:
        return gco_label_pairs(3, data, 15, 1, smooth, 9, costs, 3, pairs, 6, table_of, 6,
                               GCO_EXPANSION, GCO_ALL_CYCLES, labels, 5, &told);
    case 10:
        return gco_expand_pairs_int32(3, data32, 15, 1, smooth32, 9, costs32, 3, pairs, 6, table_of,
                                      6, 2, labels, 5, &told);
    case 11:
        return gco_swap_pairs(3, data, 15, 1, smooth, 9, NULL, 0, pairs, 6, table_of, 6, 0, 2,
                              labels, 5, &told);
    case 12:
        return gco_lower_bound_pairs(3, data, 15, 1, smooth, 9, costs, 3, pairs, 6, table_of, 6, 9,
                                     GCO_ANY_SIZE, labels, 5, &bound);
    default: return gco_minimise(10, ones, 1, twos, 1, threes, 1, bits, 3, &found);
    }
}

int main(void) {
    long refused = 0, answered = 0;
    for (int which = 0; which < CALLS; which++) {
        uint32_t right[5] = {0};
        uint8_t right_bits[3] = {0};
        long growths = 0;
        for (fail_at = 0; fail_at <= growths; fail_at++) {
            memset(labels, 0, sizeof labels);
            memset(bits, 9, sizeof bits);
            count = live = 0;
            uint32_t status = call(which);
            if (live != 0)
                return printf("tests/growths.c: call %d keeps %ld at %ld\n", which, live, fail_at),
                       1;
            if (fail_at == 0) {
                growths = count;
                if (status != GCO_OK || growths == 0)
                    return printf("tests/growths.c: call %d answers %u\n", which, status), 1;
                memcpy(right, labels, sizeof labels);
                memcpy(right_bits, bits, sizeof bits);
            } else if (status == GCO_OUT_OF_MEMORY) {
                refused++;
                for (int i = 0; i < 5; i++)
                    if (labels[i] != 0 || bits[i % 3] != 9)
                        return printf("tests/growths.c: call %d writes at %ld\n", which, fail_at),
                               1;
            } else if (status == GCO_OK && !memcmp(labels, right, sizeof right) &&
                       !memcmp(bits, right_bits, sizeof right_bits)) {
                answered++;
            } else {
                return printf("tests/growths.c: call %d answers %u at %ld\n", which, status,
                              fail_at),
                       1;
            }
        }
    }
    if (refused == 0) return printf("tests/growths.c: nothing was refused\n"), 1;
    printf("c: growths refused in turn, %ld told and %ld answered all the same, none kept\n",
           refused, answered);
    return 0;
}
