/* What pair_gco.c and pair_peer.cpp share: the problem that they read, the clocks, and the answer that they write.
 *
 * A problem is a file of numbers of 32 bits, in this machine's order: how many sites, labels and pairs there are; what each
 * label costs each site, site by site; a table for each pair, by the label of its first site and that of its second; and
 * of each pair its two sites and its weight. */
#ifndef PAIR_PROBLEM_H
#define PAIR_PROBLEM_H

#include <stdint.h>
#include <stdio.h>
#include <stdlib.h>
#include <time.h>

typedef struct pair_problem {
    uint32_t sites, labels, pairs;
    int32_t *data, *tables;
    uint32_t *rows; /* three numbers a pair */
} pair_problem;

typedef struct pair_times {
    double clock, processor; /* seconds */
} pair_times;

static inline void stop(const char *why) {
    fprintf(stderr, "%s\n", why);
    exit(1);
}

static inline void *read_numbers(FILE *file, size_t count) {
    void *numbers = malloc(4 * count + 4);
    if (numbers == NULL) stop("out of memory");
    if (fread(numbers, 4, count, file) != count) stop("the file ends early");
    return numbers;
}

static inline pair_problem read_problem(const char *name) {
    pair_problem problem;
    FILE *file = fopen(name, "rb");
    if (file == NULL) stop("the file cannot be read");
    uint32_t *counts = (uint32_t *)read_numbers(file, 3);
    problem.sites = counts[0];
    problem.labels = counts[1];
    problem.pairs = counts[2];
    free(counts);
    problem.data = (int32_t *)read_numbers(file, (size_t)problem.sites * problem.labels);
    problem.tables = (int32_t *)read_numbers(file, (size_t)problem.pairs * problem.labels * problem.labels);
    problem.rows = (uint32_t *)read_numbers(file, 3 * (size_t)problem.pairs);
    fclose(file);
    return problem;
}

static inline double seconds_of(clockid_t clock) {
    struct timespec now;
    clock_gettime(clock, &now);
    return (double)now.tv_sec + 1e-9 * (double)now.tv_nsec;
}

static inline pair_times times_now(void) {
    pair_times now;
    now.clock = seconds_of(CLOCK_MONOTONIC);
    now.processor = seconds_of(CLOCK_PROCESS_CPUTIME_ID);
    return now;
}

/* The labels go to standard output, a byte each; their energy and the seconds since `begin` to standard error. */
static inline void write_answer(const pair_problem *problem, const uint32_t *labels, long long data, long long smooth,
                                pair_times begin, pair_times end) {
    for (uint32_t site = 0; site < problem->sites; site++) putchar((int)labels[site]);
    if (fflush(stdout)) stop("the labels could not be written");
    fprintf(stderr, "energy %lld data %lld smooth %lld\n", data + smooth, data, smooth);
    fprintf(stderr, "clock %.6f processor %.6f\n", end.clock - begin.clock, end.processor - begin.processor);
}

#endif
