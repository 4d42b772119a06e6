/* A run of expansions over pairs each of which has a table of its own, by gco's library.
 *
 *   pair_gco problem.bin [cycles] > labels */
#define _POSIX_C_SOURCE 199309L
#include "pair_problem.h"

#include <gco.h>

int main(int count, char **words) {
    if (count < 2) stop("pair_gco problem.bin [cycles] > labels");
    const uint32_t cycles = count > 2 ? (uint32_t)strtoul(words[2], NULL, 10) : GCO_ALL_CYCLES;
    const pair_problem problem = read_problem(words[1]);
    const uint32_t k = problem.labels;
    const size_t sites = problem.sites, pairs = problem.pairs;
    uint32_t *labels = calloc(sites + 1, sizeof *labels);
    if (labels == NULL) stop("out of memory");
    gco_outcome told;
    const pair_times begin = times_now();
    const uint32_t status = gco_label_pairs_int32(k, problem.data, sites * k, problem.pairs, problem.tables, pairs * k * k, NULL, 0,
                                                  (const gco_pair *)problem.rows, pairs, NULL, 0, GCO_EXPANSION, cycles, labels,
                                                  sites, &told);
    const pair_times end = times_now();
    if (status == GCO_NOT_REGULAR) fprintf(stderr, "the term of pair %llu is not regular\n", (unsigned long long)told.place);
    if (status != GCO_OK) {
        fprintf(stderr, "refused %u\n", status);
        return 1;
    }
    write_answer(&problem, labels, told.data, told.smooth, begin, end);
    return 0;
}
