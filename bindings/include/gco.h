/* gco: labels of least energy by moves, each to the best labelling that it reaches (Boykov, Veksler and Zabih,
 * PAMI 2001), and least assignments of yes-no variables by one minimum cut (Kolmogorov and Zabih, PAMI 2004), in whole
 * numbers.
 *
 * One call is one whole problem: the library keeps nothing between calls, has no state of its own, and may be called
 * from many threads at once. Nothing is to be opened, closed or freed.
 *
 * The energy of a labelling is
 *     the sum over the sites of     data[site * label_count + its label]
 *   + the sum over the pairs of     weight * smooth[label of first * label_count + label of second]
 *   + the sum over the labels that some site has of     label_costs[label].
 * gco_label_pairs takes a table for each pair in place of the one table `smooth`.
 *
 *     int64_t data[] = {4,6,9, 7,5,6, 8,4,7, 9,7,3, 6,8,5};        // 5 sites, 3 labels
 *     int64_t smooth[] = {0,1,1, 1,0,1, 1,1,0};                    // Potts
 *     gco_pair pairs[] = {{0,1,3}, {1,2,2}, {2,3,2}, {3,4,4}, {1,3,1}, {0,4,1}};
 *     uint32_t labels[5] = {0};                                    // the start, and then the answer
 *     gco_outcome told;
 *     uint32_t status = gco_label(3, data, 15, smooth, 9, NULL, 0, pairs, 6, GCO_EXPANSION, GCO_ALL_CYCLES,
 *                                 labels, 5, &told);
 *     // status == GCO_OK, labels are 1 1 1 2 2, told.data + told.smooth + told.label == 27
 *
 * What the caller owes, since nothing in C can test it: each array has as many elements as its count says, is aligned as
 * its type asks, overlaps no other that the call writes, and is left alone by other threads while the call runs. A
 * pointer to an array of no elements may be NULL. What a call writes are `labels` and `told` (`assignment` and `told`
 * of gco_minimise; of gco_label_stretch what it is lent, too), nothing else. Its memory comes from malloc and is given
 * back before it returns; it takes about 10 KB of stack, whatever the size of the problem. Not to be called from a signal
 * handler.
 *
 * What the caller may give: anything else. Each length, range, label, site and pair is tested before it is used, and what
 * is wrong is told by the status, in the order of the tests: the first that holds. Where the status is not GCO_OK the
 * labels (the assignment) are as they were.
 */
#ifndef GCO_H
#define GCO_H

#include <stddef.h>
#include <stdint.h>

#ifdef __cplusplus
extern "C" {
#endif

/* The limits of a labelling. What is beyond one is refused by name, and nothing overflows within them. */
#define GCO_SITE_LIMIT 1048576u        /* sites, from 0 */
#define GCO_LABEL_LIMIT 256u           /* labels, from 1 */
#define GCO_PAIR_LIMIT 4194304u        /* pairs, from 0 */
#define GCO_WEIGHT_LIMIT 1000u         /* the weight of a pair, from 0 */
#define GCO_DATA_LIMIT 10000000        /* a data cost, from 0 */
#define GCO_SMOOTH_LIMIT 10000         /* a smooth cost, from 0 */
#define GCO_LABEL_COST_LIMIT 10000000  /* what a label costs by itself, from 0 */
#define GCO_PAIR_COST_LIMIT 10000000   /* gco_label_pairs: an entry of a table, and a weight times an entry, from 0 */

/* Two sites, numbered from 0, and the weight of their term. A pair that stands twice counts twice. */
typedef struct gco_pair {
    uint32_t first, second, weight;
} gco_pair;

/* What a call tells beside its status; all of it is written by each call, 0 where nothing is said. */
typedef struct gco_outcome {
    int64_t data, smooth, label; /* the three parts of the energy of the labels */
    uint64_t place;              /* refused: the place in the array that the status names, from 0 */
    uint64_t vmin, vmax;         /* gco_label (and gco_label_int32 here and below): where they are not 0, vmin times the energy is at most twice vmax times the
                                  * least energy of all labellings. They are the least and the greatest smooth cost of two
                                  * unequal labels (1 and 1 of one label), and are told exactly of a run of expansions
                                  * that settled, where the smooth costs are a metric and no label cost is above 0 */
    uint32_t cycles;             /* gco_label, gco_label_pairs: how many cycles were made */
    uint32_t settled;            /* the same: 1 where the last cycle changed nothing, else 0 */
    uint32_t changed;            /* gco_expand, gco_swap, and those of pairs: 1 where a label changed, else 0 */
    uint32_t alpha, beta;        /* GCO_NOT_REGULAR: the labels of the move, twice the same of an expansion */
} gco_outcome;

/* Statuses, in the order of the tests. */
enum {
    GCO_OK = 0,
    GCO_OUT_OF_MEMORY = 1,      /* may come at any test from GCO_NO_SUCH_SITE on */
    GCO_NO_SUCH_MOVES = 6,      /* gco_label: `moves` is neither GCO_EXPANSION nor GCO_SWAP */
    GCO_TOO_MANY_SITES = 2,     /* site_count (variable_count) is above its limit */
    GCO_LABEL_COUNT = 3,        /* label_count is 0 or above its limit */
    GCO_DATA_COUNT = 4,         /* data_count is not site_count * label_count */
    GCO_SMOOTH_COUNT = 5,       /* smooth_count is not label_count * label_count */
    GCO_LABEL_COST_COUNT = 7,   /* label_cost_count is neither 0 nor label_count */
    GCO_DATA_RANGE = 15,        /* data[place] is not from 0 to its limit, the first such */
    GCO_SMOOTH_RANGE = 16,      /* smooth[place] */
    GCO_LABEL_COST_RANGE = 17,  /* label_costs[place] */
    GCO_CONSTANT_RANGE = 18,    /* gco_minimise: the constant */
    GCO_NO_SUCH_SITE = 10,      /* pairs[place] names a site that is not there (a term, a variable) */
    GCO_SAME_SITE = 12,         /* pairs[place] names one site twice (a term, a variable) */
    GCO_TOO_MANY_PAIRS = 13,    /* there are more pairs (terms) than the limit */
    GCO_WEIGHT_RANGE = 14,      /* the weight of pairs[place] (a number of a term) is out of its range */
    GCO_NO_SUCH_LABEL = 11,     /* labels[place], as it was given, is not below label_count */
    GCO_NO_SUCH_MOVE = 8,       /* gco_expand, gco_swap: alpha or beta is not below label_count */
    GCO_TOO_LARGE = 9,          /* gco_lower_bound, _pairs: it would take more bytes than `allowed` */
    GCO_LABEL_COST_IN_SWAP = 27, /* swaps, where some label costs more than 0 by itself */
    GCO_NOT_REGULAR = 24,       /* the term of pairs[place] in the move of alpha and beta is not regular: the smooth costs
                                 * are no metric */
    GCO_NO_SUCH_COURSE = 28,    /* gco_label_stretch: stamp_count is not site_count, made_count is not label_count, or the
                                 * course is past the end of its cycles */
    GCO_UNFINISHED = 29,        /* gco_label_stretch: no refusal. The moves are made, and the run is not at its end */
    GCO_TERM_NOT_REGULAR = 20,  /* gco_minimise: term `place` is not regular; of three variables, where `fixed` is `fixed_at` */

    /* Of the calls of pairs with costs of their own. GCO_LABEL_COST_COUNT comes before GCO_SMOOTH_COUNT there, GCO_SMOOTH_RANGE
     * after GCO_LABEL_COST_RANGE, and GCO_NO_SUCH_TABLE and GCO_PAIR_COST_RANGE, pair by pair, before GCO_NO_SUCH_LABEL. */
    GCO_TABLE_OF_COUNT = 30,    /* after GCO_SMOOTH_COUNT: table_of_count is neither 0 nor pair_count */
    GCO_NO_SUCH_TABLE = 31,     /* the number of the table of pairs[place] is not below table_count */
    GCO_PAIR_COST_RANGE = 32    /* the weight of pairs[place] times an entry of its table is above its limit */
};

enum { GCO_EXPANSION = 0, GCO_SWAP = 1 };
#define GCO_ALL_CYCLES UINT32_MAX /* until a cycle changes nothing */

/* Makes moves from the labels in `labels`, until a whole cycle changes nothing or `cycles` cycles are done, and writes the
 * labels where they ended. A cycle of expansions takes each label in rising order, one of swaps each two labels in
 * dictionary order; each move goes to the best labelling that it reaches, and of several to one that a rule names, so that
 * the answer is one. With 0 cycles it tells the energy of the labels.
 *
 * `label_costs` may be empty (label_cost_count 0), and is else one cost for each label.
 *
 * Told: data, smooth, label, vmin, vmax, cycles, settled. */
uint32_t gco_label(uint32_t label_count,
                   const int64_t *data, size_t data_count,
                   const int64_t *smooth, size_t smooth_count,
                   const int64_t *label_costs, size_t label_cost_count,
                   const gco_pair *pairs, size_t pair_count,
                   uint32_t moves, uint32_t cycles,
                   uint32_t *labels, size_t site_count,
                   gco_outcome *told);

/* What gco_label does, over costs of 32 bits: the same tests, statuses and answers. `data` is read where it lies; of
 * `smooth` and `label_costs` a copy of 64 bits is made.
 *
 * Told: data, smooth, label, vmin, vmax, cycles, settled. */
uint32_t gco_label_int32(uint32_t label_count,
                         const int32_t *data, size_t data_count,
                         const int32_t *smooth, size_t smooth_count,
                         const int32_t *label_costs, size_t label_cost_count,
                         const gco_pair *pairs, size_t pair_count,
                         uint32_t moves, uint32_t cycles,
                         uint32_t *labels, size_t site_count,
                         gco_outcome *told);

/* Where a run stands between two of its moves. All is 0 before the first one. */
typedef struct gco_course {
    uint32_t cycles;  /* how many whole cycles were made */
    uint32_t place;   /* the place of the next move in its cycle, from 0 */
    uint32_t last;    /* the place of the move that changed a label last; the number of moves of a cycle where none did */
    uint32_t changed; /* 1 where a move of this cycle changed a label, else 0 */
    uint32_t noted;   /* the number of the last expansion that was noted */
} gco_course;

/* A stretch of what gco_label does: at most `most` moves, and then control comes back. So a long run can be watched, and
 * left after any call. It is lent the labels, where the run stands, and two arrays: `stamps` has a number for each site,
 * `made` one for each label. They are all 0 where a run begins. Each call hands them back for the next.
 *
 *     gco_course course = {0};
 *     uint32_t *stamps = calloc(site_count, 4), *made = calloc(label_count, 4);
 *     do
 *         status = gco_label_stretch(.., GCO_EXPANSION, GCO_ALL_CYCLES, 8, &course, stamps, site_count, made, label_count,
 *                                    labels, site_count, &told);
 *     while (status == GCO_UNFINISHED && go_on(&told));
 *
 * GCO_UNFINISHED: the labels are where a beginning of the run ends; `told.cycles` says how many cycles were whole.
 * GCO_OK: the run ended, with the labels, cycles and bound of gco_label. `course`, `stamps` and `made` are as they were.
 * Else the call was refused, and all that it was lent is as it was.
 *
 * All calls of a run take the same problem, `moves` and `cycles`. This is not tested, nor is what the arrays say. Of other
 * numbers than those of the call before no more is promised than that the labels are below label_count.
 *
 * A call tests its arrays and groups the pairs anew, so make as many moves as take half a second.
 *
 * Told: data, smooth, label, cycles; where the run ended vmin, vmax and settled, too. */
uint32_t gco_label_stretch(uint32_t label_count,
                           const int64_t *data, size_t data_count,
                           const int64_t *smooth, size_t smooth_count,
                           const int64_t *label_costs, size_t label_cost_count,
                           const gco_pair *pairs, size_t pair_count,
                           uint32_t moves, uint32_t cycles, uint32_t most,
                           gco_course *course,
                           uint32_t *stamps, size_t stamp_count,
                           uint32_t *made, size_t made_count,
                           uint32_t *labels, size_t site_count,
                           gco_outcome *told);

/* What gco_label_stretch does, over costs of 32 bits. */
uint32_t gco_label_stretch_int32(uint32_t label_count,
                                 const int32_t *data, size_t data_count,
                                 const int32_t *smooth, size_t smooth_count,
                                 const int32_t *label_costs, size_t label_cost_count,
                                 const gco_pair *pairs, size_t pair_count,
                                 uint32_t moves, uint32_t cycles, uint32_t most,
                                 gco_course *course,
                                 uint32_t *stamps, size_t stamp_count,
                                 uint32_t *made, size_t made_count,
                                 uint32_t *labels, size_t site_count,
                                 gco_outcome *told);

/* One move: every site keeps its label or takes `alpha`, to the best of these labellings.
 *
 * Told: data, smooth, label, changed. */
uint32_t gco_expand(uint32_t label_count,
                    const int64_t *data, size_t data_count,
                    const int64_t *smooth, size_t smooth_count,
                    const int64_t *label_costs, size_t label_cost_count,
                    const gco_pair *pairs, size_t pair_count,
                    uint32_t alpha,
                    uint32_t *labels, size_t site_count,
                    gco_outcome *told);

/* What gco_expand does, over costs of 32 bits. */
uint32_t gco_expand_int32(uint32_t label_count,
                          const int32_t *data, size_t data_count,
                          const int32_t *smooth, size_t smooth_count,
                          const int32_t *label_costs, size_t label_cost_count,
                          const gco_pair *pairs, size_t pair_count,
                          uint32_t alpha,
                          uint32_t *labels, size_t site_count,
                          gco_outcome *told);

/* One move: every site that has `alpha` or `beta` takes either, to the best of these labellings. Refused as
 * GCO_LABEL_COST_IN_SWAP where some label costs more than 0 by itself.
 *
 * Told: data, smooth, label, changed. */
uint32_t gco_swap(uint32_t label_count,
                  const int64_t *data, size_t data_count,
                  const int64_t *smooth, size_t smooth_count,
                  const int64_t *label_costs, size_t label_cost_count,
                  const gco_pair *pairs, size_t pair_count,
                  uint32_t alpha, uint32_t beta,
                  uint32_t *labels, size_t site_count,
                  gco_outcome *told);

/* What gco_swap does, over costs of 32 bits. */
uint32_t gco_swap_int32(uint32_t label_count,
                        const int32_t *data, size_t data_count,
                        const int32_t *smooth, size_t smooth_count,
                        const int32_t *label_costs, size_t label_cost_count,
                        const gco_pair *pairs, size_t pair_count,
                        uint32_t alpha, uint32_t beta,
                        uint32_t *labels, size_t site_count,
                        gco_outcome *told);

/* What gco_label does, over pairs each of which has costs of its own: what a seam costs between two photographs depends on
 * both labels and both sites, and is no weight times one table. There are `table_count` tables of label_count * label_count
 * entries, one after another. Pair n costs
 *     pairs[n].weight * tables[(table_of[n] * label_count + label of first) * label_count + label of second],
 * at most GCO_PAIR_COST_LIMIT. If table_of_count is 0, pair n has table n: so one table a pair is the shortest form.
 *
 *     gco_pair pairs[] = {{0,1,1}, {1,2,1}};                       // two pairs of three sites
 *     int64_t tables[] = {0,7, 3,0,  0,2, 9,0};                    // what each costs at the labels 00, 01, 10, 11
 *     status = gco_label_pairs(2, data, 6, 2, tables, 8, NULL, 0, pairs, 2, NULL, 0, GCO_EXPANSION, GCO_ALL_CYCLES,
 *                              labels, 3, &told);
 *
 * No metric is asked for. Each move tests the terms of all pairs, and refuses the first that is not regular. No expansion
 * is refused so where the costs of each pair are a metric.
 *
 * The tables are read where they lie. No bound is told: gco_lower_bound_pairs tells one.
 *
 * Told: data, smooth, label, cycles, settled. */
uint32_t gco_label_pairs(uint32_t label_count,
                         const int64_t *data, size_t data_count,
                         uint32_t table_count, const int64_t *tables, size_t entry_count,
                         const int64_t *label_costs, size_t label_cost_count,
                         const gco_pair *pairs, size_t pair_count,
                         const uint32_t *table_of, size_t table_of_count,
                         uint32_t moves, uint32_t cycles,
                         uint32_t *labels, size_t site_count,
                         gco_outcome *told);

/* What gco_label_pairs does, over costs of 32 bits. */
uint32_t gco_label_pairs_int32(uint32_t label_count,
                               const int32_t *data, size_t data_count,
                               uint32_t table_count, const int32_t *tables, size_t entry_count,
                               const int32_t *label_costs, size_t label_cost_count,
                               const gco_pair *pairs, size_t pair_count,
                               const uint32_t *table_of, size_t table_of_count,
                               uint32_t moves, uint32_t cycles,
                               uint32_t *labels, size_t site_count,
                               gco_outcome *told);

/* The move of gco_expand over such pairs, and that of gco_swap, each over costs of either width.
 *
 * Told: data, smooth, label, changed. */
uint32_t gco_expand_pairs(uint32_t label_count,
                          const int64_t *data, size_t data_count,
                          uint32_t table_count, const int64_t *tables, size_t entry_count,
                          const int64_t *label_costs, size_t label_cost_count,
                          const gco_pair *pairs, size_t pair_count,
                          const uint32_t *table_of, size_t table_of_count,
                          uint32_t alpha,
                          uint32_t *labels, size_t site_count,
                          gco_outcome *told);

uint32_t gco_expand_pairs_int32(uint32_t label_count,
                                const int32_t *data, size_t data_count,
                                uint32_t table_count, const int32_t *tables, size_t entry_count,
                                const int32_t *label_costs, size_t label_cost_count,
                                const gco_pair *pairs, size_t pair_count,
                                const uint32_t *table_of, size_t table_of_count,
                                uint32_t alpha,
                                uint32_t *labels, size_t site_count,
                                gco_outcome *told);

uint32_t gco_swap_pairs(uint32_t label_count,
                        const int64_t *data, size_t data_count,
                        uint32_t table_count, const int64_t *tables, size_t entry_count,
                        const int64_t *label_costs, size_t label_cost_count,
                        const gco_pair *pairs, size_t pair_count,
                        const uint32_t *table_of, size_t table_of_count,
                        uint32_t alpha, uint32_t beta,
                        uint32_t *labels, size_t site_count,
                        gco_outcome *told);

uint32_t gco_swap_pairs_int32(uint32_t label_count,
                              const int32_t *data, size_t data_count,
                              uint32_t table_count, const int32_t *tables, size_t entry_count,
                              const int32_t *label_costs, size_t label_cost_count,
                              const gco_pair *pairs, size_t pair_count,
                              const uint32_t *table_of, size_t table_of_count,
                              uint32_t alpha, uint32_t beta,
                              uint32_t *labels, size_t site_count,
                              gco_outcome *told);

/* What a call for a bound tells beside its status and its labels; all of it is written by each call. */
typedef struct gco_bound {
    int64_t low;    /* the bound; else 0 */
    uint64_t place; /* refused: the place in the array that the status names, from 0; else 0 */
} gco_bound;

/* Tells a number that no labelling's energy is below, for this very problem: of any smooth costs, a metric or not, with
 * label costs or without. It is never below what the cheapest label of each site costs. Writes labels too, whose energy is
 * mostly near the bound: gco_label may start from them. Nothing is promised of how near the bound comes.
 *
 * It makes at most `passes` passes over the sites, or fewer if two of them raise the bound by less than a part in 10,000.
 * 20 to 50 are usual. The labels that are handed over are tested as those of gco_label, and play no other part.
 *
 * It takes (8 * site_count + 4 * pair_count) * label_count bytes, and beside them at most 24 a site and 16 a pair. If the
 * first of these is above `allowed`, the call is refused as GCO_TOO_LARGE before it begins.
 *
 * Told: low. */
uint32_t gco_lower_bound(uint32_t label_count,
                         const int64_t *data, size_t data_count,
                         const int64_t *smooth, size_t smooth_count,
                         const int64_t *label_costs, size_t label_cost_count,
                         const gco_pair *pairs, size_t pair_count,
                         uint32_t passes, uint64_t allowed,
                         uint32_t *labels, size_t site_count,
                         gco_bound *told);

/* What gco_lower_bound tells, over the pairs of gco_label_pairs. It takes as many bytes.
 *
 * Told: low. */
uint32_t gco_lower_bound_pairs(uint32_t label_count,
                               const int64_t *data, size_t data_count,
                               uint32_t table_count, const int64_t *tables, size_t entry_count,
                               const int64_t *label_costs, size_t label_cost_count,
                               const gco_pair *pairs, size_t pair_count,
                               const uint32_t *table_of, size_t table_of_count,
                               uint32_t passes, uint64_t allowed,
                               uint32_t *labels, size_t site_count,
                               gco_bound *told);
#define GCO_ALL_PASSES UINT32_MAX /* until the bound rises little */
#define GCO_ANY_SIZE UINT64_MAX

/* The limits of gco_minimise. */
#define GCO_VARIABLE_LIMIT 2097152u /* variables, from 0 */
#define GCO_TERM_LIMIT 8388608u     /* terms, of one, two and three variables together */
#define GCO_VALUE_LIMIT 1000000000  /* the size of a term's number and of the constant, below 0 too */

/* The numbers of a term of one variable where that is 0 and where it is 1; of two at 00, 01, 10 and 11, the first
 * variable being the first digit; and of three likewise (Kolmogorov's Energy::add_term1, add_term2 and add_term3).
 * `spare` is not read. A term of two is regular where at00 + at11 is at most at01 + at10, and one of three where each
 * term of two is that is left when one of its variables is fixed. */
typedef struct gco_one {
    uint32_t variable, spare;
    int64_t at0, at1;
} gco_one;

typedef struct gco_two {
    uint32_t first, second;
    int64_t at00, at01, at10, at11;
} gco_two;

typedef struct gco_three {
    uint32_t first, second, third, spare;
    int64_t at000, at001, at010, at011, at100, at101, at110, at111;
} gco_three;

/* What gco_minimise tells beside its status; all of it is written by each call. */
typedef struct gco_minimum {
    int64_t value;     /* the least value, with the constant; else 0 */
    uint64_t place;    /* refused: the place of the term, where `ones`, `twos` and `threes` are one list in this order */
    uint64_t fixed;    /* GCO_TERM_NOT_REGULAR of a term of three: which of its variables is fixed, 0, 1 or 2 .. */
    uint64_t fixed_at; /* .. and at which value, in the first term of two that is not regular, by variables and 0 before 1;
                        * else GCO_NOTHING_FIXED and 0 */
} gco_minimum;
#define GCO_NOTHING_FIXED 3

/* Writes the assignment of least value, a byte 0 or 1 for each variable. Of several least ones it is the one with the
 * fewest ones, which are among the ones of each other. The bytes that stand there before are not read.
 *
 * Statuses: GCO_OK, GCO_TOO_MANY_SITES, GCO_CONSTANT_RANGE, GCO_NO_SUCH_SITE, GCO_SAME_SITE, GCO_WEIGHT_RANGE,
 * GCO_TOO_MANY_PAIRS, GCO_TERM_NOT_REGULAR, GCO_OUT_OF_MEMORY. */
uint32_t gco_minimise(int64_t constant,
                      const gco_one *ones, size_t one_count,
                      const gco_two *twos, size_t two_count,
                      const gco_three *threes, size_t three_count,
                      uint8_t *assignment, size_t variable_count,
                      gco_minimum *told);

#ifdef __cplusplus
}
#endif

#endif
