/* The calls of pairs with costs of their own: worked examples, each status, what a refusal leaves, and 2,000 random problems
 * against chains of best moves, each of which tries every labelling that it reaches. It exits with the first line that
 * fails. */
#include <stdio.h>
#include <stdlib.h>
#include <string.h>
#include "gco.h"
#include "told.h"

#define WANT(x)                                                   \
    do {                                                          \
        if (!(x)) {                                               \
            printf("tests/pairs.c:%d: %s\n", __LINE__, #x);       \
            return 1;                                             \
        }                                                         \
    } while (0)

/* a row of three sites; the first pair costs 2, 4, 6 and 0 at the labels 00, 01, 10 and 11, the second 0, 2, 4 and 4 */
static int64_t data[] = {0, 2, 3, 0, 7, 1}, tables[] = {1, 2, 3, 0, 0, 1, 2, 2}, costs[] = {0, 0};
static gco_pair pairs[] = {{0, 1, 2}, {1, 2, 2}};
static uint32_t table_of[] = {1, 0}, labels[3];
static const uint32_t zero[3];

static uint32_t run(uint32_t label_count, size_t data_count, uint32_t table_count, size_t entry_count, size_t cost_count,
                    size_t number_count, uint32_t moves) {
    return gco_label_pairs(label_count, data, data_count, table_count, tables, entry_count, costs, cost_count, pairs, 2, table_of,
                           number_count, moves, GCO_ALL_CYCLES, labels, 3, &told);
}

static int worked(void) {
    /* of the eight labellings 1 1 1 costs the least: 3 and 4 */
    WANT(FRESH(run(2, 6, 2, 8, 0, 0, GCO_EXPANSION)) == GCO_OK && labels[0] == 1 && labels[1] == 1 && labels[2] == 1);
    WANT(tells((gco_outcome){.data = 3, .smooth = 4, .cycles = 2, .settled = 1}));
    /* with the tables exchanged 0 1 1: 1 and 2 */
    memset(labels, 0, sizeof labels);
    WANT(FRESH(run(2, 6, 2, 8, 2, 2, GCO_SWAP)) == GCO_OK && labels[0] == 0 && labels[1] == 1 && labels[2] == 1);
    WANT(tells((gco_outcome){.data = 1, .smooth = 2, .cycles = 2, .settled = 1}));
    /* single moves, and what a label costs by itself */
    memset(labels, 0, sizeof labels);
    WANT(FRESH(gco_expand_pairs(2, data, 6, 2, tables, 8, NULL, 0, pairs, 2, NULL, 0, 1, labels, 3, &told)) == GCO_OK);
    WANT(labels[0] == 1 && labels[2] == 1 && tells((gco_outcome){.data = 3, .smooth = 4, .changed = 1}));
    costs[0] = 5;
    WANT(FRESH(gco_expand_pairs(2, data, 6, 2, tables, 8, costs, 2, pairs, 2, table_of, 2, 0, labels, 3, &told)) == GCO_OK);
    WANT(labels[0] == 1 && labels[2] == 1 && tells((gco_outcome){.data = 3, .smooth = 4}));
    costs[0] = 0;
    WANT(FRESH(gco_swap_pairs(2, data, 6, 2, tables, 8, costs, 2, pairs, 2, table_of, 2, 0, 1, labels, 3, &told)) == GCO_OK);
    WANT(labels[0] == 0 && labels[2] == 1 && tells((gco_outcome){.data = 1, .smooth = 2, .changed = 1}));
    /* costs of 32 bits */
    int32_t data32[6], tables32[8];
    for (int i = 0; i < 6; i++) data32[i] = (int32_t)data[i];
    for (int i = 0; i < 8; i++) tables32[i] = (int32_t)tables[i];
    memset(labels, 0, sizeof labels);
    WANT(FRESH(gco_label_pairs_int32(2, data32, 6, 2, tables32, 8, NULL, 0, pairs, 2, NULL, 0, GCO_EXPANSION, 9, labels, 3, &told)) == GCO_OK);
    WANT(labels[0] == 1 && tells((gco_outcome){.data = 3, .smooth = 4, .cycles = 2, .settled = 1}));
    WANT(FRESH(gco_swap_pairs_int32(2, data32, 6, 2, tables32, 8, NULL, 0, pairs, 2, table_of, 2, 0, 1, labels, 3, &told)) == GCO_OK);
    WANT(labels[0] == 0 && labels[1] == 1 && tells((gco_outcome){.data = 1, .smooth = 2, .changed = 1}));
    WANT(FRESH(gco_expand_pairs_int32(2, data32, 6, 2, tables32, 8, NULL, 0, pairs, 2, NULL, 0, 1, labels, 3, &told)) == GCO_OK);
    WANT(labels[0] == 1 && tells((gco_outcome){.data = 3, .smooth = 4, .changed = 1}));
    /* no cycle tells the energy of the labels; and nothing at all */
    WANT(FRESH(gco_label_pairs(2, data, 6, 2, tables, 8, NULL, 0, pairs, 2, NULL, 0, GCO_SWAP, 0, labels, 3, &told)) == GCO_OK);
    WANT(tells((gco_outcome){.data = 3, .smooth = 4}));
    WANT(FRESH(gco_label_pairs(1, NULL, 0, 0, NULL, 0, NULL, 0, NULL, 0, NULL, 0, GCO_SWAP, 1, NULL, 0, &told)) == GCO_OK);
    WANT(tells((gco_outcome){.cycles = 1, .settled = 1}));
    return 0;
}

static int refused(void) {
    memset(labels, 0, sizeof labels);
    REFUSED(run(2, 6, 2, 8, 0, 0, 2), GCO_NO_SUCH_MOVES, 0);
    REFUSED(gco_label_pairs(2, data, 6, 2, tables, 8, NULL, 0, pairs, 2, NULL, 0, 0, 1, labels, (size_t)GCO_SITE_LIMIT + 1, &told), GCO_TOO_MANY_SITES, 0);
    REFUSED(run(0, 6, 2, 8, 0, 0, 0), GCO_LABEL_COUNT, 0);
    REFUSED(run(UINT32_MAX, 6, UINT32_MAX, 8, 0, 0, 0), GCO_LABEL_COUNT, 0);
    REFUSED(run(2, 5, 2, 8, 0, 0, 0), GCO_DATA_COUNT, 0);
    REFUSED(run(2, 6, 2, 7, 1, 0, 0), GCO_LABEL_COST_COUNT, 0);
    REFUSED(run(2, 6, 2, 7, 2, 1, 0), GCO_SMOOTH_COUNT, 0);
    REFUSED(run(2, 6, 1, 8, 0, 0, 0), GCO_SMOOTH_COUNT, 0);
    REFUSED(run(2, 6, UINT32_MAX, 8, 0, 0, 0), GCO_SMOOTH_COUNT, 0);
    REFUSED(run(2, 6, 2, 8, 0, 1, 0), GCO_TABLE_OF_COUNT, 0);
    data[5] = GCO_DATA_LIMIT + 1;
    REFUSED(run(2, 6, 2, 8, 0, 0, 0), GCO_DATA_RANGE, 5);
    data[5] = 1;
    costs[1] = -1;
    tables[6] = -1;
    REFUSED(run(2, 6, 2, 8, 2, 0, 0), GCO_LABEL_COST_RANGE, 1);
    costs[1] = 0;
    REFUSED(run(2, 6, 2, 8, 2, 0, 0), GCO_SMOOTH_RANGE, 6);
    tables[6] = (int64_t)GCO_PAIR_COST_LIMIT + 1;
    pairs[1].second = 3;
    REFUSED(run(2, 6, 2, 8, 0, 0, 0), GCO_SMOOTH_RANGE, 6);
    tables[6] = GCO_PAIR_COST_LIMIT / 2;
    REFUSED(run(2, 6, 2, 8, 0, 0, 0), GCO_NO_SUCH_SITE, 1);
    pairs[1].second = 1;
    REFUSED(run(2, 6, 2, 8, 0, 0, 0), GCO_SAME_SITE, 1);
    pairs[1].second = 2;
    pairs[1].weight = GCO_WEIGHT_LIMIT + 1;
    REFUSED(run(2, 6, 2, 8, 0, 0, 0), GCO_WEIGHT_RANGE, 1);
    /* at the limit of a pair's cost, and one above it: of the entry that the weight meets alone */
    pairs[1].weight = 2;
    WANT(FRESH(gco_label_pairs(2, data, 6, 2, tables, 8, NULL, 0, pairs, 2, NULL, 0, 0, 0, labels, 3, &told)) == GCO_OK);
    tables[6]++;
    REFUSED(run(2, 6, 2, 8, 0, 0, 0), GCO_PAIR_COST_RANGE, 1);
    REFUSED(run(2, 6, 2, 8, 0, 2, 0), GCO_PAIR_COST_RANGE, 0);
    pairs[1].weight = 1;
    WANT(FRESH(gco_label_pairs(2, data, 6, 2, tables, 8, NULL, 0, pairs, 2, NULL, 0, 0, 0, labels, 3, &told)) == GCO_OK);
    tables[6] = GCO_PAIR_COST_LIMIT;
    WANT(FRESH(gco_label_pairs(2, data, 6, 2, tables, 8, NULL, 0, pairs, 2, NULL, 0, 0, 0, labels, 3, &told)) == GCO_OK);
    pairs[1].weight = 1000;
    tables[6] = 10000;
    WANT(FRESH(gco_label_pairs(2, data, 6, 2, tables, 8, NULL, 0, pairs, 2, NULL, 0, 0, 0, labels, 3, &told)) == GCO_OK);
    tables[6] = 10001;
    REFUSED(run(2, 6, 2, 8, 0, 0, 0), GCO_PAIR_COST_RANGE, 1);
    tables[6] = 2;
    pairs[1].weight = 2;
    /* tables that are not there: by their number, or since there are fewer than pairs */
    labels[1] = 2;
    table_of[1] = 2;
    REFUSED(run(2, 6, 2, 8, 0, 2, 0), GCO_NO_SUCH_TABLE, 1);
    table_of[1] = UINT32_MAX;
    REFUSED(run(2, 6, 2, 8, 0, 2, 0), GCO_NO_SUCH_TABLE, 1);
    table_of[1] = 0;
    REFUSED(run(2, 6, 1, 4, 0, 0, 0), GCO_NO_SUCH_TABLE, 1);
    REFUSED(run(2, 6, 0, 0, 0, 0, 0), GCO_NO_SUCH_TABLE, 0);
    REFUSED(run(2, 6, 2, 8, 0, 0, 0), GCO_NO_SUCH_LABEL, 1);
    labels[1] = 0;
    costs[0] = 1;
    REFUSED(run(2, 6, 2, 8, 2, 0, GCO_SWAP), GCO_LABEL_COST_IN_SWAP, 0);
    REFUSED(gco_swap_pairs(2, data, 6, 2, tables, 8, costs, 2, pairs, 2, NULL, 0, 0, 1, labels, 3, &told), GCO_LABEL_COST_IN_SWAP, 0);
    costs[0] = 0;
    REFUSED(gco_swap_pairs(2, data, 6, 2, tables, 8, costs, 2, pairs, 2, NULL, 0, 0, 2, labels, 3, &told), GCO_NO_SUCH_MOVE, 0);
    REFUSED(gco_expand_pairs(2, data, 6, 2, tables, 8, costs, 2, pairs, 2, NULL, 0, 2, labels, 3, &told), GCO_NO_SUCH_MOVE, 0);
    /* a term that is not regular: 9 and 0 at one label, 0 and 0 at two */
    tables[4] = 9;
    WANT(FRESH(run(2, 6, 2, 8, 0, 0, 0)) == GCO_NOT_REGULAR && tells((gco_outcome){.place = 1, .alpha = 1, .beta = 1}));
    WANT(FRESH(run(2, 6, 2, 8, 0, 0, GCO_SWAP)) == GCO_NOT_REGULAR && tells((gco_outcome){.place = 1, .alpha = 0, .beta = 1}));
    tables[4] = 0;
    WANT(!memcmp(labels, zero, sizeof labels));
    size_t many = (size_t)GCO_PAIR_LIMIT + 1;
    gco_pair *list = malloc(many * sizeof *list);
    uint32_t *numbers = calloc(many, sizeof *numbers);
    WANT(list != NULL && numbers != NULL);
    for (size_t i = 0; i < many; i++) list[i] = pairs[0];
    REFUSED(gco_label_pairs(2, data, 6, 2, tables, 8, NULL, 0, list, many, numbers, many, 0, 1, labels, 3, &told), GCO_TOO_MANY_PAIRS, 0);
    free(numbers);
    free(list);
    return 0;
}

static gco_bound bound;
#define BFRESH(call) (memset(&bound, 0xff, sizeof bound), (call))
#define UNBOUND(call, status, at) WANT(BFRESH(call) == (status) && bound.low == 0 && bound.place == (at))

static uint32_t bound_of(uint32_t label_count, size_t data_count, uint32_t table_count, size_t entry_count, size_t cost_count,
                         size_t number_count, uint64_t allowed) {
    return gco_lower_bound_pairs(label_count, data, data_count, table_count, tables, entry_count, costs, cost_count, pairs, 2, table_of,
                                 number_count, 50, allowed, labels, 3, &bound);
}

static int bounded(void) {
    /* a row's bound is its least energy, which its labels have: of the tables as they stand, and exchanged */
    WANT(BFRESH(bound_of(2, 6, 2, 8, 0, 0, 64)) == GCO_OK && bound.low == 7 && bound.place == 0);
    WANT(labels[0] == 1 && labels[1] == 1 && labels[2] == 1);
    WANT(BFRESH(bound_of(2, 6, 2, 8, 2, 2, 64)) == GCO_OK && bound.low == 3 && bound.place == 0);
    WANT(labels[0] == 0 && labels[1] == 1 && labels[2] == 1);
    /* no pass, and nothing at all */
    WANT(BFRESH(gco_lower_bound_pairs(2, data, 6, 2, tables, 8, NULL, 0, pairs, 2, NULL, 0, 0, 64, labels, 3, &bound)) == GCO_OK);
    WANT(bound.low >= 1 && bound.low <= 7 && bound.place == 0);
    WANT(BFRESH(gco_lower_bound_pairs(1, NULL, 0, 0, NULL, 0, NULL, 0, NULL, 0, NULL, 0, 1, 0, NULL, 0, &bound)) == GCO_OK);
    WANT(bound.low == 0 && bound.place == 0);
    memset(labels, 0, sizeof labels);
    UNBOUND(bound_of(2, 6, 2, 8, 0, 0, 63), GCO_TOO_LARGE, 0);
    UNBOUND(bound_of(0, 6, 2, 8, 0, 0, 64), GCO_LABEL_COUNT, 0);
    UNBOUND(bound_of(2, 5, 2, 8, 0, 0, 64), GCO_DATA_COUNT, 0);
    UNBOUND(bound_of(2, 6, 2, 7, 0, 0, 64), GCO_SMOOTH_COUNT, 0);
    UNBOUND(bound_of(2, 6, 2, 8, 1, 0, 64), GCO_LABEL_COST_COUNT, 0);
    UNBOUND(bound_of(2, 6, 2, 8, 0, 1, 64), GCO_TABLE_OF_COUNT, 0);
    UNBOUND(bound_of(2, 6, 1, 4, 0, 0, 64), GCO_NO_SUCH_TABLE, 1);
    tables[6] = GCO_PAIR_COST_LIMIT / 2 + 1;
    UNBOUND(bound_of(2, 6, 2, 8, 0, 0, 0), GCO_PAIR_COST_RANGE, 1);
    tables[6] = GCO_PAIR_COST_LIMIT / 2;
    WANT(BFRESH(bound_of(2, 6, 2, 8, 0, 0, 64)) == GCO_OK && bound.low == 7);
    tables[6] = 2;
    labels[0] = labels[1] = 0;
    labels[2] = 2;
    UNBOUND(bound_of(2, 6, 2, 8, 0, 0, 64), GCO_NO_SUCH_LABEL, 2);
    labels[2] = 0;
    WANT(!memcmp(labels, zero, sizeof labels));
    return 0;
}

/* a small problem, and its chain of best moves */
enum { SITES = 5, LABELS = 3, PAIRS = 10, TABLES = 12 };
static struct {
    int sites, labels, pairs, tables, numbered;
    int64_t data[SITES * LABELS], table[TABLES * LABELS * LABELS], paid[LABELS];
    gco_pair pair[PAIRS];
    uint32_t number[PAIRS], at[SITES];
    int failing, alpha, beta, cycles, settled;
} p;

static uint64_t seed = 88172645463325252u;
static int below(int most) {
    seed ^= seed << 13;
    seed ^= seed >> 7;
    seed ^= seed << 17;
    return (int)(seed % (uint64_t)most);
}

static int64_t pair_cost(int n, uint32_t a, uint32_t b) {
    const uint32_t k = (uint32_t)p.labels, table = p.numbered ? p.number[n] : (uint32_t)n;
    return p.pair[n].weight * p.table[(table * k + a) * k + b];
}
static int64_t part(int which, const uint32_t *f) {
    int64_t sum = 0;
    for (int s = 0; which == 0 && s < p.sites; s++) sum += p.data[(uint32_t)(s * p.labels) + f[s]];
    for (int n = 0; which == 1 && n < p.pairs; n++) sum += pair_cost(n, f[p.pair[n].first], f[p.pair[n].second]);
    for (int l = 0; which == 2 && l < p.labels; l++)
        for (int s = 0; s < p.sites; s++)
            if (f[s] == (uint32_t)l) {
                sum += p.paid[l];
                break;
            }
    return sum;
}
static int64_t energy(const uint32_t *f) { return part(0, f) + part(1, f) + part(2, f); }
static uint32_t moved(uint32_t old, int bit, int a, int b) {
    if (a == b) return bit ? (uint32_t)a : old;
    return old != (uint32_t)a && old != (uint32_t)b ? old : (uint32_t)(bit ? b : a);
}
static int count(const uint32_t *f, int label) {
    int found = 0;
    for (int s = 0; s < p.sites; s++) found += f[s] == (uint32_t)label;
    return found;
}

/* one move; no where a term is not regular */
static int move(int a, int b) {
    for (int n = 0; n < p.pairs; n++) {
        const uint32_t f = p.at[p.pair[n].first], g = p.at[p.pair[n].second];
        int64_t e[4];
        for (int bits = 0; bits < 4; bits++) e[bits] = pair_cost(n, moved(f, bits / 2, a, b), moved(g, bits % 2, a, b));
        if (e[0] + e[3] <= e[1] + e[2]) continue;
        p.failing = n, p.alpha = a, p.beta = b;
        return 0;
    }
    uint32_t best[SITES], f[SITES];
    memcpy(best, p.at, sizeof best);
    int64_t least = energy(p.at);
    int is_better = 0;
    for (int bits = 0; bits < 1 << p.sites; bits++) {
        memcpy(f, p.at, sizeof f);
        for (int s = 0; s < p.sites; s++) f[s] = moved(p.at[s], bits >> s & 1, a, b);
        const int64_t value = energy(f);
        /* of several better ones that with the fewest sites at the last label of the move */
        if (value < least || (is_better && value == least && count(f, b) < count(best, b))) {
            is_better |= value < least;
            least = value;
            memcpy(best, f, sizeof f);
        }
    }
    memcpy(p.at, best, sizeof best);
    return 1;
}

static int chain(int is_swap, int most) {
    for (p.cycles = 0, p.settled = 0; p.cycles < most && !p.settled; p.cycles++) {
        uint32_t before[SITES];
        memcpy(before, p.at, sizeof before);
        for (int a = 0; a < p.labels; a++)
            for (int b = is_swap ? a + 1 : a; b < (is_swap ? p.labels : a + 1); b++)
                if (!move(a, b)) return 0;
        p.settled = !memcmp(before, p.at, sizeof before);
    }
    return 1;
}

static void make(void) {
    memset(&p, 0, sizeof p);
    p.sites = below(SITES + 1), p.labels = 1 + below(LABELS), p.numbered = below(2);
    const int k = p.labels, steep = below(3);
    for (int i = 0; i < p.sites * k; i++) p.data[i] = below(12);
    for (int s = 0; s < p.sites; s++)
        for (int t = s + 1; t < p.sites && p.pairs < PAIRS; t++)
            if (below(3)) {
                const gco_pair up = {(uint32_t)s, (uint32_t)t, (uint32_t)below(4)}, down = {(uint32_t)t, (uint32_t)s, 1};
                p.pair[p.pairs++] = below(2) ? up : down;
            }
    p.tables = p.numbered ? 1 + below(4) : p.pairs + below(2);
    for (int n = 0; n < p.pairs; n++) p.number[n] = (uint32_t)below(p.tables);
    for (int t = 0; t < p.tables; t++) {
        int far[LABELS], toll = below(3);
        for (int l = 0; l < k; l++) far[l] = below(6);
        for (int a = 0; a < k; a++)
            for (int b = 0; b < k; b++)
                p.table[(t * k + a) * k + b] = steep == 0 ? below(9) : a == b ? 0 : toll + abs(far[a] - far[b]);
    }
    for (int l = 0; below(4) == 0 && l < k; l++) p.paid[l] = below(5);
    for (int s = 0; s < p.sites; s++) p.at[s] = (uint32_t)below(k);
}

/* the bound is at most the least energy of all labellings, and at least what the cheapest labels cost the sites */
static int bounded_by_definition(int *met) {
    const uint32_t k = (uint32_t)p.labels;
    const size_t n = (size_t)p.sites, entries = (size_t)p.tables * k * k, numbers = p.numbered ? (size_t)p.pairs : 0;
    uint32_t f[SITES] = {0}, at[SITES];
    int64_t least = energy(f), cheapest = 0;
    for (int s = 0; s < p.sites;) {
        if (++f[s] == k) {
            f[s++] = 0;
            continue;
        }
        const int64_t value = energy(f);
        least = value < least ? value : least;
        s = 0;
    }
    for (int s = 0; s < p.sites; s++) {
        int64_t low = p.data[s * p.labels];
        for (int l = 1; l < p.labels; l++) low = p.data[s * p.labels + l] < low ? p.data[s * p.labels + l] : low;
        cheapest += low;
    }
    memcpy(at, p.at, sizeof at);
    WANT(BFRESH(gco_lower_bound_pairs(k, p.data, n * k, (uint32_t)p.tables, p.table, entries, p.paid, k, p.pair, (size_t)p.pairs, p.number,
                                      numbers, (uint32_t)(below(3) ? 50 : below(3)), GCO_ANY_SIZE, at, n, &bound)) == GCO_OK);
    WANT(cheapest <= bound.low && bound.low <= least && bound.place == 0);
    for (int s = 0; s < p.sites; s++) WANT(at[s] < k);
    *met += bound.low == least;
    return 0;
}

static int by_definition(int *answered, int *irregular, int *met) {
    make();
    if (bounded_by_definition(met)) return 1;
    const uint32_t k = (uint32_t)p.labels;
    const size_t n = (size_t)p.sites, entries = (size_t)p.tables * k * k, numbers = p.numbered ? (size_t)p.pairs : 0;
    const int is_swap = below(2), most = below(3) ? 50 : below(3), is_single = below(3) == 0, a = below(p.labels), b = below(p.labels);
    int has_cost = 0;
    for (int l = 0; l < p.labels; l++) has_cost |= p.paid[l] > 0;
    uint32_t at[SITES], start[SITES], status;
    memcpy(at, p.at, sizeof at);
    memcpy(start, p.at, sizeof at);
#define ARRAYS k, p.data, n * k, (uint32_t)p.tables, p.table, entries, p.paid, k, p.pair, (size_t)p.pairs, p.number, numbers
    int is_right = 1;
    if (!is_single) {
        status = FRESH(gco_label_pairs(ARRAYS, (uint32_t)is_swap, (uint32_t)most, at, n, &told));
        if (!(is_swap && has_cost)) is_right = chain(is_swap, most);
    } else if (is_swap) {
        status = FRESH(gco_swap_pairs(ARRAYS, (uint32_t)a, (uint32_t)b, at, n, &told));
        if (!has_cost && a != b) is_right = move(a, b);
    } else {
        status = FRESH(gco_expand_pairs(ARRAYS, (uint32_t)a, at, n, &told));
        is_right = move(a, a);
    }
    if (is_swap && has_cost) {
        WANT(status == GCO_LABEL_COST_IN_SWAP && tells((gco_outcome){0}));
    } else if (!is_right) {
        WANT(status == GCO_NOT_REGULAR && tells((gco_outcome){.place = (uint64_t)p.failing, .alpha = (uint32_t)p.alpha, .beta = (uint32_t)p.beta}));
        WANT(!memcmp(at, start, sizeof at));
        ++*irregular;
    } else {
        gco_outcome due = {.data = part(0, p.at), .smooth = part(1, p.at), .label = part(2, p.at)};
        if (is_single) {
            due.changed = memcmp(start, p.at, sizeof start) != 0;
        } else {
            due.cycles = (uint32_t)p.cycles;
            due.settled = (uint32_t)p.settled;
        }
        WANT(status == GCO_OK && tells(due) && !memcmp(at, p.at, sizeof at));
        ++*answered;
    }
    return 0;
}

int main(void) {
    int answered = 0, irregular = 0, met = 0;
    if (worked() || refused() || bounded()) return 1;
    for (int turn = 0; turn < 2000; turn++)
        if (by_definition(&answered, &irregular, &met)) return 1;
    WANT(answered > 1000 && irregular > 100 && met > 1000);
    printf("c: pairs with costs of their own, 2,000 random problems by the definition (%d answered, %d not regular, %d whose bound is the least energy)\n",
           answered, irregular, met);
    return 0;
}
