// 2,000 random problems of labels, 2,000 whose pairs have costs of their own, and 2,000 of yes-no
// variables and graphs, against the definitions.
#include <memory>
#include "GCoptimization.h"
#include "by_definition.h"
#include "energy.h"
#include "wanted.h"

static std::size_t as(int number) { return static_cast<std::size_t>(number); }

// how a problem's costs are handed over
struct Costs : GCoptimization::DataCostFunctor, GCoptimization::SmoothCostFunctor {
    const Definition *of;
    std::vector<int> table;
    int compute(int s, int l) { return static_cast<int>(of->data[as(s)][as(l)]); }
    // a multiple for each pair, times the table or the pair's own
    int compute(int p, int q, int a, int b) {
        for (std::size_t i = 0; i < of->pairs.size(); i++) {
            const Neighbours &pair = of->pairs[i];
            if (pair.p == p && pair.q == q) return static_cast<int>(of->pair_cost(i, a, b));
            if (pair.p == q && pair.q == p) return static_cast<int>(of->pair_cost(i, b, a));
        }
        std::abort();
    }
};
static int data_of(int s, int l, void *costs) { return static_cast<Costs *>(costs)->compute(s, l); }
static int smooth_of(int p, int q, int a, int b, void *costs) {
    return static_cast<Costs *>(costs)->compute(p, q, a, b);
}

// with `by_function` the greater site of a pair is its first, as a function is asked
static Definition made(Random &random, bool by_function) {
    Definition d;
    d.sites = random.from(0, 5);
    d.labels = random.from(1, 3);
    const int k = d.labels, spread = random.below(2) ? 4 : 12, below = random.below(3) ? 0 : 1000;
    d.data.assign(as(d.sites), std::vector<long long>(as(k)));
    d.smooth.assign(as(k), std::vector<long long>(as(k)));
    const int shape = random.below(4), scale = random.below(3) ? 1 : 7000;
    for (auto &row : d.data)
        for (auto &cost : row) cost = scale * (random.below(spread) - below);
    for (int a = 0; a < k; a++)
        for (int b = 0; b < k; b++) {
            const int far = std::abs(a - b);
            d.smooth[as(a)][as(b)] = shape == 0   ? a != b
                                     : shape == 1 ? std::min(far, 2)
                                     : shape == 2 ? far * far
                                                  : random.below(4);
        }
    for (int p = 0; p < d.sites; p++)
        for (int q = p + 1; q < d.sites; q++) {
            if (random.below(5) < 2) continue;
            const Neighbours up = {p, q, 0}, down = {q, p, 0};
            d.pairs.push_back(!by_function && random.below(2) ? up : down);
            // some weights are above 1,000, with a common factor or without
            const int weights[] = {random.below(4), 7000 * random.below(4),
                                   7000 * random.below(4) + random.below(2)};
            d.pairs.back().weight = scale == 1 ? weights[0] : weights[1 + random.below(2)];
        }
    if (random.below(4) == 0)
        for (int l = 0; l < k; l++) d.label_costs.push_back(scale * random.below(5));
    for (int s = 0; s < d.sites; s++) d.at.push_back(random.below(k));
    return d;
}

// a table for each pair: mostly a metric of that pair, else any costs
static void give_own(Definition &d, Random &random) {
    const std::size_t k = as(d.labels);
    const int shape = random.below(3);
    for (std::size_t i = 0; i < d.pairs.size(); i++) {
        std::vector<std::vector<long long>> table(k, std::vector<long long>(k));
        std::vector<int> far;
        for (std::size_t l = 0; l < k; l++) far.push_back(random.below(6));
        const int toll = random.below(3);
        for (std::size_t a = 0; a < k; a++)
            for (std::size_t b = 0; b < k; b++)
                table[a][b] = shape == 0 ? random.below(9)
                              : a == b   ? 0
                                         : toll + std::abs(far[a] - far[b]);
        d.own.push_back(table);
    }
}

static void hand_over(const Definition &d, GCoptimizationGeneralGraph &gc, Costs &costs,
                      Random &random, int kind) {
    costs.of = &d;
    const int k = d.labels;
    switch (random.below(4)) {
    case 0: {
        std::vector<int> table;
        for (const auto &row : d.data) table.insert(table.end(), row.begin(), row.end());
        gc.setDataCost(table.data());
        break;
    }
    case 1: gc.setDataCost(data_of, &costs); break;
    case 2: gc.setDataCostFunctor(&costs); break;
    default:
        for (int s = 0; s < d.sites; s++)
            for (int l = 0; l < k; l++)
                gc.setDataCost(s, l, static_cast<int>(d.data[as(s)][as(l)]));
    }
    for (const Neighbours &pair : d.pairs)
        gc.setNeighbors(pair.p, pair.q, kind == 0 ? static_cast<int>(pair.weight) : 1);
    if (kind == 1) gc.setSmoothCost(smooth_of, &costs);
    if (kind == 2) gc.setSmoothCostFunctor(&costs);
    for (int a = 0; kind == 0 && a < k; a++)
        for (int b = 0; b < k; b++)
            gc.setSmoothCost(a, b, static_cast<int>(d.smooth[as(a)][as(b)]));
    if (!d.label_costs.empty()) {
        std::vector<int> own(d.label_costs.begin(), d.label_costs.end());
        gc.setLabelCost(own.data());
    }
    for (int s = 0; s < d.sites; s++) gc.setLabel(s, d.at[as(s)]);
}

static std::string irregular(const Definition &d) {
    const Neighbours &pair = d.pairs[as(d.failing_pair)];
    return "the smooth cost is no metric: the term of sites " + std::to_string(pair.p) + " and " +
           std::to_string(pair.q) + " is not regular in the " +
           (d.alpha == d.beta
                ? "expansion of label " + std::to_string(d.alpha)
                : "swap of labels " + std::to_string(d.alpha) + " and " + std::to_string(d.beta));
}

struct Counts {
    int answered = 0, irregular = 0, label_cost = 0, heavy = 0, met = 0;
};

// whether some labelling costs just what the bound is: none costs less, and the cheapest labels of
// the sites no more
static bool is_met(const Definition &d, long long low) {
    std::vector<int> f(as(d.sites), 0);
    long long least = d.energy(f), cheapest = 0;
    for (std::size_t s = 0; s < f.size();) {
        if (++f[s] == d.labels) {
            f[s++] = 0;
            continue;
        }
        least = std::min(least, d.energy(f));
        s = 0;
    }
    for (const auto &row : d.data) cheapest += *std::min_element(row.begin(), row.end());
    WANT(cheapest <= low && low <= least);
    return low == least;
}

static void labels_by_definition(Random &random, Counts &counts, bool has_own) {
    // a table and weights, or the weights inside a function
    const int kind = has_own ? random.from(1, 2) : random.below(3);
    Definition d = made(random, kind != 0);
    if (has_own) give_own(d, random);
    const std::vector<int> start = d.at;
    Costs costs;
    GCoptimizationGeneralGraph gc(d.sites, d.labels);
    hand_over(d, gc, costs, random, kind);
    // over pairs with tables a run that is watched is made move by move
    if (has_own && random.below(3) == 0)
        gc.setWatch([](const GCoptimization::Progress &) { return true; });
    const bool is_swap = random.below(2) != 0;
    const int most = random.below(3) ? 50 : random.below(3);
    bool has_label_cost = false;
    for (long long cost : d.label_costs) has_label_cost = has_label_cost || cost > 0;
    WANT(gc.compute_energy() == d.energy(start));
    counts.met += is_met(d, gc.lowerBound(random.below(3) ? -1 : random.below(3)));
    std::string told;
    long long energy = 0;
    try {
        energy = is_swap ? gc.swap(most) : gc.expansion(most);
    } catch (const GCException &refusal) {
        told = refusal.message;
    }
    if (is_swap && has_label_cost) {
        WANT(told == "a swap is asked for, and a label costs more than 0 by itself");
        counts.label_cost++;
        d.at = start;
    } else if (!d.run(is_swap, most)) {
        WANT(told == irregular(d));
        counts.irregular++;
        d.at = start;
    } else {
        WANT(told.empty() && energy == d.energy(d.at));
        WANT(gc.outcome().cycles == static_cast<unsigned>(d.cycles) &&
             (gc.outcome().settled != 0) == d.is_settled);
        counts.answered++;
        for (const Neighbours &pair : d.pairs)
            if (pair.weight > 1000) {
                counts.heavy++;
                break;
            }
    }
    for (int s = 0; s < d.sites; s++) WANT(gc.whatLabel(s) == d.at[as(s)]);
    WANT(gc.giveDataEnergy() == d.data_energy(d.at) &&
         gc.giveSmoothEnergy() == d.smooth_energy(d.at) &&
         gc.giveLabelEnergy() == d.label_energy(d.at));
    // one move more
    const int a = random.below(d.labels), b = random.below(d.labels);
    if (has_label_cost || a == b) {
        const std::vector<int> before = d.at;
        if (d.move(a, a)) WANT(gc.alpha_expansion(a) == (before != d.at));
    } else if (d.move(std::min(a, b), std::max(a, b))) {
        gc.alpha_beta_swap(std::min(a, b), std::max(a, b));
    }
    for (int s = 0; s < d.sites; s++) WANT(gc.whatLabel(s) == d.at[as(s)]);
}

// terms over n variables as a list of all 2^n values, the first variable being the lowest bit
struct Values {
    explicit Values(int count) : n(count), at(std::size_t(1) << count, 0) {}
    template <typename Cost> void add(Cost cost) {
        for (int x = 0; x < 1 << n; x++) at[as(x)] += cost(x);
    }
    int n;
    std::vector<long long> at;
};

static void add_random_terms(Random &random, Energy<int, int, long long> &e, Values &values) {
    const int n = values.n, count = n < 2 ? 0 : random.below(8), constant = random.from(-10, 10);
    e.add_constant(constant);
    values.add([=](int) { return constant; });
    for (int i = 0; i < n; i++) {
        const int at0 = random.from(-4, 4), at1 = random.from(-4, 4);
        e.add_term1(i, at0, at1);
        values.add([=](int x) { return x >> i & 1 ? at1 : at0; });
    }
    for (int i = 0; i < count; i++) {
        const int p = random.below(n), q = (p + 1 + random.below(n - 1)) % n;
        const int a = random.from(-4, 4), b = random.from(-4, 4), c = random.from(-4, 4),
                  d = b + c - a - random.below(4);
        const int two[] = {a, b, c, d};
        if (random.below(3) == 0) {
            const int cap = random.below(5), back = random.below(5);
            e.add_edge(p, q, cap, back);
            values.add([=](int x) {
                return (x >> p & 1) < (x >> q & 1) ? cap : (x >> p & 1) > (x >> q & 1) ? back : 0;
            });
        } else {
            e.add_term2(p, q, a, b, c, d);
            values.add([=](int x) { return two[2 * (x >> p & 1) + (x >> q & 1)]; });
        }
    }
}

// a random term of three: where it is not regular it has to be refused with the first place where
// that is
static void add_random_three(Random &random, Energy<int, int, long long> &e, Values &values,
                             int &refused) {
    const int n = values.n, first = random.below(n),
              v[3] = {first, (first + 1) % n, (first + 2) % n};
    int at[8];
    for (int &number : at) number = random.from(-3, 3);
    if (random.below(3) != 0)   // make it regular mostly: each 1 more saves more
        for (int i = 0; i < 8; i++)
            at[i] = -(i % 2 + i / 2 % 2 + i / 4) * (i % 2 + i / 2 % 2 + i / 4) * 2 +
                    random.below(2);
    std::string where;
    for (int fixed = 0; fixed < 3 && where.empty(); fixed++)
        for (int value = 0; value < 2 && where.empty(); value++) {
            const int steps[] = {4, 2, 1}, from = value * steps[fixed], i = steps[fixed == 0],
                      j = steps[fixed == 2 ? 1 : 2];
            if (at[from] + at[from + i + j] > at[from + i] + at[from + j])
                where = " is not regular where variable " + std::to_string(v[fixed]) + " is " +
                        std::to_string(value) + ": E(0,0) + E(1,1) is above E(0,1) + E(1,0) there";
        }
    std::string told;
    try {
        e.add_term3(v[0], v[1], v[2], at[0], at[1], at[2], at[3], at[4], at[5], at[6], at[7]);
    } catch (const std::invalid_argument &refusal) {
        told = refusal.what();
        refused++;
    }
    WANT(where.empty()
             ? told.empty()
             : told.size() > where.size() && told.substr(told.size() - where.size()) == where);
    if (where.empty())
        values.add(
            [&](int x) { return at[4 * (x >> v[0] & 1) + 2 * (x >> v[1] & 1) + (x >> v[2] & 1)]; });
}

static void energies_by_definition(Random &random, int &refused) {
    const int n = random.from(1, 6);
    Energy<int, int, long long> e(n, 8);
    WANT(e.add_variable(n) == 0);
    Values values(n);
    for (int turn = 0; turn < 2; turn++) {   // and once more with terms added to the same energy
        add_random_terms(random, e, values);
        for (int i = 0; n > 2 && i < 2; i++) add_random_three(random, e, values, refused);
        const long long least = *std::min_element(values.at.begin(), values.at.end());
        int all = (1 << n) - 1, any = 0;
        for (int x = 0; x < 1 << n; x++)
            if (values.at[as(x)] == least) {
                all &= x;
                any |= x;
            }
        WANT(e.minimize() == least);
        for (int i = 0; i < n; i++) {
            WANT(e.get_var(i) == (all >> i & 1));
            WANT((e.what_segment(i) == e.SINK) == ((all >> i & 1) != 0));
            WANT((e.what_segment(i, e.SINK) == e.SINK) == ((any >> i & 1) != 0));
        }
    }
}

int main() {
    Random random(7);
    Counts counts;
    for (int turn = 0; turn < 2000; turn++) labels_by_definition(random, counts, false);
    WANT(counts.answered > 1000 && counts.irregular > 50 && counts.label_cost > 50 &&
         counts.heavy > 200 && counts.met > 1000);
    Counts own;
    for (int turn = 0; turn < 2000; turn++) labels_by_definition(random, own, true);
    WANT(own.answered > 1000 && own.irregular > 50 && own.label_cost > 50 && own.met > 1000);
    int refused = 0;
    for (int turn = 0; turn < 2000; turn++) energies_by_definition(random, refused);
    WANT(refused > 500);
    std::printf("c++: 2,000 random problems of labels by the definition (%d answered, of which %d "
                "heavy, %d not regular), 2,000 of pairs with costs of their own (%d answered, %d "
                "not regular), 2,000 energies (%d terms refused)\n",
                counts.answered, counts.heavy, counts.irregular, own.answered, own.irregular,
                refused);
    return 0;
}
