// Runs that are watched, and stopped after some of their moves: 1,000 random problems against the
// definition. With setVerbosity(2) a stretch is one move, so each of them is told.
#include <stdexcept>
#include "GCoptimization.h"
#include "by_definition.h"
#include "wanted.h"

static std::size_t as(int number) { return static_cast<std::size_t>(number); }

static Definition some_problem(Random &random) {
    Definition d;
    d.sites = random.from(0, 5);
    d.labels = random.from(1, 4);
    const int k = d.labels, shape = random.below(3), spread = random.below(2) ? 4 : 12;
    d.data.assign(as(d.sites), std::vector<long long>(as(k)));
    d.smooth.assign(as(k), std::vector<long long>(as(k)));
    for (auto &row : d.data)
        for (auto &cost : row) cost = random.below(spread) - 2;
    for (int a = 0; a < k; a++)
        for (int b = 0; b < k; b++)
            d.smooth[as(a)][as(b)] = shape == 0   ? a != b
                                     : shape == 1 ? std::min(std::abs(a - b), 2)
                                                  : random.below(4);
    for (int p = 0; p < d.sites; p++)
        for (int q = p + 1; q < d.sites; q++)
            if (random.below(5) < 2) d.pairs.push_back({p, q, random.below(4)});
    for (int s = 0; s < d.sites; s++) d.at.push_back(random.below(k));
    return d;
}

// a labelling of the chain of moves, and the move that led there
struct Made {
    int cycle, alpha, beta;
    std::vector<int> at;
};

// the moves of a run in an order of labels, until one is refused
static std::vector<Made> chain_of(Definition d, bool is_swap, int cycles,
                                  const std::vector<int> &order, bool &is_refused) {
    std::vector<Made> chain;
    const int count = static_cast<int>(order.size());
    bool is_settled = false;
    is_refused = false;
    for (int cycle = 1; cycle <= cycles && !is_settled; cycle++) {
        const std::vector<int> before = d.at;
        for (int i = 0; i < count; i++)
            for (int j = is_swap ? i + 1 : i; j < (is_swap ? count : i + 1); j++) {
                is_refused = !d.move(order[as(i)], order[as(j)]);
                if (is_refused) return chain;
                chain.push_back({cycle, order[as(i)], order[as(j)], d.at});
            }
        is_settled = d.at == before;
    }
    return chain;
}

// the places of the moves that a run tells: those at its end that are known to change nothing are
// one with the last of them
static std::vector<std::size_t> told_of(const std::vector<Made> &chain, const Definition &start,
                                        std::size_t length) {
    std::size_t last = 0, count = 0;
    for (std::size_t i = 0; i < chain.size(); i++)
        if (chain[i].at != (i > 0 ? chain[i - 1].at : start.at)) last = i;
    std::vector<std::size_t> told;
    for (count = std::min(last + length, chain.size()); told.size() + 1 < count;)
        told.push_back(told.size());
    if (count > 0) told.push_back(chain.size() - 1);
    return told;
}

static bool is_told(const Made &made, const GCoptimization::Progress &progress) {
    return made.cycle == progress.cycle && made.alpha == progress.alpha &&
           made.beta == progress.beta;
}

struct Counts {
    int ended = 0, stopped = 0, refused = 0;
};

static void watch(Random &random, Counts &counts) {
    const Definition d = some_problem(random);
    const bool is_swap = random.below(2) != 0, is_ordered = random.below(3) == 0;
    const int cycles = random.below(3) ? 50 : random.below(3), k = d.labels;
    GCoptimizationGeneralGraph gc(d.sites, k);
    for (int s = 0; s < d.sites; s++)
        for (int l = 0; l < k; l++) gc.setDataCost(s, l, int(d.data[as(s)][as(l)]));
    for (int a = 0; a < k; a++)
        for (int b = 0; b < k; b++) gc.setSmoothCost(a, b, int(d.smooth[as(a)][as(b)]));
    for (const Neighbours &pair : d.pairs) gc.setNeighbors(pair.p, pair.q, int(pair.weight));
    std::vector<int> order;
    for (int l = 0; l < k; l++) order.push_back(is_ordered ? k - 1 - l : l);
    gc.setLabelOrder(order.data(), k);
    const std::size_t length = as(is_swap ? k * (k - 1) / 2 : k);
    bool is_refused = false;
    const std::vector<Made> chain = chain_of(d, is_swap, cycles, order, is_refused);
    // an order that is not the rising one is made move by move, and each of them is told
    std::vector<std::size_t> told = told_of(chain, d, length);
    if (is_refused || (is_ordered && k > 1)) told = told_of(chain, d, chain.size());
    const bool is_each = random.below(3) != 0;
    gc.setVerbosity(is_each ? 2 : random.below(2));
    const std::size_t stop = std::size_t(random.below(int(told.size()) + 2));
    std::vector<GCoptimization::Progress> seen;
    gc.setWatch([&](const GCoptimization::Progress &progress) {
        seen.push_back(progress);
        return seen.size() != stop;
    });
    for (int s = 0; s < d.sites; s++) gc.setLabel(s, d.at[as(s)]);
    long long energy = 0;
    try {
        energy = is_swap ? gc.swap(cycles) : gc.expansion(cycles);
    } catch (const GCException &) {
        WANT(is_refused);
        for (int s = 0; s < d.sites; s++) WANT(gc.whatLabel(s) == d.at[as(s)]);
        counts.refused++;
        return;
    }
    // each call by the definition, in the order of the moves
    std::size_t at = 0;
    for (std::size_t i = 0; i < seen.size(); i++, at++) {
        while (at < chain.size() && !is_told(chain[at], seen[i])) at++;
        WANT(at < chain.size() && seen[i].energy == d.energy(chain[at].at));
        WANT(!(is_each || is_ordered) || at == told[i]);
    }
    const std::vector<int> &end = seen.empty() ? d.at : chain[at - 1].at;
    WANT(energy == d.energy(end));
    for (int s = 0; s < d.sites; s++) WANT(gc.whatLabel(s) == end[as(s)]);
    const bool is_stopped = seen.size() == stop && (is_refused || at < chain.size());
    WANT(is_stopped || at == chain.size());
    // whole cycles; of swaps of one label there is one without a move
    const std::size_t whole = length > 0 ? at / length : std::size_t(std::min(cycles, 1));
    WANT(gc.outcome().cycles == whole && !(is_stopped && gc.outcome().settled));
    (is_stopped ? counts.stopped : counts.ended)++;
}

// what a watch throws comes through, and leaves the labels as they were; none is called that was
// taken away
static void throwing() {
    GCoptimizationGridGraph gc(2, 1, 2);
    gc.setDataCost(0, 0, 5);
    gc.setWatch([](const GCoptimization::Progress &) -> bool { throw std::runtime_error("mine"); });
    WANT(throws<std::runtime_error>("mine", [&] { gc.expansion(); }, what_of<std::runtime_error>));
    WANT(gc.whatLabel(0) == 0);
    gc.setWatch(nullptr);
    WANT(gc.expansion() == 0 && gc.whatLabel(0) == 1);
}

int main(int, char **arguments) {
    if (!std::freopen(arguments[1], "w", stdout)) return 1;
    Random random(5);
    Counts counts;
    for (int turn = 0; turn < 1000; turn++) watch(random, counts);
    throwing();
    WANT(counts.ended > 200 && counts.stopped > 200 && counts.refused > 20);
    std::fprintf(stderr, "c++: watched, %d ended, %d stopped, %d refused\n", counts.ended,
                 counts.stopped, counts.refused);
    return 0;
}
