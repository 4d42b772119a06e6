// Chains of best moves by the definition: each move tries every labelling that it reaches.
#ifndef BY_DEFINITION_H
#define BY_DEFINITION_H

#include <algorithm>
#include <cstddef>
#include <vector>

struct Neighbours {
    int p, q;
    long long weight;
};

struct Definition {
    int sites, labels;
    std::vector<std::vector<long long>> data,
        smooth;   // by site and label, by label of the first and of the second
    std::vector<Neighbours> pairs;
    std::vector<std::vector<std::vector<long long>>>
        own;   // where pairs have costs of their own: a table for each in place of `smooth`
    std::vector<long long> label_costs;
    std::vector<int> at;   // the labelling
    int failing_pair = -1, alpha = -1, beta = -1, cycles = 0;
    bool is_settled = false;

    static std::size_t as(int number) { return static_cast<std::size_t>(number); }

    long long data_energy(const std::vector<int> &f) const {
        long long sum = 0;
        for (int s = 0; s < sites; s++) sum += data[as(s)][as(f[as(s)])];
        return sum;
    }
    long long pair_cost(std::size_t i, int a, int b) const {
        return pairs[i].weight * (own.empty() ? smooth : own[i])[as(a)][as(b)];
    }
    long long smooth_energy(const std::vector<int> &f) const {
        long long sum = 0;
        for (std::size_t i = 0; i < pairs.size(); i++)
            sum += pair_cost(i, f[as(pairs[i].p)], f[as(pairs[i].q)]);
        return sum;
    }
    long long label_energy(const std::vector<int> &f) const {
        long long sum = 0;
        for (int l = 0; l < static_cast<int>(label_costs.size()); l++)
            if (std::find(f.begin(), f.end(), l) != f.end()) sum += label_costs[as(l)];
        return sum;
    }
    long long energy(const std::vector<int> &f) const {
        return data_energy(f) + smooth_energy(f) + label_energy(f);
    }

    // what a site with the label `old` has where its bit is 0 or 1; an expansion is a move of twice
    // the same label
    static int moved(int old, int bit, int a, int b) {
        if (a == b) return bit != 0 ? a : old;
        return old != a && old != b ? old : bit != 0 ? b : a;
    }

    // one move; no where a term is not regular
    bool move(int a, int b) {
        for (std::size_t i = 0; i < pairs.size(); i++) {
            long long at_bits[4];
            for (int bits = 0; bits < 4; bits++)
                at_bits[bits] = pair_cost(i, moved(at[as(pairs[i].p)], bits / 2, a, b),
                                          moved(at[as(pairs[i].q)], bits % 2, a, b));
            if (at_bits[0] + at_bits[3] <= at_bits[1] + at_bits[2]) continue;
            failing_pair = static_cast<int>(i), alpha = a, beta = b;
            return false;
        }
        std::vector<int> best = at;
        long long least = energy(at);
        bool is_better = false;
        for (int bits = 0; bits < 1 << sites; bits++) {
            std::vector<int> f = at;
            for (int s = 0; s < sites; s++) f[as(s)] = moved(at[as(s)], bits >> s & 1, a, b);
            const long long value = energy(f);
            // of several better ones, that with the fewest sites at the last label of the move
            if (value < least ||
                (is_better && value == least &&
                 std::count(f.begin(), f.end(), b) < std::count(best.begin(), best.end(), b))) {
                is_better = is_better || value < least;
                least = value;
                best = f;
            }
        }
        at = best;
        return true;
    }

    // a run of at most so many cycles; no where a term is not regular
    bool run(bool is_swap, int most) {
        for (cycles = 0; cycles < most && !is_settled; cycles++) {
            const std::vector<int> before = at;
            for (int a = 0; a < labels; a++)
                for (int b = is_swap ? a + 1 : a; b < (is_swap ? labels : a + 1); b++)
                    if (!move(a, b)) return false;
            is_settled = at == before;
        }
        return true;
    }
};

#endif
