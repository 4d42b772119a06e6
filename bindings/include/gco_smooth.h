// The smooth costs of GCoptimization.h, as gco.h takes them: one table of the labels and a weight
// for each pair, or a table for each pair. A part of that header, which includes it.
#ifndef GCO_SMOOTH_H
#define GCO_SMOOTH_H

#include <algorithm>
#include <cstddef>
#include <cstdint>
#include <cstdio>
#include <functional>
#include <memory>
#include <string>
#include <utility>
#include <vector>

#include "gco.h"

struct GCException {
    explicit GCException(const std::string &m)
        : text(std::make_shared<std::string>(m)), message(text->c_str()) {}
    explicit GCException(const char *literal) : message(literal) {}
    void Report() const { std::printf("\n%s\n", message); }

private:
    // kept by each copy, since the graph may be gone when it is caught
    std::shared_ptr<std::string> text;

public:
    const char *message;
};

namespace gco_smooth {
// what two sites and their labels cost
typedef std::function<std::int32_t(int, int, int, int)> Function;

inline std::string names(std::int64_t p, std::int64_t q) {
    return "sites " + std::to_string(p) + " and " + std::to_string(q);
}

inline std::uint64_t common(std::uint64_t a, std::uint64_t b) {
    while (b != 0) {
        const std::uint64_t rest = a % b;
        a = b;
        b = rest;
    }
    return a;
}

// the smooth costs of a call: pairs within the limit of weights, and a table with a row for
// each label of the first site; or pairs of weight 1, and such a table for each of them
struct Laid {
    Laid(std::size_t labels, const std::vector<gco_pair> &all,
         const std::vector<std::int32_t> &costs, const Function &asked)
        : given(all), function(asked), k(labels), pairs(&all), table(k * k) {
        if (function) {
            ask_function();
            return;
        }
        for (std::size_t a = 0; a < k; a++)
            for (std::size_t b = 0; b < k; b++) table[a * k + b] = costs[a + b * k];
        check_table();
        if (is_within()) return;
        const std::uint64_t factor = divide_by_common(table);
        weights.reserve(given.size());
        for (const gco_pair &pair : given) weights.push_back(factor * pair.weight);
        lay(given);
    }
    Laid(const Laid &) = delete;
    Laid &operator=(const Laid &) = delete;

    void check_table() const {
        for (std::size_t at = 0; at < table.size(); at++)
            if (table[at] < 0)
                throw GCException(cost_name(at) + " is " + std::to_string(table[at]) +
                                  ", below 0");
    }
    std::string cost_name(std::size_t at) const {
        return "the smooth cost of labels " + std::to_string(at / k) + " and " +
               std::to_string(at % k);
    }
    bool is_within() const {
        for (std::int32_t cost : table)
            if (cost > GCO_SMOOTH_LIMIT) return false;
        for (const gco_pair &pair : *pairs)
            if (pair.weight > GCO_WEIGHT_LIMIT) return false;
        return true;
    }
    static std::uint64_t divide_by_common(std::vector<std::int32_t> &costs) {
        std::uint64_t factor = 0;
        for (std::int32_t cost : costs) factor = common(factor, std::uint64_t(cost));
        if (factor > 1)
            for (std::int32_t &cost : costs) cost = std::int32_t(std::uint64_t(cost) / factor);
        return factor;
    }
    // gives the table as much of the weights' common factor as it can take, and lays down what
    // is left of each weight
    void lay(const std::vector<gco_pair> &sites) {
        const std::int64_t most = *std::max_element(table.begin(), table.end());
        if (most > GCO_SMOOTH_LIMIT) throw GCException(too_much(most));
        std::uint64_t all = 0, factor = 1;
        for (std::uint64_t weight : weights) all = common(all, weight);
        if (most > 0 && all > 0) {
            factor = std::uint64_t(GCO_SMOOTH_LIMIT / most);
            while (all % factor != 0) factor--;
        }
        for (std::int32_t &cost : table) cost = std::int32_t(std::uint64_t(cost) * factor);
        check_count(sites, factor);
        for (std::size_t i = 0; i < sites.size(); i++) {
            std::uint64_t rest = weights[i] / factor;
            for (; rest > GCO_WEIGHT_LIMIT; rest -= GCO_WEIGHT_LIMIT)
                add(sites[i], GCO_WEIGHT_LIMIT);
            add(sites[i], std::uint32_t(rest));
        }
        pairs = &own;
    }
    void add(const gco_pair &sites, std::uint32_t weight) {
        const gco_pair pair = {sites.first, sites.second, weight};
        if (weight != 0) own.push_back(pair);
    }
    std::string too_much(std::int64_t most) const {
        const std::ptrdiff_t at = std::max_element(table.begin(), table.end()) - table.begin();
        return cost_name(std::size_t(at)) + " is " + std::to_string(most) +
               " without the common factor of all smooth costs, and at most 10,000 is taken";
    }
    // how many pairs are to be laid down, before memory is asked for them
    void check_count(const std::vector<gco_pair> &sites, std::uint64_t factor) {
        std::uint64_t count = 0;
        std::size_t greatest = 0;
        for (std::size_t i = 0; i < sites.size(); i++) {
            if (weights[i] > weights[greatest]) greatest = i;
            const std::uint64_t parts = (weights[i] / factor + GCO_WEIGHT_LIMIT - 1) /
                                        GCO_WEIGHT_LIMIT;
            count += std::min<std::uint64_t>(parts, GCO_PAIR_LIMIT + 1);
        }
        if (count > GCO_PAIR_LIMIT)
            throw GCException("the weights come to more than 4,194,304 pairs of a weight of at "
                              "most 1,000, and the greatest "
                              "is that of " +
                              names(sites[greatest].first, sites[greatest].second) +
                              ": scale the weights down");
        own.reserve(std::size_t(count));
    }

    // the costs of one pair, as gco-v3 asks for them: the greater site first
    void ask_pair(const gco_pair &pair, std::vector<std::int32_t> &costs) const {
        for (std::size_t a = 0; a < k; a++)
            for (std::size_t b = 0; b < k; b++) {
                const std::int32_t cost =
                    function(int(pair.first), int(pair.second), int(a), int(b));
                if (cost < 0)
                    throw GCException("the smooth cost of " + names(pair.first, pair.second) +
                                      " at labels " + std::to_string(a) + " and " +
                                      std::to_string(b) + " is " + std::to_string(cost) +
                                      ", below 0");
                costs[a * k + b] = cost;
            }
    }
    // finds the table that all pairs share, and each pair's multiple of it; or gives each its own
    void ask_function() {
        std::vector<gco_pair> sites(given);
        std::vector<std::int32_t> costs(table.size());
        bool is_found = false;
        std::size_t mark = 0;   // a cost of the table that is not 0
        for (std::size_t i = 0; i < sites.size(); i++) {
            if (sites[i].first < sites[i].second) std::swap(sites[i].first, sites[i].second);
            ask_pair(sites[i], costs);
            if (is_each) {
                set_own(sites[i], i, costs, sites[i].weight);
                continue;
            }
            if (!is_found) {
                for (mark = 0; mark < costs.size() && costs[mark] == 0; mark++) {}
                is_found = mark < costs.size();
                if (is_found) {
                    table = costs;
                    divide_by_common(table);
                }
            }
            const std::int64_t times = is_found ? costs[mark] / table[mark] : 0;
            for (std::size_t at = 0; at < costs.size() && !is_each; at++)
                is_each = costs[at] != times * table[at];
            if (is_each) {
                begin_own(sites, i);
                set_own(sites[i], i, costs, sites[i].weight);
            } else {
                weights.push_back(std::uint64_t(times) * sites[i].weight);
            }
        }
        if (!is_each) {
            lay(sites);
            return;
        }
        pairs = &own;
        std::fill(table.begin(), table.end(), 0);
    }
    // gives each pair a table of its own; those before a place are multiples of the table
    void begin_own(const std::vector<gco_pair> &sites, std::size_t place) {
        tables.resize(sites.size() * table.size());
        own.reserve(sites.size());
        for (std::size_t i = 0; i < place; i++) set_own(sites[i], i, table, weights[i]);
    }
    void set_own(const gco_pair &sites, std::size_t place, const std::vector<std::int32_t> &costs,
                 std::uint64_t times) {
        for (std::size_t at = 0; at < costs.size(); at++) {
            const std::uint64_t cost = std::uint64_t(costs[at]) * times;
            if (cost > GCO_PAIR_COST_LIMIT)
                throw GCException("the smooth cost of " + names(sites.first, sites.second) +
                                  " at labels " + std::to_string(at / k) + " and " +
                                  std::to_string(at % k) + " is " + std::to_string(cost) +
                                  ": from 0 to 10,000,000 is taken where the pairs have costs of "
                                  "their own");
            tables[place * table.size() + at] = std::int32_t(cost);
        }
        const gco_pair pair = {sites.first, sites.second, 1};
        own.push_back(pair);
    }

    // the calls over these costs and those of 32 bits of the sites and the labels
    typedef std::vector<std::int32_t> Costs;
    typedef std::vector<std::uint32_t> Labels;
    std::uint32_t label(const Costs &data, const Costs &paid, std::uint32_t moves,
                        std::uint32_t cycles, Labels &at, gco_outcome &told) const {
        if (is_each)
            return gco_label_pairs_int32(
                std::uint32_t(k), data.data(), data.size(), std::uint32_t(own.size()),
                tables.data(), tables.size(), paid.data(), paid.size(), own.data(), own.size(),
                nullptr, 0, moves, cycles, at.data(), at.size(), &told);
        return gco_label_int32(std::uint32_t(k), data.data(), data.size(), table.data(),
                               table.size(), paid.data(), paid.size(), pairs->data(),
                               pairs->size(), moves, cycles, at.data(), at.size(), &told);
    }
    std::uint32_t expand(const Costs &data, const Costs &paid, std::uint32_t alpha, Labels &at,
                         gco_outcome &told) const {
        if (is_each)
            return gco_expand_pairs_int32(
                std::uint32_t(k), data.data(), data.size(), std::uint32_t(own.size()),
                tables.data(), tables.size(), paid.data(), paid.size(), own.data(), own.size(),
                nullptr, 0, alpha, at.data(), at.size(), &told);
        return gco_expand_int32(std::uint32_t(k), data.data(), data.size(), table.data(),
                                table.size(), paid.data(), paid.size(), pairs->data(),
                                pairs->size(), alpha, at.data(), at.size(), &told);
    }
    std::uint32_t swap(const Costs &data, const Costs &paid, std::uint32_t alpha,
                       std::uint32_t beta, Labels &at, gco_outcome &told) const {
        if (is_each)
            return gco_swap_pairs_int32(
                std::uint32_t(k), data.data(), data.size(), std::uint32_t(own.size()),
                tables.data(), tables.size(), paid.data(), paid.size(), own.data(), own.size(),
                nullptr, 0, alpha, beta, at.data(), at.size(), &told);
        return gco_swap_int32(std::uint32_t(k), data.data(), data.size(), table.data(),
                              table.size(), paid.data(), paid.size(), pairs->data(),
                              pairs->size(), alpha, beta, at.data(), at.size(), &told);
    }

    // over a copy of all costs in 64 bits
    std::uint32_t bound(const Costs &data, const Costs &paid, std::uint32_t passes, Labels &at,
                        gco_bound &told) const {
        const Costs &laid = is_each ? tables : table;
        const std::vector<std::int64_t> wide(data.begin(), data.end()),
            smooth(laid.begin(), laid.end()), label_costs(paid.begin(), paid.end());
        if (is_each)
            return gco_lower_bound_pairs(
                std::uint32_t(k), wide.data(), wide.size(), std::uint32_t(own.size()),
                smooth.data(), smooth.size(), label_costs.data(), label_costs.size(), own.data(),
                own.size(), nullptr, 0, passes, GCO_ANY_SIZE, at.data(), at.size(), &told);
        return gco_lower_bound(std::uint32_t(k), wide.data(), wide.size(), smooth.data(),
                               smooth.size(), label_costs.data(), label_costs.size(),
                               pairs->data(), pairs->size(), passes, GCO_ANY_SIZE, at.data(),
                               at.size(), &told);
    }

    const std::vector<gco_pair> &given;
    const Function &function;
    const std::size_t k;
    const std::vector<gco_pair> *pairs;
    std::vector<std::int32_t> table;
    std::vector<std::uint64_t> weights;   // of each pair, before they are laid down
    std::vector<gco_pair> own;
    bool is_each = false;   // each pair has a table of its own
    std::vector<std::int32_t> tables;
};
}   // namespace gco_smooth

#endif
