// A run of expansions over pairs each of which has a table of its own, over the maxflow library of
// Kolmogorov (Debian: libmaxflow-dev). It makes the moves of gco_label_pairs in the same order and
// breaks ties by the same rule, so it has to write the same labels. It tests little: it is here to
// be measured beside gco.
//
//   pair_peer problem.bin [cycles] > labels
#define MAXFLOW_INCLUDE_TEMPLATE_IMPLEMENTATION
#include <maxflow.h>

#include <algorithm>
#include <string>
#include <vector>

#include "pair_problem.h"

using Network = maxflow::Graph<int, int, int>;

// A labelling, and the moves that change it. In a move each site that has not the label is a node:
// on the sink's side it takes the label, on the source's side it keeps its own.
struct Run {
    const pair_problem& problem;
    std::vector<uint32_t> at;  // the label of each site
    std::vector<int> node;     // of each site its node, or -1
    std::vector<int> sites;    // of each node its site
    std::vector<int> rise;     // of each node what it costs to take the label
    Network network;

    explicit Run(const pair_problem& of)
        : problem(of), at(of.sites), node(of.sites), network(int(of.sites), int(of.pairs)) {}

    int data_cost(size_t site, uint32_t label) const {
        return problem.data[site * problem.labels + label];
    }

    // What a pair costs, by the label of its first site and that of its second.
    struct Costs {
        const int32_t* table;
        uint32_t labels;
        int weight;
        int operator()(uint32_t first, uint32_t second) const {
            return weight * table[first * labels + second];
        }
    };

    Costs costs(size_t pair) const {
        size_t size = size_t(problem.labels) * problem.labels;
        return {problem.tables + pair * size, problem.labels, int(problem.rows[3 * pair + 2])};
    }

    void open(uint32_t label) {
        sites.clear();
        rise.clear();
        for (size_t site = 0; site < problem.sites; site++) {
            bool is_open = at[site] != label;
            node[site] = is_open ? int(sites.size()) : -1;
            if (!is_open) continue;
            sites.push_back(int(site));
            rise.push_back(data_cost(site, label) - data_cost(site, at[site]));
        }
    }

    // A pair of two nodes costs V00 + (V10 - V00) x + (V11 - V10) y + (V01 + V10 - V00 - V11) (1 - x) y
    // (Kolmogorov and Zabih, PAMI 2004, section 4).
    void add_pair(size_t pair, uint32_t label) {
        uint32_t p = problem.rows[3 * pair], q = problem.rows[3 * pair + 1];
        int i = node[p], j = node[q];
        if (i < 0 && j < 0) return;
        Costs cost = costs(pair);
        int v00 = cost(at[p], at[q]), v01 = cost(at[p], label);
        int v10 = cost(label, at[q]), v11 = cost(label, label);
        if (i >= 0) rise[i] += v10 - v00;
        if (j >= 0) rise[j] += v11 - v10;
        if (i < 0 || j < 0) return;
        int both = v01 + v10 - v00 - v11;
        if (both < 0) stop(("the term of pair " + std::to_string(pair) + " is not regular").c_str());
        if (both > 0) network.add_edge(i, j, both, 0);
    }

    // Takes the least cut with the smallest sink side: a node that could stand on either side keeps
    // its label. Whether a label changed.
    bool expand(uint32_t label) {
        open(label);
        if (sites.empty()) return false;
        network.reset();
        network.add_node(int(sites.size()));
        for (size_t pair = 0; pair < problem.pairs; pair++) add_pair(pair, label);
        for (size_t i = 0; i < sites.size(); i++)
            network.add_tweights(int(i), std::max(rise[i], 0), std::max(-rise[i], 0));
        network.maxflow();
        bool changed = false;
        for (size_t i = 0; i < sites.size(); i++)
            if (network.what_segment(int(i), Network::SOURCE) == Network::SINK) {
                at[sites[i]] = label;
                changed = true;
            }
        return changed;
    }

    // Makes the expansions in rising order until each changed nothing since the last change.
    void make_cycles(uint32_t cycles) {
        uint32_t idle = 0;
        for (uint32_t cycle = 0; cycle < cycles; cycle++)
            for (uint32_t label = 0; label < problem.labels; label++) {
                idle = expand(label) ? 1 : idle + 1;
                if (idle >= problem.labels) return;
            }
    }

    long long data() const {
        long long sum = 0;
        for (size_t site = 0; site < problem.sites; site++) sum += data_cost(site, at[site]);
        return sum;
    }

    long long smooth() const {
        long long sum = 0;
        for (size_t pair = 0; pair < problem.pairs; pair++)
            sum += costs(pair)(at[problem.rows[3 * pair]], at[problem.rows[3 * pair + 1]]);
        return sum;
    }
};

int main(int count, char** words) {
    if (count < 2) stop("pair_peer problem.bin [cycles] > labels");
    uint32_t cycles = count > 2 ? uint32_t(std::stoul(words[2])) : UINT32_MAX;
    pair_problem problem = read_problem(words[1]);
    pair_times begin = times_now();
    Run run(problem);
    run.make_cycles(cycles);
    pair_times end = times_now();
    write_answer(&problem, run.at.data(), run.data(), run.smooth(), begin, end);
}
