// What GCoptimization.h, graph.h and energy.h refuse, with the exact words, and what a refusal
// leaves.
#include <climits>
#include <vector>
#include "GCoptimization.h"
#include "energy.h"
#include "graph.h"
#include "wanted.h"

template <typename Work> static bool refused(const std::string &words, Work work) {
    return throws<GCException>(words, work, message_of<GCException>);
}
template <typename Work> static bool invalid(const std::string &words, Work work) {
    return throws<std::invalid_argument>(words, work, what_of<std::invalid_argument>);
}

static void sizes() {
    WANT(
        refused("a grid of 100000 by 100000 has 10000000000 sites, and at most 1,048,576 are taken",
                [] { GCoptimizationGridGraph(100000, 100000, 2); }));
    WANT(refused("a grid of 65536 by 65537 has 4295032832 sites, and at most 1,048,576 are taken",
                 [] { GCoptimizationGridGraph(65536, 65537, 256); }));
    WANT(refused("there is no grid of -2 by -3 sites", [] { GCoptimizationGridGraph(-2, -3, 2); }));
    WANT(refused("there are 1048577 sites, and at most 1,048,576 are taken",
                 [] { GCoptimizationGeneralGraph(1048577, 2); }));
    WANT(refused("there are 257 labels, and at most 256 are taken",
                 [] { GCoptimizationGeneralGraph(2, 257); }));
    WANT(
        refused("there is no such number of sites: -1", [] { GCoptimizationGeneralGraph(-1, 2); }));
    WANT(refused("there is no such number of labels: 0", [] { GCoptimizationGridGraph(1, 1, 0); }));
    WANT(GCoptimizationGridGraph(0, 7, 2).expansion() == 0);
}

// all that is out of range is a GCException, as one catch of a program in gco-v3's names asks
static void ranges() {
    GCoptimizationGridGraph gc(4, 4, 2);
    int labels[16] = {9, 9};
    WANT(refused("there is no site 16: there are 16", [&] { gc.whatLabel(16); }));
    WANT(refused("there is no site -1: there are 16", [&] { gc.whatLabel(-1); }));
    WANT(refused("there are no 2 sites from site 15 on: there are 16 sites",
                 [&] { gc.whatLabel(15, 2, labels); }));
    WANT(refused("there are no 2147483647 sites from site 2147483647 on: there are 16 sites",
                 [&] { gc.whatLabel(INT_MAX, INT_MAX, labels); }));
    WANT(labels[0] == 9);
    WANT(refused("there is no site -1: there are 16", [&] { gc.setLabel(-1, 0); }));
    WANT(refused("there is no label 2: there are 2", [&] { gc.setLabel(0, 2); }));
    WANT(refused("there is no site 16: there are 16", [&] { gc.setDataCost(16, 0, 1); }));
    WANT(refused("there is no label -1: there are 2", [&] { gc.setDataCost(0, -1, 1); }));
    WANT(refused("there is no label 2: there are 2", [&] { gc.setSmoothCost(0, 2, 1); }));
    WANT(refused("there is no label 2: there are 2", [&] { gc.alpha_expansion(2); }));
    WANT(refused("there is no label -1: there are 2", [&] { gc.alpha_beta_swap(0, -1); }));
}

static void pairs() {
    GCoptimizationGeneralGraph gc(4, 2);
    WANT(refused("there is no site 4: there are 4", [&] { gc.setNeighbors(0, 4); }));
    WANT(refused("site 2 is no neighbour of itself", [&] { gc.setNeighbors(2, 2); }));
    WANT(refused("the weight of sites 3 and 1 is -7, below 0", [&] { gc.setNeighbors(3, 1, -7); }));
    // lists that do not name each pair at both of its sites
    int counts[] = {1, 2, 1, 0}, of0[] = {1}, of1[] = {0, 2}, of2[] = {1}, w0[] = {3},
        w1[] = {3, 4}, w2[] = {5};
    int *neighbours[] = {of0, of1, of2, nullptr}, *weights[] = {w0, w1, w2, nullptr};
    WANT(refused("sites 1 and 2 are not listed by both with the weight 4: list each pair at both "
                 "of its sites, with one weight",
                 [&] { gc.setAllNeighbors(counts, neighbours, weights); }));
    counts[2] = 0;
    WANT(refused("sites 1 and 2 are not listed by both with the weight 4: list each pair at both "
                 "of its sites, with one weight",
                 [&] { gc.setAllNeighbors(counts, neighbours, weights); }));
    w2[0] = 4;
    counts[2] = 1;
    const int potts[] = {0, 1, 1, 0};
    gc.setSmoothCost(potts);
    gc.setLabel(1, 1);
    WANT(gc.compute_energy() == 0);   // the refusals left no pair
    gc.setAllNeighbors(counts, neighbours, weights);
    WANT(gc.compute_energy() == 7);
    // a weight below 0 in a grid leaves the weights that were
    GCoptimizationGridGraph grid(2, 2, 2);
    const int v[] = {5, 6, 0, 0}, h[] = {7, 0, 8, 0}, bad[] = {1, 0, -8, 0};
    grid.setSmoothCostVH(potts, v, h);
    grid.setLabel(3, 1);
    WANT(grid.compute_energy() == 14);
    WANT(refused("the weight of sites 2 and 3 is -8, below 0",
                 [&] { grid.setSmoothCostVH(potts, v, bad); }));
    WANT(grid.compute_energy() == 14);
}

static int below(int, int, int a, int b) { return a == 1 && b == 0 ? -4 : a != b; }
static int steep(int p, int q, int a, int b) { return a == b ? 0 : p + q; }
static int dear(int p, int, int a, int b) { return p == 2 && a < b ? 5000001 : a != b; }

static void costs() {
    GCoptimizationGeneralGraph gc(3, 3);
    gc.setNeighbors(0, 1);
    gc.setNeighbors(1, 2);
    gc.setSmoothCost(0, 1, -1);
    WANT(refused("the smooth cost of labels 0 and 1 is -1, below 0", [&] { gc.expansion(); }));
    gc.setSmoothCost(0, 1, 2147483647);
    gc.setSmoothCost(1, 0, 2);
    WANT(refused("the smooth cost of labels 0 and 1 is 2147483647 without the common factor of all "
                 "smooth costs, and at most 10,000 is "
                 "taken",
                 [&] { gc.compute_energy(); }));
    gc.setSmoothCost(below);
    WANT(refused("the smooth cost of sites 1 and 0 at labels 1 and 0 is -4, below 0",
                 [&] { gc.swap(); }));
    WANT(refused("the smooth costs are set by a function: set all of them by a table instead",
                 [&] { gc.setSmoothCost(0, 1, 1); }));
    gc.setSmoothCost(steep);   // weights 1 and 3, with Potts
    gc.setLabel(0, 1);
    gc.setLabel(1, 2);
    WANT(gc.compute_energy() == 4);
    // costs of the very pair have a limit, with the weight of the pair
    GCoptimizationGeneralGraph own(3, 2);
    own.setNeighbors(1, 0);
    own.setNeighbors(1, 2, 2);
    own.setSmoothCost(dear);
    WANT(refused("the smooth cost of sites 2 and 1 at labels 0 and 1 is 10000002: from 0 to "
                 "10,000,000 is taken where the pairs have costs of their own",
                 [&] { own.expansion(); }));
    gc.setLabelCost(-3);
    WANT(refused("the cost of label 0 is -3: from 0 to 10,000,000 is taken",
                 [&] { gc.expansion(); }));
    gc.setLabelCost(0);
    gc.setDataCost(1, 2, 10000001);
    WANT(refused("the data cost of site 1 and label 2 is 10000001, more than 10,000,000 above the "
                 "least of its site, 0",
                 [&] { gc.expansion(); }));
    gc.setDataCost(1, 0, 1);
    gc.setDataCost(1, 1, 1);
    WANT(gc.giveDataEnergy() == 10000001);   // the difference alone has a limit
}

// weights that no common factor makes small: laid down as pairs that stand several times, up to the
// limit of pairs
static void heavy() {
    GCoptimizationGeneralGraph gc(3, 2);
    gc.setSmoothCost(0, 1, 10000);
    gc.setSmoothCost(1, 0, 9999);
    gc.setNeighbors(0, 1, 2147483646);   // 2,147,484 pairs, of which the last has 646
    gc.setNeighbors(1, 2, 2046820353);   // 2,046,821 pairs: 4,194,305 in all
    WANT(refused("the weights come to more than 4,194,304 pairs of a weight of at most 1,000, and "
                 "the greatest is that of sites 0 and 1: "
                 "scale the weights down",
                 [&] { gc.compute_energy(); }));
    GCoptimizationGeneralGraph at_limit(3, 2);
    at_limit.setSmoothCost(0, 1, 10000);
    at_limit.setSmoothCost(1, 0, 9999);
    at_limit.setNeighbors(0, 1, 2147483646);
    at_limit.setNeighbors(1, 2, 2046820000);   // 2,046,820 pairs: 4,194,304 in all
    at_limit.setLabel(1, 1);
    // first 0 beside 1, then 1 beside 0
    WANT(at_limit.compute_energy() == 2147483646LL * 10000 + 2046820000LL * 9999);
}

static void graphs() {
    Graph<int, int, int> g(2, 2);
    WANT(invalid("there is no node 0: there are 0", [&] { g.add_tweights(0, 1, 1); }));
    g.add_node(2);
    g.add_edge(0, 1, 1, 1);
    WANT(invalid("there is no node 2: there are 2", [&] { g.add_edge(0, 2, 1, 1); }));
    WANT(invalid("edge 1, from node 1 to node 1, joins a node with itself",
                 [&] { g.add_edge(1, 1, 1, 1); }));
    WANT(invalid(
        "edge 1, from node 1 to node 0, has a capacity of -1: from 0 to 1,000,000,000 is taken",
        [&] { g.add_edge(1, 0, 2, -1); }));
    WANT(invalid("edge 1, from node 1 to node 0, has a capacity of 2000000000: from 0 to "
                 "1,000,000,000 is taken",
                 [&] { g.add_edge(1, 0, 2000000000, 0); }));
    WANT(invalid("node 1 is given a terminal capacity of 1000000001: from -1,000,000,000 to "
                 "1,000,000,000 is taken",
                 [&] { g.add_tweights(1, 0, 1000000001); }));
    WANT(invalid("node 1 has no answer yet: call maxflow() first", [&] { g.what_segment(1); }));
    WANT(invalid("more than 2,097,152 nodes", [&] { g.add_node(2097151); }));
    WANT(invalid("there is no such number of nodes: -1", [&] { g.add_node(-1); }));
    WANT(g.get_node_num() == 2 && g.get_arc_num() == 2 && g.maxflow() == 0);
    g.add_node();
    WANT(invalid("node 2 has no answer yet: call maxflow() first", [&] { g.what_segment(2); }));
    WANT(invalid("there is no node 3: there are 3", [&] { g.mark_node(3); }));
    int i = 7, j = 7;
    WANT(invalid("there is no arc 2", [&] { g.get_arc_ends(2, i, j); }));
    WANT(i == 7 && j == 7);
    // terminal capacities add up beyond the limit of one
    for (int turn = 0; turn < 3; turn++) g.add_tweights(0, 1000000000, 0);
    g.add_edge(0, 1, 1000000000, 0);
    g.add_edge(0, 1, 500000000, 0);
    for (int turn = 0; turn < 3; turn++) g.add_tweights(1, 0, 900000000);
    WANT(g.maxflow() == 1500000001 && g.what_segment(0) == g.SOURCE && g.what_segment(1) == g.SINK);
    Graph<unsigned long long, unsigned long long, long long> large(1, 1);
    large.add_node(2);
    WANT(invalid("edge 0, from node 0 to node 1, has a capacity of 18446744073709551615: from 0 to "
                 "1,000,000,000 is taken",
                 [&] { large.add_edge(0, 1, ULLONG_MAX, 0); }));
}

// numbers of wider types than the classes have: what does not fit is no other number
static void wide_numbers() {
    const long long far = 4294967297;   // 1 in 32 bits
    Graph<short, int, int> g(2, 1);
    g.add_node(2);
    WANT(invalid("the number 65537 does not fit its type", [&] { g.add_edge(0, 1, 65537, 0); }));
    WANT(invalid("the number 4294967297 does not fit its type",
                 [&] { g.add_tweights(0, 0, far); }));
    g.add_edge(0, 1, 7LL, 0U);
    g.add_tweights(0, 9LL, 0);
    g.add_tweights(1, 0, std::int64_t(8));
    WANT(g.maxflow() == 7);
    Energy<int, int, long long> e(3, 1);
    e.add_variable(3);
    WANT(invalid("the number 4294967297 does not fit its type", [&] { e.add_constant(far); }));
    WANT(invalid("the number 4294967297 does not fit its type", [&] { e.add_term1(0, 0, far); }));
    WANT(invalid("the number -4294967297 does not fit its type",
                 [&] { e.add_term2(0, 1, 0, 0, 0, -far); }));
    WANT(invalid("the number 4294967295 does not fit its type",
                 [&] { e.add_term3(0, 1, 2, 0, 0, 0, 0, 0, 0, 0, UINT_MAX); }));
    e.add_constant(5LL);
    e.add_term1(0, 3LL, 2);
    WANT(e.minimize() == 7);
    Energy<unsigned, unsigned, long long> no_sign(1, 0);
    WANT(invalid("the number -1 does not fit its type", [&] { no_sign.add_constant(-1); }));
    GCoptimizationGeneralGraph gc(2, 2);
    WANT(refused("the cost 4294967297 does not fit an int", [&] { gc.setDataCost(0, 0, far); }));
    WANT(refused("the cost -4294967297 does not fit an int",
                 [&] { gc.setSmoothCost(0, 1, -far); }));
    WANT(refused("the cost 4294967295 does not fit an int", [&] { gc.setLabelCost(UINT_MAX); }));
    WANT(refused("the cost 18446744073709551615 does not fit an int",
                 [&] { gc.setNeighbors(0, 1, ULLONG_MAX); }));
    gc.setDataCost(0, 0, 9LL);
    gc.setNeighbors(0, 1, 3U);
    gc.setSmoothCost(0, 1, 1UL);
    WANT(gc.expansion() == 0 && gc.whatLabel(0) == 1);
}

static std::string heard;
static void hear(const char *words) { heard = words; }

static void energies() {
    typedef Energy<int, int, long long> E;
    E e(3, 1, hear);
    WANT(invalid("there is no variable 0: there are 0", [&] { e.add_term1(0, 1, 1); }));
    WANT(heard == "there is no variable 0: there are 0");
    e.add_variable(3);
    e.add_term1(0, 1, 2);
    WANT(invalid(
        "term 1, of variables 0 and 2, is not regular: E(0,0) + E(1,1) is above E(0,1) + E(1,0)",
        [&] { e.add_term2(0, 2, 1, 0, 0, 0); }));
    WANT(invalid("term 1, of variables 2 and 2, names a variable twice",
                 [&] { e.add_term2(2, 2, 0, 0, 0, 0); }));
    WANT(invalid("term 1, of variable 1, has the number -1000000001: from -1,000,000,000 to "
                 "1,000,000,000 is taken",
                 [&] { e.add_term1(1, 0, -1000000001); }));
    e.add_term2(0, 2, 0, 1, 1, 0);
    WANT(invalid("term 2, of variables 0, 1 and 2, is not regular where variable 1 is 1: E(0,0) + "
                 "E(1,1) is above E(0,1) + E(1,0) there",
                 [&] { e.add_term3(0, 1, 2, 0, 0, 1, 0, 0, 0, 0, 0); }));
    WANT(invalid("term 2, of variables 0, 1 and 0, names a variable twice",
                 [&] { e.add_term3(0, 1, 0, 0, 0, 0, 0, 0, 0, 0, 0); }));
    WANT(invalid("term 2, of variables 2, 1 and 0, has the number 2147483647: from -1,000,000,000 "
                 "to 1,000,000,000 is taken",
                 [&] { e.add_term3(2, 1, 0, 0, 0, 0, 0, 0, 0, 0, INT_MAX); }));
    WANT(invalid("variable 0 has no answer yet: call minimize() first", [&] { e.get_var(0); }));
    WANT(e.minimize() == 1 && e.get_var(0) == 0);   // the refusals left no term
    Energy<long long, long long, long long> wide(1, 0);
    wide.add_variable();
    wide.add_constant(LLONG_MAX);
    WANT(throws<std::overflow_error>(
        "the constants do not fit 64 bits", [&] { wide.add_constant(1); },
        what_of<std::overflow_error>));
    wide.add_term1(0, 1, 2);
    WANT(throws<std::overflow_error>(
        "the least value does not fit 64 bits", [&] { wide.minimize(); },
        what_of<std::overflow_error>));
    wide.add_constant(-1);
    WANT(wide.minimize() == LLONG_MAX);
    Energy<unsigned long long, int, long long> whole(1, 0);
    WANT(throws<std::overflow_error>(
        "a constant of 18446744073709551615 does not fit 64 bits",
        [&] { whole.add_constant(ULLONG_MAX); }, what_of<std::overflow_error>));
}

int main() {
    sizes();
    ranges();
    pairs();
    costs();
    heavy();
    graphs();
    wide_numbers();
    energies();
    std::printf("c++: refusals by their words\n");
    return 0;
}
