// A program in gco-v3's names: a grid of 10 by 5 sites with 7 labels, as in gco-v3's example, and
// each further method.
#include <string>
#include "GCoptimization.h"
#include "wanted.h"

static const int width = 10, height = 5, sites = width * height, labels = 7;

static int data_of(int site, int label) {
    if (site < 25) return label == 0 ? 0 : 10;
    return label == 5 ? 0 : 10;
}

static int data_with(int site, int label, void *extra) {
    return data_of(site, label) + *static_cast<int *>(extra);
}

int main() {
    int data[sites * labels], smooth[labels * labels], result[sites];
    for (int i = 0; i < sites; i++)
        for (int l = 0; l < labels; l++) data[i * labels + l] = data_of(i, l);
    for (int a = 0; a < labels; a++)
        for (int b = 0; b < labels; b++)
            smooth[a + b * labels] = std::abs(a - b) <= 2 ? std::abs(a - b) : 2;
    // 25 sites want 0 and 25 want 5, and the border between rows 0 to 2 and the half of row 2 is 11
    // pairs long, of cost 2
    GCoptimizationGridGraph grid(width, height, labels);
    grid.setDataCost(data);
    grid.setSmoothCost(smooth);
    WANT(grid.compute_energy() == 250);
    WANT(grid.expansion(2) == 22 && grid.giveDataEnergy() == 0 && grid.giveSmoothEnergy() == 22 &&
         grid.giveLabelEnergy() == 0);
    grid.whatLabel(0, sites, result);
    for (int i = 0; i < sites; i++)
        WANT(result[i] == (i < 25 ? 0 : 5) && grid.whatLabel(i) == result[i]);
    WANT(grid.numSites() == sites && grid.numLabels() == labels);
    // the bound is the least energy, which the labels that it tells have; a bound leaves the labels
    for (int i = 0; i < sites; i++) grid.setLabel(i, 3);
    WANT(grid.lowerBound() == 22 && grid.lowerBound(0) == 0 && grid.whatLabel(7) == 3);
    WANT(grid.startFromBound(50) == 22 && grid.compute_energy() == 22 && grid.expansion() == 22);
    for (int i = 0; i < sites; i++) grid.setLabel(i, 0);
    // the same by single moves, and by a function with a word of its own, which adds 1 at each site
    int extra = 1;
    grid.setDataCost(data_with, &extra);
    for (int i = 0; i < sites; i++) grid.setLabel(i, 0);
    WANT(!grid.alpha_expansion(0) && grid.alpha_expansion(5) && grid.compute_energy() == 72);
    for (int i = 0; i < sites; i++) grid.setLabel(i, 0);
    grid.alpha_beta_swap(0, 5);
    WANT(grid.compute_energy() == 72);
    // a label that costs 1,000 is left
    grid.setDataCost(data_of);
    int costs[labels] = {0, 0, 0, 0, 0, 1000, 0};
    grid.setLabelCost(costs);
    WANT(grid.compute_energy() == 1022 && grid.giveLabelEnergy() == 1000);
    WANT(grid.expansion() <= 250 && grid.giveLabelEnergy() == 0);
    try {
        grid.swap();
        return 1;
    } catch (GCException e) {
        WANT(std::string(e.message).find("swap") != std::string::npos);
    }
    // weights of 5,000 have a common factor, which goes over to the smooth costs
    GCoptimizationGeneralGraph graph(sites, labels);
    graph.setDataCost(data_of);
    for (int a = 0; a < labels; a++)
        for (int b = 0; b < labels; b++) graph.setSmoothCost(a, b, smooth[a + b * labels]);
    for (int y = 0; y < height; y++)
        for (int x = 1; x < width; x++) graph.setNeighbors(x + y * width, x - 1 + y * width, 5000);
    for (int y = 1; y < height; y++)
        for (int x = 0; x < width; x++)
            graph.setNeighbors(x + y * width, x + (y - 1) * width, 5000);
    WANT(graph.swap() == 250 && graph.giveDataEnergy() == 250 && graph.giveSmoothEnergy() == 0);
    // data costs below 0
    graph.setDataCost(0, 3, -500000);
    WANT(graph.expansion() < -400000 && graph.whatLabel(0) == 3);
    // one so far above the least of its site that the difference is beyond 32 bits
    graph.setDataCost(0, 2, 2147483647);
    WANT(throws<GCException>(
        "the data cost of site 0 and label 2 is 2147483647, more than 10,000,000 above the least "
        "of its site, "
        "-500000",
        [&] { graph.expansion(); }, message_of<GCException>));
    graph.setDataCost(0, 2, 10);
    // a smooth cost that the whole factor would take beyond its limit: 250 goes over, and weights
    // of 20 stay
    graph.setSmoothCost(0, 6, 36);
    for (int i = 0; i < sites; i++) graph.setLabel(i, 0);
    WANT(graph.giveSmoothEnergy() == 0);
    graph.setLabel(1, 6);   // beside sites 2 and 11, the first of their pairs, 36 each, and as the
                            // first beside site 0 still 2
    WANT(graph.giveSmoothEnergy() == (36 + 36 + 2) * 5000);
    graph.setSmoothCost(0, 6, 10001);
    WANT(throws<GCException>(
        "the smooth cost of labels 0 and 6 is 10001 without the common factor of all smooth costs, "
        "and at most "
        "10,000 is taken",
        [&] { graph.expansion(); }, message_of<GCException>));
    // a square is no metric: docs/LABEL.md's example of a term that is not regular
    GCoptimizationGeneralGraph square(2, 3);
    int far[] = {0, 9, 9, 9, 9, 0};
    square.setDataCost(far);
    for (int a = 0; a < 3; a++)
        for (int b = 0; b < 3; b++) square.setSmoothCost(a, b, (a - b) * (a - b));
    square.setNeighbors(0, 1);
    square.setLabel(1, 2);
    try {
        square.expansion();
        return 1;
    } catch (GCException e) {
        WANT(std::string(e.message).find("no metric") != std::string::npos);
    }
    WANT(square.swap() == 4 && square.whatLabel(0) == 0 && square.whatLabel(1) == 2);
    // pairs of gco-v3's lists, each once: 0 beside 1 with weight 3
    GCoptimizationGeneralGraph two(2, 2);
    int counts[] = {1, 1}, of0[] = {1}, of1[] = {0}, w0[] = {3}, w1[] = {3};
    int *neighbours[] = {of0, of1}, *weights[] = {w0, w1};
    two.setAllNeighbors(counts, neighbours, weights);
    two.setSmoothCost(0, 1, 1);
    two.setSmoothCost(1, 0, 1);
    two.setLabel(1, 1);
    WANT(two.compute_energy() == 3);
    // weights of their own down and to the right, and a cost for each label that is there
    int potts[] = {0, 1, 1, 0}, v[] = {11, 13, 0, 0}, h[] = {5, 0, 7, 0};
    GCoptimizationGridGraph four(2, 2, 2);
    four.setVerbosity(1);
    four.setSmoothCostVH(potts, v, h);
    four.setLabel(1, 1);
    WANT(four.compute_energy() == 18);
    four.setLabelCost(3);
    WANT(four.compute_energy() == 24 && four.giveLabelEnergy() == 6 && four.outcome().smooth == 18);
    std::printf("c++: gco-v3's names\n");
    return 0;
}
