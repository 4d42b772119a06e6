// Sparse data costs: each label is allowed at a few sites, and costs the most elsewhere.
#include <vector>
#include "GCoptimization.h"
#include "wanted.h"

int main() {
    GCoptimizationGeneralGraph gc(5, 3);
    GCoptimization::SparseDataCost zero[] = {{0, 4}, {1, 7}, {2, 3}},
                                   one[] = {{1, 2}, {2, 9}, {3, 1}},
                                   two[] = {{0, 1}, {3, 6}, {4, 5}};
    gc.setDataCost(0, zero, 3);
    gc.setDataCost(1, one, 3);
    gc.setDataCost(2, two, 3);
    for (int s = 0; s + 1 < 5; s++) gc.setNeighbors(s, s + 1, 2);
    for (int a = 0; a < 3; a++)
        for (int b = 0; b < 3; b++) gc.setSmoothCost(a, b, a != b);
    WANT(gc.compute_energy() == 4 + 7 + 3 + 10000000 + 10000000);   // label 0 everywhere
    // by hand: site 4 has label 2 alone. Sites 0 to 3 of labels 0/2, 0/1, 0/1, 1/2: 2 1 0 1 2 costs
    // 1+2+3+1+5 and four borders 8, 20; 0 0 0 1 2 costs 4+7+3+1+5 and two borders 4, 24; 2 1 1 1 2
    // costs 1+2+9+1+5 and two borders 4, 22; 0 1 0 1 2 costs 23; 2 0 0 1 2 costs 1+7+3+1+5 and
    // three borders, 23
    WANT(gc.expansion() == 20);
    const int wanted[] = {2, 1, 0, 1, 2};
    for (int s = 0; s < 5; s++) WANT(gc.whatLabel(s) == wanted[s]);
    // a label that is set again is set as a whole
    GCoptimization::SparseDataCost again[] = {{2, 1}};
    gc.setDataCost(0, again, 1);
    WANT(gc.compute_energy() == 18);
    gc.setLabel(0, 0);
    WANT(gc.giveDataEnergy() == 10000000 + 2 + 1 + 1 + 5);
    gc.setLabel(0, 2);
    // what cannot be meant is refused
    GCoptimization::SparseDataCost unordered[] = {{2, 1}, {1, 1}}, far[] = {{5, 1}},
                                   below[] = {{4, -1}};
    WANT(throws<GCException>(
        "the sparse costs of label 1 name site 1 behind site 2: list each site once, in rising "
        "order",
        [&] { gc.setDataCost(1, unordered, 2); }, message_of<GCException>));
    WANT(throws<GCException>(
        "there is no site 5: there are 5", [&] { gc.setDataCost(1, far, 1); },
        message_of<GCException>));
    WANT(gc.expansion() == 18);
    gc.setDataCost(2, below,
                   1);   // -1 at site 4, and 10,000,000 for the labels that are not listed there
    WANT(throws<GCException>(
        "the data cost of site 4 and label 0 is 10000000, more than 10,000,000 above the least of "
        "its site, -1",
        [&] { gc.expansion(); }, message_of<GCException>));
    gc.setDataCost(0, 0, 3);   // one cost more, and all others stay
    gc.setDataCost(2, two, 3);
    gc.setLabel(0, 0);
    WANT(gc.giveDataEnergy() == 3 + 2 + 1 + 1 + 5);
    GCoptimizationGeneralGraph dense(5, 3);
    dense.setDataCost(0, 0, 1);
    WANT(throws<GCException>(
        "the data costs were set for all sites before: set sparse costs for each label, and no "
        "others",
        [&] { dense.setDataCost(0, zero, 3); }, message_of<GCException>));
    std::printf("p5: sparse data costs\n");
    return 0;
}
