// The order of the labels, single moves, and a swap with lists of sites.
#include <vector>
#include "GCoptimization.h"
#include "wanted.h"

int main() {
    const int order[] = {0, 1, 2, 3}, other[] = {3, 2, 1, 0}, part[] = {0, 2};
    const int beyond[] = {0, 4}, twice[] = {1, 1};
    GCoptimizationGridGraph gc(4, 1, 4);
    for (int s = 0; s < 4; s++)
        for (int l = 0; l < 4; l++) gc.setDataCost(s, l, 5 * std::abs(s - l));
    for (int a = 0; a < 4; a++)
        for (int b = 0; b < 4; b++) gc.setSmoothCost(a, b, a != b);
    gc.setLabelOrder(false);
    gc.setLabelOrder(order, 4);
    WANT(gc.expansion() == 3 && gc.whatLabel(0) == 0 &&
         gc.whatLabel(3) == 3);   // each site its own label, three borders
    // another order is a loop of single moves in that order
    int by_hand[4];
    for (int s = 0; s < 4; s++) gc.setLabel(s, 0);
    for (bool changed = true; changed;) {
        changed = false;
        for (int label : other) changed = gc.alpha_expansion(label) || changed;
    }
    gc.whatLabel(0, 4, by_hand);
    for (int s = 0; s < 4; s++) gc.setLabel(s, 0);
    gc.setLabelOrder(other, 4);
    WANT(gc.expansion() == 3 && gc.outcome().settled == 1 && gc.outcome().vmax == 1);
    for (int s = 0; s < 4; s++) WANT(gc.whatLabel(s) == by_hand[s]);
    // some labels alone: the least of 0 and 2 at each site, by trying all
    long long least = 1000;
    for (int code = 0; code < 16; code++) {
        long long energy = 0;
        for (int s = 0; s < 4; s++) energy += 5 * std::abs(s - 2 * (code >> s & 1));
        for (int s = 0; s < 3; s++) energy += (code >> s & 1) != (code >> (s + 1) & 1);
        if (energy < least) least = energy;
    }
    for (int s = 0; s < 4; s++) gc.setLabel(s, 0);
    gc.setLabelOrder(part, 2);
    WANT(gc.expansion() == least && gc.outcome().settled == 1 && gc.outcome().vmax == 0);
    for (int s = 0; s < 4; s++) gc.setLabel(s, 0);
    WANT(gc.swap() == least);
    WANT(throws<GCException>(
        "there is no label 4: there are 4", [&] { gc.setLabelOrder(beyond, 2); },
        message_of<GCException>));
    WANT(throws<GCException>(
        "the order of labels has label 1 twice", [&] { gc.setLabelOrder(twice, 2); },
        message_of<GCException>));
    // a random order is the rising one
    for (int s = 0; s < 4; s++) gc.setLabel(s, 0);
    gc.setLabelOrder(true);
    WANT(gc.expansion() == 3 && gc.outcome().vmax == 1);
    // a refusal in the middle of an order leaves the labels: 0 beside 2 costs more than by way of 1
    gc.setLabelOrder(other, 4);
    gc.setSmoothCost(0, 2, 9);
    gc.setSmoothCost(2, 0, 9);
    const int far[] = {0, 2, 0, 2};
    for (int s = 0; s < 4; s++) gc.setLabel(s, far[s]);
    bool is_refused = false;
    try {
        gc.expansion();
    } catch (const GCException &) {
        is_refused = true;
    }
    for (int s = 0; s < 4; s++) WANT(is_refused && gc.whatLabel(s) == far[s]);
    gc.setSmoothCost(0, 2, 1);
    gc.setSmoothCost(2, 0, 1);
    // sites 0 and 1 exchange their labels, 2 and 3 theirs; a swap with lists puts 0 and 1 right
    const int start[] = {1, 0, 3, 2};
    for (int s = 0; s < 4; s++) gc.setLabel(s, start[s]);
    std::vector<int> zeros = {1}, ones = {0};
    gc.alpha_beta_swap(0, 1, zeros.data(), 1, ones.data(), 1);
    WANT(gc.whatLabel(0) == 0 && gc.whatLabel(1) == 1 && gc.whatLabel(2) == 3 &&
         gc.whatLabel(3) == 2 && gc.compute_energy() == 13);
    const int wrong[] = {1, 1};
    for (int size = 0; size < 3; size += 2)
        WANT(throws<GCException>(
            "a swap takes all sites of its two labels: list each site of label 1 once, or call "
            "alpha_beta_swap(alpha, beta)",
            [&] { gc.alpha_beta_swap(0, 1, ones.data(), 1, wrong, size); },
            message_of<GCException>));
    std::printf("p4: orders and lists\n");
    return 0;
}
