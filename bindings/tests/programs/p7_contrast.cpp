// The smooth cost that programs for gco-v3 have most: a weight by contrast, times a truncated step.
// Rounded as a product it is no weight times a table, and no metric either: 2.6 and 5.2 become 2
// and 5. An expansion meets that here in its second cycle. With a rounded weight it runs.
#include <cmath>
#include "GCoptimization.h"
#include "wanted.h"

static const int grey[6] = {10, 12, 90, 88, 15, 60};

static double weight(int p, int q) {
    const int d = grey[p] - grey[q];
    return 37 * std::exp(-d * d / 2000.0);
}
static int step(int a, int b) { return std::min(std::abs(a - b), 2); }
static int rounded_product(int p, int q, int a, int b) { return int(weight(p, q) * step(a, b)); }
static int rounded_weight(int p, int q, int a, int b) { return int(weight(p, q)) * step(a, b); }

int main() {
    GCoptimizationGridGraph gc(6, 1, 4);
    for (int s = 0; s < 6; s++)
        for (int l = 0; l < 4; l++) gc.setDataCost(s, l, std::abs(grey[s] - 30 * l));
    gc.setSmoothCost(rounded_product);
    WANT(throws<GCException>("the smooth cost is no metric: the term of sites 4 and 3 is not "
                             "regular in the expansion of label 2",
                             [&] { gc.expansion(); }, message_of<GCException>));
    for (int s = 0; s < 6; s++) WANT(gc.whatLabel(s) == 0);   // a refusal leaves the labels
    WANT(gc.expansion(1) == 60);                              // the least of all 4^6 labellings
    for (int s = 0; s < 6; s++) gc.setLabel(s, 0);
    gc.setSmoothCost(rounded_weight);
    long long least = -1;   // of all 4^6 labellings
    for (int code = 0; code < 4096; code++) {
        long long energy = 0;
        for (int s = 0; s < 6; s++) energy += std::abs(grey[s] - 30 * (code >> 2 * s & 3));
        for (int s = 0; s + 1 < 6; s++)
            energy += rounded_weight(s, s + 1, code >> 2 * s & 3, code >> (2 * s + 2) & 3);
        if (least < 0 || energy < least) least = energy;
    }
    WANT(gc.expansion() == least);
    std::printf("p7: weights by contrast, least energy %lld\n", least);
    return 0;
}
