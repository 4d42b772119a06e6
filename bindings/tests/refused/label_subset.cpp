// message: gco has no cost of a set of labels: give each label its own cost with setLabelCost(costs)
#include "GCoptimization.h"

int main() {
    GCoptimizationGridGraph gc(2, 2, 3);
    int labels[] = {0, 2};
    gc.setLabelSubsetCost(labels, 2, 7);
}
