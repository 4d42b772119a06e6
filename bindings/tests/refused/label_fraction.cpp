// message: gco counts costs in int: scale the costs and round them first
#include "GCoptimization.h"

int main() {
    GCoptimizationGeneralGraph gc(2, 2);
    gc.setLabelCost(0.5);
}
