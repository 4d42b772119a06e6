// message: gco counts energies in long long: scale the costs, round them, and leave GCO_ENERGYTYPE away
#define GCO_ENERGYTYPE double
#include "GCoptimization.h"

int main() { return GCoptimizationGridGraph(1, 1, 1).whatLabel(0); }
