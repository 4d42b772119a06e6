// message: gco counts costs in int: scale the costs, round them, and leave GCO_ENERGYTERMTYPE away
#define GCO_ENERGYTERMTYPE float
#include "GCoptimization.h"

int main() { return GCoptimizationGridGraph(1, 1, 1).whatLabel(0); }
