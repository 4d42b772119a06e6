// message: Graph and Energy count in whole numbers: scale the capacities and round them first
#include "graph.h"

int main() {
    maxflow::Graph<int, int, float> g(1, 0);
    return g.maxflow() > 0;
}
