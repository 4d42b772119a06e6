// message: Graph and Energy count in whole numbers: scale the capacities and round them first
#include "graph.h"

int main() {
    Graph<int, double, long long> g(1, 0);
    g.add_tweights(g.add_node(), 0.5, 0.25);
    return static_cast<int>(g.maxflow());
}
