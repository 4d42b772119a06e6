// message: Graph and Energy count in whole numbers: scale the capacities and round them first
#include "graph.h"

int main() {
    Graph<int, int, int> g(2, 1);
    g.add_node(2);
    g.add_edge(0, 1, 0.5f, 1);
    return g.maxflow();
}
