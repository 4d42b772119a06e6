// message: gco has no residual capacities: add_tweights adds what is to be changed
#include "graph.h"

int main() {
    Graph<int, int, int> g(1, 0);
    g.set_trcap(g.add_node(), 3);
    return g.maxflow();
}
