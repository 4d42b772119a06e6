// message: gco tells the least cut and not the flow in each edge: ask what_segment
#include "graph.h"

int main() {
    Graph<int, int, int> g(2, 1);
    g.add_node(2);
    g.add_edge(0, 1, 3, 4);
    return g.maxflow() + g.get_rcap(g.get_first_arc());
}
