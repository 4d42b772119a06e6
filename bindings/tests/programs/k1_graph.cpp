// A least cut, as people who come from maxflow-v3 write it.
#include <stdio.h>
#include "graph.h"

int main() {
    typedef Graph<int, int, int> GraphType;
    GraphType *g = new GraphType(/*estimated # of nodes*/ 2, /*estimated # of edges*/ 1);
    g->add_node();
    g->add_node();
    g->add_tweights(0, /* capacities */ 9, 4);
    g->add_tweights(1, /* capacities */ 2, 7);
    g->add_edge(0, 1, /* capacities */ 3, 5);
    // both with the source 11, both with the sink 11, the first alone with the source 3 + 4 + 2 =
    // 9, the second alone 21
    int flow = g->maxflow();
    printf("k1: flow = %d\n", flow);
    int failed = flow != 9 || g->what_segment(0) != GraphType::SOURCE ||
                 g->what_segment(1) != GraphType::SINK;
    failed |= g->get_node_num() != 2 || g->get_arc_num() != 2;
    delete g;

    // the same names in namespace maxflow, and two loose nodes: with default_segm they go where the
    // caller says
    using namespace maxflow;
    maxflow::Graph<short, int, long> h(3, 2);
    int first = h.add_node(3);
    h.add_tweights(first, 5, 0);
    h.add_tweights(first + 2, 0, 5);
    h.add_edge(first, first + 1, 5, 0);
    h.add_edge(first + 1, first + 2, 5, 0);
    failed |= h.maxflow() != 5;
    typedef maxflow::Graph<short, int, long> Narrow;
    for (int i = 0; i < 3; i++) {
        // each edge and each terminal is full, so that each node may be on either side
        failed |= h.what_segment(i) != Narrow::SOURCE ||
                  h.what_segment(i, Narrow::SINK) != Narrow::SINK;
    }
    int from = -1, to = -1, arcs = 0;
    Narrow::arc_id a = h.get_first_arc();
    for (; arcs < h.get_arc_num(); arcs++, a = h.get_next_arc(a)) h.get_arc_ends(a, from, to);
    failed |= arcs != 4 || from != 2 || to != 1;
    return failed;
}
