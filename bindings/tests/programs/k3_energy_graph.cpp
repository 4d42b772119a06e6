// Energy used as the Graph that it is: capacities are changed between two searches, as people do
// who reuse trees.
#include "energy.h"
#include "wanted.h"

int main() {
    typedef Energy<int, int, long long> E;
    E e(3, 2);
    E::Var x = e.add_variable(3);
    e.add_term1(x, 0, 5);
    e.add_term1(x + 1, 6, 1);
    e.add_term2(x, x + 1, 0, 2, 2, 0);
    // 01: 0 + 1 + 2 = 3; 00: 6; 11: 6; 10: 13
    WANT(e.maxflow() == 3 && e.what_segment(x) == E::SOURCE && e.what_segment(x + 1) == E::SINK);
    e.add_tweights(x + 1, 20, 0);   // 20 more on the sink's side
    e.mark_node(x + 1);
    WANT(e.maxflow(true) == 6 && e.what_segment(x + 1) == E::SOURCE);
    e.add_edge(x, x + 2, 1, 0);
    e.mark_node(x + 2);
    e.add_term1(x + 2, 9, 0);
    e.add_constant(100);
    WANT(e.maxflow(true) == 7 && e.minimize() == 107 && e.get_var(x + 2) == 1);
    WANT(e.what_segment(x, E::SINK) == E::SOURCE && e.what_segment(x + 2, E::SINK) == E::SINK);
    // the third variable says nothing after this: its segment is the default one
    e.add_term1(x + 2, 0, 8);
    WANT(e.minimize() == 115 && e.what_segment(x + 2) == E::SOURCE &&
         e.what_segment(x + 2, E::SINK) == E::SINK && e.get_var(x + 2) == 0);
    // what_segment answers for the last search, whatever was added since
    e.add_term1(x, 1000, 0);
    e.add_term2(x, x + 1, 0, 50, 50, 0);
    WANT(e.what_segment(x, E::SINK) == E::SOURCE && e.what_segment(x) == E::SOURCE);
    WANT(e.minimize() == 134 &&
         e.get_var(x) == 1);   // x at 1: 5, y at 1: 21, no border, the third at 1: 8
    e.reset();
    WANT(e.get_node_num() == 0 && e.get_arc_num() == 0 && e.minimize() == 0);
    E::Var y = e.add_variable();
    e.add_term1(y, 3, 2);
    WANT(y == 0 && e.minimize() == 2 && e.get_var(y) == 1);
    std::printf("k3: Energy as a Graph\n");
    return 0;
}
