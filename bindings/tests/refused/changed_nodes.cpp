// message: gco keeps no list of changed nodes: keep what_segment of each node, call maxflow(), and compare
#include "graph.h"

struct Block;

int main() {
    Graph<int, int, int> g(1, 0);
    Block *changed = nullptr;
    return g.maxflow(true, changed);
}
