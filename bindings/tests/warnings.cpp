// Every member of the headers' classes, over types of each size and sign.
#include "GCoptimization.h"
#include "energy.h"
#include "gco.h"
#include "graph.h"

template class Graph<int, int, int>;
template class Graph<unsigned char, short, unsigned long long>;
template class Graph<unsigned long long, long long, long>;
template class Energy<int, int, long long>;
template class Energy<signed char, short, int>;
template class Energy<unsigned, unsigned long long, unsigned>;

// numbers of other types than the classes have
template <typename Number> void other_numbers(Number n) {
    Graph<short, int, int> g(2, 1);
    g.add_node(2);
    g.add_edge(0, 1, n, n);
    g.add_tweights(0, n, 1);
    Energy<int, int, long long> e(3, 1);
    e.add_variable(3);
    e.add_constant(n);
    e.add_term1(0, n, n);
    e.add_term2(0, 1, 0, n, n, 0);
    e.add_term3(0, 1, 2, 0, n, n, n, n, n, n, 0);
    GCoptimizationGeneralGraph gc(2, 2);
    gc.setDataCost(0, 0, n);
    gc.setSmoothCost(0, 1, n);
    gc.setLabelCost(n);
    gc.setNeighbors(0, 1, n);
}
template void other_numbers(char);
template void other_numbers(unsigned char);
template void other_numbers(short);
template void other_numbers(unsigned);
template void other_numbers(long);
template void other_numbers(unsigned long);
template void other_numbers(long long);
template void other_numbers(unsigned long long);

int main() { return 0; }
