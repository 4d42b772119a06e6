// message: Graph and Energy count in whole numbers: scale the capacities and round them first
#include <cstdio>
#include "energy.h"

int main() {
    typedef Energy<double, double, double> E;
    E *e = new E(2, 1);
    E::Var x = e->add_variable(), y = e->add_variable();
    e->add_term1(x, 0.25, 1.5);
    e->add_term2(x, y, 0.0, 0.75, 0.75, 0.0);
    std::printf("%f\n", e->minimize());
}
