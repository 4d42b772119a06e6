// message: Graph and Energy count in whole numbers: scale the capacities and round them first
#include "energy.h"

int main() {
    Energy<double, double, double> e(1, 0);
    e.add_constant(0.5);
    return e.minimize() > 0;
}
