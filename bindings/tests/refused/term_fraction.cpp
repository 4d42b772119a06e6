// message: Graph and Energy count in whole numbers: scale the capacities and round them first
#include "energy.h"

int main() {
    Energy<int, int, long long> e(1, 0);
    e.add_term1(e.add_variable(), 0, 1.5);
    return e.minimize() > 0;
}
