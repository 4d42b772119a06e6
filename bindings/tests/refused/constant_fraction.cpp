// message: Graph and Energy count in whole numbers: scale the capacities and round them first
#include "energy.h"

int main() {
    Energy<int, int, long long> e(0, 0);
    e.add_constant(0.5);
    return e.minimize() > 0;
}
