// Kolmogorov's Energy: terms of one, two and three variables, and minimize twice with terms
// between.
#include <stdio.h>
#include "energy.h"

int main() {
    typedef Energy<int, int, int> EnergyType;
    EnergyType::Var varx, vary, varz;
    EnergyType *e = new EnergyType(3, 3);
    varx = e->add_variable();
    vary = e->add_variable();
    varz = e->add_variable();
    e->add_term1(varx, 0, 2);   // 2 x
    e->add_term1(vary, 4, 0);   // 4 (1 - y)
    e->add_term2(varx, vary, 0, 3, 5, 0);
    e->add_term3(varx, vary, varz, 0, 0, 0, 0, 0, 0, 0, -6);   // -6 x y z
    // 111: 2 - 6 = -4; all with one of the three at 0 are at least 0
    EnergyType::TotalValue first = e->minimize();
    int failed = first != -4 || e->get_var(varx) != 1 || e->get_var(vary) != 1 ||
                 e->get_var(varz) != 1;
    e->add_constant(-1);
    e->add_term1(varz, 0, 5);
    // 111 now costs 0; 000: 4 - 1 = 3; 010: 3 - 1 = 2; 110: 2 - 1 = 1
    EnergyType::TotalValue second = e->minimize();
    failed |= second != 0 || e->get_var(varz) != 1;
    e->add_term1(varz, 0, 5);
    EnergyType::TotalValue third = e->minimize();   // 110: 1
    failed |= third != 1 || e->get_var(varx) != 1 || e->get_var(vary) != 1 || e->get_var(varz) != 0;
    printf("k2: %d, %d, %d\n", first, second, third);
    delete e;
    return failed;
}
