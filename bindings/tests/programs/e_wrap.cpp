// A least value that does not fit the type of the answer is thrown, and fits a wider type.
#include "energy.h"
#include "wanted.h"

template <typename E> void fill(E &e) {
    e.add_variable(3);
    for (int x = 0; x < 3; x++) e.add_term1(x, 1000000000, 1000000000);
}

int main() {
    Energy<int, int, int> narrow(3, 0);
    fill(narrow);
    WANT(throws<std::overflow_error>(
        "the least value is 3000000000, which does not fit its type: write Graph<int, int, long "
        "long> or "
        "Energy<int, int, long long>",
        [&] { narrow.minimize(); }, what_of<std::overflow_error>));
    narrow.add_constant(-1000000000);   // 2,000,000,000 fits again
    WANT(narrow.minimize() == 2000000000);
    Energy<int, int, long long> wide(3, 0);
    fill(wide);
    WANT(wide.minimize() == 3000000000LL);
    Energy<int, int, unsigned> positive(1, 0);
    positive.add_term1(positive.add_variable(), -1, 0);
    WANT(throws<std::overflow_error>(
        "the least value is -1, which does not fit its type: write Graph<int, int, long long> or "
        "Energy<int, int, long long>",
        [&] { positive.minimize(); }, what_of<std::overflow_error>));
    Graph<int, int, short> flow(1, 0);
    flow.add_tweights(flow.add_node(), 40000, 50000);
    WANT(throws<std::overflow_error>(
        "the flow is 40000, which does not fit its type: write Graph<int, int, long long> or "
        "Energy<int, int, long long>",
        [&] { flow.maxflow(); }, what_of<std::overflow_error>));
    std::printf("e_wrap: a value beyond its type is thrown\n");
    return 0;
}
