// A program in the names of Kolmogorov's Energy: worked terms, and random ones against every
// assignment.
#include "energy.h"
#include "wanted.h"

typedef Energy<int, int, long long> Whole;

static int at_random(int below) { return std::rand() % below; }

static int random_terms() {
    for (int turn = 0; turn < 300; turn++) {
        const int n = 1 + at_random(6);
        Whole e(n, 8);
        int first = e.add_variable(n);
        WANT(first == 0);
        int one[8][2], two[8][4], p[8], q[8], count = at_random(8), constant = at_random(20) - 10;
        e.add_constant(constant);
        for (int i = 0; i < n; i++) {
            one[i][0] = at_random(9) - 4;
            one[i][1] = at_random(9) - 4;
            e.add_term1(i, one[i][0], one[i][1]);
        }
        if (n < 2) count = 0;
        for (int i = 0; i < count; i++) {
            p[i] = at_random(n);
            q[i] = (p[i] + 1 + at_random(n - 1)) % n;
            for (int j = 0; j < 3; j++) two[i][j] = at_random(9) - 4;
            two[i][3] = two[i][1] + two[i][2] - two[i][0] - at_random(4);
            e.add_term2(p[i], q[i], two[i][0], two[i][1], two[i][2], two[i][3]);
        }
        long long least = 0;
        int fewest = -1, shown = 0;
        for (int x = 0; x < 1 << n; x++) {
            long long value = constant;
            for (int i = 0; i < n; i++) value += one[i][x >> i & 1];
            for (int i = 0; i < count; i++) value += two[i][2 * (x >> p[i] & 1) + (x >> q[i] & 1)];
            int ones = __builtin_popcount(unsigned(x));
            if (fewest < 0 || value < least || (value == least && ones < fewest)) {
                least = value;
                fewest = ones;
                shown = x;
            }
        }
        WANT(e.minimize() == least);
        for (int i = 0; i < n; i++) WANT(e.get_var(i) == (shown >> i & 1));
    }
    return 0;
}

int main() {
    Whole e(2, 1);
    int x = e.add_variable(), y = e.add_variable();
    e.add_term1(x, 5, 2);
    e.add_term1(y, 1, 6);
    e.add_term2(x, y, 0, 3, 4, 0);
    WANT(e.minimize() == 6 && e.get_var(x) == 0 && e.get_var(y) == 0);
    // three together cost 3 less, the first 2 more
    Whole three(3, 0);
    three.add_variable(3);
    three.add_constant(10);
    three.add_term1(0, 0, 2);
    three.add_term3(0, 1, 2, 3, 3, 3, 3, 3, 3, 3, 0);
    WANT(three.minimize() == 12 && three.get_var(0) == 1 && three.get_var(1) == 1 &&
         three.get_var(2) == 1);
    if (random_terms()) return 1;
    std::printf("c++: Energy's names\n");
    return 0;
}
