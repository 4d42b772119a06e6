// A montage of photographs: what a seam costs depends on both photographs at both sites, so it is
// no weight times a table. Each pixel is wanted from one photograph, and a seam is to run where the
// photographs look alike.
#include <vector>
#include "GCoptimization.h"
#include "wanted.h"

const int WIDTH = 4, HEIGHT = 3, SITES = WIDTH * HEIGHT, PHOTOGRAPHS = 3;

struct Stack {
    int photographs[PHOTOGRAPHS][SITES];
    int wanted[SITES];   // of which photograph a pixel is wanted, or -1
};

static int fit(int p, int l, void *extra) {
    const Stack *stack = static_cast<Stack *>(extra);
    return stack->wanted[p] < 0 || stack->wanted[p] == l ? 0 : 1000000;
}

static int seam(int p, int q, int a, int b, void *extra) {
    const Stack *stack = static_cast<Stack *>(extra);
    if (a == b) return 0;
    return std::abs(stack->photographs[a][p] - stack->photographs[b][p]) +
           std::abs(stack->photographs[a][q] - stack->photographs[b][q]);
}

static long long cost(Stack &stack, const std::vector<int> &f) {
    long long energy = 0;
    for (int p = 0; p < SITES; p++) {
        const int a = f[static_cast<std::size_t>(p)];
        energy += fit(p, a, &stack);
        if (p % WIDTH + 1 < WIDTH)
            energy += seam(p, p + 1, a, f[static_cast<std::size_t>(p + 1)], &stack);
        if (p + WIDTH < SITES)
            energy += seam(p, p + WIDTH, a, f[static_cast<std::size_t>(p + WIDTH)], &stack);
    }
    return energy;
}

static std::vector<int> labels_of(const GCoptimization &gc) {
    std::vector<int> labels;
    for (int p = 0; p < SITES; p++) labels.push_back(gc.whatLabel(p));
    return labels;
}

// the least energy that an expansion reaches, by trying all 2^12
static long long best_expansion(Stack &stack, const std::vector<int> &from, int label) {
    long long least = cost(stack, from);
    for (int bits = 1; bits < 1 << SITES; bits++) {
        std::vector<int> f = from;
        for (int p = 0; p < SITES; p++)
            if (bits >> p & 1) f[static_cast<std::size_t>(p)] = label;
        least = std::min(least, cost(stack, f));
    }
    return least;
}

// the least energy of all labellings, by trying all 3^12
static long long least_of_all(Stack &stack) {
    std::vector<int> f(SITES, 0);
    long long least = cost(stack, f);
    for (std::size_t p = 0; p < f.size();) {
        if (++f[p] == PHOTOGRAPHS) {
            f[p++] = 0;   // the next site counts on
            continue;
        }
        least = std::min(least, cost(stack, f));
        p = 0;
    }
    return least;
}

int main() {
    Stack stack = {{{10, 20, 30, 40, 50, 60, 70, 80, 15, 25, 35, 45},
                    {12, 20, 35, 40, 50, 61, 70, 90, 15, 20, 35, 44},
                    {90, 80, 31, 41, 50, 40, 71, 80, 15, 25, 36, 99}},
                   {0, -1, -1, 1, -1, -1, -1, -1, 2, -1, -1, 0}};
    GCoptimizationGridGraph gc(WIDTH, HEIGHT, PHOTOGRAPHS);
    gc.setDataCost(fit, &stack);
    gc.setSmoothCost(seam, &stack);
    std::vector<int> labels(SITES, 0);
    // each expansion goes to the best labelling that it reaches
    for (int round = 0; round < 3; round++)
        for (int label = 0; label < PHOTOGRAPHS; label++) {
            const long long due = best_expansion(stack, labels, label);
            gc.alpha_expansion(label);
            labels = labels_of(gc);
            WANT(cost(stack, labels) == due && gc.compute_energy() == due);
        }
    for (int p = 0; p < SITES; p++) WANT(stack.wanted[p] < 0 || gc.whatLabel(p) == stack.wanted[p]);
    const long long single = gc.compute_energy();
    for (int p = 0; p < SITES; p++) gc.setLabel(p, 0);
    WANT(gc.expansion() == single && labels_of(gc) == labels && gc.giveDataEnergy() == 0);
    WANT(gc.swap() <= single);
    WANT(gc.lowerBound() > 0 && gc.lowerBound() <= least_of_all(stack));
    std::printf("p3: a montage of three photographs, seams of %lld\n", single);
    return 0;
}
