// Superpixels: a few sites, costs that were fractions and are scaled by 10,000, and weights that
// are large and share no factor.
#include <vector>
#include "GCoptimization.h"
#include "wanted.h"

int main() {
    const int n = 7, k = 3;
    const double unary[n][k] = {{0.1, 1.2, 2.3}, {0.4, 0.3, 0.9},  {1.5, 0.2, 0.8},
                                {0.7, 0.7, 0.1}, {2.0, 1.0, 0.05}, {0.3, 0.35, 0.3},
                                {0.9, 0.1, 0.4}};
    const int edges[][2] = {{0, 1}, {1, 2}, {2, 3}, {3, 4}, {4, 5}, {5, 6}, {0, 6}, {1, 5}};
    const double lengths[] = {0.31337, 0.11173, 0.27191, 0.5003,
                              0.19997, 0.22229, 0.08311, 0.40009};
    GCoptimizationGeneralGraph gc(n, k);
    std::vector<int> data(n * k), weights;
    for (int s = 0; s < n; s++)
        for (int l = 0; l < k; l++) {
            data[static_cast<std::size_t>(s * k + l)] = static_cast<int>(unary[s][l] * 10000 + 0.5);
            gc.setDataCost(s, l, data[static_cast<std::size_t>(s * k + l)]);
        }
    for (int a = 0; a < k; a++)
        for (int b = 0; b < k; b++) gc.setSmoothCost(a, b, a == b ? 0 : 1);
    for (int i = 0; i < 8; i++) {
        weights.push_back(static_cast<int>(lengths[i] * 10000 + 0.5));
        gc.setNeighbors(edges[i][0], edges[i][1], weights.back());
    }
    WANT(weights[0] > 1000 && weights[3] > 5000);
    // the least energy, by trying all 3^7 labellings
    long long least = -1;
    for (int code = 0; code < 2187; code++) {
        int f[n];
        long long energy = 0;
        for (int s = 0, rest = code; s < n; s++, rest /= 3) f[s] = rest % 3;
        for (int s = 0; s < n; s++) energy += data[static_cast<std::size_t>(s * k + f[s])];
        for (int i = 0; i < 8; i++)
            if (f[edges[i][0]] != f[edges[i][1]]) energy += weights[static_cast<std::size_t>(i)];
        if (least < 0 || energy < least) least = energy;
    }
    const long long reached = gc.swap();
    WANT(gc.expansion() <= reached && gc.compute_energy() == least);
    WANT(gc.giveDataEnergy() + gc.giveSmoothEnergy() == least);
    std::printf("p2: superpixels, least energy %lld\n", least);
    return 0;
}
