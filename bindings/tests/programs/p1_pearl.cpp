// Lines are fitted to points: labels are models, a label that is used costs, near points are
// neighbours, and the models are estimated anew from the points that have them, until nothing
// changes. The data function reads the models as they are.
#include <algorithm>
#include <cmath>
#include <vector>
#include "GCoptimization.h"
#include "wanted.h"

struct Point {
    int x, y;
};
static std::vector<Point> points;
static std::vector<int> heights;   // a model is a level line at a height; the last is the outliers'

static int distance(GCoptimization::SiteID p, GCoptimization::LabelID l) {
    if (l + 1 == static_cast<int>(heights.size())) return 400;
    return std::min(1000, 10 * std::abs(points[static_cast<std::size_t>(p)].y -
                                        heights[static_cast<std::size_t>(l)]));
}

int main() {
    // 12 points near height 10, 12 near height 60, and one far from both
    for (int i = 0; i < 12; i++) points.push_back(Point{10 * i, 10 + i % 3 - 1});
    for (int i = 0; i < 12; i++) points.push_back(Point{10 * i, 60 + i % 3 - 1});
    points.push_back(Point{55, 500});
    const int count = static_cast<int>(points.size());
    heights = {0, 14, 30, 57, 90, 0};
    GCoptimizationGeneralGraph gc(count, static_cast<int>(heights.size()));
    gc.setDataCost(distance);
    for (int a = 0; a < gc.numLabels(); a++)
        for (int b = 0; b < gc.numLabels(); b++) gc.setSmoothCost(a, b, a != b);
    for (int p = 0; p < count; p++) {   // the four nearest, each pair once
        std::vector<std::pair<int, int>> near;
        for (int q = 0; q < count; q++)
            if (q != p)
                near.push_back(std::make_pair(std::abs(points[static_cast<std::size_t>(p)].x -
                                                       points[static_cast<std::size_t>(q)].x) +
                                                  std::abs(points[static_cast<std::size_t>(p)].y -
                                                           points[static_cast<std::size_t>(q)].y),
                                              q));
        std::sort(near.begin(), near.end());
        for (std::size_t i = 0; i < 4; i++)
            if (near[i].second > p)
                gc.setNeighbors(p, near[i].second, 1 + 50 / (1 + near[i].first));
    }
    int label_costs[] = {300, 300, 300, 300, 300, 0};
    gc.setLabelCost(label_costs);
    long long last = gc.compute_energy();
    bool changed = true;
    for (int round = 0; changed && round < 50; round++) {
        long long energy = gc.expansion(-1);
        WANT(energy <= last);
        last = energy;
        changed = false;
        for (int l = 0; l + 1 < gc.numLabels(); l++) {
            std::vector<int> ys;
            for (int p = 0; p < count; p++)
                if (gc.whatLabel(p) == l) ys.push_back(points[static_cast<std::size_t>(p)].y);
            if (ys.empty()) continue;
            std::sort(ys.begin(), ys.end());
            int median = ys[ys.size() / 2];
            changed = changed || median != heights[static_cast<std::size_t>(l)];
            heights[static_cast<std::size_t>(l)] = median;
        }
        WANT(gc.compute_energy() <=
             last);   // the function is asked again, with the models as they now are
        last = gc.compute_energy();
    }
    WANT(!changed);
    // two models are left, at heights 10 and 60, and the far point is an outlier: 2 * 300 for the
    // models, 400 for the outlier, and 10 for each of the 16 points that are one off
    for (int p = 0; p < 24; p++) WANT(gc.whatLabel(p) == gc.whatLabel(p < 12 ? 0 : 12));
    WANT(heights[static_cast<std::size_t>(gc.whatLabel(0))] == 10 &&
         heights[static_cast<std::size_t>(gc.whatLabel(12))] == 60);
    WANT(gc.whatLabel(24) == 5 && gc.giveLabelEnergy() == 600 && gc.giveDataEnergy() == 560);
    std::printf("p1: lines fitted to points\n");
    return 0;
}
