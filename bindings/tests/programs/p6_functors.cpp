// Functors for the data and the smooth costs.
#include <vector>
#include "GCoptimization.h"
#include "wanted.h"

class Levels : public GCoptimization::DataCostFunctor {
public:
    explicit Levels(const std::vector<int> &samples) : samples_(samples) {}
    virtual GCoptimization::EnergyTermType compute(GCoptimization::SiteID s,
                                                   GCoptimization::LabelID l) {
        return std::abs(samples_[static_cast<std::size_t>(s)] - 10 * l);
    }

private:
    std::vector<int> samples_;
};

class Truncated : public GCoptimization::SmoothCostFunctor {
public:
    virtual GCoptimization::EnergyTermType compute(GCoptimization::SiteID s1,
                                                   GCoptimization::SiteID s2,
                                                   GCoptimization::LabelID l1,
                                                   GCoptimization::LabelID l2) {
        return (s1 == 2 || s2 == 2 ? 1 : 3) * std::min(2, std::abs(l1 - l2));
    }
};

int main() {
    std::vector<int> samples = {1, 9, 12, 31, 28, 2};
    Levels levels(samples);
    Truncated truncated;
    GCoptimizationGridGraph gc(6, 1, 4);
    gc.setDataCostFunctor(&levels);
    gc.setSmoothCostFunctor(&truncated);
    long long least = -1;   // of all 4^6 labellings
    for (int code = 0; code < 4096; code++) {
        long long energy = 0;
        for (int s = 0; s < 6; s++) energy += levels.compute(s, code >> 2 * s & 3);
        for (int s = 0; s + 1 < 6; s++)
            energy += truncated.compute(s, s + 1, code >> 2 * s & 3, code >> (2 * s + 2) & 3);
        if (least < 0 || energy < least) least = energy;
    }
    WANT(gc.expansion() == least && gc.giveDataEnergy() + gc.giveSmoothEnergy() == least);
    std::printf("p6: functors, least energy %lld\n", least);
    return 0;
}
