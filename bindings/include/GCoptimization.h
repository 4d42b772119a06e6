// gco under the names of gco-v3 (GCoptimization.h), over gco.h: a program written for gco-v3's
// grids and graphs is compiled again with this header and linked with libgco. C++11; this header,
// gco_smooth.h and gco.h alone.
//
// As in gco-v3: labels start at 0; costs are int; expansion and swap answer the energy; whatever
// the class throws is a GCException. Functions and functors of costs are asked anew in each call
// that needs costs. Other than in gco-v3:
// - The answer is one and proved: each move goes to the best labelling that it reaches, ties by a
//   written rule.
// - Arrays are copied when they are set.
// - Smooth costs by a function or functor are asked for at every pair and all labels in each call.
//   If they are no weight of the two sites times one table of the labels, a call makes a table for
//   each pair: 4 bytes for each two labels, and 12 for a bound. Then a cost is at most 10,000,000,
//   and what is watched or printed is made move by move.
// - A smooth cost or weight below 0 is refused. A common factor moves between weights and smooth
//   costs. A weight that stays above 1,000 is laid down as several pairs of the same sites, which
//   counts the same. After that a smooth cost is at most 10,000, and there are at most 4,194,304
//   pairs.
// - A data cost is at most 10,000,000 above the least of its site, which may be below 0.
// - A sparse data cost that is not listed is 10,000,000 (GCO_MAX_ENERGYTERM).
// - An expansion over a smooth cost that is no metric is refused if a term is not regular.
// - A swap is refused if a label cost is above 0. With lists of sites it takes all sites of its
//   two labels.
// - A random order of labels is the rising one, so that the answer is one. The order of a list is
//   made move by move.
// - setVerbosity(1) prints each cycle, and setVerbosity(2) each move, by a call for each.
// Beyond gco-v3: lowerBound, startFromBound, setWatch and outcome.
// Not there: setLabelSubsetCost, and more than 1,048,576 sites or 256 labels.
#ifndef GCO_GCOPTIMIZATION_H
#define GCO_GCOPTIMIZATION_H

#include <algorithm>
#include <array>
#include <chrono>
#include <cstddef>
#include <cstdint>
#include <cstdio>
#include <functional>
#include <limits>
#include <new>
#include <string>
#include <type_traits>
#include <utility>
#include <vector>

#include "gco.h"
#include "gco_smooth.h"

#ifndef GCO_MAX_ENERGYTERM
#define GCO_MAX_ENERGYTERM 10000000
#endif
static_assert(GCO_MAX_ENERGYTERM == GCO_DATA_LIMIT,
              "GCO_MAX_ENERGYTERM is 10,000,000 in gco: leave it as it is");
#ifdef GCO_ENERGYTERMTYPE
static_assert(
    std::is_same<GCO_ENERGYTERMTYPE, int>::value,
    "gco counts costs in int: scale the costs, round them, and leave GCO_ENERGYTERMTYPE away");
#endif
#ifdef GCO_ENERGYTYPE
static_assert(
    std::is_integral<GCO_ENERGYTYPE>::value,
    "gco counts energies in long long: scale the costs, round them, and leave GCO_ENERGYTYPE away");
#endif

class GCoptimization {
public:
    typedef long long EnergyType;
    typedef int EnergyTermType;
    static_assert(std::is_same<EnergyTermType, std::int32_t>::value,
                  "costs go to gco_label_int32 as they are");
    typedef int LabelID;
    typedef int SiteID;
    typedef EnergyTermType (*DataCostFn)(SiteID, LabelID);
    typedef EnergyTermType (*DataCostFnExtra)(SiteID, LabelID, void *);
    typedef EnergyTermType (*SmoothCostFn)(SiteID, SiteID, LabelID, LabelID);
    typedef EnergyTermType (*SmoothCostFnExtra)(SiteID, SiteID, LabelID, LabelID, void *);
    struct DataCostFunctor {
        virtual ~DataCostFunctor() {}
        virtual EnergyTermType compute(SiteID s, LabelID l) = 0;
    };
    struct SmoothCostFunctor {
        virtual ~SmoothCostFunctor() {}
        virtual EnergyTermType compute(SiteID s1, SiteID s2, LabelID l1, LabelID l2) = 0;
    };
    struct SparseDataCost {
        SiteID site;
        EnergyTermType cost;
    };

    // how far a run came: its last move, of which an expansion has twice the same label, its cycle
    // from 1, and the energy
    struct Progress {
        int cycle;
        LabelID alpha, beta;
        EnergyType energy;
    };
    typedef std::function<bool(const Progress &)> Watch;

    // whether a type has numbers that an int does not hold: fractions are among them
    template <typename Cost>
    using IfNarrows = typename std::enable_if<
        std::is_floating_point<Cost>::value ||
        (std::is_integral<Cost>::value && std::numeric_limits<Cost>::digits >
                                              std::numeric_limits<EnergyTermType>::digits)>::type;

    GCoptimization(SiteID sites, LabelID labels) : sites_(sites), label_count_(labels) {
        if (sites < 0)
            throw GCException("there is no such number of sites: " + std::to_string(sites));
        if (labels < 1)
            throw GCException("there is no such number of labels: " + std::to_string(labels));
        if (sites > SiteID(GCO_SITE_LIMIT))
            throw GCException("there are " + std::to_string(sites) +
                              " sites, and at most 1,048,576 are taken");
        if (labels > LabelID(GCO_LABEL_LIMIT))
            throw GCException("there are " + std::to_string(labels) +
                              " labels, and at most 256 are taken");
        in_memory([&] {
            data_.assign(std::size_t(sites) * label_total(), 0);
            smooth_.assign(label_total() * label_total(), 0);
            labels_.assign(std::size_t(sites), 0);
        });
    }
    virtual ~GCoptimization() {}

    void setDataCost(const EnergyTermType *costs) {
        std::copy(costs, costs + data_.size(), data_.begin());
        data_function_ = nullptr;
        data_kind_ = DataKind::dense;
    }
    // one cost; those that a function or a list of sites gave stay as they are now
    void setDataCost(SiteID site, LabelID label, EnergyTermType cost) {
        const std::size_t at = place(site, label);
        ask_data();
        data_function_ = nullptr;
        data_[at] = cost;
        if (data_kind_ == DataKind::none) data_kind_ = DataKind::dense;
    }
    // a cost that an int may not hold, here and below: a fraction is refused by the compiler
    template <typename Cost, typename = IfNarrows<Cost>>
    void setDataCost(SiteID site, LabelID label, Cost cost) {
        setDataCost(site, label, held(cost));
    }
    void setDataCost(DataCostFn cost) { set_data_function(cost); }
    void setDataCost(DataCostFnExtra cost, void *extra) {
        set_data_function([cost, extra](SiteID s, LabelID l) { return cost(s, l, extra); });
    }
    void setDataCostFunctor(DataCostFunctor *functor) {
        set_data_function([functor](SiteID s, LabelID l) { return functor->compute(s, l); });
    }
    // the sites that may have a label, in rising order, and what it costs there; all others pay
    // GCO_MAX_ENERGYTERM for it
    void setDataCost(LabelID l, const SparseDataCost *costs, SiteID count) {
        check_sparse(l, costs, count);
        if (data_kind_ == DataKind::none) std::fill(data_.begin(), data_.end(), GCO_MAX_ENERGYTERM);
        data_kind_ = DataKind::sparse;
        for (SiteID s = 0; s < sites_; s++) data_[place(s, l)] = GCO_MAX_ENERGYTERM;
        for (SiteID i = 0; i < count; i++) data_[place(costs[i].site, l)] = costs[i].cost;
    }

    // costs[l1 + l2 * numLabels()], as gco-v3's example has it; gco-v3 asks for a symmetric table
    void setSmoothCost(const EnergyTermType *costs) {
        std::copy(costs, costs + smooth_.size(), smooth_.begin());
        smooth_function_ = nullptr;
    }
    void setSmoothCost(LabelID l1, LabelID l2, EnergyTermType cost) {
        check_label(l1);
        check_label(l2);
        if (smooth_function_)
            throw GCException(
                "the smooth costs are set by a function: set all of them by a table instead");
        smooth_[std::size_t(l1) + std::size_t(l2) * label_total()] = cost;
    }
    template <typename Cost, typename = IfNarrows<Cost>>
    void setSmoothCost(LabelID l1, LabelID l2, Cost cost) {
        setSmoothCost(l1, l2, held(cost));
    }
    // costs of two sites and their labels
    void setSmoothCost(SmoothCostFn cost) { set_smooth_function(cost); }
    void setSmoothCost(SmoothCostFnExtra cost, void *extra) {
        set_smooth_function([cost, extra](SiteID p, SiteID q, LabelID a, LabelID b) {
            return cost(p, q, a, b, extra);
        });
    }
    void setSmoothCostFunctor(SmoothCostFunctor *functor) {
        set_smooth_function([functor](SiteID p, SiteID q, LabelID a, LabelID b) {
            return functor->compute(p, q, a, b);
        });
    }

    // what a label costs once, where some site has it: the same for each, or one for each
    void setLabelCost(EnergyTermType cost) {
        in_memory([&] { label_costs_.assign(label_total(), cost); });
    }
    template <typename Cost, typename = IfNarrows<Cost>> void setLabelCost(Cost cost) {
        setLabelCost(held(cost));
    }
    void setLabelCost(const EnergyTermType *costs) {
        in_memory([&] { label_costs_.assign(costs, costs + label_count_); });
    }
    template <typename... Any> void setLabelSubsetCost(Any...) {
        static_assert(Absent<Any...>::value,
                      "gco has no cost of a set of labels: give each label its own cost with "
                      "setLabelCost(costs)");
    }

    // the order of the moves: rising where a random one is asked for, so that the answer is one;
    // and that of a list, of all labels or of some
    void setLabelOrder(bool is_random) {
        order_.clear();
        is_ordered_ = false;
        if (is_random && verbosity_ >= 1)
            std::printf("gco: labels are taken in rising order, and not in a random one\n");
    }
    void setLabelOrder(const LabelID *order, LabelID size) {
        in_memory([&] {
            std::vector<LabelID> listed(order, order + std::max(size, 0));
            std::vector<bool> is_listed(label_total());
            for (LabelID label : listed) {
                check_label(label);
                if (is_listed[std::size_t(label)])
                    throw GCException("the order of labels has label " + std::to_string(label) +
                                      " twice");
                is_listed[std::size_t(label)] = true;
            }
            order_.swap(listed);
        });
        is_ordered_ = size != label_count_ || !std::is_sorted(order_.begin(), order_.end());
    }

    EnergyType expansion(int cycles = -1) {
        return in_memory([&] { return run(GCO_EXPANSION, cycles); });
    }
    EnergyType swap(int cycles = -1) {
        return in_memory([&] { return run(GCO_SWAP, cycles); });
    }
    // beyond gco-v3: what each later run calls about twice a second and where it ends; after each
    // move in an order of labels, or where each pair has a table. Where it answers no the run stops
    // there, and outcome() is not settled. What it throws comes through, and the labels are those
    // before the run. setWatch(nullptr) takes it away
    void setWatch(Watch watch) { watch_ = std::move(watch); }
    // one move; yes where a label changed, and so the energy fell
    bool alpha_expansion(LabelID alpha) {
        check_label(alpha);
        return in_memory([&] { return Moves(*this).expand(alpha); });
    }
    void alpha_beta_swap(LabelID alpha, LabelID beta) {
        check_label(alpha);
        check_label(beta);
        in_memory([&] { return Moves(*this).swap(alpha, beta); });
    }
    // with the sites that have each of the two labels, all of them
    void alpha_beta_swap(LabelID alpha, LabelID beta, const SiteID *alpha_sites, SiteID alpha_size,
                         const SiteID *beta_sites, SiteID beta_size) {
        check_label(alpha);
        check_label(beta);
        in_memory([&] {
            check_all_sites(alpha, alpha_sites, alpha_size);
            check_all_sites(beta, beta_sites, beta_size);
        });
        alpha_beta_swap(alpha, beta);
    }
    // beyond gco-v3: a number that no labelling's energy is below, after at most so many passes over
    // the sites (-1: until it rises little). Nothing is promised of how near it comes
    EnergyType lowerBound(int passes = -1) {
        return in_memory([&] {
            std::vector<std::uint32_t> told(labels_.size());
            return Moves(*this).bound(passes, told);
        });
    }
    // the same, and the labels become those that the passes tell: a run often ends lower from there
    EnergyType startFromBound(int passes = -1) {
        return in_memory([&] {
            std::vector<std::uint32_t> told(labels_.size());
            const EnergyType low = Moves(*this).bound(passes, told);
            labels_.swap(told);
            return low;
        });
    }
    EnergyType compute_energy() {
        return in_memory([&] { return Run(*this).make(GCO_EXPANSION, 0); });
    }
    EnergyType giveDataEnergy() {
        compute_energy();
        return outcome_.data + shift_;
    }
    EnergyType giveSmoothEnergy() {
        compute_energy();
        return outcome_.smooth;
    }
    EnergyType giveLabelEnergy() {
        compute_energy();
        return outcome_.label;
    }

    LabelID whatLabel(SiteID site) const {
        check_site(site);
        return LabelID(labels_[std::size_t(site)]);
    }
    void whatLabel(SiteID start, SiteID count, LabelID *labels) const {
        if (start < 0 || count < 0 || std::int64_t(start) + count > sites_)
            throw GCException("there are no " + std::to_string(count) + " sites from site " +
                              std::to_string(start) + " on: there are " + std::to_string(sites_) +
                              " sites");
        for (SiteID s = 0; s < count; s++) labels[s] = whatLabel(start + s);
    }
    void setLabel(SiteID site, LabelID label) {
        check_site(site);
        check_label(label);
        labels_[std::size_t(site)] = std::uint32_t(label);
    }
    SiteID numSites() const { return sites_; }
    LabelID numLabels() const { return label_count_; }
    // 0: nothing is printed, 1: each cycle, 2: each move
    void setVerbosity(int level) { verbosity_ = level; }

    // beyond gco-v3: what the last call told
    const gco_outcome &outcome() const { return outcome_; }

protected:
    // a cost as it goes on, in an int
    template <typename Cost> static EnergyTermType held(Cost cost) {
        static_assert(!std::is_floating_point<Cost>::value,
                      "gco counts costs in int: scale the costs and round them first");
        typedef std::numeric_limits<EnergyTermType> Limits;
        const std::int64_t wide = static_cast<std::int64_t>(cost);
        if (wide < Limits::min() || wide > Limits::max() ||
            (!std::is_signed<Cost>::value && wide < 0))
            throw GCException("the cost " + std::to_string(cost) + " does not fit an int");
        return static_cast<EnergyTermType>(wide);
    }
    void check_neighbours(SiteID p, SiteID q, EnergyTermType weight) const {
        check_site(p);
        check_site(q);
        if (p == q) throw GCException("site " + std::to_string(p) + " is no neighbour of itself");
        if (weight < 0)
            throw GCException("the weight of " + names(p, q) + " is " + std::to_string(weight) +
                              ", below 0");
    }
    static std::string too_many_pairs() {
        return "there are more than 4,194,304 pairs of neighbours";
    }
    void add_pair(SiteID p, SiteID q, EnergyTermType weight) {
        check_neighbours(p, q, weight);
        if (pairs_.size() >= GCO_PAIR_LIMIT) throw GCException(too_many_pairs());
        const gco_pair pair = {std::uint32_t(p), std::uint32_t(q), std::uint32_t(weight)};
        in_memory([&] { pairs_.push_back(pair); });
    }
    void check_label(LabelID label) const {
        if (label < 0 || label >= label_count_)
            throw GCException("there is no label " + std::to_string(label) + ": there are " +
                              std::to_string(label_count_));
    }
    void check_site(SiteID site) const {
        if (site < 0 || site >= sites_)
            throw GCException("there is no site " + std::to_string(site) + ": there are " +
                              std::to_string(sites_));
    }
    static std::string names(std::int64_t p, std::int64_t q) {
        return gco_smooth::names(p, q);
    }
    // what is done without memory is told as all else is
    template <typename Work> static auto in_memory(Work work) -> decltype(work()) {
        try {
            return work();
        } catch (const std::bad_alloc &) {
            throw GCException("there is not enough memory");
        }
    }
    std::vector<gco_pair> pairs_;

private:
    template <typename...> struct Absent : std::false_type {};
    enum class DataKind { none, dense, sparse };
    typedef std::function<EnergyTermType(SiteID, LabelID)> DataFunction;
    typedef gco_smooth::Function SmoothFunction;

    std::size_t label_total() const { return std::size_t(label_count_); }
    std::size_t place(SiteID site, LabelID label) const {
        check_site(site);
        check_label(label);
        return std::size_t(site) * label_total() + std::size_t(label);
    }

    void set_data_function(DataFunction cost) {
        data_function_ = std::move(cost);
        data_kind_ = DataKind::dense;
    }
    void set_smooth_function(SmoothFunction cost) { smooth_function_ = std::move(cost); }
    // fills the table from the function, where one gives the costs
    void ask_data() {
        if (!data_function_) return;
        std::size_t at = 0;
        for (SiteID s = 0; s < sites_; s++)
            for (LabelID l = 0; l < label_count_; l++) data_[at++] = data_function_(s, l);
    }
    void check_sparse(LabelID l, const SparseDataCost *costs, SiteID count) const {
        check_label(l);
        if (data_kind_ == DataKind::dense)
            throw GCException("the data costs were set for all sites before: set sparse costs for "
                              "each label, and no others");
        for (SiteID i = 0; i < count; i++) {
            check_site(costs[i].site);
            if (i > 0 && costs[i].site <= costs[i - 1].site)
                throw GCException("the sparse costs of label " + std::to_string(l) + " name site " +
                                  std::to_string(costs[i].site) + " behind site " +
                                  std::to_string(costs[i - 1].site) +
                                  ": list each site once, in rising order");
        }
    }
    void check_all_sites(LabelID label, const SiteID *listed, SiteID count) const {
        const std::string refusal =
            "a swap takes all sites of its two labels: list each site of label " +
            std::to_string(label) + " once, or call alpha_beta_swap(alpha, beta)";
        std::vector<bool> is_listed(labels_.size());
        for (SiteID i = 0; i < count; i++) {
            if (whatLabel(listed[i]) != label || is_listed[std::size_t(listed[i])])
                throw GCException(refusal);
            is_listed[std::size_t(listed[i])] = true;
        }
        if (std::count(labels_.begin(), labels_.end(), std::uint32_t(label)) != std::max(count, 0))
            throw GCException(refusal);
    }

    // the arrays of a call; the data costs and the pairs are the class's own where nothing is to be
    // changed in them
    struct Arrays {
        explicit Arrays(GCoptimization &given)
            : of(given),
              laid(given.label_total(), given.pairs_, given.smooth_, given.smooth_function_) {
            of.ask_data();
            of.shift_ = 0;
            const std::size_t k = of.label_total();
            for (std::size_t s = 0; s < of.labels_.size(); s++) {
                // the least cost of a site goes out of the table and into the energy, where it is
                // below 0 or a cost is large
                const EnergyTermType *row = of.data_.data() + s * k;
                const auto ends = std::minmax_element(row, row + k);
                const std::int64_t least = *ends.first;
                if (least >= 0 && *ends.second <= GCO_DATA_LIMIT) continue;
                if (shifted.empty()) shifted = of.data_;
                for (std::size_t l = 0; l < k; l++)
                    shifted[s * k + l] = std::int32_t(checked(s, l, row[l], least));
                of.shift_ += least;
            }
        }
        Arrays(const Arrays &) = delete;
        Arrays &operator=(const Arrays &) = delete;

        static std::int64_t checked(std::size_t site, std::size_t label, std::int64_t cost,
                                    std::int64_t least) {
            if (cost - least > GCO_DATA_LIMIT)
                throw GCException("the data cost of site " + std::to_string(site) + " and label " +
                                  std::to_string(label) + " is " + std::to_string(cost) +
                                  ", more than 10,000,000 above the least of its site, " +
                                  std::to_string(least));
            return cost - least;
        }
        const std::vector<std::int32_t> &data() const {
            return shifted.empty() ? of.data_ : shifted;
        }
        void check(std::uint32_t status) const {
            if (status != GCO_OK) throw GCException(told(status));
        }
        std::string told(std::uint32_t status) const {
            const gco_outcome &o = of.outcome_;
            if (status == GCO_OUT_OF_MEMORY) throw std::bad_alloc();
            if (status == GCO_LABEL_COST_RANGE)
                return "the cost of label " + std::to_string(o.place) + " is " +
                       std::to_string(of.label_costs_[o.place]) + ": from 0 to 10,000,000 is taken";
            if (status == GCO_LABEL_COST_IN_SWAP)
                return "a swap is asked for, and a label costs more than 0 by itself";
            if (status != GCO_NOT_REGULAR)
                return "refused " + std::to_string(status) + " at " + std::to_string(o.place);
            const gco_pair &pair = (*laid.pairs)[o.place];
            return "the smooth cost is no metric: the term of " + names(pair.first, pair.second) +
                   " is not regular in the " + move_name(LabelID(o.alpha), LabelID(o.beta));
        }
        EnergyType energy() const {
            return of.outcome_.data + of.outcome_.smooth + of.outcome_.label + of.shift_;
        }

        GCoptimization &of;
        const gco_smooth::Laid laid;
        std::vector<std::int32_t> shifted;
    };

    // runs over costs of 32 bits
    struct Run : Arrays {
        explicit Run(GCoptimization &given) : Arrays(given) {}
        EnergyType make(std::uint32_t moves, std::uint32_t cycles) {
            check(laid.label(data(), of.label_costs_, moves, cycles, of.labels_, of.outcome_));
            return energy();
        }
    };

    // a run over costs of 32 bits, by some of its moves a call
    struct Stretches : Arrays {
        Stretches(GCoptimization &given, std::uint32_t moves, std::uint32_t cycles)
            : Arrays(given), kind(moves), allowed(cycles), length(given.cycle_length(moves)),
              stamps(given.labels_.size()), expanded(given.label_total()) {}
        // makes at most so many moves; yes where the run goes on
        bool make(std::uint32_t most) {
            const std::vector<std::int32_t> &costs = data(), &own = of.label_costs_;
            const std::uint32_t status = gco_label_stretch_int32(
                std::uint32_t(of.label_count_), costs.data(), costs.size(), laid.table.data(),
                laid.table.size(), own.data(), own.size(), laid.pairs->data(), laid.pairs->size(),
                kind, allowed, most, &course, stamps.data(), stamps.size(), expanded.data(),
                expanded.size(), of.labels_.data(), of.labels_.size(), &of.outcome_);
            if (status != GCO_UNFINISHED) check(status);
            return status == GCO_UNFINISHED;
        }
        // how many moves are made; at the end of the run all of its cycle, since those that are
        // left are known to change nothing
        std::uint64_t moves_made() const {
            const std::uint64_t ended = of.outcome_.cycles, whole = course.cycles;
            return ended > whole ? ended * length : whole * length + course.place;
        }
        // how many moves there are before something is to be printed
        std::uint32_t moves_unprinted() const {
            if (of.verbosity_ >= 2) return 1;
            return of.verbosity_ == 1 ? std::uint32_t(length) - course.place : UINT32_MAX;
        }
        const std::uint32_t kind, allowed;
        const std::uint64_t length;
        std::vector<std::uint32_t> stamps, expanded;
        gco_course course = gco_course();
    };

    // single moves over costs of 32 bits, and the bound over a copy of them in 64 bits
    struct Moves : Arrays {
        explicit Moves(GCoptimization &given)
            : Arrays(given), costs(data()), own(given.label_costs_) {}
        bool expand(LabelID alpha) {
            check(laid.expand(costs, own, std::uint32_t(alpha), of.labels_, of.outcome_));
            if (of.verbosity_ >= 2) of.print("  " + move_name(alpha, alpha), energy());
            return of.outcome_.changed != 0;
        }
        bool swap(LabelID alpha, LabelID beta) {
            check(laid.swap(costs, own, std::uint32_t(alpha), std::uint32_t(beta), of.labels_,
                            of.outcome_));
            if (of.verbosity_ >= 2)
                of.print("  swap of labels " + std::to_string(alpha) + " and " +
                             std::to_string(beta),
                         energy());
            return of.outcome_.changed != 0;
        }
        EnergyType bound(int passes, std::vector<std::uint32_t> &labels) {
            gco_bound told;
            const std::uint32_t status = laid.bound(
                costs, own, passes < 0 ? GCO_ALL_PASSES : std::uint32_t(passes), labels, told);
            of.outcome_ = gco_outcome();
            of.outcome_.place = told.place;
            check(status);
            return told.low + of.shift_;
        }
        // a cycle in the labels' order, until the watch stops it; yes where one changed a label
        bool cycle(std::uint32_t moves, std::uint32_t number) {
            bool is_changed = false;
            const LabelID count = of.order_count();
            moves_left = moves == GCO_SWAP ? count * (count - 1) / 2 : count;
            for (LabelID i = 0; i < count; i++)
                for (LabelID j = moves == GCO_SWAP ? i + 1 : i;
                     j < (moves == GCO_SWAP ? count : i + 1); j++) {
                    const LabelID alpha = of.ordered(i), beta = of.ordered(j);
                    is_changed |= i == j ? expand(alpha) : swap(alpha, beta);
                    moves_left--;
                    is_stopped = !of.goes_on({int(number), alpha, beta, energy()});
                    if (is_stopped) return is_changed;
                }
            return is_changed;
        }
        const std::vector<std::int32_t> &costs, &own;
        int moves_left = 0;
        bool is_stopped = false;
    };

    EnergyType run(std::uint32_t moves, int cycles) {
        const std::uint32_t allowed = cycles < 0 ? GCO_ALL_CYCLES : std::uint32_t(cycles);
        if (verbosity_ < 1 && !is_ordered_ && !watch_) return Run(*this).make(moves, allowed);
        const std::vector<std::uint32_t> before(labels_);
        try {
            return is_ordered_ ? run_in_order(moves, allowed) : run_by_stretches(moves, allowed);
        } catch (...) {
            std::copy(before.begin(), before.end(), labels_.begin());
            throw;
        }
    }
    EnergyType run_in_order(std::uint32_t moves, std::uint32_t cycles) {
        Run calls(*this);
        EnergyType energy = calls.make(moves, 0);
        print("start", energy);
        Moves single(*this);
        const bool takes_all = order_count() == label_count_;
        std::uint32_t made = 0;
        for (bool is_settled = false; !is_settled && !single.is_stopped && made < cycles; made++) {
            is_settled = !single.cycle(moves, made + 1);
            if (single.moves_left > 0) {
                energy = single.energy();
                break;
            }
            // a cycle of all labels that changes nothing is made again by one call, which tells
            // the bound
            energy = calls.make(moves, is_settled && takes_all ? 1 : 0);
            outcome_.settled = is_settled;
            print("cycle " + std::to_string(made + 1), energy);
        }
        outcome_.cycles = made;
        return energy;
    }
    EnergyType run_by_stretches(std::uint32_t moves, std::uint32_t cycles) {
        Stretches calls(*this, moves, cycles);
        if (calls.laid.is_each) return run_in_order(moves, cycles);
        bool is_under_way = verbosity_ < 1 || calls.make(0);
        print("start", calls.energy());
        // the first moves are taken for slow ones
        for (std::uint32_t pace = moves_of(2.5e-7 * sites_); is_under_way;) {
            const std::uint64_t before = calls.moves_made();
            const std::uint32_t most =
                std::min(watch_ ? pace : UINT32_MAX, calls.moves_unprinted());
            const auto began = std::chrono::steady_clock::now();
            is_under_way = calls.make(most);
            const std::chrono::duration<double> spent = std::chrono::steady_clock::now() - began;
            pace = std::min(moves_of(spent.count() / most), 2 * pace);
            print_moves(calls, before);
            const std::uint64_t made = calls.moves_made();
            if (made > 0 && !goes_on(progress_of(calls, made - 1))) break;
        }
        return calls.energy();
    }
    // how many moves take half a second, where each takes so long
    static std::uint32_t moves_of(double each) {
        return std::uint32_t(std::max(1.0, std::min(0.5 / std::max(each, 1e-9), 1e6)));
    }
    bool goes_on(const Progress &progress) const { return !watch_ || watch_(progress); }
    // how many moves a cycle has
    std::uint64_t cycle_length(std::uint32_t moves) const {
        const std::uint64_t k = label_total();
        return moves == GCO_EXPANSION ? k : k * (k - 1) / 2;
    }
    // how far a run is after the move of that number, from 0
    Progress progress_of(const Stretches &calls, std::uint64_t number) const {
        const LabelID cycle = LabelID(number / calls.length) + 1;
        LabelID place = LabelID(number % calls.length);
        if (calls.kind == GCO_EXPANSION) return {cycle, place, place, calls.energy()};
        LabelID alpha = 0;
        for (; place >= label_count_ - 1 - alpha; alpha++) place -= label_count_ - 1 - alpha;
        return {cycle, alpha, alpha + 1 + place, calls.energy()};
    }
    // prints the moves after so many, and the cycles that they end, at the energy that stands now
    void print_moves(const Stretches &calls, std::uint64_t before) const {
        if (verbosity_ < 1) return;
        for (std::uint64_t number = before; number < calls.moves_made(); number++) {
            const Progress made = progress_of(calls, number);
            if (verbosity_ >= 2) print("  " + move_name(made.alpha, made.beta), made.energy);
            if ((number + 1) % calls.length == 0)
                print("cycle " + std::to_string(made.cycle), made.energy);
        }
    }
    static std::string move_name(LabelID alpha, LabelID beta) {
        return alpha == beta ? "expansion of label " + std::to_string(alpha)
                             : "swap of labels " + std::to_string(alpha) + " and " +
                                   std::to_string(beta);
    }
    LabelID order_count() const { return is_ordered_ ? LabelID(order_.size()) : label_count_; }
    LabelID ordered(LabelID at) const { return is_ordered_ ? order_[std::size_t(at)] : at; }
    void print(const std::string &what, EnergyType energy) const {
        if (verbosity_ < 1) return;
        std::printf("gco: %s: energy %lld (data %lld, smooth %lld, label %lld)\n", what.c_str(),
                    energy, static_cast<EnergyType>(outcome_.data + shift_),
                    static_cast<EnergyType>(outcome_.smooth),
                    static_cast<EnergyType>(outcome_.label));
        std::fflush(stdout);
    }

    SiteID sites_;
    LabelID label_count_;
    std::vector<EnergyTermType> data_, smooth_, label_costs_;
    DataFunction data_function_;
    SmoothFunction smooth_function_;
    DataKind data_kind_ = DataKind::none;
    std::vector<std::uint32_t> labels_;
    std::vector<LabelID> order_;
    bool is_ordered_ = false;
    gco_outcome outcome_ = gco_outcome();
    EnergyType shift_ = 0;
    int verbosity_ = 0;
    Watch watch_;
};

class GCoptimizationGridGraph : public GCoptimization {
public:
    GCoptimizationGridGraph(SiteID width, SiteID height, LabelID labels)
        : GCoptimization(area(width, height), labels), width_(width), height_(height) {
        join(nullptr, nullptr);
    }
    // v[site] is the weight of a site and the one below, h[site] that of a site and the one on its
    // right
    void setSmoothCostVH(const EnergyTermType *costs, const EnergyTermType *v,
                         const EnergyTermType *h) {
        each(v, h,
             [this](SiteID p, SiteID q, EnergyTermType weight) { check_neighbours(p, q, weight); });
        setSmoothCost(costs);
        join(v, h);
    }

private:
    static SiteID area(SiteID width, SiteID height) {
        if (width < 0 || height < 0)
            throw GCException("there is no grid of " + std::to_string(width) + " by " +
                              std::to_string(height) + " sites");
        const std::int64_t sites = std::int64_t(width) * height;
        if (sites > std::int64_t(GCO_SITE_LIMIT))
            throw GCException("a grid of " + std::to_string(width) + " by " +
                              std::to_string(height) + " has " + std::to_string(sites) +
                              " sites, and at most 1,048,576 are taken");
        return SiteID(sites);
    }
    // each pair of neighbours, with the weights that are given for it
    template <typename Take>
    void each(const EnergyTermType *v, const EnergyTermType *h, Take take) const {
        for (SiteID y = 0; y < height_; y++)
            for (SiteID x = 0; x < width_; x++) {
                const SiteID site = x + y * width_;
                if (x + 1 < width_) take(site, site + 1, h != nullptr ? h[site] : 1);
                if (y + 1 < height_) take(site, site + width_, v != nullptr ? v[site] : 1);
            }
    }
    void join(const EnergyTermType *v, const EnergyTermType *h) {
        in_memory([&] { pairs_.reserve(2 * std::size_t(numSites())); });
        pairs_.clear();
        each(v, h, [this](SiteID p, SiteID q, EnergyTermType weight) { add_pair(p, q, weight); });
    }
    SiteID width_, height_;
};

class GCoptimizationGeneralGraph : public GCoptimization {
public:
    GCoptimizationGeneralGraph(SiteID sites, LabelID labels) : GCoptimization(sites, labels) {}
    void setNeighbors(SiteID p, SiteID q, EnergyTermType weight = 1) { add_pair(p, q, weight); }
    template <typename Weight, typename = IfNarrows<Weight>>
    void setNeighbors(SiteID p, SiteID q, Weight weight) {
        add_pair(p, q, held(weight));
    }
    // of each site its neighbours and their weights, so that each pair stands in the lists of both
    // of its sites
    void setAllNeighbors(const SiteID *counts, const SiteID *const *neighbours,
                         const EnergyTermType *const *weights) {
        in_memory([&] {
            std::vector<Listed> rising, falling;
            for (SiteID p = 0; p < numSites(); p++)
                for (SiteID i = 0; i < counts[p]; i++) {
                    const SiteID q = neighbours[p][i];
                    check_neighbours(p, q, weights[p][i]);
                    const Listed pair = {{std::min(p, q), std::max(p, q), weights[p][i]}};
                    (p < q ? rising : falling).push_back(pair);
                }
            check_both(rising, falling);
            if (rising.size() > GCO_PAIR_LIMIT - pairs_.size()) throw GCException(too_many_pairs());
            pairs_.reserve(pairs_.size() + rising.size());
            for (const Listed &pair : rising) add_pair(pair[0], pair[1], pair[2]);
        });
    }

private:
    typedef std::array<int, 3> Listed;
    // the pairs that the lesser site lists are those that the greater lists
    static void check_both(std::vector<Listed> rising, std::vector<Listed> falling) {
        std::sort(rising.begin(), rising.end());
        std::sort(falling.begin(), falling.end());
        if (rising == falling) return;
        const Listed end = {{-1, -1, -1}};
        rising.push_back(end);
        falling.push_back(end);
        std::size_t at = 0;
        while (rising[at] == falling[at]) at++;
        const Listed &one = rising[at] == end || (falling[at] != end && falling[at] < rising[at])
                                ? falling[at]
                                : rising[at];
        throw GCException(names(one[0], one[1]) + " are not listed by both with the weight " +
                          std::to_string(one[2]) +
                          ": list each pair at both of its sites, with one weight");
    }
};

#endif
