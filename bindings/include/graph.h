// gco under the names of maxflow-v3 (graph.h), over gco_minimise of gco.h: a least cut of a graph
// between a source and a sink, in whole numbers. C++11; link with libgco. The names stand in
// namespace maxflow too, as Debian has them.
//
// As in maxflow-v3: nodes are numbered from 0 as they are added; terminal capacities of a node add
// up and may be below 0; nodes and edges may be added after maxflow(), and the next maxflow()
// answers for all of them; mark_node and maxflow(true) are taken. Other than in maxflow-v3:
// - Each maxflow() starts from scratch.
// - A fractional type or capacity is refused by the compiler. A capacity is at most 1,000,000,000.
// - What is wrong is told to the error function, if there is one, and then thrown: a
//   std::invalid_argument by the call that brings it, a std::overflow_error if the flow does not
//   fit flowtype, a std::bad_alloc if there is no memory. An edge is named by its number, from 0.
// - what_segment answers for the last maxflow(), and is refused for a node that was not there.
// Not there: residual capacities (get_rcap, get_trcap, set_rcap, set_trcap) and the list of changed
// nodes. At most 2,097,152 nodes; at most 8,388,608 edges and nodes with terminal capacities.
#ifndef GCO_GRAPH_H
#define GCO_GRAPH_H

#include <algorithm>
#include <cstddef>
#include <cstdint>
#include <limits>
#include <new>
#include <stdexcept>
#include <string>
#include <type_traits>
#include <vector>

#include "gco.h"

namespace gco_numbers {

// whole numbers of at most 64 bits; bool is none
template <typename Number>
struct IsWhole : std::integral_constant<bool, std::is_integral<Number>::value &&
                                                  !std::is_same<Number, bool>::value &&
                                                  sizeof(Number) <= sizeof(std::int64_t)> {};

template <typename Number> bool is_negative(Number number) {
    return std::is_signed<Number>::value && static_cast<std::int64_t>(number) < 0;
}

// whether a number of any whole type is from -1,000,000,000 to 1,000,000,000
template <typename Number> bool is_in_limit(Number number) {
    if (!std::is_signed<Number>::value)
        return static_cast<std::uint64_t>(number) <= GCO_VALUE_LIMIT;
    const std::int64_t wide = static_cast<std::int64_t>(number);
    return -std::int64_t(GCO_VALUE_LIMIT) <= wide && wide <= GCO_VALUE_LIMIT;
}

// whether a number of 64 bits fits a whole type
template <typename Number> bool fits(std::int64_t number) {
    typedef std::numeric_limits<Number> Limits;
    if (number < 0)
        return std::is_signed<Number>::value && static_cast<std::int64_t>(Limits::min()) <= number;
    return static_cast<std::uint64_t>(number) <= static_cast<std::uint64_t>(Limits::max());
}

// whether a number of one whole type fits another one
template <typename Number, typename Given> bool holds(Given given) {
    if (is_negative(given)) return fits<Number>(static_cast<std::int64_t>(given));
    return static_cast<std::uint64_t>(given) <=
           static_cast<std::uint64_t>(std::numeric_limits<Number>::max());
}

// whether a type has numbers that another one does not hold: fractions are among them
template <typename Number, typename Given>
struct Narrows
    : std::integral_constant<bool, std::is_floating_point<Given>::value ||
                                       (std::is_integral<Given>::value &&
                                        (std::numeric_limits<Given>::digits >
                                             std::numeric_limits<Number>::digits ||
                                         (std::is_signed<Given>::value &&
                                          !std::is_signed<Number>::value)))> {};

template <typename Number, typename... Given> struct SomeNarrows : std::false_type {};
template <typename Number, typename First, typename... Rest>
struct SomeNarrows<Number, First, Rest...>
    : std::integral_constant<bool, Narrows<Number, First>::value ||
                                       SomeNarrows<Number, Rest...>::value> {};
template <typename Number, typename... Given>
using IfNarrows = typename std::enable_if<SomeNarrows<Number, Given...>::value>::type;

inline bool sum_fits(std::int64_t a, std::int64_t b) {
    typedef std::numeric_limits<std::int64_t> Limits;
    return b < 0 ? a >= Limits::min() - b : a <= Limits::max() - b;
}

}   // namespace gco_numbers

template <typename captype, typename tcaptype, typename flowtype> class Graph {
    static_assert(
        gco_numbers::IsWhole<captype>::value && gco_numbers::IsWhole<tcaptype>::value &&
            gco_numbers::IsWhole<flowtype>::value,
        "Graph and Energy count in whole numbers: scale the capacities and round them first, "
        "and write Graph<int, int, long long> or Energy<int, int, long long>");

public:
    typedef enum { SOURCE = 0, SINK = 1 } termtype;
    typedef int node_id;
    typedef int arc_id;

    Graph(int node_num_max, int edge_num_max, void (*err_function)(const char *) = nullptr)
        : error_function_(err_function) {
        leanings_.reserve(
            std::min(std::size_t(std::max(node_num_max, 0)), std::size_t(GCO_VARIABLE_LIMIT)));
        twos_.reserve(
            std::min(std::size_t(std::max(edge_num_max, 0)), std::size_t(GCO_TERM_LIMIT)));
    }

    // answers the number of the first of the new nodes
    node_id add_node(int num = 1) { return add_numbered(num, "nodes"); }

    void add_edge(node_id i, node_id j, captype cap, captype rev_cap) {
        const std::uint32_t from = number(i, "node"), to = number(j, "node");
        if (from == to) refuse(edge_name(i, j) + " joins a node with itself");
        check_capacity(cap, i, j);
        check_capacity(rev_cap, i, j);
        add_two(from, to, 0, static_cast<std::int64_t>(cap), static_cast<std::int64_t>(rev_cap), 0);
    }

    // numbers that captype may not hold: a fraction is refused by the compiler
    template <typename A, typename B, typename = gco_numbers::IfNarrows<captype, A, B>>
    void add_edge(node_id i, node_id j, A cap, B rev_cap) {
        add_edge(i, j, held<captype>(cap), held<captype>(rev_cap));
    }

    void add_tweights(node_id i, tcaptype cap_source, tcaptype cap_sink) {
        const std::uint32_t node = number(i, "node");
        check_terminal(cap_source, i);
        check_terminal(cap_sink, i);
        lean(node, static_cast<std::int64_t>(cap_sink), static_cast<std::int64_t>(cap_source));
    }

    template <typename A, typename B, typename = gco_numbers::IfNarrows<tcaptype, A, B>>
    void add_tweights(node_id i, A cap_source, B cap_sink) {
        add_tweights(i, held<tcaptype>(cap_source), held<tcaptype>(cap_sink));
    }

    // the greatest flow; the argument changes nothing
    flowtype maxflow(bool = false) { return least(0, "the flow"); }
    flowtype maxflow(bool, std::nullptr_t) { return maxflow(); }

    // the side of a node in each least cut, and default_segm where it may be on either
    termtype what_segment(node_id i, termtype default_segm = SOURCE) {
        const std::size_t node = solved(i, "node", "maxflow()");
        if (default_segm == SOURCE) return bits_[node] != 0 ? SINK : SOURCE;
        if (turned_.size() != bits_.size()) turn();
        return turned_[node] != 0 ? SOURCE : SINK;
    }

    // back to a graph without nodes
    void reset() {
        leanings_.clear();
        twos_.clear();
        threes_.clear();
        shift_ = 0;
        forget();
    }

    int get_node_num() const { return static_cast<int>(leanings_.size()); }
    // two arcs for each edge: there and back
    int get_arc_num() const { return static_cast<int>(2 * twos_.size()); }
    arc_id get_first_arc() const { return 0; }
    arc_id get_next_arc(arc_id a) const { return a + 1; }
    void get_arc_ends(arc_id a, node_id &i, node_id &j) const {
        if (a < 0 || a >= get_arc_num()) refuse("there is no arc " + std::to_string(a));
        const gco_two &edge = twos_[static_cast<std::size_t>(a / 2)];
        i = static_cast<node_id>(a % 2 == 0 ? edge.first : edge.second);
        j = static_cast<node_id>(a % 2 == 0 ? edge.second : edge.first);
    }

    // nothing is kept of the search before, so there is nothing to mark
    void mark_node(node_id i) { number(i, "node"); }

    template <typename List> flowtype maxflow(bool, List *) {
        static_assert(Absent<List>::value,
                      "gco keeps no list of changed nodes: keep what_segment of each node, call "
                      "maxflow(), and compare");
        return 0;
    }
    template <typename Node> void remove_from_changed_list(Node) {
        static_assert(Absent<Node>::value,
                      "gco keeps no list of changed nodes: keep what_segment of each node, call "
                      "maxflow(), and compare");
    }
    template <typename Arc> captype get_rcap(Arc) {
        static_assert(Absent<Arc>::value,
                      "gco tells the least cut and not the flow in each edge: ask what_segment");
        return 0;
    }
    template <typename Node> tcaptype get_trcap(Node) {
        static_assert(Absent<Node>::value,
                      "gco tells the least cut and not the flow in each edge: ask what_segment");
        return 0;
    }
    template <typename Arc, typename Number> void set_rcap(Arc, Number) {
        static_assert(Absent<Arc>::value,
                      "gco has no residual capacities: reset() the graph and add its edges anew");
    }
    template <typename Node, typename Number> void set_trcap(Node, Number) {
        static_assert(Absent<Node>::value,
                      "gco has no residual capacities: add_tweights adds what is to be changed");
    }

protected:
    [[noreturn]] void refuse(const std::string &words) const {
        if (error_function_ != nullptr) error_function_(words.c_str());
        throw std::invalid_argument(words);
    }
    [[noreturn]] void refuse_overflow(const std::string &words) const {
        if (error_function_ != nullptr) error_function_(words.c_str());
        throw std::overflow_error(words);
    }

    // a number as it goes on, in its own type
    template <typename Number, typename Given> Number held(Given given) const {
        static_assert(!std::is_floating_point<Given>::value,
                      "Graph and Energy count in whole numbers: scale the capacities and round "
                      "them first");
        if (!gco_numbers::holds<Number>(given))
            refuse("the number " + std::to_string(given) + " does not fit its type");
        return static_cast<Number>(given);
    }

    int add_numbered(int count, const char *things) {
        if (count < 0)
            refuse("there is no such number of " + std::string(things) + ": " +
                   std::to_string(count));
        if (static_cast<std::size_t>(count) > GCO_VARIABLE_LIMIT - leanings_.size())
            refuse("more than 2,097,152 " + std::string(things));
        const int first = get_node_num();
        leanings_.resize(leanings_.size() + static_cast<std::size_t>(count), 0);
        return first;
    }

    std::uint32_t number(int i, const char *thing) const {
        if (i < 0 || i >= get_node_num())
            refuse("there is no " + std::string(thing) + " " + std::to_string(i) + ": there are " +
                   std::to_string(leanings_.size()));
        return static_cast<std::uint32_t>(i);
    }

    // adds the term of one node: what it costs on the source's side and on the sink's
    void lean(std::uint32_t node, std::int64_t at0, std::int64_t at1) {
        leanings_[node] += at1 - at0;
        shift_ += at0;
    }

    void add_two(std::uint32_t first, std::uint32_t second, std::int64_t at00, std::int64_t at01,
                 std::int64_t at10, std::int64_t at11) {
        check_room();
        const gco_two two = {first, second, at00, at01, at10, at11};
        twos_.push_back(two);
    }

    void add_three(const gco_three &three) {
        check_room();
        threes_.push_back(three);
    }

    // the least value of all terms together with a constant; the sides are kept for what_segment
    flowtype least(std::int64_t constant, const char *thing) {
        std::vector<gco_one> ones = terminal_terms();
        std::vector<std::uint8_t> bits(leanings_.size());
        const std::int64_t value = minimised(ones, twos_, threes_, bits);
        if (!gco_numbers::sum_fits(constant, shift_) ||
            !gco_numbers::sum_fits(constant + shift_, value))
            refuse_overflow(std::string(thing) + " does not fit 64 bits");
        const std::int64_t sum = constant + shift_ + value;
        if (!gco_numbers::fits<flowtype>(sum))
            refuse_overflow(std::string(thing) + " is " + std::to_string(sum) +
                            ", which does not fit its type: write Graph<int, int, long long> or "
                            "Energy<int, int, long long>");
        bits_.swap(bits);
        ones_.swap(ones);
        solved_twos_ = twos_.size();
        solved_threes_ = threes_.size();
        turned_.clear();
        is_solved_ = true;
        return static_cast<flowtype>(sum);
    }

    // the place of a node in the last answer
    std::size_t solved(int i, const char *thing, const char *call) const {
        const std::size_t place = number(i, thing);
        if (!is_solved_ || place >= bits_.size())
            refuse(std::string(thing) + " " + std::to_string(i) + " has no answer yet: call " +
                   call + " first");
        return place;
    }
    int bit(std::size_t place) const { return bits_[place]; }

private:
    template <typename> struct Absent : std::false_type {};

    std::string edge_name(node_id i, node_id j) const {
        return "edge " + std::to_string(twos_.size()) + ", from node " + std::to_string(i) +
               " to node " + std::to_string(j) + ",";
    }
    void check_capacity(captype capacity, node_id i, node_id j) const {
        if (gco_numbers::is_negative(capacity) || !gco_numbers::is_in_limit(capacity))
            refuse(edge_name(i, j) + " has a capacity of " + std::to_string(capacity) +
                   ": from 0 to 1,000,000,000 is taken");
    }
    void check_terminal(tcaptype capacity, node_id i) const {
        if (!gco_numbers::is_in_limit(capacity))
            refuse("node " + std::to_string(i) + " is given a terminal capacity of " +
                   std::to_string(capacity) + ": from -1,000,000,000 to 1,000,000,000 is taken");
    }
    void check_room() const {
        if (twos_.size() + threes_.size() >= GCO_TERM_LIMIT)
            refuse("more than 8,388,608 edges and terms");
    }

    // what each node costs on the sink's side above the source's, in terms within the limit
    std::vector<gco_one> terminal_terms() const {
        const std::int64_t most = GCO_VALUE_LIMIT;
        const std::size_t room = GCO_TERM_LIMIT - twos_.size() - threes_.size();
        std::vector<gco_one> ones;
        for (std::size_t node = 0; node < leanings_.size(); node++) {
            std::int64_t rest = leanings_[node];
            while (rest != 0) {
                if (ones.size() == room)
                    refuse("more than 8,388,608 edges, terms and terminal capacities");
                const std::int64_t part = std::max(-most, std::min(rest, most));
                const gco_one one = {static_cast<std::uint32_t>(node), 0, 0, part};
                ones.push_back(one);
                rest -= part;
            }
        }
        return ones;
    }

    // each term is tested when it is added, so that memory is all that can be refused
    std::int64_t minimised(const std::vector<gco_one> &ones, const std::vector<gco_two> &twos,
                           const std::vector<gco_three> &threes,
                           std::vector<std::uint8_t> &bits) const {
        gco_minimum told;
        const std::uint32_t status = gco_minimise(0, ones.data(), ones.size(), twos.data(),
                                                  twos.size(), threes.data(), threes.size(),
                                                  bits.data(), bits.size(), &told);
        if (status == GCO_OUT_OF_MEMORY) {
            if (error_function_ != nullptr) error_function_("there is not enough memory");
            throw std::bad_alloc();
        }
        if (status != GCO_OK)
            refuse("refused " + std::to_string(status) + " at term " + std::to_string(told.place));
        return told.value;
    }

    // the last graph with source and sink exchanged: the fewest nodes on the source's side
    void turn() {
        std::vector<gco_one> ones(ones_);
        for (gco_one &one : ones) std::swap(one.at0, one.at1);
        std::vector<gco_two> twos(twos_.begin(),
                                  twos_.begin() + static_cast<std::ptrdiff_t>(solved_twos_));
        for (gco_two &two : twos) {
            std::swap(two.at00, two.at11);
            std::swap(two.at01, two.at10);
        }
        std::vector<gco_three> threes(
            threes_.begin(), threes_.begin() + static_cast<std::ptrdiff_t>(solved_threes_));
        for (gco_three &three : threes) {
            std::swap(three.at000, three.at111);
            std::swap(three.at001, three.at110);
            std::swap(three.at010, three.at101);
            std::swap(three.at011, three.at100);
        }
        std::vector<std::uint8_t> bits(bits_.size());
        minimised(ones, twos, threes, bits);
        turned_.swap(bits);
    }

    void forget() {
        bits_.clear();
        turned_.clear();
        ones_.clear();
        solved_twos_ = solved_threes_ = 0;
        is_solved_ = false;
    }

    void (*error_function_)(const char *);
    // of each node what the sink's side costs above the source's; and what the source's costs
    std::vector<std::int64_t> leanings_;
    std::int64_t shift_ = 0;
    std::vector<gco_two> twos_;
    std::vector<gco_three> threes_;
    // the last answer: 1 on the sink's side; with source and sink exchanged, 1 on the source's
    std::vector<std::uint8_t> bits_, turned_;
    // what it is of: terms of one variable, and how many of two and of three
    std::vector<gco_one> ones_;
    std::size_t solved_twos_ = 0, solved_threes_ = 0;
    bool is_solved_ = false;
};

namespace maxflow {
using ::Graph;
}

#endif
