// Kolmogorov's Energy under its own names (energy.h of maxflow-v3), over gco_minimise of gco.h:
// link with libgco. C++11.
//
// As there: an Energy is a Graph (graph.h), a variable is one of its nodes, 0 on the source's side;
// terms are over one, two and three variables. Of several least assignments the answer is the one
// with the fewest ones. Other than there:
// - A fractional type or number is refused by the compiler. A number of a term is from
//   -1,000,000,000 to 1,000,000,000.
// - Each call tests what it is given, and names the term by its number, from 0, and its variables.
//   It throws std::invalid_argument. If a sum does not fit its type, std::overflow_error is thrown:
//   nothing wraps.
// - Each minimize() starts from scratch. get_var answers for the last, and is refused before.
// - reset() takes the constant away too.
#ifndef GCO_ENERGY_H
#define GCO_ENERGY_H

#include "graph.h"

template <typename captype, typename tcaptype, typename flowtype>
class Energy : public Graph<captype, tcaptype, flowtype> {
    typedef Graph<captype, tcaptype, flowtype> Base;

public:
    typedef typename Base::node_id Var;
    typedef captype Value;
    typedef flowtype TotalValue;

    Energy(int var_num_max, int edge_num_max, void (*err_function)(const char *) = nullptr)
        : Base(var_num_max, edge_num_max, err_function) {}

    // answers the number of the first of the new variables
    Var add_variable(int num = 1) { return this->add_numbered(num, "variables"); }

    void add_constant(Value e) {
        if (!gco_numbers::is_negative(e) &&
            static_cast<std::uint64_t>(e) > std::uint64_t(std::numeric_limits<std::int64_t>::max()))
            this->refuse_overflow("a constant of " + std::to_string(e) + " does not fit 64 bits");
        const std::int64_t wide = static_cast<std::int64_t>(e);
        if (!gco_numbers::sum_fits(constant_, wide))
            this->refuse_overflow("the constants do not fit 64 bits");
        constant_ += wide;
    }

    // numbers that Value may not hold, here and below: a fraction is refused by the compiler
    template <typename A, typename = gco_numbers::IfNarrows<Value, A>> void add_constant(A e) {
        add_constant(this->template held<Value>(e));
    }

    // A at 0, B at 1
    void add_term1(Var x, Value A, Value B) {
        const std::uint32_t variable = this->number(x, "variable");
        const Value numbers[] = {A, B};
        check_range(numbers, 2, &x, 1);
        this->lean(variable, static_cast<std::int64_t>(A), static_cast<std::int64_t>(B));
        terms_++;
    }

    template <typename A, typename B, typename = gco_numbers::IfNarrows<Value, A, B>>
    void add_term1(Var x, A a, B b) {
        add_term1(x, this->template held<Value>(a), this->template held<Value>(b));
    }

    // A at 00, B at 01, C at 10, D at 11
    void add_term2(Var x, Var y, Value A, Value B, Value C, Value D) {
        const std::uint32_t first = this->number(x, "variable"),
                            second = this->number(y, "variable");
        const Var variables[] = {x, y};
        const Value numbers[] = {A, B, C, D};
        if (x == y) this->refuse(name(variables, 2) + " names a variable twice");
        check_range(numbers, 4, variables, 2);
        std::int64_t at[4];
        std::transform(numbers, numbers + 4, at,
                       [](Value value) { return static_cast<std::int64_t>(value); });
        if (at[0] + at[3] > at[1] + at[2])
            this->refuse(name(variables, 2) +
                         " is not regular: E(0,0) + E(1,1) is above E(0,1) + E(1,0)");
        this->add_two(first, second, at[0], at[1], at[2], at[3]);
        terms_++;
    }

    template <typename A, typename B, typename C, typename D,
              typename = gco_numbers::IfNarrows<Value, A, B, C, D>>
    void add_term2(Var x, Var y, A a, B b, C c, D d) {
        add_term2(x, y, this->template held<Value>(a), this->template held<Value>(b),
                  this->template held<Value>(c), this->template held<Value>(d));
    }

    // E(0,0,0), E(0,0,1), E(0,1,0), .., E(1,1,1)
    void add_term3(Var x, Var y, Var z, Value E000, Value E001, Value E010, Value E011, Value E100,
                   Value E101, Value E110, Value E111) {
        const Var variables[] = {x, y, z};
        const Value numbers[] = {E000, E001, E010, E011, E100, E101, E110, E111};
        gco_three three = gco_three();
        three.first = this->number(x, "variable");
        three.second = this->number(y, "variable");
        three.third = this->number(z, "variable");
        if (x == y || x == z || y == z)
            this->refuse(name(variables, 3) + " names a variable twice");
        check_range(numbers, 8, variables, 3);
        std::int64_t at[8];
        std::transform(numbers, numbers + 8, at,
                       [](Value value) { return static_cast<std::int64_t>(value); });
        check_regular(at, variables);
        three.at000 = at[0], three.at001 = at[1], three.at010 = at[2], three.at011 = at[3];
        three.at100 = at[4], three.at101 = at[5], three.at110 = at[6], three.at111 = at[7];
        this->add_three(three);
        terms_++;
    }

    template <typename A, typename B, typename C, typename D, typename E, typename F, typename G,
              typename H, typename = gco_numbers::IfNarrows<Value, A, B, C, D, E, F, G, H>>
    void add_term3(Var x, Var y, Var z, A a, B b, C c, D d, E e, F f, G g, H h) {
        add_term3(x, y, z, this->template held<Value>(a), this->template held<Value>(b),
                  this->template held<Value>(c), this->template held<Value>(d),
                  this->template held<Value>(e), this->template held<Value>(f),
                  this->template held<Value>(g), this->template held<Value>(h));
    }

    TotalValue minimize() { return this->least(constant_, "the least value"); }
    int get_var(Var x) const { return this->bit(this->solved(x, "variable", "minimize()")); }

    void reset() {
        Base::reset();
        constant_ = 0;
        terms_ = 0;
    }

private:
    std::string name(const Var *variables, int count) const {
        std::string words = "term " + std::to_string(terms_) +
                            (count == 1 ? ", of variable " : ", of variables ");
        for (int i = 0; i < count; i++)
            words += (i == 0 ? "" : i + 1 < count ? ", " : " and ") + std::to_string(variables[i]);
        return words + ",";
    }

    void check_range(const Value *numbers, int number_count, const Var *variables,
                     int count) const {
        for (int i = 0; i < number_count; i++)
            if (!gco_numbers::is_in_limit(numbers[i]))
                this->refuse(name(variables, count) + " has the number " +
                             std::to_string(numbers[i]) +
                             ": from -1,000,000,000 to 1,000,000,000 is taken");
    }

    // each term of two that is left where one variable is fixed has to be regular; places are 4x +
    // 2y + z
    void check_regular(const std::int64_t (&at)[8], const Var (&variables)[3]) const {
        static const int steps[3] = {4, 2, 1};
        for (int fixed = 0; fixed < 3; fixed++)
            for (int value = 0; value < 2; value++) {
                const int from = value * steps[fixed], i = steps[fixed == 0 ? 1 : 0],
                          j = steps[fixed == 2 ? 1 : 2];
                if (at[from] + at[from + i + j] > at[from + j] + at[from + i])
                    this->refuse(name(variables, 3) + " is not regular where variable " +
                                 std::to_string(variables[fixed]) + " is " + std::to_string(value) +
                                 ": E(0,0) + E(1,1) is above E(0,1) + E(1,0) there");
            }
    }

    std::int64_t constant_ = 0;
    std::size_t terms_ = 0;
};

namespace maxflow {
using ::Energy;
}

#endif
