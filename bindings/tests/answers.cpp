// Answers the problems of a file by the classes of gco-v3 and Kolmogorov's Energy, a line for each,
// as the program does: see against_program.py, which writes the file and reads the lines.
#include <cstdio>
#include <fstream>
#include <iostream>
#include <stdexcept>
#include <string>
#include <vector>
#include "GCoptimization.h"
#include "energy.h"

static std::ifstream given;

static int number() {
    int read = 0;
    if (!(given >> read)) {
        std::fprintf(stderr, "the file ends within a problem\n");
        std::exit(2);
    }
    return read;
}
static std::vector<int> numbers(int count) {
    std::vector<int> read;
    for (int i = 0; i < count; i++) read.push_back(number());
    return read;
}

struct Labels {
    int labels = number(), sites = number();
    std::vector<int> data = numbers(sites * labels), smooth = numbers(labels * labels);
    std::vector<int> costs = numbers(number()), pairs = numbers(3 * number());
    bool is_swap = number() != 0;
    int cycles = number();
    std::vector<int> start = numbers(sites);

    void answer() const {
        GCoptimizationGeneralGraph graph(sites, labels);
        graph.setDataCost(data.data());
        for (int a = 0; a < labels; a++)
            for (int b = 0; b < labels; b++)
                graph.setSmoothCost(a, b, smooth[static_cast<std::size_t>(a * labels + b)]);
        if (!costs.empty()) graph.setLabelCost(costs.data());
        for (std::size_t i = 0; i < pairs.size(); i += 3)
            graph.setNeighbors(pairs[i], pairs[i + 1], pairs[i + 2]);
        for (int s = 0; s < sites; s++) graph.setLabel(s, start[static_cast<std::size_t>(s)]);
        const long long energy = is_swap ? graph.swap(cycles) : graph.expansion(cycles);
        const gco_outcome told = graph.outcome();   // the next calls tell anew
        std::cout << "energy " << energy << " data " << graph.giveDataEnergy() << " smooth "
                  << graph.giveSmoothEnergy();
        if (!costs.empty()) std::cout << " label " << graph.giveLabelEnergy();
        std::cout << " labels";
        for (int s = 0; s < sites; s++) std::cout << ' ' << graph.whatLabel(s);
        if (told.vmax == 0)
            std::cout << " bound none\n";
        else
            std::cout << " bound " << told.vmin << ' ' << 2 * told.vmax << '\n';
    }
};

struct Term {
    std::vector<int> on = numbers(number()), at = numbers(1 << on.size());
};

struct Variables {
    int count = number(), constant = number();
    std::vector<Term> terms = read(number());

    static std::vector<Term> read(int count) {
        std::vector<Term> terms;
        for (int i = 0; i < count; i++) terms.push_back(Term());
        return terms;
    }
    void answer() const {
        Energy<int, int, long long> energy(count, 0);
        energy.add_variable(count);
        energy.add_constant(constant);
        for (const Term &term : terms) {
            const std::vector<int> &x = term.on, &e = term.at;
            if (x.size() == 1) energy.add_term1(x[0], e[0], e[1]);
            if (x.size() == 2) energy.add_term2(x[0], x[1], e[0], e[1], e[2], e[3]);
            if (x.size() == 3)
                energy.add_term3(x[0], x[1], x[2], e[0], e[1], e[2], e[3], e[4], e[5], e[6], e[7]);
        }
        std::cout << "minimum " << energy.minimize() << " assignment ";
        for (int x = 0; x < count; x++) std::cout << energy.get_var(x);
        std::cout << '\n';
    }
};

template <typename Problem> static void answer() {
    const Problem problem;
    try {
        problem.answer();
    } catch (const GCException &refused) {
        std::cout << "refused: " << refused.message << '\n';
    } catch (const std::invalid_argument &refused) {
        std::cout << "refused: " << refused.what() << '\n';
    }
}

int main(int, char **words) {
    given.open(words[1]);
    int kind = 0;
    while (given >> kind) kind == 1 ? answer<Labels>() : answer<Variables>();
    return given.eof() ? 0 : 2;
}
