// The commands `restore`, `stereo` and `segment` of gco, over the maxflow library of Kolmogorov
// (Debian: libmaxflow-dev). It reads the same input and the same options, makes the same moves in
// the same order and breaks ties by the same rule, so it has to write the same bytes
// (docs/IMAGES.md, "What each command minimises"). It reads P5 of at most 255 and tests little:
// it is here to be measured beside gco.
//
//   peer restore --smooth linear --trunc 8 < noisy.pgm > restored.pgm
#define MAXFLOW_INCLUDE_TEMPLATE_IMPLEMENTATION
#include <maxflow.h>

#include <algorithm>
#include <cstdint>
#include <cstdlib>
#include <iostream>
#include <map>
#include <string>
#include <vector>

using Network = maxflow::Graph<int, int, int>;
const int SEED_COST = 10000000;

[[noreturn]] void refuse(const std::string& why) {
    std::cerr << "peer: " << why << '\n';
    exit(1);
}

using Options = std::map<std::string, std::string>;

int number(const Options& options, const char* name, int otherwise) {
    auto found = options.find(name);
    return found == options.end() ? otherwise : std::stoi(found->second);
}

struct Picture {
    int width = 0, height = 0, maxval = 0;
    std::vector<uint8_t> samples;
};

Picture read_picture() {
    Picture picture;
    std::string kind;
    std::cin >> kind >> picture.width >> picture.height >> picture.maxval;
    if (!std::cin || kind != "P5" || picture.maxval > 255) refuse("no P5 picture of at most 255");
    std::cin.get();
    picture.samples.resize(size_t(picture.width) * picture.height);
    std::cin.read(reinterpret_cast<char*>(picture.samples.data()), picture.samples.size());
    if (!std::cin) refuse("the picture ends early");
    return picture;
}

// What a command asks of the pixels of a picture.
struct Problem {
    enum Command { Restore, Stereo, Segment } command;
    Picture first, second;
    int labels, cap, low, high, strong, weak, edge;
    struct Step { int right, down; };
    std::vector<Step> steps;  // to a pixel's neighbours: first the later ones, then the earlier
    std::vector<int> smooth;  // labels x labels, before the weight of the pair

    Problem(Command name, Options options) : command(name), first(read_picture()) {
        if (command != Restore) second = read_picture();
        labels = command == Restore ? first.maxval + 1
               : command == Stereo  ? number(options, "--labels", 16) : 2;
        cap = number(options, "--cap", 20);
        low = number(options, "--low", 0);
        high = number(options, "--high", 0);
        int weight = number(options, "--weight", 1);  // `segment` alone has two
        strong = command == Segment ? number(options, "--strong", 20) : weight;
        weak = command == Segment ? number(options, "--weak", 5) : weight;
        edge = command == Segment ? number(options, "--edge", 5) : 255;
        if (number(options, "--neighbours", 4) == 8)
            steps = {{1, 0}, {0, 1}, {1, 1}, {-1, 1}, {-1, 0}, {0, -1}, {-1, -1}, {1, -1}};
        else
            steps = {{1, 0}, {0, 1}, {-1, 0}, {0, -1}};
        std::string shape = options["--smooth"];
        int most = shape.empty() || shape == "potts" ? 1 : number(options, "--trunc", 1);
        for (int a = 0; a < labels; a++)
            for (int b = 0; b < labels; b++) {
                int far = std::abs(a - b);
                smooth.push_back(std::min(most, shape == "quadratic" ? far * far : far));
            }
    }

    int sites() const { return int(first.samples.size()); }

    int data_cost(int site, int label) const {
        int sample = first.samples[site];
        if (command == Restore) return std::abs(sample - label);
        if (command == Segment) {
            int seed = second.samples[site];
            if (seed) return seed == label + 1 ? 0 : SEED_COST;
            return std::abs(sample - (label ? high : low));
        }
        if (site % first.width < label) return cap;
        return std::min(cap, std::abs(sample - second.samples[site - label]));
    }

    int weight(int site, int other) const {
        return std::abs(first.samples[site] - first.samples[other]) <= edge ? strong : weak;
    }

    int smooth_cost(int label, int other) const { return smooth[label * labels + other]; }

    // Calls `see(neighbour, whether it is a later one)` for each neighbour of a site.
    template <class See>
    void each_neighbour(int site, See see) const {
        int x = site % first.width, y = site / first.width;
        for (size_t k = 0; k < steps.size(); k++) {
            int across = x + steps[k].right, along = y + steps[k].down;
            if (across >= 0 && across < first.width && along >= 0 && along < first.height)
                see(along * first.width + across, k < steps.size() / 2);
        }
    }
};

// A labelling, and the moves that change it. In a move each site that may change is a node: on the
// sink's side it takes the label, on the source's side it keeps its own.
struct Run {
    const Problem& problem;
    std::vector<int> at;     // the label of each site
    std::vector<int> node;   // of each site its node, or -1
    std::vector<int> sites;  // of each node its site
    std::vector<int> rise;   // of each node what it costs to take the label
    std::vector<int> before; // of each node its label before a swap
    Network network;

    explicit Run(const Problem& of)
        : problem(of), at(of.sites()), node(of.sites()),
          network(of.sites(), of.sites() * int(of.steps.size() / 2)) {}

    template <class MayChange>
    void open(MayChange may_change) {
        sites.clear();
        for (int site = 0; site < problem.sites(); site++) {
            bool is_open = may_change(at[site]);
            node[site] = is_open ? int(sites.size()) : -1;
            if (is_open) sites.push_back(site);
        }
    }

    // Finds the least cut with the smallest sink side. A pair of two nodes costs
    // V00 + (V10 - V00) x - V10 y + (V01 + V10 - V00) (1 - x) y, since V11 is 0
    // (Kolmogorov and Zabih, PAMI 2004, section 4).
    void cut(int label) {
        network.reset();
        network.add_node(int(sites.size()));
        rise.assign(sites.size(), 0);
        for (size_t i = 0; i < sites.size(); i++) {
            int p = sites[i];
            rise[i] += problem.data_cost(p, label) - problem.data_cost(p, at[p]);
            problem.each_neighbour(p, [&](int q, bool is_later) {
                int j = node[q];
                if (j >= 0 && !is_later) return;
                int weight = problem.weight(p, q);
                int v00 = weight * problem.smooth_cost(at[p], at[q]);
                int v10 = weight * problem.smooth_cost(label, at[q]);
                rise[i] += v10 - v00;
                if (j < 0) return;
                int v01 = weight * problem.smooth_cost(at[p], label);
                rise[j] -= v10;
                if (v01 + v10 < v00) refuse("the term of a pair is not regular");
                if (v01 + v10 > v00) network.add_edge(int(i), j, v01 + v10 - v00, 0);
            });
        }
        for (size_t i = 0; i < sites.size(); i++)
            network.add_tweights(int(i), std::max(rise[i], 0), std::max(-rise[i], 0));
        network.maxflow();
    }

    // Changes the sites on the sink's side. A node that could stand on either side keeps its label.
    bool take(int label) {
        bool changed = false;
        for (size_t i = 0; i < sites.size(); i++)
            if (network.what_segment(int(i), Network::SOURCE) == Network::SINK) {
                at[sites[i]] = label;
                changed = true;
            }
        return changed;
    }

    bool expand(int label) {
        open([&](int own) { return own != label; });
        if (sites.empty()) return false;
        cut(label);
        return take(label);
    }

    // Of equal labellings a swap keeps the one that it began with.
    bool swap(int first, int second) {
        open([&](int own) { return own == first || own == second; });
        if (sites.empty()) return false;
        int64_t cost = cost_of_nodes();
        before.clear();
        for (int site : sites) {
            before.push_back(at[site]);
            at[site] = first;
        }
        cut(second);
        take(second);
        if (cost_of_nodes() < cost) return true;
        for (size_t i = 0; i < sites.size(); i++) at[sites[i]] = before[i];
        return false;
    }

    // The costs that the sites of the move have a part in.
    int64_t cost_of_nodes() const {
        int64_t cost = 0;
        for (int p : sites) {
            cost += problem.data_cost(p, at[p]);
            problem.each_neighbour(p, [&](int q, bool is_later) {
                if (is_later || node[q] < 0)
                    cost += problem.weight(p, q) * problem.smooth_cost(at[p], at[q]);
            });
        }
        return cost;
    }

    // Makes the moves in their order until each changed nothing since the last change.
    void make_cycles(const std::vector<std::pair<int, int>>& moves, bool are_swaps, int cycles) {
        size_t idle = 0;
        for (int cycle = 0; cycle < cycles; cycle++)
            for (auto [first, second] : moves) {
                bool changed = are_swaps ? swap(first, second) : expand(first);
                idle = changed ? 1 : idle + 1;
                if (idle >= moves.size()) return;
            }
    }
};

int main(int count, char** words) {
    std::ios::sync_with_stdio(false);
    Options options;
    for (int i = 2; i + 1 < count; i += 2) options[words[i]] = words[i + 1];
    std::string name = count > 1 ? words[1] : "";
    if (name != "restore" && name != "stereo" && name != "segment") refuse("no such command");
    Problem problem(name == "restore" ? Problem::Restore
                    : name == "stereo" ? Problem::Stereo : Problem::Segment, options);

    bool are_swaps = options["--moves"] == "swap";
    std::vector<std::pair<int, int>> moves;
    for (int a = 0; a < problem.labels; a++)
        for (int b = are_swaps ? a + 1 : a; b < (are_swaps ? problem.labels : a + 1); b++)
            moves.push_back({a, b});
    Run run(problem);
    run.make_cycles(moves, are_swaps, number(options, "--cycles", 100));

    int64_t data = 0, smooth = 0;
    for (int p = 0; p < problem.sites(); p++) {
        data += problem.data_cost(p, run.at[p]);
        problem.each_neighbour(p, [&](int q, bool is_later) {
            if (is_later)
                smooth += problem.weight(p, q) * problem.smooth_cost(run.at[p], run.at[q]);
        });
    }
    std::cout << "P5\n" << problem.first.width << ' ' << problem.first.height << '\n'
              << std::max(problem.labels - 1, 1) << '\n';
    for (int label : run.at) std::cout.put(char(label));
    std::cout.flush();
    if (!std::cout) refuse("the picture could not be written");
    std::cerr << "energy " << data + smooth << " data " << data << " smooth " << smooth << '\n';
}
