// What setVerbosity prints as a run goes on, and that it changes neither the labels nor what is
// told.
#include <cstring>
#include <fstream>
#include <sstream>
#include "GCoptimization.h"
#include "wanted.h"

static const char cycles[] = "gco: start: energy 60 (data 60, smooth 0, label 0)\n"
                             "gco: cycle 1: energy 3 (data 0, smooth 3, label 0)\n"
                             "gco: cycle 2: energy 3 (data 0, smooth 3, label 0)\n";
static const char moves[] = "gco: start: energy 60 (data 60, smooth 0, label 0)\n"
                            "gco:   expansion of label 0: energy 60 (data 60, smooth 0, label 0)\n"
                            "gco:   expansion of label 1: energy 31 (data 30, smooth 1, label 0)\n"
                            "gco:   expansion of label 2: energy 12 (data 10, smooth 2, label 0)\n"
                            "gco:   expansion of label 3: energy 3 (data 0, smooth 3, label 0)\n"
                            "gco: cycle 1: energy 3 (data 0, smooth 3, label 0)\n"
                            "gco:   expansion of label 0: energy 3 (data 0, smooth 3, label 0)\n"
                            "gco:   expansion of label 1: energy 3 (data 0, smooth 3, label 0)\n"
                            "gco:   expansion of label 2: energy 3 (data 0, smooth 3, label 0)\n"
                            "gco:   expansion of label 3: energy 3 (data 0, smooth 3, label 0)\n"
                            "gco: cycle 2: energy 3 (data 0, smooth 3, label 0)\n";

static const char note[] = "gco: labels are taken in rising order, and not in a random one\n";

// four sites in a row; a label costs 10 for each step that it is below its site, 10,000 above
static long long run(int level, gco_outcome &told) {
    GCoptimizationGridGraph gc(4, 1, 4);
    for (int s = 0; s < 4; s++)
        for (int l = 0; l < 4; l++) gc.setDataCost(s, l, l > s ? 10000 : 10 * (s - l));
    for (int a = 0; a < 4; a++)
        for (int b = 0; b < 4; b++) gc.setSmoothCost(a, b, a != b);
    gc.setVerbosity(level);
    const long long energy = gc.expansion();
    told = gc.outcome();
    for (int s = 0; s < 4; s++) WANT(gc.whatLabel(s) == s);
    return energy;
}

int main(int, char **arguments) {
    gco_outcome quiet, told;
    if (!std::freopen(arguments[1], "w", stdout)) return 1;
    WANT(run(0, quiet) == 3 && quiet.cycles == 2 && quiet.settled == 1);
    for (int level = 1; level < 3; level++) {
        WANT(run(level, told) == 3);
        WANT(told.cycles == quiet.cycles && told.settled == 1 && told.vmin == quiet.vmin &&
             told.vmax == quiet.vmax);
    }
    // a random order is told as what it is
    GCoptimizationGridGraph(1, 1, 2).setLabelOrder(true);
    GCoptimizationGridGraph noted(1, 1, 2);
    noted.setVerbosity(1);
    noted.setLabelOrder(true);
    std::fclose(stdout);
    std::ifstream file(arguments[1]);
    std::ostringstream printed;
    printed << file.rdbuf();
    if (printed.str() != std::string(cycles) + moves + note) {
        std::fprintf(stderr, "%s: other lines\n%s", __FILE__, printed.str().c_str());
        return 1;
    }
    std::fprintf(stderr, "c++: what setVerbosity prints\n");
    return 0;
}
