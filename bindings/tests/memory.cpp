// Each piece of memory that GCoptimization.h asks for refused in turn: told as a GCException, with
// the labels as they were and nothing lost, or answered rightly all the same.
#include <new>
#include <vector>
#include "GCoptimization.h"
#include "wanted.h"

static long count = 0, fail_at = -1;

// not inlined, since g++ takes a malloc and a delete that it sees for a mistake
__attribute__((noinline)) void *operator new(std::size_t size) {
    if (++count == fail_at) throw std::bad_alloc();
    void *place = std::malloc(size > 0 ? size : 1);
    if (place == nullptr) throw std::bad_alloc();
    return place;
}
__attribute__((noinline)) void operator delete(void *place) noexcept { std::free(place); }
__attribute__((noinline)) void operator delete(void *place, std::size_t) noexcept {
    std::free(place);
}

// a problem whose arrays all have to be made anew: data costs below 0, heavy weights, label costs
static void fill(GCoptimizationGeneralGraph &gc) {
    for (int s = 0; s < 6; s++)
        for (int l = 0; l < 3; l++) gc.setDataCost(s, l, 10000 * (std::abs(s - 2 * l) - 1));
    for (int a = 0; a < 3; a++)
        for (int b = 0; b < 3; b++) gc.setSmoothCost(a, b, std::abs(a - b));
    for (int s = 0; s + 1 < 6; s++) gc.setNeighbors(s, s + 1, 1001 + s);
    const int costs[] = {1, 2, 3};
    gc.setLabelCost(costs);
}

static long long wanted = 0;

// yes where nothing was refused
static bool attempt(long at, bool is_watched) {
    const int nothing = 9;
    int labels[6] = {nothing};
    count = 0;
    fail_at = at;
    try {
        GCoptimizationGeneralGraph gc(6, 3);
        fill(gc);
        if (is_watched) gc.setWatch([](const GCoptimization::Progress &) { return true; });
        bool is_refused = false;
        try {
            const long long energy = gc.expansion();
            if (wanted == 0) wanted = energy;
            WANT(energy == wanted);
        } catch (const GCException &refusal) {
            WANT(std::string(refusal.message) == "there is not enough memory");
            is_refused = true;
        }
        fail_at = -1;
        gc.whatLabel(0, 6, labels);
        for (int label : labels) WANT(!is_refused || label == 0);
        WANT(gc.expansion() == wanted);   // nothing of the problem is lost
        return !is_refused && count < at;
    } catch (const GCException &refusal) {
        fail_at = -1;
        WANT(std::string(refusal.message) == "there is not enough memory");
        return false;
    }
}

int main() {
    long refused = 0;
    for (bool is_watched : {false, true}) {
        WANT(attempt(1000000, is_watched));
        long at = 1;
        while (!attempt(at, is_watched)) at++;
        WANT(at > 10);
        refused += at - 1;
    }
    std::printf("c++: %ld pieces of memory refused in turn\n", refused);
    return 0;
}
