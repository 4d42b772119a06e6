// What the tests in C++ share: a line that fails is printed and ends the program.
#ifndef WANTED_H
#define WANTED_H

#include <cstdint>
#include <cstdio>
#include <cstdlib>
#include <exception>
#include <string>

#define WANT(x)                                                 \
    do {                                                        \
        if (!(x)) {                                             \
            std::printf("%s:%d: %s\n", __FILE__, __LINE__, #x); \
            std::exit(1);                                       \
        }                                                       \
    } while (0)

// runs `work`, which has to throw an `Error` with exactly these words
template <typename Error, typename Work>
bool throws(const std::string &words, Work work, std::string (*text)(const Error &)) {
    try {
        work();
    } catch (const Error &error) {
        if (text(error) == words) return true;
        std::printf("other words: %s\n", text(error).c_str());
        return false;
    }
    std::printf("nothing was thrown: %s\n", words.c_str());
    return false;
}
template <typename Error> std::string what_of(const Error &error) { return error.what(); }
template <typename Error> std::string message_of(const Error &error) { return error.message; }

// xorshift, the same on each machine
struct Random {
    explicit Random(std::uint64_t seed) : state(seed * 2 + 88172645463325252u) {}
    int below(int bound) {
        state ^= state << 13;
        state ^= state >> 7;
        state ^= state << 17;
        return static_cast<int>((state >> 11) % static_cast<std::uint64_t>(bound));
    }
    int from(int least, int most) { return least + below(most - least + 1); }
    std::uint64_t state;
};

#endif
