// A small generator of random numbers (splitmix64): the same seed gives the same numbers everywhere.
#pragma once

#include <cstddef>
#include <cstdint>
#include <vector>

class Random {
public:
    explicit Random(std::uint64_t seed) : state(seed) {}

    std::uint64_t next() {
        std::uint64_t z = (state += 0x9e3779b97f4a7c15ULL);
        z = (z ^ (z >> 30)) * 0xbf58476d1ce4e5b9ULL;
        z = (z ^ (z >> 27)) * 0x94d049bb133111ebULL;
        return z ^ (z >> 31);
    }

    // A number from 0 up to, and without, `limit`, which is not 0.
    std::size_t below(std::size_t limit) { return static_cast<std::size_t>(next() % limit); }

    // A number from `low` to `high`, both possible.
    std::size_t between(std::size_t low, std::size_t high) { return low + below(high - low + 1); }

    // True once in `many`.
    bool one_in(std::size_t many) { return below(many) == 0; }

    template <class T>
    const T& pick(const std::vector<T>& of) { return of[below(of.size())]; }

private:
    std::uint64_t state;
};
