// A bit for each unit of 32 bytes, 64 in a word.
#pragma once
#include <algorithm>
#include <bit>
#include <cstdint>
#include <vector>

// So many ones from a bit on.
constexpr std::uint64_t mask(std::uint64_t low, std::uint64_t count) { return ~std::uint64_t{0} >> (64 - count) << low; }

// Shows the number of each word of a run of bits, with the run's mask in it.
template <typename Each> void each_word(std::uint64_t from, std::uint64_t to, Each each) {
    while (from < to) {
        std::uint64_t low = from % 64, count = std::min(64 - low, to - from);
        each(from / 64, mask(low, count));
        from += count;
    }
}

// The first bit of a run that is set, or the run's end. Words are given by their numbers.
template <typename WordAt> std::uint64_t first_set(std::uint64_t from, std::uint64_t to, WordAt word_at) {
    while (from < to) {
        std::uint64_t rest = word_at(from / 64) >> from % 64;
        if (rest != 0) return std::min(to, from + std::countr_zero(rest));
        from += 64 - from % 64;
    }
    return to;
}

class Occupancy {
    std::vector<std::uint64_t> words;

  public:
    explicit Occupancy(std::size_t units) : words(units / 64) {}

    bool holds(std::size_t unit) const { return words[unit / 64] >> unit % 64 & 1; }
    void set(std::size_t unit) { words[unit / 64] |= std::uint64_t{1} << unit % 64; }
    void set(std::size_t from, std::size_t to) {
        each_word(from, to, [&](std::size_t word, std::uint64_t ones) { words[word] |= ones; });
    }
    void clear(std::size_t from, std::size_t to) {
        each_word(from, to, [&](std::size_t word, std::uint64_t ones) { words[word] &= ~ones; });
    }

    // The first unit of a run that is set, or the run's end.
    std::size_t first_set(std::size_t from, std::size_t to) const {
        return ::first_set(from, to, [&](std::size_t word) { return words[word]; });
    }
};
