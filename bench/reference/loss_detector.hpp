// Watches one gap, known by its start, and tells it each millisecond.
#pragma once
#include "geometry.hpp"
#include <optional>

class LossDetector {
    static constexpr std::uint64_t DELAY = 1'000'000;

    std::optional<std::uint64_t> active;
    std::uint64_t deadline = 0;

  public:
    std::optional<Gap> scan(std::uint64_t now, std::optional<Gap> gap) {
        if (!gap) {
            active.reset();
            return std::nullopt;
        }
        bool is_known = active == gap->start;
        if (is_known && now < deadline) return std::nullopt;
        active = gap->start;
        deadline = now + DELAY;
        return is_known ? gap : std::nullopt;
    }
};
