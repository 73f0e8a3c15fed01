// Positions of a stream that one thread publishes together and others read, without a lock.
#pragma once
#include "geometry.hpp"
#include "words.hpp"

class Counters {
    Word version = 0; // odd while the others change
    Word least = 0, rebuilt = 0, high_water = 0;

  public:
    void publish(const Positions &positions) {
        std::uint64_t odd = version + 1;
        version = odd;
        least = positions.least;
        rebuilt = positions.rebuilt;
        high_water = positions.high_water;
        version = odd + 1;
    }

    Positions read() const {
        for (;;) {
            std::uint64_t before = version;
            Positions positions{least, rebuilt, high_water};
            if (before % 2 == 0 && version == before) return positions;
        }
    }
};
