// Threads that begin together, each timed, and medians.
#pragma once
#include "gate.hpp"
#include <algorithm>
#include <array>
#include <chrono>
#include <cstdint>
#include <functional>
#include <thread>
#include <vector>

using Clock = std::chrono::steady_clock;

constexpr std::array<int, 4> THREADS = {1, 2, 4, 8};

struct Lane {
    std::uint64_t accepted = 0;
    Clock::time_point began, ended;
};

// All threads begin together. The nanoseconds from the first's begin to the last's end.
inline double together(std::vector<Lane> &lanes, const std::function<void(std::size_t, Lane &)> &work) {
    Gate gate(lanes.size());
    std::vector<std::thread> threads;
    for (std::size_t i = 0; i < lanes.size(); i++)
        threads.emplace_back([&, i] {
            gate.pass();
            lanes[i].began = Clock::now();
            work(i, lanes[i]);
            lanes[i].ended = Clock::now();
        });
    for (auto &thread : threads) thread.join();
    auto began = lanes[0].began, ended = lanes[0].ended;
    for (auto &lane : lanes) began = std::min(began, lane.began), ended = std::max(ended, lane.ended);
    return std::chrono::duration<double, std::nano>(ended - began).count();
}

inline double median(std::vector<double> xs) {
    std::sort(xs.begin(), xs.end());
    return xs[xs.size() / 2];
}
