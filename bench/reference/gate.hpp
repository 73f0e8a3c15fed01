// A gate that opens once so many threads have come and had time to settle, each on a core of its own.
#pragma once
#include <atomic>
#include <cstddef>
#include <thread>

class Gate {
    static constexpr int SETTLING = 20'000; // yields: some milliseconds

    std::size_t wanted;
    std::atomic<std::size_t> arrived = 0, settled = 0;

    void meet(std::atomic<std::size_t> &count) {
        count.fetch_add(1);
        while (count.load() < wanted) std::this_thread::yield();
    }

  public:
    explicit Gate(std::size_t wanted) : wanted(wanted) {}

    void pass() {
        meet(arrived);
        for (int i = 0; i < SETTLING; i++) std::this_thread::yield();
        meet(settled);
    }
};
