// What a thread does in turns in which it has nothing to do: it yields at first, and sleeps after some in a row.
#pragma once
#include <chrono>
#include <thread>

class Idle {
    static constexpr int YIELDS = 200;

    int turns = 0;

  public:
    void after(bool busy) {
        if (busy) {
            turns = 0;
        } else if (turns < YIELDS) {
            turns++;
            std::this_thread::yield();
        } else {
            std::this_thread::sleep_for(std::chrono::microseconds(20));
        }
    }
};
