// Publishers, a reader and the keeper over one log, over many terms: measures what `bench stream` measures, and prints the
// same table.
#include "gate.hpp"
#include "log.hpp"
#include <array>
#include <chrono>
#include <cstdio>
#include <cstdlib>
#include <thread>
#include <vector>

using Clock = std::chrono::steady_clock;

constexpr std::uint32_t MTU = 1408, SIZE = 200;
constexpr std::array<int, 4> PUBLISHERS = {1, 2, 4, 8};

// Nanoseconds for each message, from the common start to the moment at which the reader has read them all.
double stream(std::uint32_t term, int count, std::uint64_t messages) {
    Log log({term, MTU, 7}, 1, 1001, 0);
    Keeper keeper(log, 1, 0);
    keeper.set_connected();
    keeper.clean_and_limit();
    Gate gate(static_cast<std::size_t>(count) + 1);
    std::vector<std::thread> threads;
    for (int i = 0; i < count; i++)
        threads.emplace_back([&] {
            std::array<std::uint8_t, SIZE> message;
            message.fill(97);
            gate.pass();
            for (std::uint64_t sent = 0; sent < messages;) {
                if (log.offer(message.data(), SIZE) >= 0) sent++;
                else std::this_thread::yield();
            }
        });
    Reader reader(log, 0, 0);
    std::array<std::uint64_t, MTU / 8> block;
    gate.pass();
    auto began = Clock::now();
    std::uint64_t kept = 0, step = term / 64;
    for (std::uint64_t read = 0; read < messages * count;) {
        auto head = reader.next(block.data());
        if (!head) {
            std::this_thread::yield();
            continue;
        }
        if (head->is_data) read++;
        reader.advance();
        if (reader.position - kept >= step) {
            keeper.clean_and_limit();
            kept = reader.position;
        }
    }
    auto ended = Clock::now();
    for (auto &thread : threads) thread.join();
    return std::chrono::duration<double, std::nano>(ended - began).count() / (messages * count);
}

double median(std::vector<double> xs) {
    std::sort(xs.begin(), xs.end());
    return xs[xs.size() / 2];
}

int main(int count, char **words) {
    if (count != 3 || std::atoi(words[1]) <= 0 || std::atoi(words[2]) <= 0) {
        std::puts("stream ROUNDS MESSAGES: measures so many messages in all, and prints the medians");
        return 0;
    }
    int rounds = std::atoi(words[1]);
    std::uint64_t messages = std::atoi(words[2]);
    std::puts("    term  publishers  ns/message");
    for (std::uint32_t term : {65536u, 16777216u})
        for (int publishers : PUBLISHERS) {
            std::vector<double> taken;
            for (int round = 0; round < rounds; round++) taken.push_back(stream(term, publishers, messages / publishers));
            std::printf("%8u  %10d  %10.1f\n", term, publishers, median(taken));
        }
}
