// Claims that are written in a block of their publisher's own, and committed: measures what `bench claims` measures, and prints
// the same table.
#include "lanes.hpp"
#include "log.hpp"
#include <cstdio>
#include <cstdlib>

constexpr std::uint32_t TERM = 16777216, MTU = 1408, SIZE = 200;

// A fresh log, filled up to its limit: nanoseconds for each claim.
double claims(int count) {
    Log log({TERM, MTU, 7}, 1, 1001, 0);
    Keeper keeper(log, 1, 0);
    keeper.set_connected();
    keeper.clean_and_limit();
    std::vector<Lane> lanes(count);
    double taken = together(lanes, [&](std::size_t, Lane &lane) {
        std::vector<std::uint8_t> block(MTU);
        std::uint64_t accepted = 0;
        for (;;) {
            std::int64_t start = log.try_claim(block.data(), SIZE);
            if (start >= 0) {
                std::memset(block.data(), 97, SIZE);
                log.commit(static_cast<std::uint64_t>(start), block.data(), SIZE);
                accepted++;
            } else if (start != ADMIN_ACTION) break;
        }
        lane.accepted = accepted;
    });
    std::uint64_t accepted = 0;
    for (auto &lane : lanes) accepted += lane.accepted;
    return taken / accepted;
}

int main(int count, char **words) {
    if (count != 2 || std::atoi(words[1]) <= 0) {
        std::puts("claims ROUNDS: measures claims that are written and committed, and prints their medians");
        return 0;
    }
    int rounds = std::atoi(words[1]);
    std::puts("threads  ns/claim");
    for (int threads : THREADS) {
        std::vector<double> taken;
        for (int round = 0; round < rounds; round++) taken.push_back(claims(threads));
        std::printf("%7d  %8.1f\n", threads, median(taken));
    }
}
