// Claims by one addition: measures what `bench` measures, and prints the same table.
#include "lanes.hpp"
#include "log.hpp"
#include <cstdio>
#include <cstdlib>

constexpr std::uint32_t TERM = 16777216, MTU = 1408, SIZE = 200;
constexpr std::size_t STORES = 29;
// A fresh log, filled up to its limit: nanoseconds for each claim.
double claims(int count) {
    Log log({TERM, MTU, 7}, 1, 1001, 0);
    Keeper keeper(log, 1, 0);
    keeper.set_connected();
    keeper.clean_and_limit();
    std::vector<Lane> lanes(count);
    double taken = together(lanes, [&](std::size_t, Lane &lane) {
        std::array<std::uint8_t, SIZE> message;
        message.fill(97);
        std::uint64_t accepted = 0;
        for (;;) {
            std::int64_t answer = log.offer(message.data(), SIZE);
            if (answer >= 0) accepted++;
            else if (answer != ADMIN_ACTION) break;
        }
        lane.accepted = accepted;
    });
    std::uint64_t accepted = 0;
    for (auto &lane : lanes) accepted += lane.accepted;
    return taken / accepted;
}

// As many stores as those claims make, each thread over words of its own: nanoseconds for the stores of one claim.
double stores(int count) {
    std::size_t frames = TERM / 2 / 256, all = frames / count * count, each = all / count * STORES;
    auto words = std::make_unique<Word[]>(all * STORES);
    std::vector<Lane> lanes(count);
    double taken = together(lanes, [&](std::size_t i, Lane &) {
        Word *own = &words[i * each];
        for (std::size_t k = 0; k < each; k++) own[k].store(1);
    });
    return taken / all;
}

int main(int count, char **words) {
    if (count != 2 || std::atoi(words[1]) <= 0) {
        std::puts("reference ROUNDS: measures claims and stores, and prints their medians");
        return 0;
    }
    int rounds = std::atoi(words[1]);
    std::array<std::vector<double>, THREADS.size()> claimed, stored;
    for (int round = 0; round < rounds; round++)
        for (std::size_t i = 0; i < THREADS.size(); i++) {
            claimed[i].push_back(claims(THREADS[i]));
            stored[i].push_back(stores(THREADS[i]));
        }
    std::puts("threads  ns/claim  ns/stores");
    for (std::size_t i = 0; i < THREADS.size(); i++)
        std::printf("%7d  %8.1f  %9.1f\n", THREADS[i], median(claimed[i]), median(stored[i]));
}
