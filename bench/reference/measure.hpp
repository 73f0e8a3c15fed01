// Messages that carry the moment from which they count, and what is measured of them.
#pragma once
#include "options.hpp"
#include <algorithm>
#include <atomic>
#include <cstring>
#include <ctime>
#include <thread>
#include <vector>

// Nanoseconds of the monotonic clock.
inline std::uint64_t now() {
    timespec time;
    clock_gettime(CLOCK_MONOTONIC, &time);
    return static_cast<std::uint64_t>(time.tv_sec) * 1'000'000'000 + static_cast<std::uint64_t>(time.tv_nsec);
}

// Ends the program, whatever its other threads do.
[[noreturn]] inline void fail(const char *what) {
    std::fprintf(stderr, "error: %s\n", what);
    std::_Exit(1);
}

// Where all threads of a run meet before it begins.
class Start {
    std::atomic<std::uint32_t> missing;
    std::atomic<std::uint64_t> moment = 0;

  public:
    explicit Start(std::uint32_t parties) : missing(parties) {}

    // Waits for the others. The answer is the moment at which the last one came.
    std::uint64_t meet() {
        if (missing.fetch_sub(1) == 1) moment = now();
        while (moment == 0) std::this_thread::yield();
        return moment;
    }
};

// What a message begins with; zeros follow.
struct Stamp {
    std::uint32_t publisher, count;
    std::uint64_t moment;
};
static_assert(sizeof(Stamp) == LEAST_LENGTH);

// A publisher's share of the messages, one after the other. Each is handed to `send`, which comes back once it is accepted.
// At full load its stamp is the moment before that, and at a fixed rate the moment at which it was due.
template <typename Send>
void publish(const Options &options, std::uint32_t number, std::uint64_t start, Send send) {
    std::vector<std::uint8_t> message(options.length);
    for (std::uint64_t count = 0; count < options.share(); count++) {
        Stamp stamp{number, static_cast<std::uint32_t>(count), 0};
        if (options.rate == 0) {
            stamp.moment = now();
        } else {
            stamp.moment = start + count * options.publishers * 1'000'000'000 / options.rate;
            while (now() < stamp.moment) std::this_thread::yield();
        }
        std::memcpy(message.data(), &stamp, sizeof stamp);
        send(message.data());
    }
}

inline void print_row(const Options &options, const char *program, std::uint64_t messages, std::uint64_t nanoseconds,
                      const char *percentiles) {
    double seconds = static_cast<double>(nanoseconds) / 1e9;
    std::printf("%s,%u,%u,%u,%u,%u,%llu,%llu,%.6f,%llu,%s\n", program, options.publishers, options.length, options.term,
                options.mtu, options.loss, static_cast<unsigned long long>(options.rate),
                static_cast<unsigned long long>(messages), seconds,
                static_cast<unsigned long long>(static_cast<double>(messages) / seconds), percentiles);
}

// The messages that a subscriber got: each publisher's in order, each once, none of another length. Its cache lines are its
// own, since publishers read the options that stand beside it.
class alignas(128) Tally {
    Options options;
    std::vector<std::uint32_t> next;
    std::vector<std::uint64_t> samples;
    std::uint64_t taken = 0, last = 0;

    // A sample so far up that so many of a thousand are below it.
    unsigned long long quantile(std::uint64_t thousandths) const { return samples[thousandths * (samples.size() - 1) / 1000]; }

  public:
    explicit Tally(const Options &options)
        : options(options), next(options.publishers), samples(options.wanted()) {}

    bool is_complete() const { return taken == samples.size(); }

    void take(const Stamp &stamp, std::size_t length) {
        last = now();
        if (stamp.publisher >= next.size() || stamp.count != next[stamp.publisher]) fail("order broken");
        if (length != options.length) fail("length broken");
        if (is_complete()) fail("more messages than were sent");
        next[stamp.publisher]++;
        samples[taken++] = last - stamp.moment;
    }

    void take(const void *message, std::size_t length) {
        if (length < sizeof(Stamp)) fail("length broken");
        Stamp stamp;
        std::memcpy(&stamp, message, sizeof stamp);
        take(stamp, length);
    }

    // What came since the common start.
    void print(const char *program, std::uint64_t start) {
        std::sort(samples.begin(), samples.end());
        char text[128];
        std::snprintf(text, sizeof text, "%llu,%llu,%llu,%llu,%llu", quantile(500), quantile(900), quantile(990),
                      quantile(999), quantile(1000));
        print_row(options, program, taken, last - start, text);
    }
};

// Runs a subscriber here and each publisher in a thread of its own. All of them meet at the start, once they are ready.
template <typename Publisher, typename Subscriber>
void play(const Options &options, const char *program, Publisher publisher, Subscriber subscriber) {
    Start start(options.publishers + 1);
    std::vector<std::thread> threads;
    for (std::uint32_t number = 0; number < options.publishers; number++)
        threads.emplace_back([&, number] { publisher(number, start); });
    Tally tally(options);
    std::uint64_t began = subscriber(tally, start);
    for (auto &thread : threads) thread.join();
    tally.print(program, began);
}
