// Two publishers in threads of their own, one of which claims; who reads their messages and keeps the log; and faults that are thrown.
#include "pechvang.hpp"

#include <array>
#include <cstdio>
#include <cstring>
#include <thread>
#include <vector>

namespace {

constexpr std::uint32_t each = 50'000;

void publish(pechvang::Publisher publisher, std::uint32_t number) {
    for (std::uint32_t count = 0; count < each; count++) {
        std::array<std::uint32_t, 2> words{number, count};
        std::array<std::uint8_t, 8> message;
        std::memcpy(message.data(), words.data(), message.size());
        if (number == 0) {
            while (!publisher.offer(message)) std::this_thread::yield();
        } else {
            while (!publisher.claim(message.size())) std::this_thread::yield();
            publisher.write(0, message);
            publisher.commit();
        }
    }
}

// A message of several frames, which waits for a room that is long enough.
bool waits(pechvang::Log &log, pechvang::Keeper &keeper, pechvang::Messages &messages) {
    pechvang::Publisher publisher = log.publisher();
    std::vector<std::uint8_t> message(5000, 7), room(100);
    while (!publisher.offer(message)) keeper.clean_and_limit();
    try {
        messages.next(room);
        return false;
    } catch (const pechvang::Fault &fault) {
        if (fault.code() != PV_ROOM_TOO_SMALL) return false;
    }
    room.resize(messages.waiting());
    return messages.next(room) == message.size() && room == message && !messages.next(room);
}

bool run() {
    pechvang::Log log({.term_length = 1 << 16, .mtu = 1408, .initial_term_id = 7, .session = 1, .stream = 1001, .consumers = 1, .start = 0});
    pechvang::Messages messages(log.reader(), 5000);
    pechvang::Keeper keeper = log.keeper();
    keeper.connect(true);
    keeper.clean_and_limit();
    std::vector<std::thread> threads;
    for (std::uint32_t number = 0; number < 2; number++) threads.emplace_back(publish, log.publisher(), number);
    std::array<std::uint32_t, 2> next{};
    std::array<std::uint8_t, 1408> room;
    bool well = true;
    while (next[0] + next[1] < 2 * each) {
        auto length = messages.next(room);
        if (!length) {
            keeper.clean_and_limit();
            std::this_thread::yield();
            continue;
        }
        std::array<std::uint32_t, 2> words;
        std::memcpy(words.data(), room.data(), sizeof words);
        well = *length == 8 && words[0] < 2 && words[1] == next[words[0]]++;
        if (!well) break;
    }
    well = well && waits(log, keeper, messages);
    keeper.close();
    for (std::thread &thread : threads) thread.join();
    try {
        log.reader();
        well = false;
    } catch (const pechvang::Fault &fault) {
        well = well && fault.code() == PV_NONE_LEFT;
    }
    std::printf("%u and %u messages\n", static_cast<unsigned>(next[0]), static_cast<unsigned>(next[1]));
    return well;
}

// A sender and a subscriber, with no network between them.
bool carry() {
    pechvang::Log log({.term_length = 1 << 16, .mtu = 1408, .initial_term_id = 7, .session = 1, .stream = 1001, .consumers = 1, .start = 0});
    pechvang::Publisher publisher = log.publisher();
    pechvang::Keeper keeper = log.keeper();
    pechvang::Sender sender(log.reader());
    pechvang::Subscriber subscriber({.receiver = 3, .greatest = 8192, .session = 1, .stream = 1001, .window = 32768});
    keeper.connect(true);
    std::array<std::uint8_t, 1408> datagram;
    std::array<std::int32_t, 44> outcomes;
    std::vector<std::uint8_t> room(8192), message(5000);
    std::uint32_t offered = 0, polled = 0;
    for (std::uint64_t now = 0; polled < 2000 && now < 10'000'000'000; now += 1'000'000) {
        keeper.clean_and_limit();
        message[0] = static_cast<std::uint8_t>(offered);
        if (offered < 2000 && publisher.offer(message)) offered++;
        sender.tick(now);
        while (auto length = sender.next_datagram(datagram)) subscriber.receive(std::span(datagram).first(*length), now, outcomes);
        while (auto length = subscriber.poll(room)) {
            if (*length != message.size() || room[0] != static_cast<std::uint8_t>(polled++)) return false;
        }
        subscriber.tick(now);
        while (auto length = subscriber.next_datagram(datagram)) {
            sender.hear(std::span(datagram).first(*length), now);
            std::array<std::uint8_t, 1408> answer;
            while (auto size = sender.next_datagram(answer)) subscriber.receive(std::span(answer).first(*size), now, outcomes);
        }
    }
    std::printf("%u carried\n", static_cast<unsigned>(polled));
    return polled == 2000;
}

} // namespace

int main() { return run() && carry() ? 0 : 1; }
