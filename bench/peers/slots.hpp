// Queues that hold whole messages in slots of a fixed size.
#pragma once
#include "room.hpp"
#include <type_traits>

template <std::size_t Size> struct Slot {
    std::uint8_t bytes[Size];
};

// Calls back with the smallest slot that holds a message of this length.
template <typename Call> void with_slot(std::uint32_t length, Call call) {
    if (length <= 16) call(std::type_identity<Slot<16>>{});
    else if (length <= 200) call(std::type_identity<Slot<200>>{});
    else if (length <= 1000) call(std::type_identity<Slot<1000>>{});
    else if (length <= 8192) call(std::type_identity<Slot<8192>>{});
    else refuse("too long", "--length");
}

// A queue has `push(slot)` and `pop(slot)`, which answer whether they did.
template <typename Queue, typename Held> void play_queue(const Options &options, const char *program, Queue &queue) {
    auto publisher = [&](std::uint32_t number, Start &start) {
        Held slot{};
        publish(options, number, start.meet(), [&](const std::uint8_t *message) {
            std::memcpy(slot.bytes, message, options.length);
            while (!queue.push(slot)) std::this_thread::yield();
        });
    };
    auto subscriber = [&](Tally &tally, Start &start) {
        Held slot;
        std::uint64_t began = start.meet();
        while (!tally.is_complete())
            if (queue.pop(slot)) tally.take(slot.bytes, options.length);
            else std::this_thread::yield();
        return began;
    };
    play(options, program, publisher, subscriber);
}
