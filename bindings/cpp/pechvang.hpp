// A log that threads share without a lock, and its sender and subscriber, for C++: handles that are moved and freed by themselves, and codes that are thrown
// where they are faults. pechvang.h tells the rules of threads and pointers.
#ifndef PECHVANG_HPP
#define PECHVANG_HPP

#include "pechvang.h"

#include <cstdint>
#include <optional>
#include <span>
#include <stdexcept>
#include <utility>

namespace pechvang {

class Fault : public std::runtime_error {
public:
    explicit Fault(std::int32_t code) : std::runtime_error(pv_code_text(code)), code_(code) {}
    std::int32_t code() const { return code_; }

private:
    std::int32_t code_;
};

inline void must(std::int32_t code) {
    if (code < 0) throw Fault(code);
}

// Each handle on a cache line of its own, since each call writes it.
template <class H>
class alignas(64) Handle {
public:
    Handle() = default;
    Handle(Handle &&other) noexcept : handle_(std::exchange(other.handle_, H PV_EMPTY)) {}
    Handle &operator=(Handle &&other) noexcept {
        if (this != &other) {
            pv_free(&handle_.handle);
            handle_ = std::exchange(other.handle_, H PV_EMPTY);
        }
        return *this;
    }
    ~Handle() { pv_free(&handle_.handle); }
    Handle(const Handle &) = delete;
    Handle &operator=(const Handle &) = delete;

    H *get() { return &handle_; }

private:
    H handle_ = PV_EMPTY;
};

class Publisher : public Handle<pv_publisher> {
public:
    // The position behind the message, or nothing where it may be accepted later.
    std::optional<std::uint64_t> offer(std::span<const std::uint8_t> message) {
        std::uint64_t position = 0;
        return answer(pv_offer(get(), message.data(), message.size(), &position), position);
    }
    std::optional<std::uint64_t> claim(std::size_t length) {
        std::uint64_t start = 0;
        return answer(pv_claim(get(), length, &start), start);
    }
    void write(std::size_t offset, std::span<const std::uint8_t> bytes) { must(pv_claim_write(get(), offset, bytes.data(), bytes.size())); }
    std::uint64_t commit() {
        std::uint64_t position = 0;
        must(pv_commit(get(), &position));
        return position;
    }
    std::uint64_t abort() {
        std::uint64_t position = 0;
        must(pv_abort(get(), &position));
        return position;
    }
    std::uint64_t share() {
        std::uint64_t bytes = 0;
        must(pv_share(get(), &bytes));
        return bytes;
    }

private:
    static std::optional<std::uint64_t> answer(std::int32_t code, std::uint64_t position) {
        if (code == PV_NOT_CONNECTED || code == PV_BACK_PRESSURED || code == PV_ADMIN_ACTION) return std::nullopt;
        must(code);
        return position;
    }
};

class Reader : public Handle<pv_reader> {
public:
    // The frame where the reader stands, its payload at the front of the room.
    std::optional<pv_frame> next(std::span<std::uint8_t> room) {
        pv_frame frame{};
        std::int32_t code = pv_next(get(), room.data(), room.size(), &frame);
        must(code);
        return code == PV_FRAME ? std::optional(frame) : std::nullopt;
    }
    bool advance() {
        std::int32_t code = pv_advance(get());
        must(code);
        return code == PV_FRAME;
    }
};

// Whole messages, in place of a reader's frames.
class Messages : public Handle<pv_messages> {
public:
    // Of a reader that has found no frame yet, from where it stands on, each of at most so many bytes. Where it is declined, the reader
    // stays as it was.
    explicit Messages(Reader &&reader, std::size_t greatest) { must(pv_open_messages(reader.get(), greatest, get())); }
    // The message at the front of the room, or nothing where none is whole yet. One that is longer than the room waits: the fault is
    // PV_ROOM_TOO_SMALL, and `waiting` is its length.
    std::optional<std::size_t> next(std::span<std::uint8_t> room) {
        std::size_t length = 0;
        std::int32_t code = pv_next_message(get(), room.data(), room.size(), &length);
        waiting_ = code == PV_ROOM_TOO_SMALL ? length : 0;
        must(code);
        return code == PV_FRAME ? std::optional(length) : std::nullopt;
    }
    std::size_t waiting() const { return waiting_; }
    // Behind all that was given, and behind a message that waits.
    std::uint64_t position() {
        std::uint64_t position = 0;
        must(pv_messages_position(get(), &position));
        return position;
    }

private:
    std::size_t waiting_ = 0;
};

class Keeper : public Handle<pv_keeper> {
public:
    std::uint64_t clean_and_limit() {
        std::uint64_t limit = 0;
        must(pv_clean_and_limit(get(), &limit));
        return limit;
    }
    void connect(bool connected) { must(pv_set_connected(get(), connected)); }
    void close() { must(pv_set_closed(get())); }
    Reader join() {
        Reader reader;
        must(pv_join(get(), reader.get()));
        return reader;
    }
};

// What both cores have: moments in, nanoseconds of a clock that doesn't go back, and datagrams out. All of these have to be taken
// before the next moment.
template <class H>
class Core : public Handle<H> {
public:
    void tick(std::uint64_t now) { must(pv_tick(&this->get()->handle, now)); }
    // The next datagram to send stands at the front of the room.
    std::optional<std::size_t> next_datagram(std::span<std::uint8_t> room) {
        std::size_t length = 0;
        std::int32_t code = pv_next_datagram(&this->get()->handle, room.data(), room.size(), &length);
        must(code);
        return code == PV_FRAME ? std::optional(length) : std::nullopt;
    }
};

class Subscriber : public Core<pv_subscriber> {
public:
    explicit Subscriber(const pv_subscription &config) { must(pv_open_subscriber(&config, get())); }
    // How many frames the datagram has; what became of them is written as far as there is room.
    std::size_t receive(std::span<const std::uint8_t> datagram, std::uint64_t now, std::span<std::int32_t> outcomes) {
        std::size_t frames = 0;
        must(pv_receive(get(), datagram.data(), datagram.size(), now, outcomes.data(), outcomes.size(), &frames));
        return frames;
    }
    // The message at the front of the room, or nothing where none is whole yet or no image is open.
    std::optional<std::size_t> poll(std::span<std::uint8_t> room) {
        std::size_t length = 0;
        std::int32_t code = pv_poll(get(), room.data(), room.size(), &length);
        if (code != PV_NO_IMAGE) must(code);
        return code == PV_FRAME ? std::optional(length) : std::nullopt;
    }
};

class Sender : public Core<pv_sender> {
public:
    // To one receiver (0), or to a group. Where it is declined, the reader stays as it was.
    explicit Sender(Reader &&reader, std::uint32_t group = 0) { must(pv_open_sender(reader.get(), group, get())); }
    pv_outcome hear(std::span<const std::uint8_t> datagram, std::uint64_t now) {
        std::int32_t outcome = 0;
        must(pv_hear(get(), datagram.data(), datagram.size(), now, &outcome));
        return static_cast<pv_outcome>(outcome);
    }
};

class Log : public Handle<pv_log> {
public:
    explicit Log(const pv_config &config) { must(pv_open(&config, get())); }
    Publisher publisher() {
        Publisher taken;
        must(pv_take_publisher(get(), taken.get()));
        return taken;
    }
    Reader reader() {
        Reader taken;
        must(pv_take_reader(get(), taken.get()));
        return taken;
    }
    Keeper keeper() {
        Keeper taken;
        must(pv_take_keeper(get(), taken.get()));
        return taken;
    }
};

} // namespace pechvang

#endif
