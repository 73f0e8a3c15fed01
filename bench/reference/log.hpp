// The log of `shared_log` in plain C++: claims by one addition over words that threads share, readers that walk committed
// frames, and a keeper that cleans behind them and moves the limit.
#pragma once
#include "log_frames.hpp"
#include <optional>

// Places of the control words, two cache lines apart, and the end of the last one's.
constexpr std::size_t LIMIT = 0;
constexpr std::size_t COUNT = LINE;
constexpr std::size_t TAILS = 2 * LINE;
constexpr std::size_t CONSUMERS = 5 * LINE;
constexpr std::size_t CONTROLS = 13 * LINE;

constexpr std::uint64_t CONNECTED = 1, CLOSED_FLAG = 2, FLAGS = 3;

enum Refusal : std::int64_t {
    NOT_CONNECTED = -1,
    BACK_PRESSURED = -2,
    ADMIN_ACTION = -3,
    CLOSED = -4,
    MAX_POSITION_EXCEEDED = -5
};

// It has cache lines of its own, as have its readers and its keeper: what one thread changes lies on no line that others read.
struct alignas(8 * LINE) Log {
    Geometry geometry;
    std::int32_t session, stream;
    Words words;
    LogFrames frames;

    // Unconnected, the limit and all consumers at the start.
    Log(const Geometry &geometry, std::int32_t session, std::int32_t stream, std::uint64_t start)
        : geometry(geometry), session(session), stream(stream), words(CONTROLS), frames(geometry) {
        std::uint32_t count = geometry.count_of(start);
        words[LIMIT] = start;
        words[COUNT] = count;
        tail(count) = packed(geometry.id_of(count), geometry.offset_of(start));
        tail(count + 1) = packed(geometry.id_of(count - 2), 0);
        tail(count + 2) = packed(geometry.id_of(count - 1), 0);
        for (std::size_t i = 0; i < 8; i++) words[CONSUMERS + i * LINE] = start;
    }

    static std::uint64_t packed(std::uint32_t high, std::uint32_t low) { return std::uint64_t{high} << 32 | low; }

    Word &tail(std::uint32_t count) { return words[TAILS + count % 3 * LINE]; }

    void rotate(std::uint32_t count) {
        Word &next = tail(count + 1);
        auto before = static_cast<std::uint32_t>(geometry.id_of(count - 2));
        auto after = static_cast<std::uint32_t>(geometry.id_of(count + 1));
        std::uint64_t found = next.load();
        if (found >> 32 == before && next.compare_exchange_strong(found, packed(after, 0))) found = packed(after, 0);
        if (found >> 32 != after) return;
        std::uint64_t from = count;
        words[COUNT].compare_exchange_strong(from, from + 1);
    }

    std::int64_t turn_from(std::uint32_t count) {
        if (count == LAST_COUNT) return MAX_POSITION_EXCEEDED;
        rotate(count);
        return ADMIN_ACTION;
    }

    void write_frame(std::uint64_t start, bool is_data, std::uint8_t flags, std::uint32_t frame_length,
                     const std::uint8_t *payload, std::uint32_t size) {
        Place place = geometry.place_of(start);
        Header header{frame_length | std::uint64_t{flags} << 40 | std::uint64_t{is_data} << 48, packed(session, place.offset),
                      packed(place.term_id, stream)};
        frames.write(start, header, payload, size);
    }

    void write_message(std::uint64_t start, const std::uint8_t *message, std::uint32_t size) {
        std::uint32_t most = geometry.max_payload();
        std::uint8_t first = BEGIN;
        for (; size > most; size -= most, message += most, start += geometry.mtu) {
            write_frame(start, true, first, most + HEADER, message, most);
            first = 0;
        }
        write_frame(start, true, first | END, size + HEADER, message, size);
    }

    // Where a range for a message begins, or a refusal.
    std::int64_t claim(std::uint32_t size) {
        std::uint64_t limit = words[LIMIT].load();
        if (limit & CLOSED_FLAG) return CLOSED;
        auto count = static_cast<std::uint32_t>(words[COUNT].load());
        std::uint64_t seen = tail(count).load();
        if (static_cast<std::int32_t>(seen >> 32) != geometry.id_of(count)) return ADMIN_ACTION;
        std::uint64_t term_start = std::uint64_t{count} * geometry.term_length;
        auto offset = static_cast<std::uint32_t>(seen);
        if (offset >= geometry.term_length) return turn_from(count);
        if (term_start + offset >= (limit & ~FLAGS)) return limit & CONNECTED ? BACK_PRESSURED : NOT_CONNECTED;
        std::uint32_t covered = geometry.framed_length(size);
        std::uint64_t word = tail(count).fetch_add(covered);
        std::uint32_t found = static_cast<std::uint32_t>(word >> 32) - static_cast<std::uint32_t>(geometry.initial_id);
        auto from = static_cast<std::uint32_t>(word);
        std::uint64_t start = std::uint64_t{found} * geometry.term_length + from;
        if (from + covered <= geometry.term_length) return static_cast<std::int64_t>(start);
        if (from < geometry.term_length) write_frame(start, false, UNFRAGMENTED, geometry.term_length - from, nullptr, 0);
        return turn_from(found);
    }

    // The position behind the message, or a refusal.
    std::int64_t offer(const std::uint8_t *message, std::uint32_t size) {
        std::int64_t start = claim(size);
        if (start < 0) return start;
        write_message(static_cast<std::uint64_t>(start), message, size);
        return start + geometry.framed_length(size);
    }

    // A range for a message of one frame, whose bytes are zeros then in the publisher's block; or a refusal.
    std::int64_t try_claim(std::uint8_t *block, std::uint32_t size) {
        std::int64_t start = claim(size);
        if (start >= 0) std::memset(block, 0, size);
        return start;
    }

    // The message stands in the block.
    void commit(std::uint64_t start, const std::uint8_t *block, std::uint32_t size) {
        write_frame(start, true, UNFRAGMENTED, size + HEADER, block, size);
    }
};

// One of the log's consumers.
struct alignas(8 * LINE) Reader {
    Log &log;
    Word &told;
    std::uint64_t position, read_to;

    Reader(Log &log, std::size_t number, std::uint64_t start)
        : log(log), told(log.words[CONSUMERS + number * LINE]), position(start), read_to(start) {}

    // The frame that is committed where the reader stands, and its payload in the block, which has room for an MTU.
    std::optional<Head> next(std::uint64_t *block) {
        std::uint64_t first = log.frames.first(position);
        if (first == 0) return std::nullopt;
        Head head(first);
        read_to = position + head.covered();
        if (head.is_data) log.frames.read(position, head.length - HEADER, block);
        return head;
    }

    void advance() {
        position = read_to;
        told.store(position, PUBLISHES);
    }
};

struct alignas(8 * LINE) Keeper {
    Log &log;
    std::size_t consumers;
    std::uint64_t start, cleaned, limit;

    Keeper(Log &log, std::size_t consumers, std::uint64_t start)
        : log(log), consumers(consumers), start(start), cleaned(start), limit(log.words[LIMIT].load()) {}

    void set_connected() {
        limit |= CONNECTED;
        log.words[LIMIT].store(limit, PUBLISHES);
    }

    // Whether the limit has grown.
    bool clean_and_limit() {
        std::uint64_t least = log.words[CONSUMERS].load();
        for (std::size_t i = 1; i < consumers; i++) least = std::min(least, log.words[CONSUMERS + i * LINE].load());
        std::uint32_t term = log.geometry.term_length;
        std::uint64_t end = std::max(start, least < term ? 0 : least - term);
        while (cleaned < end) {
            std::uint64_t from = cleaned;
            cleaned = log.frames.clean(from, std::min(end, log.geometry.term_end(from)));
            if (cleaned == from) break;
        }
        std::uint64_t wanted = least + term / 2;
        if ((limit & FLAGS) != CONNECTED || (limit & ~FLAGS) >= wanted) return false;
        limit = wanted | CONNECTED;
        log.words[LIMIT].store(limit, PUBLISHES);
        return true;
    }
};
