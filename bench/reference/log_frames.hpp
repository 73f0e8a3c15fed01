// Where the frames of a log lie, in three terms, as on the wire: in plain memory, as the proved log's do. One word for each unit
// says that a frame begins there: it is the frame's first, zero until the frame is committed, and its store publishes all bytes of
// the frame. With WORD_FRAMES they lie in words instead, each stored by a step of its own.
#pragma once
#include "geometry.hpp"
#include "words.hpp"
#include <cstring>
#include <memory>

// What a frame's first word says.
struct Head {
    std::uint32_t length;
    std::uint8_t flags;
    bool is_data;

    explicit Head(std::uint64_t word)
        : length(static_cast<std::uint32_t>(word)), flags(static_cast<std::uint8_t>(word >> 40)), is_data(word >> 48 != 0) {}

    std::uint32_t covered() const { return align32(length); }
    std::uint32_t on_wire() const { return is_data ? covered() : HEADER; }
};

// The first three words of a frame's header; the fourth is zero.
struct Header {
    std::uint64_t first, second, third;
};

#ifndef WORD_FRAMES
constexpr bool HAS_PLAIN_FRAMES = true;

class LogFrames {
    Geometry geometry;
    Words heads;
    std::unique_ptr<std::uint8_t[]> bytes;

    Word &head(std::uint64_t position) { return heads[geometry.ring_place(position) / UNIT]; }

  public:
    explicit LogFrames(const Geometry &geometry)
        : geometry(geometry), heads(3 * std::size_t{geometry.term_length} / UNIT),
          bytes(new std::uint8_t[3 * std::size_t{geometry.term_length}]()) {}

    // The bytes of the stream from a position on. They go on up to the end of its term.
    const std::uint8_t *at(std::uint64_t position) const { return &bytes[geometry.ring_place(position)]; }

    void write(std::uint64_t position, const Header &header, const std::uint8_t *payload, std::uint32_t size) {
        std::uint8_t *frame = &bytes[geometry.ring_place(position)];
        std::memcpy(frame, &header, sizeof header);
        if (size > 0) std::memcpy(frame + HEADER, payload, size);
        head(position).store(header.first, PUBLISHES);
    }

    std::uint64_t first(std::uint64_t position) { return head(position).load(); }

    void read(std::uint64_t position, std::uint32_t size, std::uint64_t *block) const {
        std::memcpy(block, at(position) + HEADER, size);
    }

    // Makes the frames from a position on zero that end at another in its term, or below. Where the last one ends.
    std::uint64_t clean(std::uint64_t from, std::uint64_t end) {
        while (from < end) {
            Word &here = head(from);
            std::uint32_t covered = Head(here.load()).covered();
            if (from + covered > end) break;
            std::memset(&bytes[geometry.ring_place(from)], 0, covered);
            here.store(0, PUBLISHES);
            from += covered;
        }
        return from;
    }
};
#else
constexpr bool HAS_PLAIN_FRAMES = false;

class LogFrames {
    Geometry geometry;
    Words words;

    Word *word(std::uint64_t position) { return &words[geometry.ring_place(position) / 8]; }

  public:
    explicit LogFrames(const Geometry &geometry)
        : geometry(geometry), words(3 * std::size_t{geometry.term_length} / 8) {}

    // The bytes of the stream from a position on. They go on up to the end of its term.
    const std::uint8_t *at(std::uint64_t position) { return reinterpret_cast<const std::uint8_t *>(word(position)); }

    // The words behind the first, and then the first one.
    void write(std::uint64_t position, const Header &header, const std::uint8_t *payload, std::uint32_t size) {
        Word *frame = word(position);
        frame[1].store(header.second, FILLS);
        frame[2].store(header.third, FILLS);
        frame[3].store(0, FILLS);
        Word *into = frame + 4;
        for (; size >= 8; size -= 8, payload += 8) {
            std::uint64_t word;
            std::memcpy(&word, payload, 8);
            (into++)->store(word, FILLS);
        }
        if (size > 0) {
            std::uint64_t word = 0;
            std::memcpy(&word, payload, size);
            into->store(word, FILLS);
        }
        frame[0].store(header.first, PUBLISHES);
    }

    std::uint64_t first(std::uint64_t position) { return word(position)->load(); }

    void read(std::uint64_t position, std::uint32_t size, std::uint64_t *block) {
        Word *from = word(position) + HEADER / 8;
        for (std::uint32_t done = 0; done < size; done += 8) *block++ = (from++)->load();
    }

    // Stores zeros from a position on up to another in its term.
    std::uint64_t clean(std::uint64_t from, std::uint64_t end) {
        Word *next = word(from);
        for (std::uint64_t at = from; at < end; at += 8) (next++)->store(0, FILLS);
        return end;
    }
};
#endif
