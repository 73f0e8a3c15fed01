// Terms, positions and lengths of a stream.
#pragma once
#include <algorithm>
#include <bit>
#include <cstdint>

static_assert(std::endian::native == std::endian::little, "frames lie in memory as they stand on the wire");

constexpr std::uint32_t HEADER = 32, UNIT = 32;
constexpr std::uint32_t LEAST_TERM = 65'536, GREATEST_TERM = 16'777'216;
constexpr std::uint32_t LEAST_MTU = 256, GREATEST_MTU = 65'504;
constexpr std::uint32_t LAST_COUNT = 0x7fffffff;
constexpr std::uint8_t BEGIN = 0x80, END = 0x40, UNFRAGMENTED = 0xc0;

constexpr std::uint32_t align32(std::uint32_t length) { return (length + 31) & ~31u; }

struct Place {
    std::int32_t term_id;
    std::uint32_t offset;
};

struct Gap {
    std::uint64_t start;
    std::uint32_t length;
};

// Of a stream at its receiver: the least consumer's, the end of what has no gap, and the end of what is known.
struct Positions {
    std::uint64_t least, rebuilt, high_water;

    bool is_whole() const { return least <= rebuilt && rebuilt == high_water; }
};

struct Geometry {
    std::uint32_t term_length, mtu;
    std::int32_t initial_id;

    bool is_legal() const {
        return std::has_single_bit(term_length) && term_length >= LEAST_TERM && term_length <= GREATEST_TERM &&
               mtu % UNIT == 0 && mtu >= LEAST_MTU && mtu <= GREATEST_MTU && mtu <= term_length / 8;
    }

    std::uint32_t max_payload() const { return mtu - HEADER; }
    std::uint32_t max_message() const { return term_length / 8; }
    std::uint64_t max_position() const { return std::uint64_t{term_length} << 31; }

    std::uint32_t framed_length(std::uint32_t size) const {
        if (size <= max_payload()) return align32(size + HEADER);
        std::uint32_t rest = size % max_payload();
        return size / max_payload() * mtu + (rest == 0 ? 0 : align32(rest + HEADER));
    }

    std::uint32_t count_of(std::uint64_t position) const {
        return static_cast<std::uint32_t>(position >> std::countr_zero(term_length));
    }
    std::uint32_t offset_of(std::uint64_t position) const {
        return static_cast<std::uint32_t>(position & (term_length - 1));
    }
    std::uint64_t term_end(std::uint64_t position) const { return position - offset_of(position) + term_length; }

    // Where a position lies in the bytes of three terms.
    std::size_t ring_place(std::uint64_t position) const {
        return std::size_t{count_of(position) % 3} * term_length + offset_of(position);
    }

    std::int32_t id_of(std::uint32_t count) const {
        return static_cast<std::int32_t>(static_cast<std::uint32_t>(initial_id) + count);
    }

    // The greatest position is the end of the last term, and has no term behind it.
    Place place_of(std::uint64_t position) const {
        if (position == max_position()) return {id_of(LAST_COUNT), term_length};
        return {id_of(count_of(position)), offset_of(position)};
    }

    // Negative for a term before the first.
    std::int64_t position(std::int32_t term_id, std::int32_t offset) const {
        auto count = static_cast<std::int32_t>(static_cast<std::uint32_t>(term_id) - static_cast<std::uint32_t>(initial_id));
        return std::int64_t{count} * term_length + offset;
    }

    // A window is a multiple of 32 from the MTU to half a term.
    bool is_window(std::uint32_t window) const {
        return window % UNIT == 0 && window >= mtu && window <= term_length / 2;
    }
};
