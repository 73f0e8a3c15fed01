// The frames of the wire: their fields as they lie there, and whether bytes are a datagram.
#pragma once
#include "geometry.hpp"
#include <cstring>
#include <span>

using Bytes = std::span<const std::uint8_t>;

enum class Kind : std::uint16_t { Pad = 0, Data = 1, Nak = 2, Status = 3, Setup = 5 };

constexpr std::uint8_t ASKS_SETUP = 0x80;
constexpr std::uint32_t GREATEST_DATA = 65'504;

#pragma pack(push, 4)

struct Front {
    std::int32_t length;
    std::uint8_t version, flags;
    Kind kind;
};

// Of DATA and PAD, and of a heartbeat, which is DATA of length 0.
struct DataHeader {
    Front front;
    std::uint32_t term_offset;
    std::int32_t session, stream, term_id;
    std::int64_t reserved;

    bool is_heartbeat() const { return front.length == 0; }
};

struct Nak {
    Front front;
    std::int32_t session, stream, term_id, term_offset, length;
};

struct Status {
    Front front;
    std::int32_t session, stream, term_id, term_offset, window;
    std::int64_t receiver;
};

struct Setup {
    Front front;
    std::int32_t term_offset, session, stream, initial_id, active_id, term_length, mtu, ttl;
};

#pragma pack(pop)

static_assert(sizeof(Front) == 8 && sizeof(DataHeader) == HEADER);
static_assert(sizeof(Nak) == 28 && sizeof(Status) == 36 && sizeof(Setup) == 40);

template <typename Fields> Fields fields_at(const std::uint8_t *bytes) {
    Fields fields;
    std::memcpy(&fields, bytes, sizeof fields);
    return fields;
}

template <typename Fields> Bytes bytes_of(const Fields &fields) {
    return {reinterpret_cast<const std::uint8_t *>(&fields), sizeof fields};
}

// How many bytes a frame of the stream takes among others.
inline std::uint32_t size_on_wire(const Front &front) {
    return front.kind == Kind::Data && front.length != 0 ? align32(front.length) : HEADER;
}

// The size of a DATA frame, a padding or a heartbeat in front of some bytes; 0 where there is none.
inline std::size_t stream_frame_size(Bytes bytes) {
    if (bytes.size() < HEADER) return 0;
    auto header = fields_at<DataHeader>(bytes.data());
    auto length = static_cast<std::uint32_t>(header.front.length);
    if (header.term_offset % UNIT != 0) return 0;
    std::uint8_t flags = header.front.flags;
    if (header.front.kind == Kind::Pad || length == 0) {
        bool is_long_enough = header.front.kind == Kind::Data || length >= HEADER;
        bool ends_in_term = length <= GREATEST_TERM && header.term_offset <= GREATEST_TERM - align32(length);
        return flags == UNFRAGMENTED && is_long_enough && ends_in_term ? HEADER : 0;
    }
    if ((flags & ~UNFRAGMENTED) != 0 || length < HEADER || length > GREATEST_DATA) return 0;
    std::uint32_t covered = align32(length);
    if (bytes.size() < covered || header.term_offset > GREATEST_TERM - covered) return 0;
    for (std::uint32_t at = length; at < covered; at++)
        if (bytes[at] != 0) return 0;
    return covered;
}

// The size of the frame in front of some bytes; 0 where there is none.
inline std::size_t frame_size(Bytes bytes) {
    if (bytes.size() < sizeof(Front)) return 0;
    auto front = fields_at<Front>(bytes.data());
    if (front.version != 0) return 0;
    auto fixed = [&](std::size_t size, std::uint8_t flags) {
        bool fits = bytes.size() >= size && static_cast<std::size_t>(front.length) == size;
        return fits && (front.flags & ~flags) == 0 ? size : 0;
    };
    switch (front.kind) {
    case Kind::Pad:
    case Kind::Data: return stream_frame_size(bytes);
    case Kind::Nak: return fixed(sizeof(Nak), 0);
    case Kind::Status: return fixed(sizeof(Status), ASKS_SETUP);
    case Kind::Setup: return fixed(sizeof(Setup), 0);
    }
    return 0;
}

// One or more DATA frames and at most one padding behind them, or one frame of any kind alone.
inline bool is_datagram(Bytes bytes) {
    for (bool is_first = true;; is_first = false) {
        std::size_t size = frame_size(bytes);
        if (size == 0) return false;
        auto front = fields_at<Front>(bytes.data());
        bytes = bytes.subspan(size);
        bool is_data = front.kind == Kind::Data && front.length != 0;
        bool may_follow = is_data || front.kind == Kind::Pad;
        if ((!is_first && !may_follow) || (!bytes.empty() && !is_data)) return false;
        if (bytes.empty()) return true;
    }
}
