// How far publishers may be ahead of the subscriber.
#pragma once
#include "geometry.hpp"
#include "measure.hpp"

// As many messages as half a term of the log holds.
inline std::uint32_t messages_ahead(const Options &options) {
    return std::max(1u, options.term / 2 / align32(options.length + HEADER));
}
