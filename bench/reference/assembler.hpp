// Joins the frames of one stream to messages.
#pragma once
#include "frames.hpp"
#include <optional>
#include <vector>

class Assembler {
    std::size_t greatest;
    bool has_begun = false;
    std::vector<std::uint8_t> begun;

  public:
    explicit Assembler(std::size_t greatest) : greatest(greatest) { begun.reserve(greatest); }

    // The message that a DATA frame completes. It lies in the frame itself, or here until the next call.
    std::optional<Bytes> on_frame(std::uint8_t flags, Bytes payload) {
        if (flags & BEGIN) {
            begun.clear();
            has_begun = flags != UNFRAGMENTED;
            if (!has_begun) return payload;
        }
        if (!has_begun) return std::nullopt;
        if (payload.size() > greatest - begun.size()) {
            has_begun = false;
            return std::nullopt;
        }
        begun.insert(begun.end(), payload.begin(), payload.end());
        if (!(flags & END)) return std::nullopt;
        has_begun = false;
        return begun;
    }
};
