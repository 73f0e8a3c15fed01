// Which negative acknowledgements are taken, and which range is due to go out again.
#pragma once
#include "occupancy.hpp"
#include "geometry.hpp"
#include <optional>
#include <vector>

class Retransmit {
    static constexpr std::size_t ACTIONS = 16;
    static constexpr std::uint64_t LINGER = 60'000'000;

    struct Action {
        std::uint64_t position;
        std::uint32_t length;
        std::optional<std::uint64_t> until; // set once it is answered
    };

    Geometry geometry;
    std::uint64_t start, end;
    Occupancy starts; // of the frames of the last term's length of stream
    std::vector<Action> actions;

    std::size_t unit(std::uint64_t position) const { return geometry.offset_of(position) / UNIT; }

    std::uint64_t oldest() const {
        std::uint64_t reach = geometry.term_length / 4 * 3;
        return std::max(start, end < reach ? 0 : end - reach);
    }

    bool is_kept(std::uint64_t position) const {
        return std::any_of(actions.begin(), actions.end(), [&](auto &action) { return action.position == position; });
    }

    // From the first frame start that was asked for and can still be sent.
    std::optional<Gap> range_of(const Action &action) const {
        std::uint64_t term_end = geometry.term_end(action.position);
        std::uint64_t from = std::max(action.position, oldest());
        std::uint64_t to = std::min({action.position + action.length, end, term_end});
        if (from >= to) return std::nullopt;
        std::uint64_t first = from + UNIT * (starts.first_set(unit(from), unit(from) + (to - from) / UNIT) - unit(from));
        if (first >= to) return std::nullopt;
        return Gap{first, static_cast<std::uint32_t>(to - first)};
    }

  public:
    Retransmit(const Geometry &geometry, std::uint64_t start)
        : geometry(geometry), start(start), end(start), starts(geometry.term_length / UNIT) {
        actions.reserve(ACTIONS);
    }

    // A frame was sent, the next of the stream.
    void note(std::uint64_t from, std::uint64_t to) {
        starts.clear(unit(from), unit(from) + (to - from) / UNIT);
        starts.set(unit(from));
        end = to;
    }

    void on_nak(std::uint64_t now, std::int64_t position, std::int32_t length) {
        std::erase_if(actions, [&](auto &action) { return action.until && *action.until <= now; });
        if (length <= 0 || position < 0) return;
        std::uint64_t at = position;
        bool can_be_sent = at >= oldest() && at < end && at % UNIT == 0 && starts.holds(unit(at));
        if (!can_be_sent || is_kept(at) || actions.size() == ACTIONS) return;
        actions.push_back({at, static_cast<std::uint32_t>(length), std::nullopt});
    }

    // The range of the action that was taken first of those that aren't answered.
    std::optional<Gap> due(std::uint64_t now) {
        auto action = std::find_if(actions.begin(), actions.end(), [](auto &each) { return !each.until; });
        if (action == actions.end()) return std::nullopt;
        action->until = now + LINGER;
        return range_of(*action);
    }
};
