// The sender of a log: its committed frames, what the receiver tells, and moments in, datagrams out. The frames go out from
// where they lie in the log.
#pragma once
#include "frames.hpp"
#include "log.hpp"
#include "retransmit.hpp"
#include "udp.hpp"

class SenderCore {
    static constexpr std::uint64_t INTERVAL = 100'000'000; // of SETUPs and of heartbeats
    static constexpr int NEW_DATAGRAMS = 16, RESENT_DATAGRAMS = 15;

    Log &log;
    Word &told;
    std::uint64_t position, flow_limit;
    Retransmit resends;
    std::optional<std::uint64_t> last_setup, last_frames;
    bool heard = false;

    // Frames that follow each other and fit one datagram.
    struct Run {
        std::uint64_t end;
        std::uint32_t size;
    };

    // The frames from a position on that fit a datagram and may go; each is shown as it is taken.
    template <typename May, typename Take> Run gather(std::uint64_t from, May may, Take take) {
        Run run{from, 0};
        std::uint64_t term_end = log.geometry.term_end(from);
        while (run.end < term_end) {
            std::uint64_t word = log.frames.first(run.end);
            if (word == 0) break;
            Head head(word);
            if (run.size + head.on_wire() > log.geometry.mtu || !may(run.end, head)) break;
            take(run.end, run.end + head.covered());
            run.end += head.covered();
            run.size += head.on_wire();
            if (!head.is_data) break;
        }
        return run;
    }

    void send_run(std::uint64_t from, std::uint32_t size, Udp &out) {
        out.send({log.frames.at(from), size});
    }

    void send_setup(Udp &out) {
        const Geometry &geometry = log.geometry;
        Place place = geometry.place_of(position);
        Setup setup{{sizeof(Setup), 0, 0, Kind::Setup}, static_cast<std::int32_t>(place.offset), log.session, log.stream,
                    geometry.initial_id, place.term_id, static_cast<std::int32_t>(geometry.term_length),
                    static_cast<std::int32_t>(geometry.mtu), 0};
        out.send(bytes_of(setup));
    }

    void send_heartbeat(Udp &out) {
        Place place = log.geometry.place_of(position);
        DataHeader beat{{0, 0, UNFRAGMENTED, Kind::Data}, place.offset, log.session, log.stream, place.term_id, 0};
        out.send(bytes_of(beat));
    }

    // Whether something was sent.
    bool send_new(Udp &out) {
        std::uint64_t begin = position;
        for (int sent = 0; sent < NEW_DATAGRAMS; sent++) {
            Run run = gather(
                position, [&](std::uint64_t start, const Head &head) { return start + head.on_wire() <= flow_limit; },
                [&](std::uint64_t start, std::uint64_t end) { resends.note(start, end); });
            if (run.size == 0) break;
            send_run(position, run.size, out);
            position = run.end;
            told.store(position, PUBLISHES);
        }
        return position != begin;
    }

    bool resend(std::uint64_t now, Udp &out) {
        auto range = resends.due(now);
        if (!range) return false;
        std::uint64_t at = range->start, end = range->start + range->length;
        for (int sent = 0; sent < RESENT_DATAGRAMS && at < end; sent++) {
            Run run = gather(
                at, [&](std::uint64_t start, const Head &) { return start < end; }, [](std::uint64_t, std::uint64_t) {});
            send_run(at, run.size, out);
            at = run.end;
        }
        return true;
    }

    static bool has_passed(const std::optional<std::uint64_t> &last, std::uint64_t now) {
        return !last || now >= *last + INTERVAL;
    }

    void on_status(const Status &status, Udp &out) {
        if (status.front.flags & ASKS_SETUP) {
            send_setup(out);
            return;
        }
        std::int64_t limit = log.geometry.position(status.term_id, status.term_offset) + status.window;
        if (limit > 0) flow_limit = std::max(flow_limit, static_cast<std::uint64_t>(limit));
        heard = true;
    }

    bool is_own(std::int32_t session, std::int32_t stream) const { return session == log.session && stream == log.stream; }

  public:
    SenderCore(Log &log, std::size_t consumer, std::uint64_t start)
        : log(log), told(log.words[CONSUMERS + consumer * LINE]), position(start), flow_limit(start),
          resends(log.geometry, start) {}

    // Whether a status message has come that doesn't ask for a SETUP.
    bool has_heard() const { return heard; }

    void on_datagram(Bytes bytes, std::uint64_t now, Udp &out) {
        if (!is_datagram(bytes)) return;
        Kind kind = fields_at<Front>(bytes.data()).kind;
        if (kind == Kind::Status) {
            auto status = fields_at<Status>(bytes.data());
            if (is_own(status.session, status.stream)) on_status(status, out);
        } else if (kind == Kind::Nak) {
            auto nak = fields_at<Nak>(bytes.data());
            if (is_own(nak.session, nak.stream))
                resends.on_nak(now, log.geometry.position(nak.term_id, nak.term_offset), nak.length);
        }
    }

    // Whether something was sent.
    bool tick(std::uint64_t now, Udp &out) {
        bool names = has_passed(last_setup, now) && (!heard || !last_setup);
        if (names) {
            send_setup(out);
            last_setup = now;
        }
        bool sends = send_new(out);
        sends |= resend(now, out);
        if (!names && !sends && heard && has_passed(last_frames, now)) {
            send_heartbeat(out);
            sends = true;
        }
        if (sends) last_frames = now;
        return names || sends;
    }
};
