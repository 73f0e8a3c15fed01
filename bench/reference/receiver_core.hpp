// The receiver of one stream: datagrams and moments in, replies out, and an image for the one subscriber.
#pragma once
#include "frames.hpp"
#include "loss_detector.hpp"
#include "image.hpp"
#include "udp.hpp"

class ReceiverCore {
    static constexpr std::uint64_t STATUS_INTERVAL = 200'000'000;

    struct Told {
        std::uint64_t position, moment;
    };

    std::int32_t session, stream;
    std::uint32_t window;
    std::int64_t id;
    std::optional<Image> image;
    std::optional<Image::Inserter> inserter; // of the image
    std::optional<DataHeader> unmet; // the last frame that met no image
    std::optional<Told> told;
    LossDetector detector;

    bool is_own(std::int32_t a_session, std::int32_t a_stream) const { return a_session == session && a_stream == stream; }

    // Of a datagram of DATA frames, a padding or a heartbeat.
    void on_frames(Bytes bytes) {
        while (!bytes.empty()) {
            auto header = fields_at<DataHeader>(bytes.data());
            if (is_own(header.session, header.stream)) on_frame(header, bytes.data());
            bytes = bytes.subspan(size_on_wire(header.front));
        }
    }

    void on_frame(const DataHeader &header, const std::uint8_t *frame) {
        if (!image) {
            unmet = header;
            return;
        }
        std::int64_t position = image->shape().position(header.term_id, header.term_offset);
        if (header.is_heartbeat()) inserter->heartbeat(position);
        else inserter->insert(position, frame);
    }

    void on_setup(const Setup &setup) {
        if (image || !is_own(setup.session, setup.stream)) return;
        Geometry geometry{static_cast<std::uint32_t>(setup.term_length), static_cast<std::uint32_t>(setup.mtu),
                          setup.initial_id};
        if (!geometry.is_legal() || !geometry.is_window(window)) return;
        std::int64_t join = geometry.position(setup.active_id, setup.term_offset);
        bool is_inside = setup.term_offset >= 0 && static_cast<std::uint32_t>(setup.term_offset) < geometry.term_length;
        bool is_last = join == static_cast<std::int64_t>(geometry.max_position());
        if (join < 0 || join % UNIT != 0 || !(is_inside || is_last)) return;
        image.emplace(geometry, join, 1);
        inserter.emplace(*image, window);
        unmet.reset();
    }

    void send_status(std::uint8_t flags, Place place, std::uint32_t a_window, Udp &out) const {
        Status status{{sizeof(Status), 0, flags, Kind::Status}, session, stream, place.term_id,
                      static_cast<std::int32_t>(place.offset), static_cast<std::int32_t>(a_window), id};
        out.send(bytes_of(status));
    }

    bool ask(Udp &out) {
        if (!unmet) return false;
        send_status(ASKS_SETUP, {unmet->term_id, unmet->term_offset}, 0, out);
        unmet.reset();
        return true;
    }

    bool send_nak(std::uint64_t now, Udp &out) {
        auto gap = detector.scan(now, inserter->first_gap());
        if (!gap) return false;
        Place place = image->shape().place_of(gap->start);
        Nak nak{{sizeof(Nak), 0, 0, Kind::Nak}, session, stream, place.term_id, static_cast<std::int32_t>(place.offset),
                static_cast<std::int32_t>(gap->length)};
        out.send(bytes_of(nak));
        return true;
    }

    bool tell(std::uint64_t now, Udp &out) {
        std::uint64_t position = inserter->prune();
        if (told && now < told->moment + STATUS_INTERVAL && position - told->position < window / 4) return false;
        send_status(0, image->shape().place_of(position), window, out);
        told = {position, now};
        return true;
    }

  public:
    ReceiverCore(std::int32_t session, std::int32_t stream, std::uint32_t window, std::int64_t id)
        : session(session), stream(stream), window(window), id(id) {}

    // The image, for its subscriber; null before a SETUP has opened it.
    Image *opened() { return image ? &*image : nullptr; }

    // Of an image that is open.
    Positions positions() const { return inserter->positions(); }

    void on_datagram(Bytes bytes) {
        if (!is_datagram(bytes)) return;
        Kind kind = fields_at<Front>(bytes.data()).kind;
        if (kind == Kind::Setup) on_setup(fields_at<Setup>(bytes.data()));
        else if (kind == Kind::Data || kind == Kind::Pad) on_frames(bytes);
    }

    // Whether something was sent.
    bool tick(std::uint64_t now, Udp &out) {
        if (!image) return ask(out);
        bool sends = send_nak(now, out);
        return tell(now, out) || sends;
    }
};
