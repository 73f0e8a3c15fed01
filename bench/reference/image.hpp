// An image, which one inserter and its consumers share without a lock. Its frames lie in plain memory, each as on the wire. The
// words that are shared: a consumer's position on a line of its own, then a bit for each unit that a frame covers, and one for
// each at which a frame starts. Each store of held bits publishes the bytes behind it, since a reader that finds its bit may
// find others with it. What a frame's front was the inserter keeps for itself, by the unit at which the frame starts.
#pragma once
#include "frames.hpp"
#include "insert.hpp"
#include "occupancy.hpp"
#include "words.hpp"
#include <optional>

// It has cache lines of its own: what its inserter counts beside it lies on none that consumers read.
class alignas(8 * LINE) Image {
    static constexpr std::size_t BEHIND = 8 * LINE; // eight consumers

    Geometry geometry;
    std::uint64_t join;
    std::size_t consumers;
    std::size_t bits; // how many words of each of the two kinds
    Words words;
    std::unique_ptr<std::uint8_t[]> bytes;

    std::size_t unit(std::uint64_t position) const { return geometry.ring_place(position) / UNIT; }

    // By the number of a word of bits.
    Word &held(std::size_t number) { return words[BEHIND + number]; }
    Word &starts(std::size_t number) { return words[BEHIND + bits + number]; }

    // The bytes of the stream from a position on. They go on up to the end of its term.
    std::uint8_t *at(std::uint64_t position) { return &bytes[geometry.ring_place(position)]; }

    // Looks once where each consumer stands.
    std::uint64_t least_consumer() {
        std::uint64_t least = words[0];
        for (std::size_t number = 1; number < consumers; number++) least = std::min(least, words[LINE * number].load());
        return least;
    }

    static bool holds(const Word &word, std::size_t unit) { return word >> unit % 64 & 1; }

  public:
    Image(const Geometry &geometry, std::uint64_t join, std::size_t consumers)
        : geometry(geometry), join(join), consumers(consumers), bits(3 * std::size_t{geometry.term_length} / UNIT / 64),
          words(BEHIND + 2 * bits), bytes(new std::uint8_t[3 * std::size_t{geometry.term_length}]()) {
        for (std::size_t number = 0; number < consumers; number++) words[LINE * number] = join;
    }

    const Geometry &shape() const { return geometry; }

    // Who stores what the image holds.
    class Inserter {
        Image &image;
        std::uint32_t window;
        std::uint64_t floor, rebuilt, high_water;
        std::vector<Front> fronts; // by the unit at which a frame starts

        // Clears the bits of the units from the floor to a position in its term.
        void clear_to(std::uint64_t end) {
            std::size_t from = image.unit(floor);
            each_word(from, from + (end - floor) / UNIT, [&](std::size_t number, std::uint64_t ones) {
                Word &starts = image.starts(number), &held = image.held(number);
                starts.store(starts & ~ones, FILLS);
                held.store(held & ~ones, PUBLISHES);
            });
            floor = end;
        }

        bool starts_at(std::uint64_t position) const {
            std::size_t unit = image.unit(position);
            return holds(image.starts(unit / 64), unit);
        }

        Front front_at(std::uint64_t position) const { return fronts[image.unit(position)]; }

        // The first unit of a run that is held, or the run's end.
        std::size_t first_held(std::size_t from, std::size_t to) const {
            return first_set(from, to, [&](std::size_t number) { return image.held(number).load(); });
        }

        Insert judge(std::int64_t position, const Front &frame) const {
            std::uint32_t covered = align32(frame.length);
            if (image.geometry.offset_of(position) + covered > image.geometry.term_length) return Insert::CrossesTerm;
            if (position < static_cast<std::int64_t>(floor)) return Insert::Below;
            std::uint64_t start = position, needed = start + size_on_wire(frame);
            if (needed > std::min(floor + window, image.geometry.max_position())) return Insert::OverWindow;
            if (starts_at(start)) {
                Front stored = front_at(start);
                if (stored.kind == frame.kind && stored.length == frame.length) return Insert::Duplicate;
            }
            std::size_t first = image.unit(start), last = first + covered / UNIT;
            return first_held(first, last) < last ? Insert::Overlap : Insert::Stored;
        }

        // Sets a frame's start bit and then its held bits, those of the first word last.
        void mark(std::size_t first, std::size_t end) {
            auto hold = [&](std::size_t number, std::uint64_t ones) {
                Word &held = image.held(number);
                held.store(held | ones, PUBLISHES);
            };
            Word &starts = image.starts(first / 64);
            starts.store(starts | mask(first % 64, 1), FILLS);
            std::size_t next = std::min(end, (first / 64 + 1) * 64);
            each_word(next, end, hold);
            hold(first / 64, mask(first % 64, next - first));
        }

        void store(std::uint64_t position, const Front &front, const std::uint8_t *frame) {
            std::size_t size = front.kind == Kind::Data ? front.length : HEADER, first = image.unit(position);
            std::memcpy(image.at(position), frame, size);
            fronts[first] = front;
            mark(first, first + align32(front.length) / UNIT);
        }

      public:
        Inserter(Image &image, std::uint32_t window)
            : image(image), window(window), floor(image.join), rebuilt(image.join), high_water(image.join),
              fronts(3 * std::size_t{image.geometry.term_length} / UNIT) {}

        // As the consumers were seen last.
        Positions positions() const { return {floor, rebuilt, high_water}; }

        // Looks once where each consumer stands, and clears what all of them have passed. The answer is the least position.
        std::uint64_t prune() {
            std::uint64_t least = image.least_consumer();
            while (floor < least) clear_to(std::min(least, image.geometry.term_end(floor)));
            return least;
        }

        // Takes a DATA frame or a padding as it stands in a datagram. The consumers are looked at once.
        Insert insert(std::int64_t position, const std::uint8_t *frame) {
            auto front = fields_at<Front>(frame);
            prune();
            Insert answer = judge(position, front);
            if (answer != Insert::Stored) return answer;
            store(position, front, frame);
            high_water = std::max(high_water, position + std::uint64_t{align32(front.length)});
            while (rebuilt < high_water && starts_at(rebuilt)) rebuilt += align32(front_at(rebuilt).length);
            return answer;
        }

        // Takes a sender's position, up to three quarters of a term ahead of the consumers, which are looked at once.
        void heartbeat(std::int64_t position) {
            std::uint64_t greatest = std::min(prune() + image.geometry.term_length / 4 * 3, image.geometry.max_position());
            if (position >= 0 && static_cast<std::uint64_t>(position) <= greatest)
                high_water = std::max(high_water, static_cast<std::uint64_t>(position));
        }

        // From the rebuilt position to what is held next, the mark or the term's end.
        std::optional<Gap> first_gap() const {
            if (rebuilt == high_water) return std::nullopt;
            std::uint64_t bound = std::min(high_water, image.geometry.term_end(rebuilt));
            std::size_t from = image.unit(rebuilt), next = first_held(from, from + (bound - rebuilt) / UNIT);
            return Gap{rebuilt, static_cast<std::uint32_t>(next - from) * UNIT};
        }
    };

    // One of the consumers.
    class Reader {
        Image &image;
        Word &told;
        std::uint64_t position;

      public:
        Reader(Image &image, std::size_t number)
            : image(image), told(image.words[LINE * number]), position(image.join) {}

        // Copies the payload of the frame where the consumer stands; none where its bit is zero.
        std::optional<Front> read(std::uint8_t *block) {
            std::size_t unit = image.unit(position);
            if (!holds(image.held(unit / 64), unit)) return std::nullopt;
            const std::uint8_t *frame = image.at(position);
            auto front = fields_at<Front>(frame);
            if (front.kind == Kind::Data) std::memcpy(block, frame + HEADER, front.length - HEADER);
            return front;
        }

        // Moves the consumer past a frame that it has read.
        void advance(const Front &front) {
            position += align32(front.length);
            told.store(position, PUBLISHES);
        }
    };
};
