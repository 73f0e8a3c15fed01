// Publishers in threads of their own, and one thread that reads all their messages and keeps the log.
#include "log.hpp"
#include "measure.hpp"

int main(int count, char **words) {
    Options options = Options::read(
        count, words, {"--publishers", "--length", "--term", "--mtu", "--messages", "--rate"});
    Geometry geometry{options.term, options.mtu, 7};
    if (!geometry.is_legal()) refuse("not of a log", "--term or --mtu");
    if (options.length > geometry.max_message()) refuse("too long", "--length");
    if (options.publishers > 8) refuse("too many", "--publishers");

    Log log(geometry, 1, 1001, 0);
    Keeper keeper(log, 1, 0);
    keeper.set_connected();
    keeper.clean_and_limit();

    auto publisher = [&](std::uint32_t number, Start &start) {
        publish(options, number, start.meet(), [&](const std::uint8_t *message) {
            while (log.offer(message, options.length) < 0) std::this_thread::yield();
        });
    };

    auto subscriber = [&](Tally &tally, Start &start) {
        Reader reader(log, 0, 0);
        std::vector<std::uint64_t> block(geometry.mtu / 8);
        Stamp stamp{};
        std::size_t length = 0;
        std::uint64_t kept = 0, step = geometry.term_length / 64;
        std::uint64_t began = start.meet();
        while (!tally.is_complete()) {
            auto head = reader.next(block.data());
            if (!head) {
                std::this_thread::yield();
                continue;
            }
            if (head->is_data) {
                if (head->flags & BEGIN) {
                    std::memcpy(&stamp, block.data(), sizeof stamp);
                    length = 0;
                }
                length += head->length - HEADER;
                if (head->flags & END) tally.take(stamp, length);
            }
            reader.advance();
            if (reader.position - kept >= step) {
                keeper.clean_and_limit();
                kept = reader.position;
            }
        }
        return began;
    };

    play(options, HAS_WEAK_STORES ? (HAS_PLAIN_FRAMES ? "cpp-log-weak-plain" : "cpp-log-weak") : "cpp-log", publisher, subscriber);
}
