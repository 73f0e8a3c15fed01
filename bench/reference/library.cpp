// What log_latency does, over the proved log as a C library: publishers in threads of their own, and one thread that reads all
// their messages and keeps the log.
#include "../../bindings/cpp/pechvang.hpp"
#include "measure.hpp"

int main(int count, char **words) {
    Options options = Options::read(
        count, words, {"--publishers", "--length", "--term", "--mtu", "--messages", "--rate"});
    if (options.publishers > 8) refuse("too many", "--publishers");

    pechvang::Log log({.term_length = options.term, .mtu = options.mtu, .initial_term_id = 7, .session = 1, .stream = 1001, .consumers = 1, .start = 0});
    pechvang::Reader reader = log.reader();
    pechvang::Keeper keeper = log.keeper();
    keeper.connect(true);
    keeper.clean_and_limit();
    std::vector<pechvang::Publisher> publishers;
    for (std::uint32_t number = 0; number < options.publishers; number++) publishers.push_back(log.publisher());

    auto publisher = [&](std::uint32_t number, Start &start) {
        pechvang::Publisher own = std::move(publishers[number]);
        publish(options, number, start.meet(), [&](const std::uint8_t *message) {
            while (!own.offer({message, options.length})) std::this_thread::yield();
        });
    };

    auto subscriber = [&](Tally &tally, Start &start) {
        std::vector<std::uint8_t> room(options.mtu);
        Stamp stamp{};
        std::size_t length = 0;
        std::uint64_t kept = 0, step = options.term / 64;
        std::uint64_t began = start.meet();
        while (!tally.is_complete()) {
            auto frame = reader.next(room);
            if (!frame) {
                std::this_thread::yield();
                continue;
            }
            if (frame->is_data) {
                if (frame->flags & 128) {
                    std::memcpy(&stamp, room.data(), sizeof stamp);
                    length = 0;
                }
                length += frame->length;
                if (frame->flags & 64) tally.take(stamp, length);
            }
            reader.advance();
            if (frame->position - kept >= step) {
                keeper.clean_and_limit();
                kept = frame->position;
            }
        }
        return began;
    };

    play(options, "pechvang-library", publisher, subscriber);
}
