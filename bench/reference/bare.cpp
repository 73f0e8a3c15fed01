// What the machine takes for a message without any driver: the stores of its words, and the datagrams that carry it.
#include "log.hpp"
#include "measure.hpp"
#include "udp.hpp"
#include <vector>

// The sizes of the datagrams that carry a message, or that as many messages as fit one datagram share.
struct Load {
    std::vector<std::size_t> datagrams;
    std::uint64_t messages;

    Load(const Geometry &geometry, std::uint32_t length) {
        std::uint32_t framed = geometry.framed_length(length);
        messages = std::max(1u, geometry.mtu / framed);
        if (framed <= geometry.mtu) framed *= messages;
        for (; framed > geometry.mtu; framed -= geometry.mtu) datagrams.push_back(geometry.mtu);
        datagrams.push_back(framed);
    }
};

// One thread stores each word that is written of a message, and zeros in each that one covers, a term behind.
void measure_stores(const Options &options, const Geometry &geometry) {
    std::uint32_t covered = geometry.framed_length(options.length) / 8;
    std::uint32_t frames = (options.length + geometry.max_payload() - 1) / geometry.max_payload();
    std::uint32_t written = HEADER / 8 * frames + (options.length + 7) / 8;
    std::size_t term = geometry.term_length / 8, size = 3 * term;
    Words words(size);
    auto next = [&](std::size_t &place) {
        if (place + covered > size) place = 0;
        Word *run = &words[place];
        place += covered;
        return run;
    };
    std::size_t writes = 0, cleans = 2 * term;
    std::uint64_t began = now();
    for (std::uint64_t sent = 0; sent < options.messages; sent++) {
        Word *fresh = next(writes), *old = next(cleans);
        for (std::uint32_t i = 0; i < written; i++) fresh[i].store(sent);
        for (std::uint32_t i = 0; i < covered; i++) old[i].store(0);
    }
    print_row(options, "bare-stores", options.messages, now() - began, ",,,,");
}

// One thread sends, and another takes what comes. The sender is never so far ahead that the system would drop something.
void measure_sendto(const Options &options, const Geometry &geometry) {
    Load load(geometry, options.length);
    std::uint64_t rounds = (options.messages + load.messages - 1) / load.messages;
    std::uint64_t datagrams = rounds * load.datagrams.size(), ahead = std::clamp(65'536 / geometry.mtu, 1u, 32u);
    Udp from(0, 1), to(0, 2);
    Udp::join(from, to);
    Start start(2);
    std::atomic<std::uint64_t> arrived = 0;
    std::thread sender([&] {
        std::vector<std::uint8_t> bytes(geometry.mtu);
        start.meet();
        for (std::uint64_t sent = 0; sent < datagrams; sent++) {
            while (sent - arrived >= ahead) std::this_thread::yield();
            from.send(Bytes(bytes).first(load.datagrams[sent % load.datagrams.size()]));
        }
    });
    std::vector<std::uint8_t> room(geometry.mtu);
    std::uint64_t began = start.meet();
    while (arrived < datagrams)
        if (to.receive(room)) arrived++;
        else std::this_thread::yield();
    std::uint64_t taken = now() - began;
    sender.join();
    print_row(options, "bare-sendto", rounds * load.messages, taken, ",,,,");
}

int main(int count, char **words) {
    Options options = Options::read(count, words, {"--length", "--term", "--mtu", "--messages"});
    Geometry geometry{options.term, options.mtu, 7};
    if (!geometry.is_legal()) refuse("not of a log", "--term or --mtu");
    if (options.length > geometry.max_message()) refuse("too long", "--length");
    measure_stores(options, geometry);
    measure_sendto(options, geometry);
}
