// The whole driver over UDP at 127.0.0.1: publishers, a sender, a conductor, a receiver and a subscriber, each in a thread
// of its own. The receiver starts the subscriber's once it has an image, which both then share without a lock.
#include "counters.hpp"
#include "idle.hpp"
#include "log.hpp"
#include "measure.hpp"
#include "receiver_core.hpp"
#include "sender_core.hpp"
#include "subscriber.hpp"

constexpr std::int32_t SESSION = 1, STREAM = 1001, INITIAL_ID = 7;
constexpr int DATAGRAMS = 16; // that a cycle receives
constexpr std::size_t GREATEST_DATAGRAM = 65'536;
constexpr std::size_t CACHE_LINE = 64;

// What the threads share.
struct Stage {
    Options options;
    Start start;
    Log log;
    alignas(CACHE_LINE) Udp sends;
    alignas(CACHE_LINE) Udp replies;
    alignas(CACHE_LINE) std::atomic<bool> is_heard = false;
    std::atomic<bool> is_stopped = false;
    alignas(CACHE_LINE) Counters counters; // of the receiver

    Stage(const Options &options, const Geometry &geometry)
        : options(options), start(options.publishers + 3), log(geometry, SESSION, STREAM, 0), sends(options.loss, options.seed),
          replies(options.loss, options.seed + 1) {
        Udp::join(sends, replies);
    }

    void publish_all(std::uint32_t number) {
        publish(options, number, start.meet(), [&](const std::uint8_t *message) {
            for (Idle idle;;) {
                std::int64_t answer = log.offer(message, options.length);
                if (answer >= 0) return;
                if (answer == BACK_PRESSURED || answer == NOT_CONNECTED) idle.after(false);
                else if (answer != ADMIN_ACTION) fail("the log is closed or used up");
            }
        });
    }

    // Takes a party's turns until all is to stop. A turn answers whether something was done. The answer is when all began.
    template <typename Turn> std::uint64_t go_on(Turn turn) {
        std::uint64_t began = start.meet();
        for (Idle idle; !is_stopped;) idle.after(turn());
        return began;
    }

    // Hands over what has come, as much as a cycle takes. Whether anything has.
    template <typename Take> static bool receive(Udp &socket, std::span<std::uint8_t> room, Take take) {
        for (int count = 0; count < DATAGRAMS; count++) {
            auto datagram = socket.receive(room);
            if (!datagram) return count > 0;
            take(*datagram);
        }
        return true;
    }

    void send_all() {
        SenderCore sender(log, 0, 0);
        std::vector<std::uint8_t> room(GREATEST_DATAGRAM);
        go_on([&] {
            std::uint64_t moment = now();
            bool heard = receive(sends, room, [&](Bytes datagram) { sender.on_datagram(datagram, moment, sends); });
            bool sent = sender.tick(moment, sends);
            if (sender.has_heard()) is_heard = true;
            return heard || sent;
        });
    }

    void keep_all() {
        Keeper keeper(log, 1, 0);
        bool is_connected = false;
        go_on([&] {
            bool connects = !is_connected && is_heard;
            if (connects) keeper.set_connected();
            is_connected |= connects;
            return keeper.clean_and_limit() || connects;
        });
    }

    // Polls until the tally is complete, and then stops all.
    void subscribe(Image &image, Tally &tally) {
        Subscriber subscriber(image, 0);
        auto take = [&](Bytes message) { tally.take(message.data(), message.size()); };
        for (Idle idle; !tally.is_complete();) idle.after(subscriber.poll(take));
        is_stopped = true;
    }

    std::uint64_t receive_all(Tally &tally) {
        ReceiverCore receiver(SESSION, STREAM, log.geometry.term_length / 2, 1);
        std::vector<std::uint8_t> room(GREATEST_DATAGRAM);
        std::thread subscriber;
        std::uint64_t began = go_on([&] {
            std::uint64_t moment = now();
            bool heard = receive(replies, room, [&](Bytes datagram) { receiver.on_datagram(datagram); });
            bool sent = receiver.tick(moment, replies);
            if (Image *image = receiver.opened()) {
                if (!subscriber.joinable()) subscriber = std::thread([&, image] { subscribe(*image, tally); });
                counters.publish(receiver.positions());
            }
            return heard || sent;
        });
        subscriber.join();
        return began;
    }
};

int main(int count, char **words) {
    Options options = Options::read(
        count, words, {"--publishers", "--length", "--term", "--mtu", "--messages", "--rate", "--loss", "--seed"});
    Geometry geometry{options.term, options.mtu, INITIAL_ID};
    if (!geometry.is_legal()) refuse("not of a log", "--term or --mtu");
    if (options.length > geometry.max_message()) refuse("too long", "--length");
    if (options.publishers > 8) refuse("too many", "--publishers");
    if (options.loss >= 1000) refuse("loses all", "--loss");

    Stage stage(options, geometry);
    Tally tally(options);
    std::vector<std::thread> threads;
    for (std::uint32_t number = 0; number < options.publishers; number++)
        threads.emplace_back([&, number] { stage.publish_all(number); });
    threads.emplace_back([&] { stage.send_all(); });
    threads.emplace_back([&] { stage.keep_all(); });
    std::uint64_t began = stage.receive_all(tally);
    for (auto &thread : threads) thread.join();
    if (!stage.counters.read().is_whole()) fail("counters broken");
    tally.print("cpp-driver", began);
}
