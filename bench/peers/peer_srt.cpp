// SRT in its file mode with messages, which drops none: each publisher has a connection of its own, with buffers of the
// sizes that SRT chooses.
#include "measure.hpp"
#include <arpa/inet.h>
#include <netinet/in.h>
#include <srt/srt.h>

namespace {

int check(int answer) {
    if (answer == SRT_ERROR) fail(srt_getlasterror_str());
    return answer;
}

template <typename Value> void set(SRTSOCKET socket, SRT_SOCKOPT option, Value value) {
    check(srt_setsockflag(socket, option, &value, sizeof value));
}

SRTSOCKET open() {
    SRTSOCKET socket = check(srt_create_socket());
    set(socket, SRTO_TRANSTYPE, SRTT_FILE);
    set(socket, SRTO_MESSAGEAPI, true);
    return socket;
}

struct Run {
    const Options &options;
    sockaddr_in address{};
    std::atomic<bool> is_done = false;

    SRTSOCKET listen_here() {
        SRTSOCKET listener = open();
        address.sin_family = AF_INET;
        address.sin_addr.s_addr = htonl(INADDR_LOOPBACK);
        auto *own = reinterpret_cast<sockaddr *>(&address);
        int size = sizeof address;
        check(srt_bind(listener, own, size));
        check(srt_getsockname(listener, own, &size));
        check(srt_listen(listener, static_cast<int>(options.publishers)));
        return listener;
    }

    void publish_all(std::uint32_t number, Start &start) {
        SRTSOCKET socket = open();
        check(srt_connect(socket, reinterpret_cast<const sockaddr *>(&address), sizeof address));
        publish(options, number, start.meet(), [&](const std::uint8_t *message) {
            check(srt_sendmsg(socket, reinterpret_cast<const char *>(message), static_cast<int>(options.length), -1, 1));
        });
        while (!is_done) std::this_thread::sleep_for(std::chrono::milliseconds(1));
        srt_close(socket);
    }

    std::uint64_t subscribe(SRTSOCKET listener, Tally &tally, Start &start) {
        int poll = check(srt_epoll_create()), readable = SRT_EPOLL_IN;
        for (std::uint32_t number = 0; number < options.publishers; number++) {
            SRTSOCKET socket = check(srt_accept(listener, nullptr, nullptr));
            set(socket, SRTO_RCVSYN, false);
            check(srt_epoll_add_usock(poll, socket, &readable));
        }
        std::vector<SRT_EPOLL_EVENT> ready(options.publishers);
        std::vector<char> message(options.length);
        std::uint64_t began = start.meet();
        while (!tally.is_complete()) {
            int count = check(srt_epoll_uwait(poll, ready.data(), static_cast<int>(ready.size()), -1));
            for (int i = 0; i < count; i++) {
                int length = srt_recvmsg(ready[i].fd, message.data(), static_cast<int>(message.size()));
                for (; length > 0; length = srt_recvmsg(ready[i].fd, message.data(), static_cast<int>(message.size())))
                    tally.take(message.data(), length);
                if (length == 0 || srt_getlasterror(nullptr) != SRT_EASYNCRCV) fail("a connection broke");
            }
        }
        is_done = true;
        srt_epoll_release(poll);
        return began;
    }
};

} // namespace

int main(int count, char **words) {
    Options options = Options::read(count, words, {"--publishers", "--length", "--term", "--messages", "--rate"});
    check(srt_startup());
    Run run{options};
    SRTSOCKET listener = run.listen_here();
    play(
        options, "srt", [&](std::uint32_t number, Start &start) { run.publish_all(number, start); },
        [&](Tally &tally, Start &start) { return run.subscribe(listener, tally, start); });
    srt_close(listener);
    srt_cleanup();
}
