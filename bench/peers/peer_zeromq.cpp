// ZeroMQ: each publisher pushes by a socket of its own, and the subscriber pulls.
#include "room.hpp"
#include <string>
#include <zmq.h>

namespace {

struct Socket {
    void *handle;

    Socket(void *context, int kind, int ahead) : handle(zmq_socket(context, kind)) {
        int option = kind == ZMQ_PUSH ? ZMQ_SNDHWM : ZMQ_RCVHWM;
        if (handle == nullptr || zmq_setsockopt(handle, option, &ahead, sizeof ahead) != 0) fail(zmq_strerror(zmq_errno()));
    }
    Socket(const Socket &) = delete;
    Socket &operator=(const Socket &) = delete;
    ~Socket() { zmq_close(handle); }
};

void check(int answer) {
    if (answer < 0) fail(zmq_strerror(zmq_errno()));
}

} // namespace

int main(int count, char **words) {
    Options options = Options::read(
        count, words, {"--publishers", "--length", "--term", "--messages", "--rate", "--transport"});
    bool is_tcp = options.transport == "tcp";
    if (!is_tcp && options.transport != "inproc") refuse("inproc or tcp", "--transport");

    void *context = zmq_ctx_new();
    int ahead = static_cast<int>(std::max(1u, messages_ahead(options) / 2)); // each of both sides holds as many
    char endpoint[256] = "inproc://messages";
    {
        Socket pulls(context, ZMQ_PULL, ahead);
        check(zmq_bind(pulls.handle, is_tcp ? "tcp://127.0.0.1:*" : endpoint));
        std::size_t size = sizeof endpoint;
        if (is_tcp) check(zmq_getsockopt(pulls.handle, ZMQ_LAST_ENDPOINT, endpoint, &size));

        auto publisher = [&](std::uint32_t number, Start &start) {
            Socket pushes(context, ZMQ_PUSH, ahead);
            check(zmq_connect(pushes.handle, endpoint));
            publish(options, number, start.meet(),
                    [&](const std::uint8_t *message) { check(zmq_send(pushes.handle, message, options.length, 0)); });
        };
        auto subscriber = [&](Tally &tally, Start &start) {
            std::vector<std::uint8_t> message(options.length);
            std::uint64_t began = start.meet();
            while (!tally.is_complete()) {
                int length = zmq_recv(pulls.handle, message.data(), message.size(), 0);
                check(length);
                tally.take(message.data(), length);
            }
            return began;
        };
        play(options, is_tcp ? "zeromq-tcp" : "zeromq-inproc", publisher, subscriber);
    }
    zmq_ctx_term(context);
}
