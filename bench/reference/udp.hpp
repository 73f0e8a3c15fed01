// A UDP socket at 127.0.0.1 with one peer, on which no call waits. Of a thousand datagrams that it sends it loses some.
#pragma once
#include "frames.hpp"
#include "measure.hpp"
#include <arpa/inet.h>
#include <cerrno>
#include <netinet/in.h>
#include <optional>
#include <random>
#include <sys/socket.h>
#include <unistd.h>

class Udp {
    int socket;
    unsigned loss;
    std::mt19937 draws;

    static sockaddr_in address(std::uint16_t port) {
        sockaddr_in address{};
        address.sin_family = AF_INET;
        address.sin_port = port;
        address.sin_addr.s_addr = htonl(INADDR_LOOPBACK);
        return address;
    }

    // The system isn't ready, or the peer's port is closed.
    static bool is_loss() { return errno == EAGAIN || errno == EWOULDBLOCK || errno == ECONNREFUSED; }

    // In the network's byte order.
    std::uint16_t port() const {
        sockaddr_in own{};
        socklen_t size = sizeof own;
        if (getsockname(socket, reinterpret_cast<sockaddr *>(&own), &size) != 0) fail("device");
        return own.sin_port;
    }

    void connect_to(const Udp &peer) {
        sockaddr_in other = address(peer.port());
        if (connect(socket, reinterpret_cast<const sockaddr *>(&other), sizeof other) != 0) fail("device");
    }

  public:
    Udp(unsigned loss, unsigned seed)
        : socket(::socket(AF_INET, SOCK_DGRAM | SOCK_NONBLOCK | SOCK_CLOEXEC, 0)), loss(loss), draws(seed) {
        sockaddr_in own = address(0);
        if (socket < 0 || bind(socket, reinterpret_cast<const sockaddr *>(&own), sizeof own) != 0) fail("device");
    }
    Udp(const Udp &) = delete;
    Udp &operator=(const Udp &) = delete;
    ~Udp() { close(socket); }

    static void join(Udp &one, Udp &other) {
        one.connect_to(other);
        other.connect_to(one);
    }

    void send(Bytes datagram) {
        if (loss != 0 && draws() % 1000 < loss) return;
        if (::send(socket, datagram.data(), datagram.size(), 0) < 0 && !is_loss()) fail("device");
    }

    // What has come, in front of the room; none where nothing has.
    std::optional<Bytes> receive(std::span<std::uint8_t> room) {
        ssize_t size = recv(socket, room.data(), room.size(), 0);
        if (size >= 0) return room.first(size);
        if (!is_loss()) fail("device");
        return std::nullopt;
    }
};
