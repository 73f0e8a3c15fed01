// ENet: each publisher has a host of its own and sends reliable packets to the subscriber's.
#include "room.hpp"
#include <enet/enet.h>

namespace {

constexpr std::uint32_t GREATEST_PAUSE = 5000; // milliseconds
constexpr std::uint32_t SHARING = 8;           // packets that are queued at full load, so that they share datagrams

struct Host {
    ENetHost *handle;

    Host(const ENetAddress *address, std::size_t peers) : handle(enet_host_create(address, peers, 1, 0, 0)) {
        if (handle == nullptr) fail("no host");
    }
    Host(const Host &) = delete;
    Host &operator=(const Host &) = delete;
    ~Host() { enet_host_destroy(handle); }
};

void check(int answer) {
    if (answer < 0) fail("the host failed");
}

// Packets that the publisher's host still holds.
thread_local std::uint32_t held = 0;

void let_go(ENetPacket *) { held--; }

struct Run {
    const Options &options;
    ENetAddress address;
    std::atomic<bool> is_done = false;

    void publish_all(std::uint32_t number, Start &start) {
        Host host(nullptr, 1);
        ENetEvent event;
        ENetPeer *peer = enet_host_connect(host.handle, &address, 1, 0);
        if (peer == nullptr || enet_host_service(host.handle, &event, GREATEST_PAUSE) <= 0 ||
            event.type != ENET_EVENT_TYPE_CONNECT)
            fail("not connected");
        enet_host_flush(host.handle);
        auto work = [&] { check(enet_host_service(host.handle, nullptr, 0)); };
        std::uint32_t most = messages_ahead(options), queued = 0;
        publish(options, number, start.meet(), [&](const std::uint8_t *message) {
            for (; held >= most; std::this_thread::yield()) work();
            ENetPacket *packet = enet_packet_create(message, options.length, ENET_PACKET_FLAG_RELIABLE);
            if (packet == nullptr) fail("no memory");
            packet->freeCallback = let_go;
            held++;
            check(enet_peer_send(peer, 0, packet));
            if (options.rate != 0 || ++queued % SHARING == 0) work();
        });
        for (; !is_done; std::this_thread::yield()) work();
    }

    std::uint64_t subscribe(ENetHost *host, Tally &tally, Start &start) {
        ENetEvent event;
        for (std::uint32_t connected = 0; connected < options.publishers;)
            if (enet_host_service(host, &event, 1) > 0 && event.type == ENET_EVENT_TYPE_CONNECT) connected++;
        std::uint64_t began = start.meet();
        while (!tally.is_complete()) {
            int answer = enet_host_service(host, &event, 1);
            check(answer);
            if (answer == 0 || event.type != ENET_EVENT_TYPE_RECEIVE) continue;
            tally.take(event.packet->data, event.packet->dataLength);
            enet_packet_destroy(event.packet);
        }
        is_done = true;
        return began;
    }
};

} // namespace

int main(int count, char **words) {
    Options options = Options::read(count, words, {"--publishers", "--length", "--term", "--messages", "--rate"});
    if (enet_initialize() != 0) fail("not initialized");
    {
        Run run{options, {}};
        enet_address_set_host(&run.address, "127.0.0.1");
        Host host(&run.address, options.publishers);
        check(enet_socket_get_address(host.handle->socket, &run.address));
        play(
            options, "enet", [&](std::uint32_t number, Start &start) { run.publish_all(number, start); },
            [&](Tally &tally, Start &start) { return run.subscribe(host.handle, tally, start); });
    }
    enet_deinitialize();
}
