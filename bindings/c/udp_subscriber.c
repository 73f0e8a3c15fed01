/* Writes each message that comes over UDP as a line to standard output.

     udp_subscriber ADDRESS PORT SESSION [LOST]

   Of 1,000 datagrams that come so many are thrown away. It ends once no message has come for four seconds since the last. */
#include "pechvang.h"
#include <arpa/inet.h>
#include <fcntl.h>
#include <poll.h>
#include <stdio.h>
#include <stdlib.h>
#include <sys/socket.h>
#include <time.h>
#include <unistd.h>

enum { GREATEST = 1 << 17, WINDOW = 1 << 17, SECOND = 1000000000 };

static void must(int32_t code, int32_t wanted, const char *what) {
    if (code != wanted) {
        fprintf(stderr, "udp_subscriber: %s: %d, %s\n", what, (int)code, pv_code_text(code));
        exit(1);
    }
}

static uint64_t now(void) {
    struct timespec time;
    clock_gettime(CLOCK_MONOTONIC, &time);
    return (uint64_t)time.tv_sec * SECOND + (uint64_t)time.tv_nsec;
}

static int bound(const char *address, const char *port) {
    struct sockaddr_in here = {.sin_family = AF_INET, .sin_port = htons((uint16_t)atoi(port))};
    int socket_at = socket(AF_INET, SOCK_DGRAM, 0);
    int room = 1 << 22;
    if (inet_pton(AF_INET, address, &here.sin_addr) != 1 || socket_at < 0 || bind(socket_at, (struct sockaddr *)&here, sizeof here) != 0) {
        perror("udp_subscriber: socket");
        exit(1);
    }
    setsockopt(socket_at, SOL_SOCKET, SO_RCVBUF, &room, sizeof room);
    fcntl(socket_at, F_SETFL, O_NONBLOCK);
    return socket_at;
}

/* Takes up to 16 datagrams, and notes where they come from. */
static void receive(pv_subscriber *subscriber, int from, int lost, struct sockaddr_in *publisher) {
    static uint8_t datagram[65536];
    for (int turn = 0; turn < 16; turn++) {
        struct sockaddr_in source = {0};
        socklen_t size = sizeof source;
        ssize_t length = recvfrom(from, datagram, sizeof datagram, 0, (struct sockaddr *)&source, &size);
        if (length < 0) return;
        if (rand() % 1000 < lost) continue;
        int32_t outcomes[64];
        size_t frames;
        must(pv_receive(subscriber, datagram, (size_t)length, now(), outcomes, 64, &frames), PV_DONE, "pv_receive");
        if (frames > 0 && outcomes[0] > 0 && outcomes[0] != PV_OTHER) *publisher = source;
        if (outcomes[0] <= PV_SETUP_GEOMETRY && outcomes[0] >= PV_SETUP_WINDOW) fprintf(stderr, "udp_subscriber: SETUP refused: S%d\n", -outcomes[0]);
    }
}

/* Sends status messages and NAKs, each in a datagram. */
static void reply(pv_subscriber *subscriber, int to, const struct sockaddr_in *publisher) {
    uint8_t room[40];
    size_t length;
    int32_t code;
    must(pv_subscriber_tick(subscriber, now()), PV_DONE, "pv_subscriber_tick");
    while ((code = pv_subscriber_next(subscriber, room, sizeof room, &length)) == PV_FRAME) {
        if (sendto(to, room, length, 0, (const struct sockaddr *)publisher, sizeof *publisher) < 0) continue;
    }
    must(code, PV_DONE, "pv_subscriber_next");
}

/* Writes all messages that are whole. Whether there was one. */
static bool write_all(pv_subscriber *subscriber) {
    static uint8_t room[GREATEST];
    size_t length;
    int32_t code;
    bool written = false;
    while ((code = pv_poll(subscriber, room, sizeof room, &length)) == PV_FRAME) {
        fwrite(room, 1, length, stdout);
        putchar('\n');
        written = true;
    }
    if (code != PV_NO_IMAGE) must(code, PV_DONE, "pv_poll");
    return written;
}

int main(int count, char **words) {
    if (count != 4 && count != 5) {
        fputs("usage: udp_subscriber ADDRESS PORT SESSION [LOST]\n", stderr);
        return 2;
    }
    int at = bound(words[1], words[2]);
    int lost = count == 5 ? atoi(words[4]) : 0;
    pv_subscription config = {.receiver = 0, .greatest = GREATEST, .session = atoi(words[3]), .stream = 1001, .window = WINDOW};
    pv_subscriber subscriber = PV_EMPTY;
    must(pv_open_subscriber(&config, &subscriber), PV_DONE, "pv_open_subscriber");

    struct sockaddr_in publisher = {0};
    uint64_t last = 0;
    while (last == 0 || now() < last + 4ull * SECOND) {
        struct pollfd waits = {.fd = at, .events = POLLIN};
        if (poll(&waits, 1, 1) > 0) receive(&subscriber, at, lost, &publisher);
        if (write_all(&subscriber)) last = now();
        if (publisher.sin_port != 0) reply(&subscriber, at, &publisher);
    }
    pv_free_subscriber(&subscriber);
    close(at);
    return fflush(stdout) == 0 ? 0 : 1;
}
