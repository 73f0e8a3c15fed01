/* Publishes each line of standard input over UDP.

     udp_publisher ADDRESS PORT SESSION

   It ends with status 0 once a subscriber has told that it has read all, and with 3 where it was silent for five seconds before. */
#include "pechvang.h"
#include <arpa/inet.h>
#include <fcntl.h>
#include <poll.h>
#include <stdio.h>
#include <stdlib.h>
#include <string.h>
#include <sys/socket.h>
#include <time.h>
#include <unistd.h>

enum { MTU = 1408, TERM = 1 << 20, GREATEST = TERM / 8, SECOND = 1000000000 };

static void must(int32_t code, int32_t wanted, const char *what) {
    if (code != wanted) {
        fprintf(stderr, "udp_publisher: %s: %d, %s\n", what, (int)code, pv_code_text(code));
        exit(1);
    }
}

static uint64_t now(void) {
    struct timespec time;
    clock_gettime(CLOCK_MONOTONIC, &time);
    return (uint64_t)time.tv_sec * SECOND + (uint64_t)time.tv_nsec;
}

/* A socket that sends to this address, and hears from it alone. */
static int connected(const char *address, const char *port) {
    struct sockaddr_in to = {.sin_family = AF_INET, .sin_port = htons((uint16_t)atoi(port))};
    int socket_to = socket(AF_INET, SOCK_DGRAM, 0);
    if (inet_pton(AF_INET, address, &to.sin_addr) != 1 || socket_to < 0 || connect(socket_to, (struct sockaddr *)&to, sizeof to) != 0) {
        perror("udp_publisher: socket");
        exit(1);
    }
    fcntl(socket_to, F_SETFL, O_NONBLOCK);
    return socket_to;
}

/* Sends what the core has to send. A datagram that the socket doesn't take is lost, as on the way. */
static void send_all(pv_sender *sender, int to) {
    uint8_t room[MTU];
    size_t length;
    int32_t code;
    while ((code = pv_sender_next(sender, room, sizeof room, &length)) == PV_FRAME) {
        if (send(to, room, length, 0) < 0) continue;
    }
    must(code, PV_DONE, "pv_sender_next");
}

/* The four bytes of a frame at a place, the lowest first. */
static uint64_t word(const uint8_t *frame, int place) {
    return frame[place] | (uint64_t)frame[place + 1] << 8 | (uint64_t)frame[place + 2] << 16 | (uint64_t)frame[place + 3] << 24;
}

/* Hears what the socket has. The moment of the last status message, and the greatest position that one has told. */
static void hear_all(pv_sender *sender, int from, uint64_t *heard, uint64_t *read) {
    uint8_t datagram[65536];
    ssize_t length;
    while ((length = recv(from, datagram, sizeof datagram, 0)) >= 0) {
        int32_t outcome;
        must(pv_hear(sender, datagram, (size_t)length, now(), &outcome), PV_DONE, "pv_hear");
        if (outcome == PV_STATUS) {
            uint64_t position = word(datagram, 16) * TERM + word(datagram, 20);
            *heard = now();
            if (position > *read) *read = position;
        }
        send_all(sender, from);
    }
}

/* The next line without its end, or false at the input's end. One that is too long is a fault. */
static bool read_line(uint8_t *line, size_t *length) {
    static char text[GREATEST + 2];
    if (!fgets(text, sizeof text, stdin)) return false;
    *length = strcspn(text, "\n");
    if (*length > GREATEST) must(PV_TOO_LONG, PV_DONE, "a line");
    memcpy(line, text, *length);
    return true;
}

int main(int count, char **words) {
    if (count != 4) {
        fputs("usage: udp_publisher ADDRESS PORT SESSION\n", stderr);
        return 2;
    }
    int to = connected(words[1], words[2]);
    pv_config config = {.term_length = TERM, .mtu = MTU, .session = atoi(words[3]), .stream = 1001, .consumers = 1};
    pv_log log = PV_EMPTY;
    pv_publisher publisher = PV_EMPTY;
    pv_reader reader = PV_EMPTY;
    pv_keeper keeper = PV_EMPTY;
    pv_sender sender = PV_EMPTY;
    must(pv_open(&config, &log), PV_DONE, "pv_open");
    must(pv_take_publisher(&log, &publisher), PV_DONE, "pv_take_publisher");
    must(pv_take_reader(&log, &reader), PV_DONE, "pv_take_reader");
    must(pv_take_keeper(&log, &keeper), PV_DONE, "pv_take_keeper");
    must(pv_open_sender(&reader, 0, &sender), PV_DONE, "pv_open_sender");
    must(pv_set_connected(&keeper, true), PV_DONE, "pv_set_connected");

    static uint8_t line[GREATEST];
    size_t length;
    bool more = read_line(line, &length);
    uint64_t heard = 0, read = 0, end = 0;
    while ((more || read < end) && (heard == 0 || now() < heard + 5ull * SECOND)) {
        uint64_t position;
        int32_t code = PV_DONE;
        must(pv_clean_and_limit(&keeper, &position), PV_DONE, "pv_clean_and_limit");
        for (int lines = 0; more && lines < 64 && code == PV_DONE; lines++) {
            code = pv_offer(&publisher, line, length, &position);
            if (code == PV_DONE) {
                end = position;
                more = read_line(line, &length);
            } else if (code < PV_ADMIN_ACTION) must(code, PV_DONE, "pv_offer");
        }
        must(pv_sender_tick(&sender, now()), PV_DONE, "pv_sender_tick");
        send_all(&sender, to);
        struct pollfd waits = {.fd = to, .events = POLLIN};
        if (poll(&waits, 1, more && code != PV_BACK_PRESSURED ? 0 : 1) > 0) hear_all(&sender, to, &heard, &read);
    }
    pv_free_sender(&sender);
    pv_free_publisher(&publisher);
    pv_free_keeper(&keeper);
    pv_free_log(&log);
    close(to);
    return more || read < end ? 3 : 0;
}
