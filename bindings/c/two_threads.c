/* One thread publishes, the other reads the messages and keeps the log. */
#include "pechvang.h"
#include <pthread.h>
#include <sched.h>
#include <stdio.h>
#include <stdlib.h>
#include <string.h>

enum { MESSAGES = 100000 };

static void must(int32_t code, int32_t wanted, const char *what) {
    if (code != wanted) {
        fprintf(stderr, "%s: %d, %s\n", what, (int)code, pv_code_text(code));
        exit(1);
    }
}

/* Some have one frame, and some four. */
static size_t length_of(uint32_t count) { return count % 16 ? 4 + count % 64 : 5000; }

static void *publish(void *at) {
    pv_publisher *publisher = at;
    for (uint32_t count = 0; count < MESSAGES; count++) {
        static uint8_t message[5000];
        size_t length = length_of(count);
        uint64_t position;
        int32_t code;
        memcpy(message, &count, 4);
        while ((code = pv_offer(publisher, message, length, &position)) != PV_DONE) {
            if (code < PV_ADMIN_ACTION) must(code, PV_DONE, "pv_offer");
            sched_yield();
        }
    }
    pv_free_publisher(publisher);
    return NULL;
}

int main(void) {
    pv_config config = {.term_length = 1 << 16, .mtu = 1408, .initial_term_id = 7, .session = 1, .stream = 1001, .consumers = 1, .start = 0};
    pv_log log = PV_EMPTY;
    pv_publisher publisher = PV_EMPTY;
    pv_reader reader = PV_EMPTY;
    pv_messages messages = PV_EMPTY;
    pv_keeper keeper = PV_EMPTY;
    uint64_t limit;
    must(pv_open(&config, &log), PV_DONE, "pv_open");
    must(pv_take_publisher(&log, &publisher), PV_DONE, "pv_take_publisher");
    must(pv_take_reader(&log, &reader), PV_DONE, "pv_take_reader");
    must(pv_open_messages(&reader, 5000, &messages), PV_DONE, "pv_open_messages");
    must(pv_take_keeper(&log, &keeper), PV_DONE, "pv_take_keeper");
    pv_free_log(&log);
    must(pv_set_connected(&keeper, true), PV_DONE, "pv_set_connected");
    must(pv_clean_and_limit(&keeper, &limit), PV_DONE, "pv_clean_and_limit");

    pthread_t thread;
    if (pthread_create(&thread, NULL, publish, &publisher) != 0) return 1;
    for (uint32_t wanted = 0; wanted < MESSAGES;) {
        static uint8_t room[5000];
        size_t length;
        int32_t code = pv_next_message(&messages, room, sizeof room, &length);
        if (code == PV_DONE) {
            pv_clean_and_limit(&keeper, &limit);
            sched_yield();
            continue;
        }
        must(code, PV_FRAME, "pv_next_message");
        uint32_t count;
        memcpy(&count, room, 4);
        if (count != wanted || length != length_of(wanted++)) {
            fprintf(stderr, "message %u of %zu bytes\n", (unsigned)count, length);
            return 1;
        }
    }
    pthread_join(thread, NULL);
    pv_free_messages(&messages);
    pv_free_keeper(&keeper);
    printf("%d messages\n", MESSAGES);
    return 0;
}
