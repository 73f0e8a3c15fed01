/* What a call costs: the least of many rounds, in nanoseconds. pv_share is little else than the handle. */
#include "pechvang.h"
#include <stdio.h>
#include <stdlib.h>
#include <time.h>

static double now(void) {
    struct timespec t;
    clock_gettime(CLOCK_MONOTONIC, &t);
    return (double)t.tv_sec * 1e9 + (double)t.tv_nsec;
}

static void must(int32_t code, int32_t wanted, const char *what) {
    if (code != wanted) {
        fprintf(stderr, "%s: %d, %s\n", what, (int)code, pv_code_text(code));
        exit(1);
    }
}

int main(void) {
    enum { ROUNDS = 400, CALLS = 500 };
    pv_config config = {.term_length = 1 << 20, .mtu = 1408, .initial_term_id = 7, .session = 1, .stream = 1001, .consumers = 1, .start = 0};
    pv_log log = PV_EMPTY;
    pv_publisher publisher = PV_EMPTY;
    pv_reader reader = PV_EMPTY;
    pv_keeper keeper = PV_EMPTY;
    static uint8_t message[200], room[1408];
    uint64_t found;
    pv_frame frame;
    double share = 1e9, offer = 1e9, next = 1e9;
    must(pv_open(&config, &log), PV_DONE, "pv_open");
    must(pv_take_publisher(&log, &publisher), PV_DONE, "pv_take_publisher");
    must(pv_take_reader(&log, &reader), PV_DONE, "pv_take_reader");
    must(pv_take_keeper(&log, &keeper), PV_DONE, "pv_take_keeper");
    must(pv_set_connected(&keeper, true), PV_DONE, "pv_set_connected");
    for (int round = 0; round < ROUNDS; round++) {
        must(pv_clean_and_limit(&keeper, &found), PV_DONE, "pv_clean_and_limit");
        double began = now();
        for (int k = 0; k < CALLS; k++) must(pv_share(&publisher, &found), PV_DONE, "pv_share");
        double shared = now();
        for (int k = 0; k < CALLS; k++) {
            int32_t code = pv_offer(&publisher, message, sizeof message, &found);
            if (code == PV_ADMIN_ACTION) code = pv_offer(&publisher, message, sizeof message, &found);
            must(code, PV_DONE, "pv_offer");
        }
        double offered = now();
        for (int k = 0; k < CALLS; k += frame.is_data) {
            must(pv_next(&reader, room, sizeof room, &frame), PV_FRAME, "pv_next");
            must(pv_advance(&reader), PV_FRAME, "pv_advance");
        }
        double passed = now();
        if (shared - began < share) share = shared - began;
        if (offered - shared < offer) offer = offered - shared;
        if (passed - offered < next) next = passed - offered;
    }
    pv_free_log(&log);
    pv_free_publisher(&publisher);
    pv_free_reader(&reader);
    pv_free_keeper(&keeper);
    printf("pv_share %.1f ns, pv_offer of %zu bytes %.1f ns, pv_next and pv_advance %.1f ns\n", share / CALLS, sizeof message, offer / CALLS, next / CALLS);
    return 0;
}
