/* Eight publishers, four readers of which three join while it runs, and a keeper, for so many seconds. Each message of each
   reader is checked: its publisher's order, its length, its bytes, and where it stands in the stream.

       stress SECONDS */
#include "pechvang.h"
#include <pthread.h>
#include <sched.h>
#include <stdatomic.h>
#include <stdio.h>
#include <stdlib.h>
#include <string.h>
#include <time.h>

enum { PUBLISHERS = 8, READERS = 4, TERM = 1 << 16, MTU = 1408, GREATEST = TERM / 8, HEAD = 16 };

static atomic_bool stop, done, ended;
static atomic_uint published;

struct publisher {
    pthread_t thread;
    pv_publisher handle;
    uint32_t number;
    uint64_t messages, claims, aborts, refused, share, position;
};

struct reader {
    pthread_t thread;
    pv_reader handle;
    uint32_t number;
    bool from_start;
    uint64_t messages, frames, joins, position;
    uint64_t next[PUBLISHERS];
    bool seen[PUBLISHERS];
};

static void fail(const char *what, long long value) {
    fprintf(stderr, "stress: %s: %lld\n", what, value);
    exit(1);
}

static void must(int32_t code, int32_t wanted, const char *what) {
    if (code != wanted) {
        fprintf(stderr, "stress: %s: %d, %s\n", what, (int)code, pv_code_text(code));
        exit(1);
    }
}

static double now(void) {
    struct timespec t;
    clock_gettime(CLOCK_MONOTONIC, &t);
    return (double)t.tv_sec + (double)t.tv_nsec * 1e-9;
}

static uint64_t mixed(uint64_t x) {
    x += 0x9e3779b97f4a7c15u;
    x = (x ^ (x >> 30)) * 0xbf58476d1ce4e5b9u;
    x = (x ^ (x >> 27)) * 0x94d049bb133111ebu;
    return x ^ (x >> 31);
}

/* how long a publisher's message with this count is: mostly short, some of several frames */
static size_t length_of(uint32_t number, uint64_t count) {
    uint64_t x = mixed(count * PUBLISHERS + number);
    return HEAD + (x % 64 == 0 ? (x >> 8) % (GREATEST - HEAD) : (x >> 8) % 240);
}

static void make(uint8_t *message, uint32_t number, uint64_t count, size_t length) {
    uint64_t from = number;
    memcpy(message, &from, 8);
    memcpy(message + 8, &count, 8);
    uint64_t word = mixed(count + ((uint64_t)number << 56));
    for (size_t k = HEAD; k < length; k++) message[k] = (uint8_t)(word >> (k % 8 * 8)) ^ (uint8_t)k;
}

static bool retry(struct publisher *p, int32_t code) {
    if (code == PV_DONE) return false;
    if (code < PV_ADMIN_ACTION) must(code, PV_DONE, "a publisher's call");
    p->refused++;
    if (code != PV_ADMIN_ACTION) sched_yield();
    return true;
}

static void *publish(void *at) {
    struct publisher *p = at;
    static _Thread_local uint8_t message[GREATEST];
    while (!atomic_load(&stop)) {
        size_t length = length_of(p->number, p->messages);
        uint64_t position, start;
        make(message, p->number, p->messages, length);
        if (length <= MTU - 32 && p->messages % 3 == 0) {
            while (retry(p, pv_claim(&p->handle, length, &start)));
            size_t half = length / 2;
            must(pv_claim_write(&p->handle, half, message + half, length - half), PV_DONE, "pv_claim_write");
            if (p->messages % 33 == 0 && p->aborts <= p->messages / 33) {
                must(pv_abort(&p->handle, &position), PV_DONE, "pv_abort");
                p->aborts++;
                continue;
            }
            must(pv_claim_write(&p->handle, 0, message, half), PV_DONE, "pv_claim_write");
            must(pv_commit(&p->handle, &position), PV_DONE, "pv_commit");
            if (position - start != (length + 32 + 31) / 32 * 32) fail("a claim's end", (long long)(position - start));
            p->claims++;
        } else {
            while (retry(p, pv_offer(&p->handle, message, length, &position)));
        }
        if (position <= p->position) fail("a publisher's position", (long long)position);
        p->position = position;
        p->messages++;
    }
    must(pv_share(&p->handle, &p->share), PV_DONE, "pv_share");
    pv_free_publisher(&p->handle);
    atomic_fetch_add(&published, 1);
    return NULL;
}

static void check(struct reader *r, const uint8_t *message, size_t length) {
    static _Thread_local uint8_t wanted[GREATEST];
    uint64_t from, count;
    if (length < HEAD) fail("a message's length", (long long)length);
    memcpy(&from, message, 8);
    memcpy(&count, message + 8, 8);
    if (from >= PUBLISHERS) fail("a publisher's number", (long long)from);
    if (r->from_start || r->seen[from]) {
        if (count != r->next[from]) fail("a message's count", (long long)count);
    }
    r->seen[from] = true;
    r->next[from] = count + 1;
    if (length != length_of((uint32_t)from, count)) fail("a message's length", (long long)length);
    make(wanted, (uint32_t)from, count, length);
    if (memcmp(message, wanted, length) != 0) fail("a message's bytes", (long long)count);
    r->messages++;
}

static void *read_all(void *at) {
    struct reader *r = at;
    static _Thread_local uint8_t message[GREATEST];
    size_t have = 0;
    bool open = false, first = true;
    for (;;) {
        pv_frame frame;
        bool last = atomic_load(&done);
        int32_t code = pv_next(&r->handle, message + have, sizeof message - have, &frame);
        if (code == PV_DONE) {
            if (last) break;
            sched_yield();
            continue;
        }
        must(code, PV_FRAME, "pv_next");
        if (!first && frame.position != r->position) fail("a frame's position", (long long)frame.position);
        first = false;
        /* a padding is passed without its length: the next frame tells where it ended */
        if (!frame.is_data) first = true;
        r->position = frame.position + (frame.length + 32 + 31) / 32 * 32;
        r->frames++;
        if (frame.is_data) {
            if (frame.flags & 128) {
                if (open) fail("a message that begins in another", (long long)frame.position);
                open = true;
            }
            if (open) {
                have += frame.length;
                if (frame.flags & 64) {
                    check(r, message, have);
                    open = false;
                    have = 0;
                }
            } else if (r->from_start) {
                fail("a message without a beginning", (long long)frame.position);
            }
        }
        must(pv_advance(&r->handle), PV_FRAME, "pv_advance");
    }
    if (have != 0) fail("a message without an end", (long long)have);
    pv_free_reader(&r->handle);
    return NULL;
}

int main(int count, char **words) {
    double seconds = count > 1 ? atof(words[1]) : 2;
    pv_config config = {.term_length = TERM, .mtu = MTU, .initial_term_id = INT32_MAX, .session = 1, .stream = 1001, .consumers = 1, .start = 0};
    pv_log log = PV_EMPTY;
    pv_keeper keeper = PV_EMPTY;
    static struct publisher publishers[PUBLISHERS];
    static struct reader readers[READERS];
    uint64_t limit = 0, before = 0;
    must(pv_open(&config, &log), PV_DONE, "pv_open");
    must(pv_take_keeper(&log, &keeper), PV_DONE, "pv_take_keeper");
    must(pv_take_reader(&log, &readers[0].handle), PV_DONE, "pv_take_reader");
    readers[0].from_start = true;
    must(pv_set_connected(&keeper, true), PV_DONE, "pv_set_connected");
    for (uint32_t k = 0; k < PUBLISHERS; k++) {
        publishers[k].number = k;
        must(pv_take_publisher(&log, &publishers[k].handle), PV_DONE, "pv_take_publisher");
    }
    pv_free_log(&log);
    double began = now();
    for (uint32_t k = 0; k < READERS; k++) readers[k].number = k;
    if (pthread_create(&readers[0].thread, NULL, read_all, &readers[0])) fail("a thread", 0);
    for (uint32_t k = 0; k < PUBLISHERS; k++)
        if (pthread_create(&publishers[k].thread, NULL, publish, &publishers[k])) fail("a thread", k);

    uint32_t there = 1;
    while (!atomic_load(&ended)) {
        must(pv_clean_and_limit(&keeper, &limit), PV_DONE, "pv_clean_and_limit");
        if (limit < before) fail("a limit", (long long)limit);
        before = limit;
        double past = now() - began;
        if (there < READERS && past > seconds * there / (2 * READERS)) {
            must(pv_join(&keeper, &readers[there].handle), PV_DONE, "pv_join");
            if (pthread_create(&readers[there].thread, NULL, read_all, &readers[there])) fail("a thread", there);
            there++;
        }
        if (past > seconds) atomic_store(&stop, true);
        if (atomic_load(&published) == PUBLISHERS) atomic_store(&ended, true);
        sched_yield();
    }
    for (uint32_t k = 0; k < PUBLISHERS; k++) pthread_join(publishers[k].thread, NULL);
    atomic_store(&done, true);
    for (uint32_t k = 0; k < there; k++) pthread_join(readers[k].thread, NULL);

    uint64_t messages = 0, claims = 0, aborts = 0, refused = 0, shares = 0, tail = 0;
    for (uint32_t k = 0; k < PUBLISHERS; k++) {
        messages += publishers[k].messages;
        claims += publishers[k].claims;
        aborts += publishers[k].aborts;
        refused += publishers[k].refused;
        shares += publishers[k].share;
        if (publishers[k].position > tail) tail = publishers[k].position;
        for (uint32_t r = 0; r < there; r++)
            if (readers[r].next[k] != publishers[k].messages) fail("a publisher's last message", (long long)readers[r].next[k]);
    }
    if (readers[0].messages != messages) fail("messages of the first reader", (long long)readers[0].messages);
    if (shares < tail) fail("the shares", (long long)shares);
    pv_free_keeper(&keeper);
    printf("%llu messages, %llu of them claimed, %llu claims aborted, %llu refusals; read", (unsigned long long)messages, (unsigned long long)claims, (unsigned long long)aborts, (unsigned long long)refused);
    for (uint32_t k = 0; k < there; k++) printf(" %llu", (unsigned long long)readers[k].messages);
    printf("; %.0f MiB in %.1f s\n", (double)shares / (1 << 20), now() - began);
    return 0;
}
