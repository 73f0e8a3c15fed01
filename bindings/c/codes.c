/* Most codes, each from a call that has it; and that nothing changes then. */
#include "pechvang.h"
#include <stdio.h>
#include <string.h>

static int wrong;

static void is(int line, long long found, long long wanted) {
    if (found != wanted) {
        fprintf(stderr, "line %d: %lld in place of %lld\n", line, found, wanted);
        wrong = 1;
    }
}

#define IS(found, wanted) is(__LINE__, (long long)(found), (long long)(wanted))

static const pv_config good = {.term_length = 1 << 16, .mtu = 1408, .initial_term_id = -1, .session = 1, .stream = 2, .consumers = 1, .start = 64};

static void opening(void) {
    pv_log log = PV_EMPTY;
    pv_config config = good;
    config.term_length = 65535;
    IS(pv_open(&config, &log), PV_BAD_TERM_LENGTH);
    config = good, config.mtu = 1000;
    IS(pv_open(&config, &log), PV_BAD_MTU);
    config = good, config.start = 33;
    IS(pv_open(&config, &log), PV_BAD_START);
    config = good, config.consumers = 9;
    IS(pv_open(&config, &log), PV_BAD_CONSUMERS);
    config.consumers = 0;
    IS(pv_open(&config, &log), PV_BAD_CONSUMERS);
    IS(log.handle.is_open, false);
    pv_publisher publisher = PV_EMPTY;
    IS(pv_take_publisher(&log, &publisher), PV_EMPTY_HANDLE);
    IS(pv_open(&good, &log), PV_DONE);
    IS(pv_open(&good, &log), PV_DONE);
    pv_publisher publishers[8];
    for (int k = 0; k < 8; k++) {
        pv_publisher next = PV_EMPTY;
        publishers[k] = next;
        IS(pv_take_publisher(&log, &publishers[k]), PV_DONE);
    }
    IS(pv_take_publisher(&log, &publisher), PV_NONE_LEFT);
    pv_free_log(&log);
    for (int k = 0; k < 8; k++) pv_free_publisher(&publishers[k]);
    pv_free_publisher(&publisher);
    pv_free_log(&log);
}

static void calls(void) {
    pv_log log = PV_EMPTY;
    pv_publisher publisher = PV_EMPTY, other = PV_EMPTY;
    pv_reader reader = PV_EMPTY, second = PV_EMPTY;
    pv_keeper keeper = PV_EMPTY;
    static uint8_t bytes[1 << 16], room[2048];
    pv_frame frame = {1, 2, 3, false};
    uint64_t position = 99;
    IS(pv_offer(&publisher, bytes, 1, &position), PV_EMPTY_HANDLE);
    IS(pv_open(&good, &log), PV_DONE);
    IS(pv_take_publisher(&log, &publisher), PV_DONE);
    IS(pv_take_publisher(&log, &other), PV_DONE);
    IS(pv_take_reader(&log, &reader), PV_DONE);
    IS(pv_take_reader(&log, &second), PV_NONE_LEFT);
    IS(pv_take_keeper(&log, &keeper), PV_DONE);
    IS(pv_take_keeper(&log, (pv_keeper *)&second), PV_NONE_LEFT);
    IS(pv_offer((pv_publisher *)&reader, bytes, 1, &position), PV_WRONG_HANDLE);
    IS(pv_advance((pv_reader *)&keeper), PV_WRONG_HANDLE);
    IS(pv_offer(&publisher, bytes, 1, &position), PV_NOT_CONNECTED);
    IS(pv_offer(&publisher, bytes, 8193, &position), PV_TOO_LONG);
    IS(position, 99);
    IS(pv_set_connected(&keeper, true), PV_DONE);
    IS(pv_offer(&publisher, bytes, 1, &position), PV_BACK_PRESSURED);
    IS(pv_clean_and_limit(&keeper, &position), PV_DONE);
    IS(position, 64 + 32768);
    IS(pv_offer(&publisher, bytes, 5, &position), PV_DONE);
    IS(position, 128);

    IS(pv_commit(&publisher, &position), PV_NO_CLAIM);
    IS(pv_abort(&publisher, &position), PV_NO_CLAIM);
    IS(pv_claim_write(&publisher, 0, bytes, 1), PV_NO_CLAIM);
    IS(pv_claim(&publisher, 1377, &position), PV_TOO_LONG);
    IS(pv_claim(&publisher, 100, &position), PV_DONE);
    IS(position, 128);
    IS(pv_claim(&publisher, 1, &position), PV_CLAIM_OPEN);
    IS(pv_offer(&publisher, bytes, 1, &position), PV_CLAIM_OPEN);
    IS(pv_share(&publisher, &position), PV_CLAIM_OPEN);
    IS(pv_claim_write(&publisher, 98, (const uint8_t *)"abc", 3), PV_OUTSIDE_CLAIM);
    IS(pv_claim_write(&publisher, SIZE_MAX, (const uint8_t *)"abc", 3), PV_OUTSIDE_CLAIM);
    IS(pv_claim_write(&publisher, 97, (const uint8_t *)"abc", 3), PV_DONE);

    IS(pv_next(&reader, room, 4, &frame), PV_ROOM_TOO_SMALL);
    IS(frame.position, 64);
    IS(frame.length, 5);
    IS(pv_advance(&reader), PV_DONE);
    IS(pv_next(&reader, room, 5, &frame), PV_FRAME);
    IS(frame.flags, 192);
    IS(pv_advance(&reader), PV_FRAME);
    IS(pv_next(&reader, room, sizeof room, &frame), PV_DONE);
    IS(frame.length, 5);
    IS(pv_commit(&publisher, &position), PV_DONE);
    IS(position, 288);
    IS(pv_share(&publisher, &position), PV_DONE);
    IS(position, 224);
    IS(pv_next(&reader, room, sizeof room, &frame), PV_FRAME);
    IS(frame.position, 128);
    IS(frame.length, 100);
    IS(memcmp(room + 96, "\0abc", 4), 0);
    IS(pv_advance(&reader), PV_FRAME);

    /* a handle that is freed with its claim open leaves a padding */
    IS(pv_claim(&other, 10, &position), PV_DONE);
    pv_free_publisher(&other);
    IS(pv_commit(&other, &position), PV_EMPTY_HANDLE);
    IS(pv_next(&reader, room, 0, &frame), PV_FRAME);
    IS(frame.is_data, false);
    IS(frame.length, 0);
    IS(pv_advance(&reader), PV_FRAME);

    for (int k = 0; k < 7; k++) {
        pv_reader joined = PV_EMPTY;
        IS(pv_join(&keeper, &joined), PV_DONE);
        pv_free_reader(&joined);
    }
    IS(pv_join(&keeper, &second), PV_FULL);
    IS(pv_set_closed(&keeper), PV_DONE);
    IS(pv_offer(&publisher, bytes, 1, &position), PV_CLOSED);
    pv_free_log(&log);
    pv_free_publisher(&publisher);
    pv_free_publisher(&publisher);
    pv_free_reader(&reader);
    pv_free_keeper(&keeper);
    IS(pv_clean_and_limit(&keeper, &position), PV_EMPTY_HANDLE);
}

/* Whole messages: of several frames, longer than the room, and longer than the greatest. */
static void messages(void) {
    pv_log log = PV_EMPTY;
    pv_publisher publisher = PV_EMPTY;
    pv_reader reader = PV_EMPTY, second = PV_EMPTY;
    pv_messages read = PV_EMPTY, other = PV_EMPTY;
    pv_keeper keeper = PV_EMPTY;
    static uint8_t message[5001], room[5000];
    size_t length = 7;
    uint64_t position = 99;
    pv_frame frame;
    for (size_t k = 0; k < sizeof message; k++) message[k] = (uint8_t)(k % 251);
    IS(pv_next_message(&read, room, sizeof room, &length), PV_EMPTY_HANDLE);
    IS(pv_messages_position(&read, &position), PV_EMPTY_HANDLE);
    IS(pv_open_messages(&reader, 5000, &read), PV_EMPTY_HANDLE);
    IS(pv_open(&good, &log), PV_DONE);
    IS(pv_take_publisher(&log, &publisher), PV_DONE);
    IS(pv_take_reader(&log, &reader), PV_DONE);
    IS(pv_take_keeper(&log, &keeper), PV_DONE);
    IS(pv_set_connected(&keeper, true), PV_DONE);
    IS(pv_clean_and_limit(&keeper, &position), PV_DONE);
    IS(pv_join(&keeper, &second), PV_DONE);
    IS(pv_open_messages((pv_reader *)&keeper, 5000, &read), PV_WRONG_HANDLE);
    IS(pv_next_message((pv_messages *)&reader, room, sizeof room, &length), PV_WRONG_HANDLE);
    IS(pv_messages_position((pv_messages *)&reader, &position), PV_WRONG_HANDLE);

    /* a reader that has looked and found none has read nothing; one that found a frame has */
    IS(pv_next(&reader, room, sizeof room, &frame), PV_DONE);
    IS(pv_open_messages(&reader, 5000, &read), PV_DONE);
    IS(pv_next(&reader, room, sizeof room, &frame), PV_EMPTY_HANDLE);
    IS(pv_offer(&publisher, message, 3, &position), PV_DONE);
    IS(pv_next(&second, room, 2, &frame), PV_ROOM_TOO_SMALL);
    IS(pv_open_messages(&second, 5000, &other), PV_HAS_READ);
    IS(pv_next(&second, room, sizeof room, &frame), PV_FRAME);
    IS(pv_open_messages(&second, 5000, &other), PV_HAS_READ);
    IS(pv_advance(&second), PV_FRAME);
    IS(pv_open_messages(&second, 5000, &other), PV_HAS_READ);
    IS(pv_advance(&second), PV_DONE);

    IS(length, 7);
    room[0] = 99;
    IS(pv_next_message(&read, room, 2, &length), PV_ROOM_TOO_SMALL);
    IS(length, 3);
    IS(room[0], 99);
    IS(pv_messages_position(&read, &position), PV_DONE);
    IS(position, 128);
    IS(pv_next_message(&read, room, 0, &length), PV_ROOM_TOO_SMALL);
    IS(pv_next_message(&read, room, 3, &length), PV_FRAME);
    IS(length, 3);
    IS(memcmp(room, message, 3), 0);
    length = 7;
    IS(pv_next_message(&read, room, sizeof room, &length), PV_DONE);
    IS(length, 7);

    /* four frames; one too many bytes; none; and a claim that is aborted, which is no message */
    IS(pv_offer(&publisher, message, 5000, &position), PV_DONE);
    IS(pv_offer(&publisher, message, 5001, &position), PV_DONE);
    IS(pv_offer(&publisher, message, 0, &position), PV_DONE);
    IS(pv_claim(&publisher, 10, &position), PV_DONE);
    IS(pv_abort(&publisher, &position), PV_DONE);
    IS(pv_next_message(&read, room, 4999, &length), PV_ROOM_TOO_SMALL);
    IS(length, 5000);
    IS(pv_next_message(&read, room, sizeof room, &length), PV_FRAME);
    IS(length, 5000);
    IS(memcmp(room, message, 5000), 0);
    IS(pv_next_message(&read, room, sizeof room, &length), PV_MESSAGE_TOO_LONG);
    IS(length, 5000);
    IS(pv_next_message(&read, room, 0, &length), PV_FRAME);
    IS(length, 0);
    IS(pv_next_message(&read, room, sizeof room, &length), PV_DONE);
    uint64_t stands;
    IS(pv_messages_position(&read, &stands), PV_DONE);
    IS(stands, position);

    pv_free_log(&log);
    pv_free_publisher(&publisher);
    pv_free_messages(&read);
    pv_free_messages(&read);
    pv_free_messages(&other);
    pv_free_reader(&reader);
    pv_free_reader(&second);
    pv_free_keeper(&keeper);
}

static void cores(void) {
    pv_log log = PV_EMPTY;
    pv_publisher publisher = PV_EMPTY;
    pv_reader reader = PV_EMPTY;
    pv_keeper keeper = PV_EMPTY;
    pv_sender sender = PV_EMPTY, other = PV_EMPTY;
    pv_subscriber subscriber = PV_EMPTY;
    pv_subscription asked = {.receiver = 5, .greatest = 100, .session = 1, .stream = 2, .window = 32768};
    static uint8_t message[300], datagram[1408], reply[40], room[100];
    size_t length = 7, frames = 7;
    uint64_t position;
    int32_t outcome = 99, outcomes[2] = {99, 99};
    IS(pv_open(&good, &log), PV_DONE);
    IS(pv_take_publisher(&log, &publisher), PV_DONE);
    IS(pv_take_reader(&log, &reader), PV_DONE);
    IS(pv_take_keeper(&log, &keeper), PV_DONE);
    IS(pv_set_connected(&keeper, true), PV_DONE);
    IS(pv_clean_and_limit(&keeper, &position), PV_DONE);

    IS(pv_sender_tick(&sender, 0), PV_EMPTY_HANDLE);
    IS(pv_tick(&keeper.handle, 0), PV_WRONG_HANDLE);
    IS(pv_next_datagram(&reader.handle, datagram, sizeof datagram, &length), PV_WRONG_HANDLE);
    IS(pv_open_sender((pv_reader *)&keeper, 0, &sender), PV_WRONG_HANDLE);
    IS(pv_open_sender(&reader, 9, &sender), PV_BAD_GROUP);
    IS(pv_advance(&reader), PV_DONE);
    IS(pv_open_sender(&reader, 0, &sender), PV_DONE);
    IS(pv_open_sender(&reader, 0, &other), PV_EMPTY_HANDLE);
    IS(pv_poll((pv_subscriber *)&sender, room, sizeof room, &length), PV_WRONG_HANDLE);
    IS(pv_open_subscriber(&asked, &subscriber), PV_DONE);
    IS(pv_hear((pv_sender *)&subscriber, datagram, 1, 0, &outcome), PV_WRONG_HANDLE);
    IS(pv_poll(&subscriber, room, sizeof room, &length), PV_NO_IMAGE);
    IS(pv_poll(&subscriber, room, 99, &length), PV_ROOM_TOO_SMALL);
    IS(pv_receive(&subscriber, datagram, 3, 0, outcomes, 2, &frames), PV_DONE);
    IS(frames, 1);
    IS(outcomes[0], PV_F1_SHORT);
    IS(outcomes[1], 99);
    IS(pv_hear(&sender, datagram, 3, 0, &outcome), PV_DONE);
    IS(outcome, PV_F1_SHORT);

    /* a SETUP opens the image; a status message comes of it, and has to be taken before the next moment */
    IS(pv_sender_tick(&sender, 1), PV_DONE);
    IS(pv_sender_tick(&sender, 2), PV_UNSENT);
    IS(pv_hear(&sender, reply, 40, 2, &outcome), PV_UNSENT);
    IS(pv_sender_next(&sender, datagram, 39, &length), PV_ROOM_TOO_SMALL);
    IS(length, 7);
    IS(pv_sender_next(&sender, datagram, sizeof datagram, &length), PV_FRAME);
    IS(length, 40);
    IS(pv_sender_next(&sender, room, sizeof room, &frames), PV_DONE);
    IS(pv_receive(&subscriber, datagram, length, 1, outcomes, 0, &frames), PV_DONE);
    IS(outcomes[0], PV_F1_SHORT);
    IS(pv_receive(&subscriber, datagram, length, 1, outcomes, 2, &frames), PV_DONE);
    IS(outcomes[0], PV_KEPT);
    IS(pv_poll(&subscriber, room, sizeof room, &frames), PV_DONE);
    IS(pv_subscriber_tick(&subscriber, 1), PV_DONE);
    IS(pv_subscriber_tick(&subscriber, 1), PV_UNSENT);
    IS(pv_subscriber_next(&subscriber, reply, 35, &length), PV_ROOM_TOO_SMALL);
    IS(pv_subscriber_next(&subscriber, reply, sizeof reply, &length), PV_FRAME);
    IS(length, 36);
    IS(pv_subscriber_next(&subscriber, reply, sizeof reply, &frames), PV_DONE);
    IS(pv_hear(&sender, reply, length, 2, &outcome), PV_DONE);
    IS(outcome, PV_STATUS);

    /* two messages in one datagram, the second of which is longer than the greatest */
    memset(message, 'm', sizeof message);
    IS(pv_offer(&publisher, message, 100, &position), PV_DONE);
    IS(pv_offer(&publisher, message, 101, &position), PV_DONE);
    IS(pv_sender_tick(&sender, 3), PV_DONE);
    IS(pv_sender_next(&sender, datagram, sizeof datagram, &length), PV_FRAME);
    IS(pv_receive(&subscriber, datagram, length, 3, outcomes, 2, &frames), PV_DONE);
    IS(frames, 2);
    IS(outcomes[0], PV_STORED);
    IS(outcomes[1], PV_STORED);
    IS(pv_receive(&subscriber, datagram, length, 3, outcomes, 1, &frames), PV_DONE);
    IS(frames, 2);
    IS(outcomes[0], PV_DUPLICATE);
    IS(outcomes[1], PV_STORED);
    IS(pv_poll(&subscriber, room, 99, &length), PV_ROOM_TOO_SMALL);
    IS(pv_poll(&subscriber, room, sizeof room, &length), PV_FRAME);
    IS(length, 100);
    IS(memcmp(room, message, 100), 0);
    IS(pv_poll(&subscriber, room, sizeof room, &length), PV_MESSAGE_TOO_LONG);
    IS(pv_poll(&subscriber, room, sizeof room, &length), PV_DONE);
    pv_free_subscriber(&subscriber);
    pv_free_sender(&sender);
    pv_free_sender(&sender);
    pv_free_sender(&other);
    pv_free_log(&log);
    pv_free_publisher(&publisher);
    pv_free_reader(&reader);
    pv_free_keeper(&keeper);
}

int main(void) {
    opening();
    calls();
    messages();
    cores();
    if (!wrong) puts("codes as told");
    return wrong;
}
