/* A log that threads share without a lock: publishers offer messages or claim room for them, readers read frames or whole
   messages, a keeper cleans behind the readers and raises the limit. A sender and a subscriber carry its stream over a network: the caller brings
   sockets and a clock. docs/LIBRARY.md tells how to link it and what is proved of it.

   Handles. A handle begins as PV_EMPTY and is the library's from then on: its fields are neither read nor written. It is moved,
   never copied: after `b = a` only `b` is used. A call that puts something into a handle lets go what that held before. A handle
   that holds nothing, or something that the call isn't for, is answered by a code, and nothing changes. pv_free_.. may be called
   at any time, in any order, and again: the log lives until its last handle is freed, and an open claim is aborted then.

   Threads. A handle is used by one call at a time. Different handles of one log are used from any threads at once, with no
   lock. A handle goes to another thread by that thread's start or join, by a lock, or by a sequentially consistent atomic. No
   call blocks, and of the log's none but pv_open, pv_take_.., pv_join, pv_open_messages, pv_next_message and pv_free_.. takes or
   gives back memory.

   Pointers are not null, valid for the call, and no two arguments of a call overlap. No call is made from a signal handler, nor in
   the child of a process with threads after fork. malloc, realloc and free are one allocator, aligned to 16 bytes. */
#ifndef PECHVANG_H
#define PECHVANG_H

#include <stdbool.h>
#include <stddef.h>
#include <stdint.h>

#ifdef __cplusplus
extern "C" {
#endif

#define PV_VERSION_MAJOR 0
#define PV_VERSION_MINOR 2
#define PV_VERSION_PATCH 0
#define PV_VERSION "0.2.0"

/* ---- handles: a type for each kind, so that the compiler tells them apart */

typedef struct pv_handle {
    void *at;
    bool is_open;
} pv_handle;

typedef struct pv_log { pv_handle handle; } pv_log;
typedef struct pv_publisher { pv_handle handle; } pv_publisher;
typedef struct pv_reader { pv_handle handle; } pv_reader;
typedef struct pv_messages { pv_handle handle; } pv_messages;
typedef struct pv_keeper { pv_handle handle; } pv_keeper;
typedef struct pv_subscriber { pv_handle handle; } pv_subscriber;
typedef struct pv_sender { pv_handle handle; } pv_sender;

#define PV_EMPTY {{0, false}}

/* ---- codes */

typedef enum pv_code {
    PV_DONE = 0,                /* done; pv_next, pv_next_message, pv_poll, pv_.._next: none there yet; pv_advance: none was read */
    PV_FRAME = 1,               /* a frame was read or passed; pv_next_message, pv_poll: a message; pv_.._next: a datagram to send */
    PV_NOT_CONNECTED = -1,      /* nobody is connected, and the tail is at the limit */
    PV_BACK_PRESSURED = -2,     /* the tail is at the limit */
    PV_ADMIN_ACTION = -3,       /* a term came to its end: offer again */
    PV_CLOSED = -4,             /* the log is closed, for good */
    PV_MAX_POSITION = -5,       /* the last term is used up, for good */
    PV_TOO_LONG = -6,           /* an offer above an eighth of a term, a claim above the MTU less 32 */
    PV_ROOM_TOO_SMALL = -7,     /* what is to be written may be longer than the room; it stays, and nothing is lost */
    PV_CLAIM_OPEN = -8,         /* a claim is open: commit or abort it first */
    PV_NO_CLAIM = -9,           /* no claim is open */
    PV_OUTSIDE_CLAIM = -10,     /* these bytes aren't all inside the claim */
    PV_UNSENT = -11,            /* datagrams are left that weren't taken: pv_.._next first */
    PV_NO_IMAGE = -12,          /* no SETUP has opened an image yet */
    PV_MESSAGE_TOO_LONG = -13,  /* a message is longer than the greatest: it was passed */
    PV_EMPTY_HANDLE = -16,      /* the handle holds nothing */
    PV_WRONG_HANDLE = -17,      /* the handle holds something else */
    PV_NONE_LEFT = -18,         /* all of this kind are taken */
    PV_NO_MEMORY = -19,         /* memory was refused */
    PV_BAD_TERM_LENGTH = -20,   /* not a power of two from 65,536 to 16,777,216 */
    PV_BAD_MTU = -21,           /* not a multiple of 32 from 256 to 65,504, or more than an eighth of a term */
    PV_BAD_START = -22,         /* not a multiple of 32, or not below the greatest position */
    PV_BAD_CONSUMERS = -23,     /* not from 1 to 8 */
    PV_FULL = -24,              /* eight readers are there */
    PV_BAD_GROUP = -25,         /* more than 8 receivers */
    PV_HAS_READ = -26           /* the reader has found a frame already */
} pv_code;

static inline const char *pv_code_text(int32_t code) {
    switch (code) {
    case PV_DONE: return "done";
    case PV_FRAME: return "a frame";
    case PV_NOT_CONNECTED: return "nobody is connected";
    case PV_BACK_PRESSURED: return "the tail is at the limit";
    case PV_ADMIN_ACTION: return "a term came to its end";
    case PV_CLOSED: return "the log is closed";
    case PV_MAX_POSITION: return "the last term is used up";
    case PV_TOO_LONG: return "the message is too long";
    case PV_ROOM_TOO_SMALL: return "the room is too small";
    case PV_CLAIM_OPEN: return "a claim is open";
    case PV_NO_CLAIM: return "no claim is open";
    case PV_OUTSIDE_CLAIM: return "bytes outside the claim";
    case PV_UNSENT: return "datagrams are left";
    case PV_NO_IMAGE: return "no image is open";
    case PV_MESSAGE_TOO_LONG: return "a message was too long";
    case PV_EMPTY_HANDLE: return "the handle holds nothing";
    case PV_WRONG_HANDLE: return "the handle holds something else";
    case PV_NONE_LEFT: return "all of this kind are taken";
    case PV_NO_MEMORY: return "memory was refused";
    case PV_BAD_TERM_LENGTH: return "the term length is out of range";
    case PV_BAD_MTU: return "the MTU is out of range";
    case PV_BAD_START: return "the start is out of range";
    case PV_BAD_CONSUMERS: return "there are from 1 to 8 consumers";
    case PV_FULL: return "eight readers are there";
    case PV_BAD_GROUP: return "a group has at most 8 receivers";
    case PV_HAS_READ: return "the reader has found a frame already";
    default: return "no code of this library";
    }
}

/* ---- a log */

typedef struct pv_config {
    uint32_t term_length;       /* bytes: a power of two from 65,536 to 16,777,216 */
    uint32_t mtu;               /* the most bytes of one frame: a multiple of 32 from 256 to an eighth of a term, 65,504 at most */
    int32_t initial_term_id;
    int32_t session;
    int32_t stream;
    uint32_t consumers;         /* readers at the start: from 1 to 8 */
    uint64_t start;             /* the position at which the stream begins, a multiple of 32 */
} pv_config;

/* Opens a log with eight publishers, its readers and its keeper. It is unconnected: offers are refused until the keeper says
   otherwise and raises the limit. */
int32_t pv_open(const pv_config *config, pv_log *log);

/* Each takes the first that nobody took yet. */
int32_t pv_take_publisher(pv_log *log, pv_publisher *publisher);
int32_t pv_take_reader(pv_log *log, pv_reader *reader);
int32_t pv_take_keeper(pv_log *log, pv_keeper *keeper);

/* ---- a publisher: an offer, or a claim that is written and then committed or aborted */

/* PV_DONE, and the position behind the message's frames; or a refusal. */
int32_t pv_offer(pv_publisher *publisher, const uint8_t *message, size_t length, uint64_t *position);

/* PV_DONE, and the position at which the claim begins: it has `length` zeros. Readers wait before it until it ends. */
int32_t pv_claim(pv_publisher *publisher, size_t length, uint64_t *start);

/* PV_DONE: the claim has these bytes from the offset on. PV_OUTSIDE_CLAIM: they don't lie inside it, and nothing is written. */
int32_t pv_claim_write(pv_publisher *publisher, size_t offset, const uint8_t *bytes, size_t length);

/* PV_DONE, and the position behind the claim: with its message, or as a padding that readers pass. */
int32_t pv_commit(pv_publisher *publisher, uint64_t *position);
int32_t pv_abort(pv_publisher *publisher, uint64_t *position);

/* How many bytes of the stream all claims and offers of the publisher cover. */
int32_t pv_share(pv_publisher *publisher, uint64_t *share);

/* ---- a reader */

typedef struct pv_frame {
    uint64_t position;          /* where it starts */
    size_t length;              /* of its payload; 0 of a padding */
    uint8_t flags;              /* 128 where a message begins, 64 where it ends, 192 of a whole one and of a padding */
    bool is_data;               /* else it is a padding, to be passed */
} pv_frame;

/* PV_FRAME: the frame where the reader stands, its payload at the front of the room; the reader stays. PV_DONE: none yet.
   PV_ROOM_TOO_SMALL: nothing is read, and `frame` has the length that the room has to have. */
int32_t pv_next(pv_reader *reader, uint8_t *room, size_t size, pv_frame *frame);

/* PV_FRAME: the reader stands behind the frame that it read. PV_DONE: it had read none. */
int32_t pv_advance(pv_reader *reader);

/* ---- whole messages, in place of frames */

/* The reader, for which pv_next has answered nothing but PV_DONE, becomes that of its log's messages from where it stands on, each
   of at most so many bytes, and its handle is empty then. Where it is declined the reader stays. */
int32_t pv_open_messages(pv_reader *reader, size_t greatest, pv_messages *messages);

/* PV_FRAME: a whole message stands at the front of the room, the next one. PV_DONE: none is whole yet. PV_ROOM_TOO_SMALL: `length` has
   the length that the room has to have, and the message waits for the next call. After PV_MESSAGE_TOO_LONG and PV_NO_MEMORY that
   message is lost, and the next call goes on behind it. */
int32_t pv_next_message(pv_messages *messages, uint8_t *room, size_t size, size_t *length);

/* PV_DONE, and the position behind all that was given, and behind a message that waits. */
int32_t pv_messages_position(pv_messages *messages, uint64_t *position);

/* ---- the keeper */

/* Cleans what all readers have left behind by a term or more, and raises the limit to half a term above the least of them. */
int32_t pv_clean_and_limit(pv_keeper *keeper, uint64_t *limit);

/* Says whether somebody receives the stream: else offers are refused. Closing is for good. */
int32_t pv_set_connected(pv_keeper *keeper, bool connected);
int32_t pv_set_closed(pv_keeper *keeper);

/* Opens a further reader, at the position of the least one; PV_FULL where eight are there. */
int32_t pv_join(pv_keeper *keeper, pv_reader *reader);

/* ---- a subscriber and a sender: datagrams and moments in, datagrams out one by one. Moments are nanoseconds of any clock that
   doesn't go back. Until pv_.._next has answered PV_DONE pv_.._tick and pv_hear answer PV_UNSENT, and nothing changes. */

/* What became of a frame, or of a datagram. */
typedef enum pv_outcome {
    PV_STORED = 1,              /* I1: the frame is held from now on */
    PV_DUPLICATE = 2,           /* I2: it was held already */
    PV_BELOW = 3,               /* I3: it starts below the subscriber */
    PV_OVER_WINDOW = 4,         /* I4: it ends above the window */
    PV_OVERLAP = 5,             /* I5: it would overlap a held one */
    PV_CROSSES_TERM = 6,        /* I6: it would pass the end of its term */
    PV_HEARTBEAT = 10,          /* a heartbeat met the image */
    PV_OPENED = 11,             /* a SETUP opened the image */
    PV_KEPT = 12,               /* a SETUP met the image */
    PV_ASKED = 13,              /* there is no image: a SETUP will be asked for; of a sender: one was asked for */
    PV_OTHER = 14,              /* another session, stream or kind */
    PV_STATUS = 15,             /* a sender took a status message */
    PV_NAK_TAKEN = 21,          /* N1: what was asked for will be sent again */
    PV_NAK_LINGERS = 22,        /* N2: the same was asked for just now */
    PV_NAK_FULL = 23,           /* N3: 16 are kept already */
    PV_NAK_OUT_OF_RANGE = 24,   /* N4 */
    PV_NAK_NO_FRAME = 25,       /* N5: no frame starts there */
    PV_SETUP_GEOMETRY = -1,     /* S1: a SETUP's term length or MTU is out of range */
    PV_SETUP_POSITION = -2,     /* S2: its position is none of the stream */
    PV_SETUP_WINDOW = -3,       /* S3: the window is none of that geometry */
    PV_F1_SHORT = -11,          /* F1 to F8: the datagram can't be read */
    PV_F2_VERSION = -12,
    PV_F3_TYPE = -13,
    PV_F4_LENGTH = -14,
    PV_F5_FLAGS = -15,
    PV_F6_ALIGNMENT = -16,
    PV_F7_RANGE = -17,
    PV_F8_DATAGRAM = -18
} pv_outcome;

typedef struct pv_subscription {
    int64_t receiver;           /* the receiver's id: any of a single one, from 0 on in a group */
    size_t greatest;            /* the most bytes of a message: an eighth of a term, or less */
    int32_t session;
    int32_t stream;
    uint32_t window;            /* bytes: a multiple of 32 from the MTU to half a term, or each SETUP is refused */
} pv_subscription;

/* A subscriber without an image: a SETUP of its session and stream opens one. */
int32_t pv_open_subscriber(const pv_subscription *config, pv_subscriber *subscriber);

/* PV_DONE, and of how many frames the datagram is; what became of them is written as far as there is room. After PV_NO_MEMORY
   it may be handed in again. */
int32_t pv_receive(pv_subscriber *subscriber, const uint8_t *datagram, size_t length, uint64_t now, int32_t *outcomes, size_t size, size_t *frames);

/* PV_FRAME: a whole message stands at the front of the room, which has to hold the greatest, else nothing is read. PV_DONE: none
   is whole yet. After PV_MESSAGE_TOO_LONG and PV_NO_MEMORY that message is passed. */
int32_t pv_poll(pv_subscriber *subscriber, uint8_t *room, size_t size, size_t *length);

/* The reader becomes a sender of its log, from where it stands on, and its handle is empty then: to one receiver (0), or to a
   group of 1 to 8. Where it is declined the reader stays. */
int32_t pv_open_sender(pv_reader *reader, uint32_t group, pv_sender *sender);

/* PV_DONE, and what became of the datagram. */
int32_t pv_hear(pv_sender *sender, const uint8_t *datagram, size_t length, uint64_t now, int32_t *outcome);

/* Takes a moment: often, every millisecond or so. */
int32_t pv_tick(pv_handle *core, uint64_t now);

/* PV_FRAME: a datagram stands at the front of the room, to be sent: to the subscriber's publisher, or the sender's receivers. It
   has at most the MTU's bytes, and a subscriber's 40. PV_DONE: none is left. */
int32_t pv_next_datagram(pv_handle *core, uint8_t *room, size_t size, size_t *length);

static inline int32_t pv_subscriber_tick(pv_subscriber *subscriber, uint64_t now) { return pv_tick(&subscriber->handle, now); }
static inline int32_t pv_sender_tick(pv_sender *sender, uint64_t now) { return pv_tick(&sender->handle, now); }

static inline int32_t pv_subscriber_next(pv_subscriber *subscriber, uint8_t *room, size_t size, size_t *length) {
    return pv_next_datagram(&subscriber->handle, room, size, length);
}

static inline int32_t pv_sender_next(pv_sender *sender, uint8_t *room, size_t size, size_t *length) {
    return pv_next_datagram(&sender->handle, room, size, length);
}

/* ---- freeing */

void pv_free(pv_handle *handle);

static inline void pv_free_log(pv_log *log) { pv_free(&log->handle); }
static inline void pv_free_publisher(pv_publisher *publisher) { pv_free(&publisher->handle); }
static inline void pv_free_reader(pv_reader *reader) { pv_free(&reader->handle); }
static inline void pv_free_messages(pv_messages *messages) { pv_free(&messages->handle); }
static inline void pv_free_keeper(pv_keeper *keeper) { pv_free(&keeper->handle); }
static inline void pv_free_subscriber(pv_subscriber *subscriber) { pv_free(&subscriber->handle); }
static inline void pv_free_sender(pv_sender *sender) { pv_free(&sender->handle); }

#ifdef __cplusplus
}
#endif
#endif
