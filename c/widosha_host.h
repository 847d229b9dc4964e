/* A host's side of the driver service, for any program in C99 or C++11: a struct with the slices, a wrapper for start and for
 * each of the eleven calls, and accessors for the reply, the line and the pool. It is this header alone; nothing is allocated, and
 * nothing is kept outside the struct.
 *
 * It includes widosha.h (folder include), which says what each call, action, answer and refusal is, and needs the library
 * driver_c. c/weighing.c is an example. Zero the struct before its first start, as `static struct widosha_host host;` does.
 * c/widosha_loop.h has the loop between a radio, the service and a host over it, and c/hub.c is an example of that.
 *
 * A wrapper returns what the function returns, 0 or the number of the refusal. After a refusal state, line, pool and the
 * action are as before, and the reply is empty. gcc and clang warn where what a wrapper returns is dropped, and, with -Wextra, where a
 * code of another family is passed, as an outcome for a result; in C++ this is an error.
 *
 * One call at a time, and its answers are read before the next call: every call writes the reply anew, so after an arrival, a
 * withdrawal or a refused call the answers of the call before are gone, and an answer that is not read is given by no later call. So a
 * host that calls from interrupts too has to hold them back from before a call until it has read the action and all answers; and who
 * makes calls while he reads answers, as an arrival with the buffer that the first one returned, copies both before.
 *
 * Which buffers the host must not touch. From start on the pool is lent to the service, and the radio writes into some of its
 * buffers.
 * - The service's two own buffers are never the host's. They are those of start until a receiving buffer is exchanged for the
 *   spare one; then an answer returns another buffer than was handed in, so what counts is the number in the answer.
 * - A request's buffer is not the host's from widosha_host_arrive on, until the request is withdrawn or its answer returns a
 *   buffer. A frame to send is written before that. All other buffers are the host's, to read and to write:
 *   those of which widosha_host_holds says 0.
 * - The radio writes into the buffer that an Rx action named, until the service is told what came of it (entered, fallback, or
 *   stopped with an ended window); after a rollback it writes on. A radio that receives has the buffer of the Rx before until it enters
 *   the new one, so the host keeps both numbers: no later action has them. It reads the one that a Tx action named, until that is told as
 *   sent, or as not begun.
 * A radio's DMA may be at work while a call runs, although the pool is passed whole. As the code stands, a call reads of frames:
 * request, the first three bytes of the one that leaves the line; header, those told as arrived; entered and fallback, the first
 * three of a frame where an ACK was awaited. It writes into the ACK buffer's frame alone: start three bytes, header one. No
 * contract says that (what is proved takes a call's slices to be its own), but host/tests/dma.rs tests it.
 *
 * The fence. The radio tells by a register that bytes are in the pool, and a call reads them as plain memory. Without a fence between
 * the two, compiler or core may read them before they were there. So the wrappers of header, entered and fallback begin with
 * WIDOSHA_FENCE(), and that of stopped, after which a buffer that the radio wrote may be the host's. The host puts one itself before it
 * writes the register by which the radio begins a Tx or an Rx: what the host and the calls have written is then there before the radio
 * reads it, and what they have read before the radio writes over it.
 * As defined here the fence holds back the compiler alone. Where the core may reorder, define WIDOSHA_FENCE() before this header as
 * what the core has for it, as __DMB(). A data cache over the pool has to be cleaned and invalidated too, which no fence does; and as
 * 144 is no multiple of 32 or 64, neighbouring buffers have cache lines in common: to invalidate those of one drops what was just
 * written into the other, as an ACK's number. A pool in memory that is not cached has neither trouble. */
#ifndef WIDOSHA_HOST_H
#define WIDOSHA_HOST_H

#include "widosha.h"

#ifndef WIDOSHA_FENCE
#if defined(__GNUC__)
#define WIDOSHA_FENCE() __asm__ __volatile__("" ::: "memory")
#elif defined(__cplusplus)
#include <atomic>
#define WIDOSHA_FENCE() std::atomic_signal_fence(std::memory_order_seq_cst)
#elif defined(__STDC_VERSION__) && __STDC_VERSION__ >= 201112L && !defined(__STDC_NO_ATOMICS__)
#include <stdatomic.h>
#define WIDOSHA_FENCE() atomic_signal_fence(memory_order_seq_cst)
#else
#error "define WIDOSHA_FENCE() as what keeps reads and writes of memory from being moved over it"
#endif
#endif

/* Before a function whose result says whether the call was accepted. */
#ifndef WIDOSHA_MUST_USE
#if defined(__GNUC__)
#define WIDOSHA_MUST_USE __attribute__((warn_unused_result))
#else
#define WIDOSHA_MUST_USE
#endif
#endif

/* The bytes of a reply's action, and of one request in the line. */
#define WIDOSHA_HOST_ACTION_LENGTH 12
#define WIDOSHA_HOST_RECORD_LENGTH (WIDOSHA_LINE_LENGTH / WIDOSHA_LINE_CAPACITY)

/* One station. */
struct widosha_host {
    uint8_t state[WIDOSHA_STATE_LENGTH];
    uint8_t line[WIDOSHA_LINE_LENGTH];
    uint8_t reply[WIDOSHA_REPLY_LENGTH]; /* of the last call, all 0 if it was refused */
    uint8_t action[WIDOSHA_HOST_ACTION_LENGTH]; /* the one that stands: that of the last reply which has one */
    uint8_t *pool; /* lent at start: count buffers of WIDOSHA_BUFFER_LENGTH bytes */
    uint8_t count;
};

/* The numbers of widosha_start but the count. */
struct widosha_host_settings {
    uint8_t headroom;
    uint8_t tailroom;
    uint8_t fcs_length;
    uint64_t hardware_addr;
    uint16_t pan_id;
    uint8_t implicit_broadcast;
    uint8_t ack_buffer;
    uint8_t spare_buffer;
};

/* The numbers of widosha_arrive; so also what is known of a request that waits. */
struct widosha_host_arrival {
    uint32_t token;
    enum widosha_direction direction;
    enum widosha_start_code start;
    uint64_t time;
    uint8_t buffer;
    uint16_t length;
    uint8_t cca;
};

/* One answer of a reply. */
struct widosha_host_answer {
    uint32_t token;
    uint8_t buffer; /* the host's again */
    enum widosha_answer_code outcome;
    uint8_t length; /* of a received frame, without checksum */
    uint64_t time; /* sent, received, or that of the cause */
    uint8_t quality; /* of a received or damaged frame */
};

/* ---- The version, and what refusals say */

/* 1 if this header and the linked library are of one version, else 0: then no call may be made. */
static inline int widosha_host_version_fits(void)
{
    return widosha_abi_version() == WIDOSHA_ABI_VERSION;
}

/* The sentence of a refusal. */
static inline const char *widosha_host_refusal(uint8_t refusal)
{
    switch (refusal) {
    case 0:
        return "Accepted.";
    case WIDOSHA_REFUSAL_STATE:
        return "A slice has the wrong length, or its bytes are no state, or no line that fits the state.";
    case WIDOSHA_REFUSAL_COUNT:
        return "The count of buffers is not 3 to 32, or the pool is not 144 bytes for each of them.";
    case WIDOSHA_REFUSAL_ROOMS:
        return "Headroom or tailroom is over 8, the checksum length is neither 2 nor 4, or implicit_broadcast is over 1.";
    case WIDOSHA_REFUSAL_OWN_BUFFERS:
        return "The two own buffers are equal, or one of them is not below the count.";
    case WIDOSHA_REFUSAL_UNFIT:
        return "The call or its outcome does not fit the wait or what waits, or a code stands for nothing.";
    case WIDOSHA_REFUSAL_TOKEN_HELD:
        return "An unanswered request that has left the line has the token.";
    case WIDOSHA_REFUSAL_BUFFER_HELD:
        return "The buffer is not below the count, or it is held.";
    case WIDOSHA_REFUSAL_TX_LENGTH:
        return "The length of the frame to send is under 3, or over 127 less the checksum length.";
    case WIDOSHA_REFUSAL_NOT_ALLOWED:
        return "No request waits whose direction and start the wait allows.";
    case WIDOSHA_REFUSAL_RECEIVED_LENGTH:
        return "A received length is 0, or it or the arrived bytes are over 127 less the checksum length.";
    case WIDOSHA_REFUSAL_ENTRY_TOO_LATE:
        return "The entry that begins a wait for an acknowledgement plus 10,000 exceeds 64 bits.";
    case WIDOSHA_REFUSAL_LINE_FULL:
        return "Four requests wait.";
    case WIDOSHA_REFUSAL_TOKEN_WAITS:
        return "A request with the token waits; or none does to withdraw, or OutboundSeen has named it and its stop or ask is open.";
    case WIDOSHA_REFUSAL_FRAME_LENGTH:
        return "A frame with its checksum has under 3 or over 127 bytes.";
    default:
        return "No refusal has this number.";
    }
}

/* ---- Start and the calls; widosha.h says what each is for */

/* The four slices, as each call takes them. */
#define WIDOSHA_HOST_SLICES(host) \
    (host)->state, sizeof (host)->state, (host)->line, sizeof (host)->line, (host)->reply, sizeof (host)->reply, \
    (host)->pool, (size_t)(host)->count * WIDOSHA_BUFFER_LENGTH

/* What follows each call: the action that stands, and an empty reply after a refusal, so that no answer is read twice. */
static inline uint8_t widosha_host_called(struct widosha_host *host, uint8_t refusal)
{
    size_t at;
    if (refusal != 0) {
        for (at = 0; at < WIDOSHA_REPLY_LENGTH; at++)
            host->reply[at] = 0;
    } else if (host->reply[0] != WIDOSHA_ACTION_NOTHING) {
        for (at = 0; at < WIDOSHA_HOST_ACTION_LENGTH; at++)
            host->action[at] = host->reply[at];
    }
    return refusal;
}

/* The pool is lent from an accepted start on: `uint8_t pool[3][WIDOSHA_BUFFER_LENGTH]` has three buffers. Nothing finds a count that
 * is more than the pool has. */
WIDOSHA_MUST_USE static inline uint8_t widosha_host_start(
    struct widosha_host *host, const struct widosha_host_settings *settings, uint8_t (*pool)[WIDOSHA_BUFFER_LENGTH], uint8_t count)
{
    uint8_t *bytes = (uint8_t *)pool;
    uint8_t refusal = widosha_start(
        count, settings->headroom, settings->tailroom, settings->fcs_length, settings->hardware_addr, settings->pan_id,
        settings->implicit_broadcast, settings->ack_buffer, settings->spare_buffer, host->state, sizeof host->state, host->line,
        sizeof host->line, host->reply, sizeof host->reply, bytes, (size_t)count * WIDOSHA_BUFFER_LENGTH);
    if (refusal == 0) {
        host->pool = bytes;
        host->count = count;
    }
    return widosha_host_called(host, refusal);
}

WIDOSHA_MUST_USE static inline uint8_t widosha_host_arrive(struct widosha_host *host, const struct widosha_host_arrival *arrival)
{
    return widosha_host_called(
        host,
        widosha_arrive(
            arrival->token, (uint8_t)arrival->direction, (uint8_t)arrival->start, arrival->time, arrival->buffer, arrival->length,
            arrival->cca, WIDOSHA_HOST_SLICES(host)));
}

WIDOSHA_MUST_USE static inline uint8_t widosha_host_withdraw(struct widosha_host *host, uint32_t token)
{
    return widosha_host_called(host, widosha_withdraw(token, WIDOSHA_HOST_SLICES(host)));
}

WIDOSHA_MUST_USE static inline uint8_t widosha_host_request(struct widosha_host *host)
{
    return widosha_host_called(host, widosha_request(WIDOSHA_HOST_SLICES(host)));
}

WIDOSHA_MUST_USE static inline uint8_t widosha_host_none(struct widosha_host *host)
{
    return widosha_host_called(host, widosha_none(WIDOSHA_HOST_SLICES(host)));
}

WIDOSHA_MUST_USE static inline uint8_t widosha_host_frame_start(struct widosha_host *host)
{
    return widosha_host_called(host, widosha_frame_start(WIDOSHA_HOST_SLICES(host)));
}

WIDOSHA_MUST_USE static inline uint8_t widosha_host_outbound_seen(
    struct widosha_host *host, enum widosha_start_code start, uint64_t time, uint8_t cca)
{
    return widosha_host_called(host, widosha_outbound_seen((uint8_t)start, time, cca, WIDOSHA_HOST_SLICES(host)));
}

WIDOSHA_MUST_USE static inline uint8_t widosha_host_stopped(
    struct widosha_host *host, enum widosha_stop_outcome outcome, uint16_t length, uint64_t time, uint8_t quality)
{
    WIDOSHA_FENCE();
    return widosha_host_called(host, widosha_stopped((uint8_t)outcome, length, time, quality, WIDOSHA_HOST_SLICES(host)));
}

WIDOSHA_MUST_USE static inline uint8_t widosha_host_header(struct widosha_host *host, uint16_t arrived, uint16_t length)
{
    WIDOSHA_FENCE();
    return widosha_host_called(host, widosha_header(arrived, length, WIDOSHA_HOST_SLICES(host)));
}

WIDOSHA_MUST_USE static inline uint8_t widosha_host_entered(
    struct widosha_host *host, enum widosha_result result, uint16_t length, uint64_t time, uint64_t entry, uint8_t quality)
{
    WIDOSHA_FENCE();
    return widosha_host_called(host, widosha_entered((uint8_t)result, length, time, entry, quality, WIDOSHA_HOST_SLICES(host)));
}

WIDOSHA_MUST_USE static inline uint8_t widosha_host_fallback(
    struct widosha_host *host, enum widosha_result result, uint16_t length, uint64_t time, enum widosha_cause cause,
    uint64_t cause_time, uint8_t quality)
{
    WIDOSHA_FENCE();
    return widosha_host_called(
        host, widosha_fallback((uint8_t)result, length, time, (uint8_t)cause, cause_time, quality, WIDOSHA_HOST_SLICES(host)));
}

WIDOSHA_MUST_USE static inline uint8_t widosha_host_rollback(struct widosha_host *host)
{
    return widosha_host_called(host, widosha_rollback(WIDOSHA_HOST_SLICES(host)));
}

#undef WIDOSHA_HOST_SLICES

/* ---- The action that stands. A number that it does not have is 0 */

/* A number of so many bytes, low byte first. */
static inline uint64_t widosha_host_number(const uint8_t *bytes, size_t count)
{
    uint64_t number = 0;
    while (count > 0)
        number = number << 8 | bytes[--count];
    return number;
}

static inline enum widosha_action widosha_host_action(const struct widosha_host *host)
{
    return (enum widosha_action)host->action[0];
}

/* Of Tx and Rx. */
static inline uint8_t widosha_host_buffer(const struct widosha_host *host)
{
    return host->action[1];
}

/* Of Tx, without checksum. */
static inline uint8_t widosha_host_length(const struct widosha_host *host)
{
    return host->action[2];
}

/* WIDOSHA_FLAG_, one or several. */
static inline uint8_t widosha_host_flags(const struct widosha_host *host)
{
    return (uint8_t)(host->action[3] & (WIDOSHA_FLAG_CCA | WIDOSHA_FLAG_ROLLBACK | WIDOSHA_FLAG_AT));
}

/* Of Tx and Rx. */
static inline enum widosha_spacing widosha_host_spacing(const struct widosha_host *host)
{
    return (enum widosha_spacing)(host->action[3] >> WIDOSHA_SPACING_SHIFT & 3);
}

/* Of stop at and stop before; of Tx and Rx only with WIDOSHA_FLAG_AT, as 0 is a time too. */
static inline uint64_t widosha_host_time(const struct widosha_host *host)
{
    return widosha_host_number(host->action + 4, 8);
}

/* ---- The answers of the last call, arrivals, withdrawals and refused calls included, which have none */

/* How many, 0 to 2. */
static inline unsigned widosha_host_answers(const struct widosha_host *host)
{
    return (unsigned)(host->reply[12] != WIDOSHA_ANSWER_NONE) + (unsigned)(host->reply[30] != WIDOSHA_ANSWER_NONE);
}

/* Answer 0 is the earlier request's. One that is not there has the outcome WIDOSHA_ANSWER_NONE. */
static inline struct widosha_host_answer widosha_host_answer_at(const struct widosha_host *host, unsigned which)
{
    struct widosha_host_answer answer = {0, 0, WIDOSHA_ANSWER_NONE, 0, 0, 0};
    const uint8_t *bytes = host->reply + (which == 0 ? 12 : 30);
    if (which < 2) {
        answer.outcome = (enum widosha_answer_code)bytes[0];
        answer.token = (uint32_t)widosha_host_number(bytes + 1, 4);
        answer.buffer = bytes[5];
        answer.length = bytes[6];
        answer.time = widosha_host_number(bytes + 7, 8);
        answer.quality = bytes[15];
    }
    return answer;
}

/* ---- The line: the requests that wait, the earliest arrival at place 0 */

/* How many wait, 0 to 4. */
static inline unsigned widosha_host_waiting(const struct widosha_host *host)
{
    unsigned waiting = 0;
    while (waiting < WIDOSHA_LINE_CAPACITY && host->line[waiting * WIDOSHA_HOST_RECORD_LENGTH] != 0)
        waiting++;
    return waiting;
}

/* The request at a place; if none waits there, all its numbers are 0. So are those that it does not use: the time of one that starts
 * with best effort, length and cca of an Rx. */
static inline struct widosha_host_arrival widosha_host_waiting_at(const struct widosha_host *host, unsigned place)
{
    struct widosha_host_arrival arrival = {0, WIDOSHA_DIRECTION_TX, WIDOSHA_START_BEST_EFFORT, 0, 0, 0, 0};
    if (place < widosha_host_waiting(host)) {
        const uint8_t *record = host->line + place * WIDOSHA_HOST_RECORD_LENGTH;
        arrival.token = (uint32_t)widosha_host_number(record + 4, 4);
        arrival.direction = record[0] == 1 ? WIDOSHA_DIRECTION_TX : WIDOSHA_DIRECTION_RX;
        arrival.start = (enum widosha_start_code)record[1];
        arrival.time = widosha_host_number(record + 8, 8);
        arrival.buffer = record[3];
        arrival.length = (uint16_t)widosha_host_number(record + 16, 2);
        arrival.cca = record[2];
    }
    return arrival;
}

/* 1 if a Tx waits, and then the earliest of them; 0 if none does, and then tx keeps what it has. */
static inline int widosha_host_earliest_tx(const struct widosha_host *host, struct widosha_host_arrival *tx)
{
    unsigned place, waiting = widosha_host_waiting(host);
    for (place = 0; place < waiting; place++) {
        struct widosha_host_arrival arrival = widosha_host_waiting_at(host, place);
        if (arrival.direction == WIDOSHA_DIRECTION_TX) {
            *tx = arrival;
            return 1;
        }
    }
    return 0;
}

/* Tells that the earliest Tx was seen, with its own numbers. If none waits, or if the radio does not listen, it is refused by 5. */
WIDOSHA_MUST_USE static inline uint8_t widosha_host_outbound_seen_earliest(struct widosha_host *host)
{
    struct widosha_host_arrival tx = {0, WIDOSHA_DIRECTION_TX, WIDOSHA_START_BEST_EFFORT, 0, 0, 0, 0};
    (void)widosha_host_earliest_tx(host, &tx);
    return widosha_host_outbound_seen(host, tx.start, tx.time, tx.cca);
}

/* ---- The pool */

/* Whether bytes 20 to 24 of the state are a request's, with its buffer at 24. */
static inline int widosha_host_at_work(const struct widosha_host *host)
{
    switch (host->state[17]) {
    case 0: /* asking: but for idle, and sending an ACK */
        return host->state[18] != 0 && host->state[18] != 5;
    case 1: /* a transition for a request: but out of off, and out of sending an ACK */
        return host->state[18] != 0 && host->state[18] != 3;
    default:
        return 1;
    }
}

/* 1 if the service holds a buffer below the count, 0 if it is the host's: the service's own two, and those of requests that wait or have
 * left the line and are not answered yet. It is what refusal 7 of an arrival goes by. After an accepted start. */
static inline int widosha_host_holds(const struct widosha_host *host, uint8_t buffer)
{
    unsigned place, waiting = widosha_host_waiting(host);
    if (buffer == host->state[15] || buffer == host->state[16] || (widosha_host_at_work(host) && buffer == host->state[24]))
        return 1;
    if (host->state[19] != 0 && buffer == host->state[31]) /* the radio enters a request's task */
        return 1;
    for (place = 0; place < waiting; place++)
        if (widosha_host_waiting_at(host, place).buffer == buffer)
            return 1;
    return 0;
}

/* Where the frame in a buffer begins; NULL if there is no such buffer. After an accepted start. It is given of every buffer, whoever's
 * it is now. */
static inline uint8_t *widosha_host_frame(const struct widosha_host *host, uint8_t buffer)
{
    return buffer < host->count ? host->pool + (size_t)buffer * WIDOSHA_BUFFER_LENGTH + host->state[1] : NULL;
}

/* The longest frame without checksum. After an accepted start. */
static inline uint8_t widosha_host_longest(const struct widosha_host *host)
{
    return (uint8_t)(WIDOSHA_FRAME_LENGTH - host->state[3]);
}

#endif
