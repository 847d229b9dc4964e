/* The loop between a radio, the service and a host, over widosha_host.h: actions in, calls out. It is what a person copies who ports the
 * service to a radio; c/hub.c is an example. The radio's events are calls (widosha_loop_told). The loop gives the answers to the host,
 * makes the host's calls that the action asks for, and has the radio begin what follows. Nothing is awaited here: both functions return
 * once the next step is the radio's or, while the service waits for a request, the host's.
 *
 * An interrupt handler puts an event into a queue, and the main loop takes it from there and tells it. One place is enough, and one
 * more for a frame's start: a task has one outcome, and the next task is begun after that was told. A frame's start alone may stand
 * there still when a stop is begun, as the host had something to send meanwhile. Then it is dropped when it is told, and the stop's
 * outcome is that a frame started.
 *
 * The two functions return 0, or the refusal of the event or of a call that followed from it (not of an arrival). A refused event has
 * changed nothing, and the radio owes the outcome of its task still. 5 says that the event is none of this task; 10, that a length is
 * one that no frame has, as 0 of a frame that is its checksum alone: this depends on what others send, so a port tells it as damaged. */
#ifndef WIDOSHA_LOOP_H
#define WIDOSHA_LOOP_H

#include "widosha_host.h"

/* How many requests of a host may be refused in one turn: as many as a pool can have buffers, so that a host may try each. */
#define WIDOSHA_LOOP_REFUSED_IN_A_TURN WIDOSHA_COUNT_MOST

enum widosha_loop_kind {
    WIDOSHA_LOOP_FRAME_START,
    WIDOSHA_LOOP_STOPPED, /* outcome, length, time, quality */
    WIDOSHA_LOOP_HEADER, /* arrived, length */
    WIDOSHA_LOOP_ENTERED, /* result, length, time, entry, quality */
    WIDOSHA_LOOP_FALLBACK, /* result, length, time, cause, cause_time, quality */
    WIDOSHA_LOOP_ROLLBACK
};

/* What the radio tells: the numbers of the call of that name; the others are not looked at. */
struct widosha_loop_event {
    enum widosha_loop_kind kind;
    enum widosha_stop_outcome outcome;
    enum widosha_result result;
    enum widosha_cause cause;
    uint16_t arrived;
    uint16_t length;
    uint64_t time;
    uint64_t entry;
    uint64_t cause_time;
    uint8_t quality;
};

/* A started service with its radio and its host. None of the four makes a call or comes back into the loop. Elsewhere the host may
 * have requests arrive and withdraw them by itself, and calls widosha_loop_host_has_more after that; all other calls are the loop's. */
struct widosha_loop {
    struct widosha_host *host;
    void *context; /* handed to each of the four */
    /* The next request of the host: 1, or 0 if there is none. Asked as long as the line has room. A frame is written into its buffer
     * first, which has to be one that widosha_host_holds says 0 of. */
    int (*next_request)(void *context, struct widosha_host_arrival *arrival);
    /* That request is wrong by itself and has not arrived. It should not come again as it is: after 32 refusals in one turn the host is
     * asked in the next turn only, so that one that is always wrong does not keep the loop. */
    void (*refused)(void *context, const struct widosha_host_arrival *arrival, uint8_t refusal);
    /* A request's answer; its buffer is the host's again. */
    void (*answered)(void *context, const struct widosha_host_answer *answer);
    /* Begins the task of the action that stands (listen, a stop, read the header, Tx, Rx, off) and returns at once. The radio listens
     * from the entry into an Rx on: where a Tx waits already, a stop is begun after that, and listen is left out. If a frame starts
     * before the next task is begun, this is that task's outcome: that a frame starts or, of a stop, that one has started. */
    void (*begin)(void *context, const struct widosha_host *host);
    int begun; /* 1 once the action that stands is begun */
};

/* What follows each call of the radio or the host: the answers, and an action that is not begun yet. */
static inline uint8_t widosha_loop_made(struct widosha_loop *loop, uint8_t refusal)
{
    unsigned which;
    if (refusal != 0)
        return refusal;
    loop->begun = 0;
    for (which = 0; which < widosha_host_answers(loop->host); which++) {
        struct widosha_host_answer answer = widosha_host_answer_at(loop->host, which);
        loop->answered(loop->context, &answer);
    }
    return 0;
}

/* As many requests of the host arrive as there is room for, until it has been wrong too often. */
static inline void widosha_loop_fill(struct widosha_loop *loop)
{
    struct widosha_host_arrival arrival = {0, WIDOSHA_DIRECTION_TX, WIDOSHA_START_BEST_EFFORT, 0, 0, 0, 0};
    unsigned wrong = 0;
    uint8_t refusal;
    while (wrong < WIDOSHA_LOOP_REFUSED_IN_A_TURN && widosha_host_waiting(loop->host) < WIDOSHA_LINE_CAPACITY
        && loop->next_request(loop->context, &arrival)) {
        refusal = widosha_host_arrive(loop->host, &arrival);
        if (refusal != 0) {
            wrong++;
            loop->refused(loop->context, &arrival, refusal);
        }
    }
}

/* Makes the host's call that the action asks for, if there is one and what it needs waits; else made is 0. */
static inline uint8_t widosha_loop_turn(struct widosha_loop *loop, int *made)
{
    struct widosha_host *host = loop->host;
    struct widosha_host_arrival tx;
    uint8_t refusal;
    *made = 1;
    switch (widosha_host_action(host)) {
    case WIDOSHA_ACTION_RECEIVE_REQUEST:
        widosha_loop_fill(loop);
        if (widosha_host_waiting(host) > 0)
            return widosha_loop_made(loop, widosha_host_request(host));
        break;
    case WIDOSHA_ACTION_TRY_RECEIVE_REQUEST:
        widosha_loop_fill(loop);
        refusal = widosha_host_request(host);
        return widosha_loop_made(loop, refusal == WIDOSHA_REFUSAL_NOT_ALLOWED ? widosha_host_none(host) : refusal);
    case WIDOSHA_ACTION_TRY_RECEIVE_OUTBOUND:
        return widosha_loop_made(loop, widosha_host_request(host));
    case WIDOSHA_ACTION_LISTEN:
        widosha_loop_fill(loop);
        if (widosha_host_earliest_tx(host, &tx))
            return widosha_loop_made(loop, widosha_host_outbound_seen_earliest(host));
        break;
    default:
        break;
    }
    *made = 0;
    return 0;
}

/* The host has something new: requests arrive, and if the service waited for that, the radio begins what follows. So also after start.
 * Where the action asks the host too, it was asked before: what arrived after that would not be seen. */
WIDOSHA_MUST_USE static inline uint8_t widosha_loop_host_has_more(struct widosha_loop *loop)
{
    enum widosha_action action;
    uint8_t refusal;
    int made;
    do {
        refusal = widosha_loop_turn(loop, &made);
    } while (refusal == 0 && made);
    action = widosha_host_action(loop->host);
    if (refusal != 0 || action == WIDOSHA_ACTION_RECEIVE_REQUEST)
        return refusal;
    if (!loop->begun) {
        loop->begun = 1;
        loop->begin(loop->context, loop->host);
    }
    if (action != WIDOSHA_ACTION_LISTEN)
        widosha_loop_fill(loop);
    return 0;
}

/* The call of an event. */
static inline uint8_t widosha_loop_call(struct widosha_host *host, const struct widosha_loop_event *event)
{
    switch (event->kind) {
    case WIDOSHA_LOOP_FRAME_START:
        return widosha_host_frame_start(host);
    case WIDOSHA_LOOP_STOPPED:
        return widosha_host_stopped(host, event->outcome, event->length, event->time, event->quality);
    case WIDOSHA_LOOP_HEADER:
        return widosha_host_header(host, event->arrived, event->length);
    case WIDOSHA_LOOP_ENTERED:
        return widosha_host_entered(host, event->result, event->length, event->time, event->entry, event->quality);
    case WIDOSHA_LOOP_FALLBACK:
        return widosha_host_fallback(
            host, event->result, event->length, event->time, event->cause, event->cause_time, event->quality);
    default:
        return widosha_host_rollback(host);
    }
}

/* The radio tells what its task came to. */
WIDOSHA_MUST_USE static inline uint8_t widosha_loop_told(struct widosha_loop *loop, const struct widosha_loop_event *event)
{
    enum widosha_action action = widosha_host_action(loop->host);
    uint8_t refusal;
    if (event->kind == WIDOSHA_LOOP_FRAME_START && (action == WIDOSHA_ACTION_STOP_NOW || action == WIDOSHA_ACTION_STOP_BEFORE))
        return 0;
    refusal = widosha_loop_made(loop, widosha_loop_call(loop->host, event));
    return refusal != 0 ? refusal : widosha_loop_host_has_more(loop);
}

#endif
