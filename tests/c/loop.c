/* c/widosha_loop.h on the proved library, where c/hub.c does not lead it: events that do not fit or come too late, an acknowledgement
 * that does not come, two answers at once, requests that are wrong, a full line. What the four functions are called with is written
 * down, and how often the host is asked; both are compared after each step. Exit 0 if all is so. */
#include <stdio.h>
#include <string.h>

#include "widosha_loop.h"

static struct widosha_host host;
static uint8_t pool[8][WIDOSHA_BUFFER_LENGTH];
static char said[200];
static int right = 1;

/* The host: its requests, how many it has given, has by now, and has after an answer; how often it was asked, and was wrong. */
static const struct widosha_host_arrival *requests;
static unsigned given, has, has_then, asked, wrong;

static void say(const char *what, unsigned first, unsigned second)
{
    sprintf(said + strlen(said), "%s %u %u. ", what, first, second);
}

static int next_request(void *context, struct widosha_host_arrival *arrival)
{
    asked++;
    if (context != &has || given == has)
        return 0;
    *arrival = requests[given++];
    return 1;
}

/* Its frame would be in one of the service's own buffers. */
static int next_wrong(void *context, struct widosha_host_arrival *arrival)
{
    static const struct widosha_host_arrival request = {1, WIDOSHA_DIRECTION_TX, WIDOSHA_START_BEST_EFFORT, 0, 0, 12, 0};
    (void)context;
    asked++;
    *arrival = request;
    return 1;
}

static void refused(void *context, const struct widosha_host_arrival *arrival, uint8_t refusal)
{
    say(context == &has ? "refused" : "?", arrival->token, refusal);
}

static void refused_wrong(void *context, const struct widosha_host_arrival *arrival, uint8_t refusal)
{
    (void)context;
    (void)arrival;
    wrong += refusal == WIDOSHA_REFUSAL_BUFFER_HELD;
}

static void answered(void *context, const struct widosha_host_answer *answer)
{
    say(context == &has ? "answered" : "?", answer->token, answer->outcome);
    say("at", (unsigned)answer->time, answer->length + 1000u * answer->quality);
    has = has_then;
}

static void begin(void *context, const struct widosha_host *station)
{
    say(context == &has && station == &host ? "begin" : "?", widosha_host_action(station), widosha_host_buffer(station));
}

static struct widosha_loop loop = {&host, &has, next_request, refused, answered, begin, 0};

/* Whether that was returned, so often was the host asked, and that was said, since the last time. */
static void is(uint8_t returned, uint8_t refusal, unsigned asks, const char *expected, int line)
{
    if (returned != refusal || asked != asks || strcmp(said, expected) != 0) {
        printf("line %d: %u, asked %u times, %s\n", line, (unsigned)returned, asked, said);
        right = 0;
    }
    said[0] = 0;
    asked = 0;
}
#define IS(returned, refusal, asks, expected) is(returned, refusal, asks, expected, __LINE__)

static void start(const struct widosha_host_arrival *those, unsigned first, unsigned then)
{
    static const struct widosha_host_settings settings = {0, 0, 2, UINT64_C(0x0011223344550000), 0x1234, 0, 0, 1};
    right = widosha_host_start(&host, &settings, pool, 8) == 0 && right;
    requests = those;
    given = 0, has = first, has_then = then;
}

/* Three frames to send, the second in one of the service's own buffers. The host has two of them once it knows that the first was not
 * acknowledged. */
static void not_acknowledged(void)
{
    static const struct widosha_host_arrival those[3] = {
        {1, WIDOSHA_DIRECTION_TX, WIDOSHA_START_BEST_EFFORT, 0, 2, 12, 0},
        {2, WIDOSHA_DIRECTION_TX, WIDOSHA_START_BEST_EFFORT, 0, 0, 12, 0},
        {3, WIDOSHA_DIRECTION_TX, WIDOSHA_START_BEST_EFFORT, 0, 3, 12, 0},
    };
    struct widosha_loop_event event = {
        WIDOSHA_LOOP_ENTERED, WIDOSHA_OUTCOME_WINDOW_ENDED, WIDOSHA_RESULT_OFF, WIDOSHA_CAUSE_TASK, 0, 0, 600, 800, 0, 0};
    start(those, 0, 3);
    pool[2][0] = 0x61, pool[2][1] = 0x88, pool[2][2] = 7; /* wants an ACK */
    IS(widosha_loop_host_has_more(&loop), 0, 1, "");
    has = 1;
    /* Asked until it has no more, and once more after the radio's own task was begun. */
    IS(widosha_loop_host_has_more(&loop), 0, 3, "begin 9 2. ");
    IS(widosha_loop_told(&loop, &event), 0, 1, "begin 10 1. ");
    IS(widosha_loop_told(&loop, &event), WIDOSHA_REFUSAL_UNFIT, 0, "");
    event.result = WIDOSHA_RESULT_SENT;
    IS(widosha_loop_told(&loop, &event), 0, 1, "begin 6 0. ");
    event.kind = WIDOSHA_LOOP_FRAME_START;
    IS(widosha_loop_told(&loop, &event), WIDOSHA_REFUSAL_UNFIT, 0, "");
    event.kind = WIDOSHA_LOOP_STOPPED;
    /* Nothing waits, so the window's end is answered, and the service is idle; then what has arrived is begun. */
    IS(widosha_loop_told(&loop, &event), 0, 5, "answered 1 2. at 600 0. refused 2 7. begin 9 3. ");
}

/* The host listens, and has something to send at once; a frame starts for which the stop comes too late, and after it the radio cannot
 * send. Meanwhile the line becomes full. */
static void two_answers(void)
{
    static const struct widosha_host_arrival those[7] = {
        {1, WIDOSHA_DIRECTION_RX, WIDOSHA_START_BEST_EFFORT, 0, 2, 0, 0}, {2, WIDOSHA_DIRECTION_TX, WIDOSHA_START_BEST_EFFORT, 0, 3, 12, 0},
        {3, WIDOSHA_DIRECTION_RX, WIDOSHA_START_BEST_EFFORT, 0, 4, 0, 0}, {4, WIDOSHA_DIRECTION_RX, WIDOSHA_START_BEST_EFFORT, 0, 5, 0, 0},
        {5, WIDOSHA_DIRECTION_RX, WIDOSHA_START_BEST_EFFORT, 0, 6, 0, 0}, {6, WIDOSHA_DIRECTION_RX, WIDOSHA_START_BEST_EFFORT, 0, 7, 0, 0},
        {7, WIDOSHA_DIRECTION_RX, WIDOSHA_START_BEST_EFFORT, 0, 2, 0, 0},
    };
    /* Data to station 0000, wants no ACK. */
    static const uint8_t frame[9] = {0x41, 0x88, 9, 0x34, 0x12, 0x00, 0x00, 0x01, 0x00};
    struct widosha_loop_event event = {
        WIDOSHA_LOOP_ENTERED, WIDOSHA_OUTCOME_FRAME, WIDOSHA_RESULT_OFF, WIDOSHA_CAUSE_SCHEDULING_AT, 9, 0, 700, 800, 900, 33};
    start(those, 1, 7);
    IS(widosha_loop_host_has_more(&loop), 0, 3, "begin 10 2. ");
    IS(widosha_loop_told(&loop, &event), 0, 1, "begin 4 0. ");
    IS(widosha_loop_host_has_more(&loop), 0, 1, "");
    has = 6;
    IS(widosha_loop_host_has_more(&loop), 0, 4, "begin 5 0. "); /* four wait now, and nobody asks for a fifth */
    event.kind = WIDOSHA_LOOP_FRAME_START;
    IS(widosha_loop_told(&loop, &event), 0, 0, "");
    event.kind = WIDOSHA_LOOP_STOPPED;
    IS(widosha_loop_told(&loop, &event), WIDOSHA_REFUSAL_RECEIVED_LENGTH, 0, "");
    event.outcome = WIDOSHA_OUTCOME_FRAME_STARTED;
    IS(widosha_loop_told(&loop, &event), 0, 0, "begin 8 0. ");
    memcpy(pool[2], frame, sizeof frame);
    event.kind = WIDOSHA_LOOP_HEADER;
    event.length = 14;
    IS(widosha_loop_told(&loop, &event), 0, 1, "begin 9 3. "); /* token 2 has left, and token 6 arrives */
    event.kind = WIDOSHA_LOOP_FALLBACK;
    event.result = WIDOSHA_RESULT_FRAME;
    event.length = 12;
    IS(widosha_loop_told(&loop, &event), 0, 1, "answered 1 6. at 700 33012. answered 2 4. at 900 0. begin 10 4. ");
}

/* A host that is always wrong is asked 32 times in a turn. */
static void always_wrong(void)
{
    struct widosha_loop other = {&host, NULL, next_wrong, refused_wrong, answered, begin, 0};
    start(NULL, 0, 0);
    IS(widosha_loop_host_has_more(&other), 0, 32, "");
    IS(widosha_loop_host_has_more(&other), 0, 32, "");
    right = wrong == 64 && right;
}

int main(void)
{
    not_acknowledged();
    two_answers();
    always_wrong();
    return right ? 0 : 1;
}
