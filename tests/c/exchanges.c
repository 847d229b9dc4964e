/* A host of one station over c/widosha_host.h and the proved libraries: frames sent with and without an acknowledgement, received with
 * and without one, of other stations, damaged and short ones; the waiting line full, a withdrawal, a stop that fails, an entry too
 * late. Every refusal is met, each accessor is compared with what docs/LAYOUTS.md says of the reply, and the buffers of the radio are
 * followed. Exit 0 if all is so. */
#include <stdio.h>
#include <string.h>

#include "widosha_host.h"

/* tests/c/second.c */
int second_unit(const struct widosha_host *host, const uint8_t *frame, size_t length);

#define BUFFERS 8
static struct widosha_host host;
static uint8_t pool[BUFFERS][WIDOSHA_BUFFER_LENGTH];
static int wrong, met[256];

static void expect(int holds, const char *what, int line)
{
    if (!holds) {
        printf("line %d: %s\n", line, what);
        wrong = 1;
    }
}
#define EXPECT(what) expect(what, #what, __LINE__)

static int meets(uint8_t returned, uint8_t refusal)
{
    met[returned] = 1;
    return returned == refusal;
}
#define REFUSED(call, refusal) expect(meets(call, refusal), #call " is refused by " #refusal, __LINE__)
#define ACCEPTED(call) expect(meets(call, 0), #call " is accepted", __LINE__)

/* Data frames of PAN 1234 with control 8861, which wants an ACK, or 8841; to station 0001 (this one) or another. */
static const uint8_t SENT[12] = {0x61, 0x88, 0x07, 0x34, 0x12, 0x00, 0x00, 0x01, 0x00, 0x70, 0x5d, 0x00};
static const uint8_t SENT_PLAIN[12] = {0x41, 0x88, 0x08, 0x34, 0x12, 0x00, 0x00, 0x01, 0x00, 0x70, 0x5d, 0x00};
static const uint8_t OURS[12] = {0x61, 0x88, 0x21, 0x34, 0x12, 0x01, 0x00, 0x00, 0x00, 0x70, 0x5d, 0x00};
static const uint8_t OURS_PLAIN[12] = {0x41, 0x88, 0x22, 0x34, 0x12, 0x01, 0x00, 0x00, 0x00, 0x70, 0x5d, 0x00};
static const uint8_t FOREIGN[12] = {0x61, 0x88, 0x23, 0x34, 0x12, 0x05, 0x00, 0x00, 0x00, 0x70, 0x5d, 0x00};
static const uint8_t OWN_ACK[3] = {0x02, 0x00, 0x07};

/* What a frame's buffer has; what a radio writes there. */
static void put(uint8_t buffer, const uint8_t *frame, size_t length)
{
    memcpy(widosha_host_frame(&host, buffer), frame, length);
}

static int holds(uint8_t buffer, const uint8_t *frame, size_t length)
{
    return memcmp(widosha_host_frame(&host, buffer), frame, length) == 0;
}

static uint8_t arrive(uint32_t token, enum widosha_direction direction, enum widosha_start_code start, uint64_t time,
    uint8_t buffer, uint16_t length, uint8_t cca)
{
    struct widosha_host_arrival arrival;
    memset(&arrival, 0x5a, sizeof arrival);
    arrival.token = token;
    arrival.direction = direction;
    arrival.start = start;
    arrival.time = time;
    arrival.buffer = buffer;
    arrival.length = length;
    arrival.cca = cca;
    return widosha_host_arrive(&host, &arrival);
}

static uint8_t transmit(uint32_t token, uint8_t buffer, const uint8_t *frame)
{
    put(buffer, frame, 12);
    return arrive(token, WIDOSHA_DIRECTION_TX, WIDOSHA_START_BEST_EFFORT, 0, buffer, 12, 0);
}

/* Whether the action that stands is this one, in all its numbers. */
static int acts(enum widosha_action action, unsigned buffer, unsigned length, unsigned flags, enum widosha_spacing spacing, uint64_t time)
{
    return widosha_host_action(&host) == action && widosha_host_buffer(&host) == buffer && widosha_host_length(&host) == length
        && widosha_host_flags(&host) == flags && widosha_host_spacing(&host) == spacing && widosha_host_time(&host) == time;
}
#define PLAIN(action) acts(action, 0, 0, 0, WIDOSHA_SPACING_NONE, 0)

/* Whether an answer is this one, in all its numbers. */
static int answers(unsigned which, enum widosha_answer_code outcome, uint32_t token, unsigned buffer, unsigned length, uint64_t time,
    unsigned quality)
{
    struct widosha_host_answer answer = widosha_host_answer_at(&host, which);
    return which < widosha_host_answers(&host) && answer.outcome == outcome && answer.token == token && answer.buffer == buffer
        && answer.length == length && answer.time == time && answer.quality == quality;
}

/* Start, with each of its refusals before; none of them lends the pool. */
static void begin(void)
{
    struct widosha_host_settings settings = {9, 1, 2, UINT64_C(0x0011223344550001), 0x1234, 0, 0, 1};
    memset(&host, 0, sizeof host);
    memset(pool, 0x5a, sizeof pool);
    REFUSED(widosha_host_start(&host, &settings, pool, 2), WIDOSHA_REFUSAL_COUNT);
    REFUSED(widosha_host_start(&host, &settings, pool, BUFFERS), WIDOSHA_REFUSAL_ROOMS);
    settings.headroom = 3, settings.spare_buffer = 0;
    REFUSED(widosha_host_start(&host, &settings, pool, BUFFERS), WIDOSHA_REFUSAL_OWN_BUFFERS);
    EXPECT(widosha_host_frame(&host, 0) == NULL);
    REFUSED(widosha_host_request(&host), WIDOSHA_REFUSAL_STATE);
    settings.spare_buffer = 1;
    ACCEPTED(widosha_host_start(&host, &settings, pool, BUFFERS));
    EXPECT(PLAIN(WIDOSHA_ACTION_RECEIVE_REQUEST) && widosha_host_answers(&host) == 0);
    EXPECT(widosha_host_frame(&host, 1) == pool[1] + 3 && widosha_host_longest(&host) == 125);
    EXPECT(holds(0, (const uint8_t *)"\x02\x10\x00", 3));
    REFUSED(widosha_host_request(&host), WIDOSHA_REFUSAL_NOT_ALLOWED);
    REFUSED(widosha_host_none(&host), WIDOSHA_REFUSAL_UNFIT);
}

/* From off to listening. */
static void listen_in(uint32_t token, uint8_t buffer)
{
    ACCEPTED(arrive(token, WIDOSHA_DIRECTION_RX, WIDOSHA_START_BEST_EFFORT, 0, buffer, 0xffff, 0xff));
    ACCEPTED(widosha_host_request(&host));
    EXPECT(acts(WIDOSHA_ACTION_RX, buffer, 0, 0, WIDOSHA_SPACING_NONE, 0));
    REFUSED(widosha_host_rollback(&host), WIDOSHA_REFUSAL_UNFIT);
    REFUSED(widosha_host_fallback(&host, WIDOSHA_RESULT_OFF, 0, 0, WIDOSHA_CAUSE_TASK, 0, 0), WIDOSHA_REFUSAL_UNFIT);
    ACCEPTED(widosha_host_entered(&host, WIDOSHA_RESULT_OFF, 0, 0, 1, 0));
    EXPECT(PLAIN(WIDOSHA_ACTION_LISTEN));
}

/* A frame starts while the radio listens, and so many of its bytes arrive. */
static void hear(uint8_t buffer, const uint8_t *frame, uint16_t arrived, uint16_t length)
{
    ACCEPTED(widosha_host_frame_start(&host));
    EXPECT(PLAIN(WIDOSHA_ACTION_STOP_NOW));
    REFUSED(widosha_host_stopped(&host, WIDOSHA_OUTCOME_FAILED, 0, 0, 0), WIDOSHA_REFUSAL_UNFIT);
    REFUSED(widosha_host_stopped(&host, WIDOSHA_OUTCOME_WINDOW_ENDED, 0, 0, 0), WIDOSHA_REFUSAL_UNFIT);
    ACCEPTED(widosha_host_stopped(&host, WIDOSHA_OUTCOME_FRAME_STARTED, 0, 0, 0));
    EXPECT(PLAIN(WIDOSHA_ACTION_READ_HEADER));
    put(buffer, frame, arrived);
    REFUSED(widosha_host_header(&host, 126, length), WIDOSHA_REFUSAL_RECEIVED_LENGTH);
    ACCEPTED(widosha_host_header(&host, arrived, length));
}

static void acknowledged(void)
{
    begin();
    put(2, SENT, 12);
    ACCEPTED(arrive(0xa1b2c3d4, WIDOSHA_DIRECTION_TX, WIDOSHA_START_AT, UINT64_C(0x8192a3b4c5d6e7f8), 2, 12, 1));
    EXPECT(PLAIN(WIDOSHA_ACTION_RECEIVE_REQUEST));
    ACCEPTED(widosha_host_request(&host));
    EXPECT(acts(WIDOSHA_ACTION_TX, 2, 12, WIDOSHA_FLAG_CCA | WIDOSHA_FLAG_AT, WIDOSHA_SPACING_NONE, UINT64_C(0x8192a3b4c5d6e7f8)));
    REFUSED(widosha_host_rollback(&host), WIDOSHA_REFUSAL_UNFIT);
    REFUSED(arrive(0xa1b2c3d4, WIDOSHA_DIRECTION_RX, WIDOSHA_START_BEST_EFFORT, 0, 3, 0, 0), WIDOSHA_REFUSAL_TOKEN_HELD);
    ACCEPTED(widosha_host_entered(&host, WIDOSHA_RESULT_OFF, 0, 0, 1, 0));
    EXPECT(acts(WIDOSHA_ACTION_RX, 1, 0, 0, WIDOSHA_SPACING_AIFS, 0));
    REFUSED(widosha_host_entered(&host, WIDOSHA_RESULT_SENT, 0, 600, UINT64_MAX - 9999, 0), WIDOSHA_REFUSAL_ENTRY_TOO_LATE);
    EXPECT(acts(WIDOSHA_ACTION_RX, 1, 0, 0, WIDOSHA_SPACING_AIFS, 0));
    ACCEPTED(widosha_host_entered(&host, WIDOSHA_RESULT_SENT, 0, 600, UINT64_MAX - 10000, 0));
    EXPECT(acts(WIDOSHA_ACTION_STOP_AT, 0, 0, 0, WIDOSHA_SPACING_NONE, UINT64_MAX));
    ACCEPTED(widosha_host_stopped(&host, WIDOSHA_OUTCOME_FAILED, 0, 0, 0));
    EXPECT(PLAIN(WIDOSHA_ACTION_STOP_NOW));
    REFUSED(widosha_host_stopped(&host, WIDOSHA_OUTCOME_FAILED, 0, 0, 0), WIDOSHA_REFUSAL_UNFIT);
    ACCEPTED(widosha_host_stopped(&host, WIDOSHA_OUTCOME_FRAME_STARTED, 0, 0, 0));
    EXPECT(PLAIN(WIDOSHA_ACTION_TRY_RECEIVE_REQUEST));
    ACCEPTED(widosha_host_none(&host));
    EXPECT(PLAIN(WIDOSHA_ACTION_OFF));
    put(1, OWN_ACK, 3);
    REFUSED(widosha_host_entered(&host, WIDOSHA_RESULT_WINDOW_ENDED, 0, 0, 1, 0), WIDOSHA_REFUSAL_UNFIT);
    REFUSED(widosha_host_entered(&host, WIDOSHA_RESULT_FRAME, 0, 0, 1, 0), WIDOSHA_REFUSAL_RECEIVED_LENGTH);
    ACCEPTED(widosha_host_entered(&host, WIDOSHA_RESULT_FRAME, 3, 700, 701, 99));
    EXPECT(widosha_host_answers(&host) == 1 && answers(0, WIDOSHA_ANSWER_SENT, 0xa1b2c3d4, 2, 0, 600, 0));
    EXPECT(PLAIN(WIDOSHA_ACTION_RECEIVE_REQUEST));
    /* No ACK starts. */
    ACCEPTED(transmit(2, 2, SENT));
    ACCEPTED(widosha_host_request(&host));
    ACCEPTED(widosha_host_entered(&host, WIDOSHA_RESULT_OFF, 0, 0, 1, 0));
    ACCEPTED(widosha_host_entered(&host, WIDOSHA_RESULT_SENT, 0, 800, 900, 0));
    ACCEPTED(widosha_host_stopped(&host, WIDOSHA_OUTCOME_WINDOW_ENDED, 0, 0, 0));
    ACCEPTED(widosha_host_none(&host));
    EXPECT(widosha_host_answers(&host) == 1 && answers(0, WIDOSHA_ANSWER_NACK, 2, 2, 0, 800, 0));
    EXPECT(PLAIN(WIDOSHA_ACTION_RECEIVE_REQUEST));
}

static void plain(void)
{
    begin();
    ACCEPTED(transmit(1, 2, SENT_PLAIN));
    ACCEPTED(transmit(2, 3, SENT_PLAIN));
    ACCEPTED(widosha_host_request(&host));
    ACCEPTED(widosha_host_entered(&host, WIDOSHA_RESULT_OFF, 0, 0, 1, 0));
    EXPECT(PLAIN(WIDOSHA_ACTION_TRY_RECEIVE_REQUEST));
    REFUSED(widosha_host_none(&host), WIDOSHA_REFUSAL_UNFIT);
    ACCEPTED(widosha_host_request(&host));
    EXPECT(acts(WIDOSHA_ACTION_TX, 3, 12, 0, WIDOSHA_SPACING_SIFS, 0));
    ACCEPTED(widosha_host_fallback(&host, WIDOSHA_RESULT_SENT, 0, 500, WIDOSHA_CAUSE_SCHEDULING_AT, 600, 3));
    EXPECT(widosha_host_answers(&host) == 2 && answers(0, WIDOSHA_ANSWER_SENT, 1, 2, 0, 500, 0));
    EXPECT(answers(1, WIDOSHA_ANSWER_ERROR_SCHEDULING_AT, 2, 3, 0, 600, 0));
    /* An arrival has the reply for itself: no answer is left. */
    ACCEPTED(transmit(3, 2, SENT_PLAIN));
    EXPECT(widosha_host_answers(&host) == 0 && PLAIN(WIDOSHA_ACTION_RECEIVE_REQUEST));
}

static void received(void)
{
    begin();
    listen_in(4, 2);
    /* A foreign frame is received on into the spare buffer, and the buffers are exchanged. */
    hear(2, FOREIGN, 9, 14);
    EXPECT(acts(WIDOSHA_ACTION_RX, 1, 0, 0, WIDOSHA_SPACING_NONE, 0));
    ACCEPTED(widosha_host_entered(&host, WIDOSHA_RESULT_FRAME, 12, 100, 101, 77));
    EXPECT(PLAIN(WIDOSHA_ACTION_LISTEN) && widosha_host_answers(&host) == 0);
    /* So is one of which no byte arrives, and one that is too short for addresses. */
    hear(1, FOREIGN, 0, 14);
    EXPECT(acts(WIDOSHA_ACTION_RX, 2, 0, 0, WIDOSHA_SPACING_NONE, 0));
    ACCEPTED(widosha_host_entered(&host, WIDOSHA_RESULT_CRC_ERROR, 0, 200, 201, 7));
    hear(2, OWN_ACK, 3, 5);
    EXPECT(acts(WIDOSHA_ACTION_RX, 1, 0, 0, WIDOSHA_SPACING_NONE, 0));
    ACCEPTED(widosha_host_entered(&host, WIDOSHA_RESULT_WINDOW_ENDED, 0, 0, 301, 0));
    REFUSED(transmit(5, 2, SENT), WIDOSHA_REFUSAL_BUFFER_HELD);
    /* For us, with an ACK: the frame is damaged, and the radio receives on; then it is whole. */
    hear(1, OURS, 9, 14);
    EXPECT(acts(WIDOSHA_ACTION_TX, 0, 3, WIDOSHA_FLAG_ROLLBACK, WIDOSHA_SPACING_AIFS, 0));
    EXPECT(holds(0, (const uint8_t *)"\x02\x10\x21", 3));
    REFUSED(widosha_host_fallback(&host, WIDOSHA_RESULT_FRAME, 12, 400, WIDOSHA_CAUSE_TASK, 0, 0), WIDOSHA_REFUSAL_UNFIT);
    ACCEPTED(widosha_host_rollback(&host));
    EXPECT(PLAIN(WIDOSHA_ACTION_LISTEN) && widosha_host_answers(&host) == 0);
    hear(1, OURS, 9, 14);
    put(1, OURS, 12);
    ACCEPTED(widosha_host_entered(&host, WIDOSHA_RESULT_FRAME, 12, 500, 501, 200));
    EXPECT(widosha_host_answers(&host) == 1 && answers(0, WIDOSHA_ANSWER_FRAME, 4, 1, 12, 500, 200) && holds(1, OURS, 12));
    EXPECT(second_unit(&host, widosha_host_frame(&host, 1), 12));
    EXPECT(PLAIN(WIDOSHA_ACTION_TRY_RECEIVE_REQUEST));
    ACCEPTED(arrive(6, WIDOSHA_DIRECTION_RX, WIDOSHA_START_AT, 9, 3, 0, 0));
    REFUSED(widosha_host_request(&host), WIDOSHA_REFUSAL_NOT_ALLOWED);
    ACCEPTED(widosha_host_none(&host));
    EXPECT(PLAIN(WIDOSHA_ACTION_OFF));
    ACCEPTED(widosha_host_entered(&host, WIDOSHA_RESULT_SENT, 0, 600, 601, 0));
    EXPECT(PLAIN(WIDOSHA_ACTION_RECEIVE_REQUEST) && widosha_host_answers(&host) == 0);
    ACCEPTED(widosha_host_request(&host));
    EXPECT(acts(WIDOSHA_ACTION_RX, 3, 0, WIDOSHA_FLAG_AT, WIDOSHA_SPACING_NONE, 9));
    ACCEPTED(widosha_host_entered(&host, WIDOSHA_RESULT_OFF, 0, 0, 700, 0));
    /* For us, without an ACK; off, and the frame is damaged; then another is to be sent, and cannot. */
    hear(3, OURS_PLAIN, 12, 19);
    ACCEPTED(widosha_host_none(&host));
    EXPECT(acts(WIDOSHA_ACTION_OFF, 0, 0, WIDOSHA_FLAG_ROLLBACK, WIDOSHA_SPACING_NONE, 0));
    ACCEPTED(widosha_host_rollback(&host));
    hear(3, OURS_PLAIN, 12, 19);
    ACCEPTED(transmit(7, 4, SENT));
    ACCEPTED(widosha_host_request(&host));
    EXPECT(acts(WIDOSHA_ACTION_TX, 4, 12, 0, WIDOSHA_SPACING_LIFS, 0));
    ACCEPTED(widosha_host_fallback(&host, WIDOSHA_RESULT_CRC_ERROR, 0, 800, WIDOSHA_CAUSE_TASK, 900, 17));
    EXPECT(widosha_host_answers(&host) == 2 && answers(0, WIDOSHA_ANSWER_CRC_ERROR, 6, 3, 0, 800, 17));
    EXPECT(answers(1, WIDOSHA_ANSWER_ERROR_TASK, 7, 4, 0, 0, 0));
}

static void seen(void)
{
    begin();
    listen_in(8, 2);
    REFUSED(widosha_host_outbound_seen(&host, WIDOSHA_START_BEST_EFFORT, 0, 0), WIDOSHA_REFUSAL_UNFIT);
    put(3, SENT_PLAIN, 12);
    ACCEPTED(arrive(9, WIDOSHA_DIRECTION_TX, WIDOSHA_START_AT, 9000, 3, 12, 1));
    REFUSED(widosha_host_outbound_seen(&host, WIDOSHA_START_AT, 9000, 0), WIDOSHA_REFUSAL_UNFIT);
    ACCEPTED(widosha_host_outbound_seen(&host, WIDOSHA_START_AT, 9000, 1));
    EXPECT(acts(WIDOSHA_ACTION_STOP_BEFORE, 0, 0, WIDOSHA_FLAG_CCA, WIDOSHA_SPACING_NONE, 9000));
    REFUSED(widosha_host_withdraw(&host, 9), WIDOSHA_REFUSAL_TOKEN_WAITS);
    ACCEPTED(widosha_host_stopped(&host, WIDOSHA_OUTCOME_FAILED, 0, 0, 0));
    EXPECT(PLAIN(WIDOSHA_ACTION_LISTEN));
    ACCEPTED(widosha_host_withdraw(&host, 9));
    ACCEPTED(transmit(10, 3, SENT_PLAIN));
    ACCEPTED(widosha_host_outbound_seen(&host, WIDOSHA_START_BEST_EFFORT, 4711, 0));
    EXPECT(PLAIN(WIDOSHA_ACTION_STOP_NOW));
    REFUSED(widosha_host_stopped(&host, WIDOSHA_OUTCOME_FRAME, 0, 0, 0), WIDOSHA_REFUSAL_RECEIVED_LENGTH);
    ACCEPTED(widosha_host_stopped(&host, WIDOSHA_OUTCOME_FRAME, 12, 1, 88));
    EXPECT(PLAIN(WIDOSHA_ACTION_TRY_RECEIVE_OUTBOUND));
    REFUSED(widosha_host_withdraw(&host, 10), WIDOSHA_REFUSAL_TOKEN_WAITS);
    ACCEPTED(widosha_host_request(&host));
    EXPECT(widosha_host_answers(&host) == 1 && answers(0, WIDOSHA_ANSWER_WINDOW_ENDED, 8, 2, 0, 0, 0));
    ACCEPTED(widosha_host_fallback(&host, WIDOSHA_RESULT_OFF, 0, 0, WIDOSHA_CAUSE_SCHEDULING, 9, 0));
    EXPECT(widosha_host_answers(&host) == 1 && answers(0, WIDOSHA_ANSWER_ERROR_SCHEDULING, 10, 3, 0, 0, 0));
}

static void full(void)
{
    begin();
    ACCEPTED(transmit(1, 2, SENT));
    REFUSED(transmit(1, 3, SENT), WIDOSHA_REFUSAL_TOKEN_WAITS);
    REFUSED(transmit(2, 2, SENT), WIDOSHA_REFUSAL_BUFFER_HELD);
    REFUSED(arrive(2, WIDOSHA_DIRECTION_TX, WIDOSHA_START_BEST_EFFORT, 0, 3, 126, 0), WIDOSHA_REFUSAL_TX_LENGTH);
    REFUSED(arrive(2, WIDOSHA_DIRECTION_TX, WIDOSHA_START_BEST_EFFORT, 0, 3, 12, 2), WIDOSHA_REFUSAL_UNFIT);
    ACCEPTED(transmit(2, 3, SENT));
    ACCEPTED(transmit(3, 4, SENT));
    ACCEPTED(transmit(4, 5, SENT));
    REFUSED(transmit(5, 6, SENT), WIDOSHA_REFUSAL_LINE_FULL);
    REFUSED(widosha_host_withdraw(&host, 5), WIDOSHA_REFUSAL_TOKEN_WAITS);
    ACCEPTED(widosha_host_withdraw(&host, 3));
    ACCEPTED(transmit(5, 4, SENT));
    host.line[95] = 1;
    REFUSED(widosha_host_request(&host), WIDOSHA_REFUSAL_STATE);
    host.line[95] = 0, host.count--;
    REFUSED(widosha_host_request(&host), WIDOSHA_REFUSAL_COUNT);
}

int main(void)
{
    static const uint8_t checked[5] = {0x02, 0x00, 0x6a, 0xe4, 0x79};
    int refusal;
    EXPECT(widosha_host_version_fits());
    acknowledged();
    plain();
    received();
    seen();
    full();
    EXPECT(widosha_fcs(checked, 3) == 0x79e4 && widosha_check_fcs(checked, 5) == WIDOSHA_FCS_YES);
    EXPECT(widosha_check_fcs(checked, 4) == WIDOSHA_FCS_NO);
    REFUSED(widosha_check_fcs(checked, 2), WIDOSHA_REFUSAL_FRAME_LENGTH);
    for (refusal = 1; refusal <= 14; refusal++)
        expect(met[refusal], widosha_host_refusal((uint8_t)refusal), __LINE__);
    return wrong;
}
