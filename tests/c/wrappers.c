/* c/widosha_host.h over functions that record what they are called with: each wrapper passes its numbers and the host's slices
 * to its own function, with its fences, and each accessor reads the bytes that docs/LAYOUTS.md says. Exit 0 if all is so. */
#include <stdio.h>
#include <string.h>

static int fences;
#define WIDOSHA_FENCE() (fences++)
#include "widosha_host.h"

static struct {
    const char *function;
    uint64_t numbers[9];
    const uint8_t *slices[4];
    size_t lengths[4];
    int fences;
} met;
static uint8_t returned;
static uint8_t written[WIDOSHA_REPLY_LENGTH];
static uint32_t version = WIDOSHA_ABI_VERSION;
static int wrong;

static void expect(int holds, const char *what, int line)
{
    if (!holds) {
        printf("line %d: %s\n", line, what);
        wrong = 1;
    }
}
#define EXPECT(what) expect(what, #what, __LINE__)

/* ---- The functions of widosha.h */

#define SLICES \
    uint8_t *state, size_t state_len, uint8_t *line, size_t line_len, uint8_t *reply, size_t reply_len, uint8_t *pool, size_t pool_len
#define RECORD(name, ...) \
    const uint64_t numbers[9] = {__VA_ARGS__}; \
    met.function = name; \
    memcpy(met.numbers, numbers, sizeof numbers); \
    return recorded(state, state_len, line, line_len, reply, reply_len, pool, pool_len)

static uint8_t recorded(SLICES)
{
    met.slices[0] = state, met.slices[1] = line, met.slices[2] = reply, met.slices[3] = pool;
    met.lengths[0] = state_len, met.lengths[1] = line_len, met.lengths[2] = reply_len, met.lengths[3] = pool_len;
    met.fences = fences;
    if (returned == 0)
        memcpy(reply, written, sizeof written);
    return returned;
}

uint32_t widosha_abi_version(void) { return version; }
uint8_t widosha_start(
    uint8_t count, uint8_t headroom, uint8_t tailroom, uint8_t fcs_length, uint64_t hardware_addr, uint16_t pan_id,
    uint8_t implicit_broadcast, uint8_t ack_buffer, uint8_t spare_buffer, SLICES)
{
    RECORD("start", count, headroom, tailroom, fcs_length, hardware_addr, pan_id, implicit_broadcast, ack_buffer, spare_buffer);
}
uint8_t widosha_arrive(
    uint32_t token, uint8_t direction, uint8_t start, uint64_t time, uint8_t buffer, uint16_t length, uint8_t cca, SLICES)
{
    RECORD("arrive", token, direction, start, time, buffer, length, cca);
}
uint8_t widosha_withdraw(uint32_t token, SLICES) { RECORD("withdraw", token); }
uint8_t widosha_request(SLICES) { RECORD("request", 0); }
uint8_t widosha_none(SLICES) { RECORD("none", 0); }
uint8_t widosha_frame_start(SLICES) { RECORD("frame_start", 0); }
uint8_t widosha_outbound_seen(uint8_t start, uint64_t time, uint8_t cca, SLICES) { RECORD("outbound_seen", start, time, cca); }
uint8_t widosha_stopped(uint8_t outcome, uint16_t length, uint64_t time, uint8_t quality, SLICES)
{
    RECORD("stopped", outcome, length, time, quality);
}
uint8_t widosha_header(uint16_t arrived, uint16_t length, SLICES) { RECORD("header", arrived, length); }
uint8_t widosha_entered(uint8_t result, uint16_t length, uint64_t time, uint64_t entry, uint8_t quality, SLICES)
{
    RECORD("entered", result, length, time, entry, quality);
}
uint8_t widosha_fallback(
    uint8_t result, uint16_t length, uint64_t time, uint8_t cause, uint64_t cause_time, uint8_t quality, SLICES)
{
    RECORD("fallback", result, length, time, cause, cause_time, quality);
}
uint8_t widosha_rollback(SLICES) { RECORD("rollback", 0); }

/* ---- The wrappers: each once accepted with an action, once accepted without, once refused */

static struct widosha_host host;
static uint8_t pool[5][WIDOSHA_BUFFER_LENGTH];
static const uint8_t empty[WIDOSHA_REPLY_LENGTH] = {0};
/* Widest numbers, each different, so that one that is cut or in another's place is seen; of the codes two that differ. */
static const uint64_t LONG = UINT64_C(0xf1e2d3c4b5a69788), LONGER = UINT64_C(0xfedcba9876543210);

static uint8_t make(int which)
{
    static const struct widosha_host_arrival arrival = {
        0xa1b2c3d4, WIDOSHA_DIRECTION_RX, WIDOSHA_START_BEST_EFFORT, UINT64_C(0xf1e2d3c4b5a69788), 0xab, 0xbcde, 0xcf};
    switch (which) {
    case 0: return widosha_host_arrive(&host, &arrival);
    case 1: return widosha_host_withdraw(&host, 0xa1b2c3d4);
    case 2: return widosha_host_request(&host);
    case 3: return widosha_host_none(&host);
    case 4: return widosha_host_frame_start(&host);
    case 5: return widosha_host_outbound_seen(&host, WIDOSHA_START_AT, LONG, 0xf6);
    case 6: return widosha_host_stopped(&host, WIDOSHA_OUTCOME_CRC_ERROR, 0xbcde, LONG, 0xf6);
    case 7: return widosha_host_header(&host, 0xbcde, 0xcdef);
    case 8: return widosha_host_entered(&host, WIDOSHA_RESULT_WINDOW_ENDED, 0xbcde, LONG, LONGER, 0xf6);
    case 9: return widosha_host_fallback(&host, WIDOSHA_RESULT_CRC_ERROR, 0xbcde, LONG, WIDOSHA_CAUSE_TASK, LONGER, 0xab);
    default: return widosha_host_rollback(&host);
    }
}

static const struct {
    const char *function;
    uint64_t numbers[9];
    int fences;
} CALLS[11] = {
    {"arrive", {0xa1b2c3d4, 1, 0, UINT64_C(0xf1e2d3c4b5a69788), 0xab, 0xbcde, 0xcf}, 0},
    {"withdraw", {0xa1b2c3d4}, 0},
    {"request", {0}, 0},
    {"none", {0}, 0},
    {"frame_start", {0}, 0},
    {"outbound_seen", {1, UINT64_C(0xf1e2d3c4b5a69788), 0xf6}, 0},
    {"stopped", {4, 0xbcde, UINT64_C(0xf1e2d3c4b5a69788), 0xf6}, 1},
    {"header", {0xbcde, 0xcdef}, 1},
    {"entered", {3, 0xbcde, UINT64_C(0xf1e2d3c4b5a69788), UINT64_C(0xfedcba9876543210), 0xf6}, 1},
    {"fallback", {4, 0xbcde, UINT64_C(0xf1e2d3c4b5a69788), 2, UINT64_C(0xfedcba9876543210), 0xab}, 1},
    {"rollback", {0}, 0},
};

static void expect_slices(size_t buffers)
{
    EXPECT(met.slices[0] == host.state && met.lengths[0] == 64);
    EXPECT(met.slices[1] == host.line && met.lengths[1] == 96);
    EXPECT(met.slices[2] == host.reply && met.lengths[2] == 48);
    EXPECT(met.slices[3] == &pool[0][0] && met.lengths[3] == 144 * buffers);
}

static void try_call(int which)
{
    uint8_t before[WIDOSHA_HOST_ACTION_LENGTH];
    uint8_t returns;
    size_t at;
    for (at = 0; at < sizeof written; at++)
        written[at] = (uint8_t)(which + 3 * (int)at + 1);
    fences = 0, returned = 0;
    EXPECT(make(which) == 0);
    EXPECT(strcmp(met.function, CALLS[which].function) == 0);
    EXPECT(memcmp(met.numbers, CALLS[which].numbers, sizeof met.numbers) == 0);
    EXPECT(met.fences == CALLS[which].fences && fences == CALLS[which].fences);
    expect_slices(5);
    EXPECT(memcmp(host.reply, written, sizeof written) == 0);
    EXPECT(memcmp(host.action, written, sizeof host.action) == 0);
    memcpy(before, host.action, sizeof before);
    for (returns = 1; returns <= 14; returns++) {
        host.reply[12] = 6, returned = returns;
        EXPECT(make(which) == returns);
        EXPECT(memcmp(host.reply, empty, sizeof empty) == 0 && memcmp(host.action, before, sizeof before) == 0);
    }
    memset(written, 0, sizeof written);
    returned = 0;
    EXPECT(make(which) == 0);
    EXPECT(memcmp(host.reply, empty, sizeof empty) == 0 && memcmp(host.action, before, sizeof before) == 0);
}

static void try_start(void)
{
    static const struct widosha_host_settings settings = {7, 6, 4, UINT64_C(0xf1e2d3c4b5a69788), 0xbcde, 1, 3, 4};
    static const uint64_t numbers[9] = {5, 7, 6, 4, UINT64_C(0xf1e2d3c4b5a69788), 0xbcde, 1, 3, 4};
    uint8_t returns;
    for (returns = 1; returns <= 14; returns++) {
        returned = returns;
        EXPECT(widosha_host_start(&host, &settings, pool, 5) == returns);
        EXPECT(host.pool == NULL && host.count == 0 && widosha_host_frame(&host, 0) == NULL);
        expect_slices(5);
    }
    returned = 0, fences = 0;
    written[0] = WIDOSHA_ACTION_RECEIVE_REQUEST;
    EXPECT(widosha_host_start(&host, &settings, pool, 5) == 0);
    EXPECT(strcmp(met.function, "start") == 0 && memcmp(met.numbers, numbers, sizeof numbers) == 0);
    EXPECT(fences == 0);
    EXPECT(host.pool == &pool[0][0] && host.count == 5);
    EXPECT(widosha_host_action(&host) == WIDOSHA_ACTION_RECEIVE_REQUEST);
    expect_slices(5);
}

/* Every code is passed as it is, wherever a code is passed. */
static void try_passed(void)
{
    int code, passed;
    memset(written, 0, sizeof written);
    returned = 0;
    for (code = 0; code <= WIDOSHA_OUTCOME_CRC_ERROR; code++) {
        passed = widosha_host_stopped(&host, (enum widosha_stop_outcome)code, 0, 0, 0);
        EXPECT(passed == 0 && met.numbers[0] == (uint64_t)code);
        passed = widosha_host_entered(&host, (enum widosha_result)code, 0, 0, 0, 0);
        EXPECT(passed == 0 && met.numbers[0] == (uint64_t)code);
        passed = widosha_host_fallback(&host, (enum widosha_result)code, 0, 0, (enum widosha_cause)(code % 3), 0, 0);
        EXPECT(passed == 0 && met.numbers[0] == (uint64_t)code && met.numbers[3] == (uint64_t)code % 3);
    }
    for (code = 0; code < 4; code++) {
        struct widosha_host_arrival arrival = {0, (enum widosha_direction)(code / 2), (enum widosha_start_code)(code % 2), 0, 0, 0, 0};
        passed = widosha_host_arrive(&host, &arrival);
        EXPECT(passed == 0 && met.numbers[1] == (uint64_t)code / 2 && met.numbers[2] == (uint64_t)code % 2);
        passed = widosha_host_outbound_seen(&host, (enum widosha_start_code)(code % 2), 0, 0);
        EXPECT(passed == 0 && met.numbers[0] == (uint64_t)code % 2);
    }
}

/* ---- The accessors, on the bytes of docs/LAYOUTS.md */

static void try_action(void)
{
    static const uint8_t action[12] = {9, 0x21, 0x32, 0, 0xf8, 0xe7, 0xd6, 0xc5, 0xb4, 0xa3, 0x92, 0x81};
    int flags;
    memcpy(host.action, action, sizeof action);
    EXPECT(widosha_host_action(&host) == WIDOSHA_ACTION_TX);
    EXPECT(widosha_host_buffer(&host) == 0x21);
    EXPECT(widosha_host_length(&host) == 0x32);
    EXPECT(widosha_host_time(&host) == UINT64_C(0x8192a3b4c5d6e7f8));
    for (flags = 0; flags < 32; flags++) {
        host.action[3] = (uint8_t)flags;
        EXPECT(widosha_host_flags(&host) == flags % 8);
        EXPECT((int)widosha_host_spacing(&host) == flags / 8);
    }
}

static void try_answers(void)
{
    static const uint8_t answers[36] = {
        6, 0x14, 0x25, 0x36, 0x87, 0x58, 0x69, 0x7a, 0x8b, 0x9c, 0xad, 0xbe, 0xcf, 0xd0, 0xe1, 0xf2, 0, 0,
        4, 0x15, 0x26, 0x37, 0x88, 0x59, 0x6a, 0x7b, 0x8c, 0x9d, 0xae, 0xbf, 0xc0, 0xd1, 0xe2, 0xf3, 0, 0,
    };
    struct widosha_host_answer answer;
    EXPECT(widosha_host_answers(&host) == 0 && widosha_host_answer_at(&host, 0).outcome == WIDOSHA_ANSWER_NONE);
    memcpy(host.reply + 12, answers, 18);
    EXPECT(widosha_host_answers(&host) == 1 && widosha_host_answer_at(&host, 1).outcome == WIDOSHA_ANSWER_NONE);
    memcpy(host.reply + 12, answers, 36);
    EXPECT(widosha_host_answers(&host) == 2 && widosha_host_answer_at(&host, 2).outcome == WIDOSHA_ANSWER_NONE);
    answer = widosha_host_answer_at(&host, 0);
    EXPECT(answer.outcome == WIDOSHA_ANSWER_FRAME && answer.token == 0x87362514 && answer.buffer == 0x58 && answer.length == 0x69);
    EXPECT(answer.time == UINT64_C(0xe1d0cfbead9c8b7a) && answer.quality == 0xf2);
    answer = widosha_host_answer_at(&host, 1);
    EXPECT(answer.outcome == WIDOSHA_ANSWER_ERROR_SCHEDULING_AT && answer.token == 0x88372615 && answer.buffer == 0x59);
    EXPECT(answer.length == 0x6a && answer.time == UINT64_C(0xe2d1c0bfae9d8c7b) && answer.quality == 0xf3);
}

/* Every code is an answer, in either place. */
static void try_codes(void)
{
    int code;
    for (code = WIDOSHA_ANSWER_SENT; code <= WIDOSHA_ANSWER_CRC_ERROR; code++) {
        memset(host.reply, 0, sizeof host.reply);
        host.reply[12] = (uint8_t)code;
        EXPECT(widosha_host_answers(&host) == 1 && (int)widosha_host_answer_at(&host, 0).outcome == code);
        host.reply[30] = (uint8_t)code;
        EXPECT(widosha_host_answers(&host) == 2 && (int)widosha_host_answer_at(&host, 1).outcome == code);
    }
}

/* The numbers that are no refusal; tests/40-header.sh compares the sentences of the others. */
static void try_sentences(void)
{
    EXPECT(strcmp(widosha_host_refusal(0), "Accepted.") == 0);
    EXPECT(strcmp(widosha_host_refusal(15), "No refusal has this number.") == 0);
    EXPECT(strcmp(widosha_host_refusal(WIDOSHA_FCS_NO), "No refusal has this number.") == 0);
}

static void try_pool(void)
{
    host.state[0] = 5, host.state[1] = 7, host.state[2] = 6, host.state[3] = 4;
    EXPECT(widosha_host_frame(&host, 0) == pool[0] + 7);
    EXPECT(widosha_host_frame(&host, 4) == pool[4] + 7);
    EXPECT(widosha_host_frame(&host, 5) == NULL && widosha_host_frame(&host, 255) == NULL);
    EXPECT(widosha_host_longest(&host) == 123);
}

static void try_versions(void)
{
    EXPECT(widosha_host_version_fits());
    version = WIDOSHA_ABI_VERSION - 1;
    EXPECT(!widosha_host_version_fits());
    version = WIDOSHA_ABI_VERSION + 1;
    EXPECT(!widosha_host_version_fits());
}

int main(void)
{
    int which;
    try_start();
    for (which = 0; which < 11; which++)
        try_call(which);
    try_passed();
    try_action();
    try_answers();
    try_codes();
    try_sentences();
    try_pool();
    try_versions();
    return wrong;
}
