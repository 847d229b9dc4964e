/* A long list of random calls through c/widosha_host.h on the proved library, until every wait was met, each with every task that can
 * follow, beside a host's own bookkeeping: what it has handed in, and what came back. After each call the accessors of the line and of
 * held buffers say the same as the books. Exit 0 if all is so. */
#include <stdio.h>
#include <string.h>

#include "widosha_host.h"

enum { BUFFERS = 9, LINE = 4, CALLS = 400000, WAITS = 35 };
static struct widosha_host host;
static uint8_t pool[BUFFERS][WIDOSHA_BUFFER_LENGTH];
static int wrong;

/* The books. */
static struct widosha_host_arrival waiting[LINE];
static unsigned waits;
static int held[BUFFERS];

/* The waits that were met: bytes 17 to 19 of the state, at most 6 kinds, 7 cases and 4 tasks. */
static int met[6][7][4];
static unsigned waits_met;

static void expect(int holds, const char *what, int line)
{
    if (!holds) {
        printf("line %d: %s, in wait %u %u %u\n", line, what, host.state[17], host.state[18], host.state[19]);
        wrong = 1;
    }
}
#define EXPECT(what) expect(what, #what, __LINE__)

static unsigned some(unsigned below)
{
    static uint64_t random = 1;
    random = random * UINT64_C(6364136223846793005) + UINT64_C(1442695040888963407);
    return (unsigned)(random >> 33) % below;
}

/* Whatever stands in the pool: frames that want an ACK and do not, to this station and to another, and an ACK. */
static void write_somewhere(void)
{
    static const uint8_t frames[4][9] = {
        {0x61, 0x88, 7, 0x34, 0x12, 0x01, 0x00, 0x00, 0x00},
        {0x41, 0x88, 7, 0x34, 0x12, 0x01, 0x00, 0x00, 0x00},
        {0x61, 0x88, 7, 0x34, 0x12, 0x05, 0x00, 0x00, 0x00},
        {0x02, 0x00, 7, 0, 0, 0, 0, 0, 0},
    };
    memcpy(widosha_host_frame(&host, (uint8_t)(1 + some(BUFFERS - 1))), frames[some(4)], 9);
}

static void leaves(unsigned place)
{
    for (waits--; place < waits; place++)
        waiting[place] = waiting[place + 1];
}

static int same(struct widosha_host_arrival a, struct widosha_host_arrival b)
{
    return a.token == b.token && a.direction == b.direction && a.start == b.start && a.time == b.time && a.buffer == b.buffer
        && a.length == b.length && a.cca == b.cca;
}

/* The first Tx of the books, or as many as wait. */
static unsigned first_tx(void)
{
    unsigned place;
    for (place = 0; place < waits && waiting[place].direction != WIDOSHA_DIRECTION_TX; place++)
        ;
    return place;
}

static uint8_t arrive(void)
{
    static uint32_t token = 0xa0000000;
    struct widosha_host_arrival arrival = {++token, some(2) ? WIDOSHA_DIRECTION_TX : WIDOSHA_DIRECTION_RX,
        some(2) ? WIDOSHA_START_AT : WIDOSHA_START_BEST_EFFORT, UINT64_C(0x8182838485868788) + some(99), (uint8_t)some(BUFFERS),
        (uint16_t)(3 + some(123)), (uint8_t)some(2)};
    uint8_t refusal = widosha_host_arrive(&host, &arrival);
    EXPECT((refusal == WIDOSHA_REFUSAL_BUFFER_HELD) == held[arrival.buffer]);
    EXPECT(held[arrival.buffer] || (refusal == WIDOSHA_REFUSAL_LINE_FULL) == (waits == LINE));
    if (refusal == 0) {
        held[arrival.buffer] = 1;
        arrival.time = arrival.start == WIDOSHA_START_AT ? arrival.time : 0;
        arrival.length = arrival.direction == WIDOSHA_DIRECTION_TX ? arrival.length : 0;
        arrival.cca = arrival.direction == WIDOSHA_DIRECTION_TX ? arrival.cca : 0;
        waiting[waits++] = arrival;
    }
    return refusal;
}

static uint8_t withdraw(void)
{
    unsigned place = some(LINE);
    uint8_t refusal = widosha_host_withdraw(&host, place < waits ? waiting[place].token : 1);
    EXPECT(place < waits || refusal == WIDOSHA_REFUSAL_TOKEN_WAITS);
    if (refusal == 0) {
        held[waiting[place].buffer] = 0;
        leaves(place);
    }
    return refusal;
}

/* Which request leaves is told by its buffer alone, as each waits with another. */
static uint8_t request(void)
{
    uint8_t refusal = widosha_host_request(&host);
    unsigned place;
    if (refusal == 0) {
        for (place = 0; place < waits && waiting[place].buffer != widosha_host_buffer(&host); place++)
            ;
        EXPECT(place < waits);
        leaves(place);
    }
    return refusal;
}

static uint8_t outbound_seen(void)
{
    int fits = widosha_host_action(&host) == WIDOSHA_ACTION_LISTEN && first_tx() < waits;
    uint8_t refusal = widosha_host_outbound_seen_earliest(&host);
    EXPECT(refusal == (fits ? 0 : WIDOSHA_REFUSAL_UNFIT));
    return refusal;
}

static uint8_t any_call(void)
{
    switch (some(12)) {
    case 0: return arrive();
    case 1: return withdraw();
    case 2: return request();
    case 3: return widosha_host_none(&host);
    case 4: return widosha_host_frame_start(&host);
    case 5: return outbound_seen();
    case 6: return widosha_host_stopped(&host, (enum widosha_stop_outcome)some(5), 12, 1, 2);
    case 7: return widosha_host_header(&host, 9, (uint16_t)(9 + some(100)));
    case 8: return widosha_host_fallback(&host, (enum widosha_result)some(5), 3, 1, (enum widosha_cause)some(3), 4, 2);
    case 9: return widosha_host_rollback(&host);
    default: return widosha_host_entered(&host, (enum widosha_result)some(5), 3, 1, 2, 3);
    }
}

static void compare(void)
{
    struct widosha_host_arrival tx = {1, WIDOSHA_DIRECTION_RX, WIDOSHA_START_AT, 2, 3, 4, 5}, before = tx;
    struct widosha_host_arrival none = {0, WIDOSHA_DIRECTION_TX, WIDOSHA_START_BEST_EFFORT, 0, 0, 0, 0};
    unsigned at, first = first_tx();
    EXPECT(widosha_host_waiting(&host) == waits);
    for (at = 0; at <= LINE; at++)
        EXPECT(same(widosha_host_waiting_at(&host, at), at < waits ? waiting[at] : none));
    EXPECT(widosha_host_earliest_tx(&host, &tx) == (first < waits) && same(tx, first < waits ? waiting[first] : before));
    for (at = 0; at < BUFFERS; at++)
        EXPECT(widosha_host_holds(&host, (uint8_t)at) == held[at]);
}

static void count_wait(void)
{
    int *wait = &met[host.state[17]][host.state[18]][host.state[19]];
    waits_met += *wait == 0;
    *wait = 1;
}

int main(void)
{
    static const struct widosha_host_settings settings = {3, 2, 2, UINT64_C(0x0011223344550001), 0x1234, 0, 8, 0};
    unsigned made, at;
    if (widosha_host_start(&host, &settings, pool, BUFFERS) != 0)
        return 1;
    held[8] = held[0] = 1;
    compare();
    for (made = 0; made < CALLS && !wrong; made++) {
        write_somewhere();
        if (any_call() == 0)
            for (at = 0; at < widosha_host_answers(&host); at++)
                held[widosha_host_answer_at(&host, at).buffer] = 0;
        compare();
        count_wait();
    }
    if (waits_met != WAITS) {
        printf("%u waits met, not %d\n", waits_met, WAITS);
        wrong = 1;
    }
    return wrong;
}
