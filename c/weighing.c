/* Two weighings of a load cell, each sent to its hub in a frame of 12 bytes that wants an acknowledgement. The first gets its
 * own; the second gets one that the hub of another crane sends, with another number. The radio is simulated, and what decides is
 * the proved service. c/weighing.expected has what is printed, and why each line is right. Times are nanoseconds, and
 * microseconds as printed. */
#include <stdio.h>

#include "widosha_host.h"

#define MICROSECOND UINT64_C(1000)
/* 250 kbit/s: 32 microseconds for each byte; 6 of them go before a frame. Between a frame and its ACK's are 192 microseconds. */
#define AIR_TIME(bytes) ((6 + (uint64_t)(bytes)) * 32 * MICROSECOND)
#define ACK_SPACING (192 * MICROSECOND)

/* The station's buffers: two are the service's own, and one holds what is sent. */
enum { ACK_BUFFER = 0, SPARE_BUFFER = 1, WEIGHING_BUFFER = 2, BUFFERS = 3 };

static struct widosha_host host;
static uint8_t pool[BUFFERS][WIDOSHA_BUFFER_LENGTH];

/* What the radio is at: when its task ends or has ended, and the buffer that it receives into. */
static struct {
    uint64_t ends;
    uint8_t buffer;
} radio;

/* The three bytes that the radio receives where it waits for an ACK. */
static const uint8_t *on_the_air;

static void put_frame(uint8_t buffer, const uint8_t *frame, size_t length)
{
    uint8_t *to = widosha_host_frame(&host, buffer);
    size_t at;
    for (at = 0; at < length; at++)
        to[at] = frame[at];
}

static const char *outcome_name(enum widosha_answer_code outcome)
{
    switch (outcome) {
    case WIDOSHA_ANSWER_SENT:
        return "Sent";
    case WIDOSHA_ANSWER_NACK:
        return "Nack";
    default:
        return "something that this example does not meet";
    }
}

static void tell_answers(void)
{
    unsigned which;
    for (which = 0; which < widosha_host_answers(&host); which++) {
        struct widosha_host_answer answer = widosha_host_answer_at(&host, which);
        printf("    answer: token %lu is %s, sent at %lu; buffer %u is free again\n", (unsigned long)answer.token,
            outcome_name(answer.outcome), (unsigned long)(answer.time / MICROSECOND), (unsigned)answer.buffer);
    }
}

/* The action that stands, in words. */
static void tell_action(void)
{
    unsigned buffer = widosha_host_buffer(&host);
    switch (widosha_host_action(&host)) {
    case WIDOSHA_ACTION_RECEIVE_REQUEST:
        printf("wait for a request\n");
        break;
    case WIDOSHA_ACTION_TRY_RECEIVE_REQUEST:
        printf("ask the line for a request\n");
        break;
    case WIDOSHA_ACTION_STOP_AT:
        printf("stop listening at %lu\n", (unsigned long)(widosha_host_time(&host) / MICROSECOND));
        break;
    case WIDOSHA_ACTION_TX:
        printf("send %u bytes of buffer %u%s\n", (unsigned)widosha_host_length(&host), buffer,
            widosha_host_flags(&host) & WIDOSHA_FLAG_CCA ? ", check the channel" : "");
        break;
    case WIDOSHA_ACTION_RX:
        printf("receive into buffer %u%s\n", buffer,
            widosha_host_spacing(&host) == WIDOSHA_SPACING_AIFS ? ", after the ACK spacing" : "");
        break;
    case WIDOSHA_ACTION_OFF:
        printf("switch off%s\n", widosha_host_flags(&host) & WIDOSHA_FLAG_ROLLBACK ? ", or receive on" : "");
        break;
    default:
        printf("an action that this example does not meet: %u\n", (unsigned)widosha_host_action(&host));
    }
}

/* Says what a call came to, and hands its refusal on. */
static uint8_t told(const char *call, uint8_t refusal)
{
    printf("%-28s", call);
    if (refusal != 0) {
        printf("refused by %u: %s\n", (unsigned)refusal, widosha_host_refusal(refusal));
        return refusal;
    }
    tell_action();
    tell_answers();
    return 0;
}

/* Has the radio begin a task. */
static void begin(uint64_t ends)
{
    /* What is in the pool has to be there before the radio reads it; then a driver writes the register that it begins by. */
    WIDOSHA_FENCE();
    radio.ends = ends;
}

/* The radio enters the task of the action that stands, and tells what the previous one came to. */
static uint8_t enter(void)
{
    uint64_t ended = radio.ends;
    switch (widosha_host_action(&host)) {
    case WIDOSHA_ACTION_TX: /* it was off */
        begin(ended + AIR_TIME(widosha_host_length(&host) + 2));
        return told("entered, was off", widosha_host_entered(&host, WIDOSHA_RESULT_OFF, 0, 0, ended, 0));
    case WIDOSHA_ACTION_RX: /* it has sent, and an ACK of 5 bytes with checksum begins after the spacing */
        radio.buffer = widosha_host_buffer(&host);
        begin(ended + ACK_SPACING + AIR_TIME(5));
        return told("entered, frame is sent", widosha_host_entered(&host, WIDOSHA_RESULT_SENT, 0, ended, ended + ACK_SPACING, 0));
    default: /* it has received the ACK, and is off */
        put_frame(radio.buffer, on_the_air, 3);
        return told("entered, 3 bytes received", widosha_host_entered(&host, WIDOSHA_RESULT_FRAME, 3, ended, ended, 187));
    }
}

/* Does what the action that stands asks for, by the call that it waits for. */
static uint8_t next_call(void)
{
    uint8_t refusal;
    switch (widosha_host_action(&host)) {
    case WIDOSHA_ACTION_RECEIVE_REQUEST:
        return told("request", widosha_host_request(&host));
    case WIDOSHA_ACTION_TRY_RECEIVE_REQUEST:
        refusal = widosha_host_request(&host);
        return refusal == WIDOSHA_REFUSAL_NOT_ALLOWED ? told("none", widosha_host_none(&host)) : told("request", refusal);
    case WIDOSHA_ACTION_STOP_AT: /* the ACK begins in time */
        return told("stopped, a frame started", widosha_host_stopped(&host, WIDOSHA_OUTCOME_FRAME_STARTED, 0, 0, 0));
    case WIDOSHA_ACTION_TX:
    case WIDOSHA_ACTION_RX:
    case WIDOSHA_ACTION_OFF:
        return enter();
    default:
        return WIDOSHA_REFUSAL_UNFIT;
    }
}

/* One weighing, to its answer. */
static uint8_t weigh(uint32_t token, uint8_t number, const uint8_t *ack, uint64_t from)
{
    /* Data, wants an ACK; its number, PAN 1234, from cell 0001 to hub 0000; 23,920 kg. */
    const uint8_t frame[12] = {0x61, 0x88, number, 0x34, 0x12, 0x00, 0x00, 0x01, 0x00, 0x70, 0x5d, 0x00};
    struct widosha_host_arrival arrival = {0, WIDOSHA_DIRECTION_TX, WIDOSHA_START_BEST_EFFORT, 0, 0, 0, 0};
    uint8_t refusal;
    arrival.token = token;
    arrival.buffer = WEIGHING_BUFFER;
    arrival.length = sizeof frame;
    arrival.cca = 1;
    printf("Weighing number %u, while the air has an ACK for %u:\n", (unsigned)number, (unsigned)ack[2]);
    put_frame(WEIGHING_BUFFER, frame, sizeof frame);
    on_the_air = ack;
    radio.ends = from;
    refusal = told("arrive", widosha_host_arrive(&host, &arrival));
    do {
        refusal = refusal == 0 ? next_call() : refusal;
    } while (refusal == 0 && widosha_host_answers(&host) == 0);
    return refusal;
}

int main(void)
{
    static const uint8_t own_ack[3] = {0x02, 0x00, 7}, stray_ack[3] = {0x02, 0x00, 9};
    struct widosha_host_settings settings = {0, 0, 0, 0, 0, 0, 0, 0};
    if (!widosha_host_version_fits()) {
        printf("version %lu of the library, %d of the header\n", (unsigned long)widosha_abi_version(), WIDOSHA_ABI_VERSION);
        return 1;
    }
    settings.headroom = 2;
    settings.tailroom = 1;
    settings.fcs_length = 2;
    settings.hardware_addr = UINT64_C(0x0011223344550001);
    settings.pan_id = 0x1234;
    settings.ack_buffer = ACK_BUFFER;
    settings.spare_buffer = SPARE_BUFFER;
    printf("version %d\n", WIDOSHA_ABI_VERSION);
    if (told("start", widosha_host_start(&host, &settings, pool, BUFFERS)) != 0)
        return 1;
    if (weigh(1, 7, own_ack, 1000 * MICROSECOND) != 0 || weigh(2, 8, stray_ack, 5000 * MICROSECOND) != 0)
        return 1;
    printf("No task is to be entered now, so this does not fit:\n");
    return told("rollback", widosha_host_rollback(&host)) == WIDOSHA_REFUSAL_UNFIT ? 0 : 1;
}
