/* The hub of a crane: it receives the weighings of its load cell and acknowledges them; then it sends a command, for which the channel
 * is busy at first, and goes off. It hears frames of another crane too, and one that is damaged. The radio is simulated; what decides is
 * the proved service, and between the two is the loop of widosha_loop.h over a queue of events, as on a radio with interrupts.
 * c/hub.expected has what is printed, and why each line is right. Times are nanoseconds, and microseconds as printed. */
#include <stdio.h>

#include "widosha_loop.h"

#define MICROSECOND UINT64_C(1000)
/* 250 kbit/s: 32 microseconds for each byte; 6 of them go before a frame. */
#define AIR_TIME(bytes) ((6 + (uint64_t)(bytes)) * 32 * MICROSECOND)

/* The hub's buffers: two are the service's own, one is to receive, and one holds what is sent. */
enum { ACK_BUFFER = 0, SPARE_BUFFER = 1, FIRST_RX_BUFFER = 2, COMMAND_BUFFER = 3, BUFFERS = 4, FRAME = 17 };

static struct widosha_host host;
static uint8_t pool[BUFFERS][WIDOSHA_BUFFER_LENGTH];

static void put_frame(uint8_t buffer, const uint8_t *frame)
{
    uint8_t *to = widosha_host_frame(&host, buffer);
    size_t at;
    for (at = 0; at < FRAME; at++)
        to[at] = frame[at];
}

/* ---- The queue: the interrupt handler puts events in, the main loop takes them out. Where there are interrupts, they are held back while
 * it does so. */

static struct {
    struct widosha_loop_event events[2];
    unsigned first, count;
} queue;

static void put(const struct widosha_loop_event *event)
{
    queue.events[(queue.first + queue.count++) % 2] = *event;
}

static int take(struct widosha_loop_event *event)
{
    if (queue.count == 0)
        return 0;
    *event = queue.events[queue.first];
    queue.first = (queue.first + 1) % 2;
    queue.count--;
    return 1;
}

/* ---- The host: a request to receive as long as none is open, until it has a command */

static struct {
    uint32_t token;
    int receives; /* a request to receive is not answered yet */
    uint8_t rx_buffer; /* for the next one */
    int has_command, closes;
    uint64_t command_at;
} hub;

static int next_request(void *context, struct widosha_host_arrival *arrival)
{
    /* Data, wants no ACK; number 1, PAN 1234, from hub 0000 to cell 0001: its display is to be set to 0. */
    static const uint8_t command[FRAME] = {0x41, 0x88, 1, 0x34, 0x12, 0x01, 0x00, 0x00, 0x00, 0, 0, 0, 0, 0, 0, 0, 0};
    struct widosha_host_arrival request = {0, WIDOSHA_DIRECTION_RX, WIDOSHA_START_BEST_EFFORT, 0, 0, 0, 0};
    (void)context;
    if (hub.has_command && !widosha_host_holds(&host, COMMAND_BUFFER)) {
        request.direction = WIDOSHA_DIRECTION_TX;
        request.start = WIDOSHA_START_AT;
        request.time = hub.command_at;
        request.buffer = COMMAND_BUFFER;
        request.length = FRAME;
        request.cca = 1;
        put_frame(COMMAND_BUFFER, command);
        hub.has_command = 0;
    } else if (!hub.receives && !hub.closes) {
        request.buffer = hub.rx_buffer;
        hub.receives = 1;
    } else {
        return 0;
    }
    request.token = ++hub.token;
    *arrival = request;
    printf("    token %lu arrives: %s buffer %u\n", (unsigned long)request.token,
        request.direction == WIDOSHA_DIRECTION_TX ? "to send" : "to receive into", (unsigned)request.buffer);
    return 1;
}

static void refused(void *context, const struct widosha_host_arrival *arrival, uint8_t refusal)
{
    (void)context;
    printf("    token %lu is refused: %s\n", (unsigned long)arrival->token, widosha_host_refusal(refusal));
}

static void answered(void *context, const struct widosha_host_answer *answer)
{
    const uint8_t *frame = widosha_host_frame(&host, answer->buffer);
    unsigned long time = (unsigned long)(answer->time / MICROSECOND);
    (void)context;
    printf("    token %lu: ", (unsigned long)answer->token);
    switch (answer->outcome) {
    case WIDOSHA_ANSWER_FRAME:
        printf("frame %u of %u bytes at %lu, quality %u, from cell %02x%02x: %lu kg\n", (unsigned)frame[2], (unsigned)answer->length,
            time, (unsigned)answer->quality, (unsigned)frame[8], (unsigned)frame[7],
            (unsigned long)widosha_host_number(frame + 9, 8));
        break;
    case WIDOSHA_ANSWER_WINDOW_ENDED:
        printf("the window ended\n");
        break;
    case WIDOSHA_ANSWER_SENT:
        printf("sent at %lu\n", time);
        return;
    case WIDOSHA_ANSWER_ERROR_TASK:
        printf("not sent, the channel is busy\n");
        hub.has_command = 1;
        hub.command_at += 2000 * MICROSECOND;
        return;
    default:
        printf("an outcome that this example does not meet: %u\n", (unsigned)answer->outcome);
    }
    hub.receives = 0;
    hub.rx_buffer = answer->buffer; /* not the one that was handed in, if a frame of others was received meanwhile */
}

/* ---- The radio */

/* Data to hub 0000 or to another, wants an ACK; its number, PAN 1234, from cell 0001 or from another; 23,920 kg in eight bytes. */
#define WEIGHING(number, to, from) {0x61, 0x88, number, 0x34, 0x12, to, 0x00, from, 0x00, 0x70, 0x5d, 0, 0, 0, 0, 0, 0}
static const struct on_air {
    uint64_t starts;
    uint8_t frame[FRAME];
    int damaged;
    int command; /* the hub has a command as it starts */
} air[] = {
    {1000 * MICROSECOND, WEIGHING(4, 0x05, 0x06), 0, 0},
    {3000 * MICROSECOND, WEIGHING(7, 0x00, 0x01), 1, 0},
    {5000 * MICROSECOND, WEIGHING(7, 0x00, 0x01), 0, 0},
    {8000 * MICROSECOND, WEIGHING(5, 0x05, 0x06), 0, 1},
};

static struct {
    enum widosha_action task; /* that it was told to begin; the rest of it stands in the host's action */
    const struct on_air *hears; /* the frame that it receives */
    unsigned heard; /* how many frames there were */
    uint8_t buffer; /* that it receives into */
    int sends;
    uint64_t ends; /* what it sends or receives */
    int found_busy; /* the channel, once */
} radio;

/* Begins the task of the action. A driver writes its registers here, DMA gets the address of the buffer, and the interrupt is enabled. */
static void begin(void *context, const struct widosha_host *station)
{
    unsigned buffer = widosha_host_buffer(station);
    int rollback = (widosha_host_flags(station) & WIDOSHA_FLAG_ROLLBACK) != 0;
    (void)context;
    WIDOSHA_FENCE();
    radio.task = widosha_host_action(station);
    switch (radio.task) {
    case WIDOSHA_ACTION_LISTEN:
        printf("    -> listen\n");
        break;
    case WIDOSHA_ACTION_STOP_NOW:
        printf("    -> stop listening\n");
        break;
    case WIDOSHA_ACTION_STOP_BEFORE:
        printf("    -> stop listening in time to send at %lu\n", (unsigned long)(widosha_host_time(station) / MICROSECOND));
        break;
    case WIDOSHA_ACTION_READ_HEADER:
        printf("    -> read the header\n");
        break;
    case WIDOSHA_ACTION_TX:
        printf("    -> send %u bytes of buffer %u%s\n", (unsigned)widosha_host_length(station), buffer,
            rollback ? ", after the ACK spacing, or receive on" : ", if the channel is free");
        break;
    case WIDOSHA_ACTION_RX:
        printf("    -> receive into buffer %u%s\n", buffer,
            widosha_host_spacing(station) == WIDOSHA_SPACING_LIFS ? ", after the long spacing" : "");
        break;
    case WIDOSHA_ACTION_OFF:
        printf("    -> switch off\n");
        break;
    default:
        printf("    -> an action that this example does not meet: %u\n", (unsigned)radio.task);
    }
}

/* What the radio was at has ended: it enters its task, or it could not, or it goes back to listening. */
static void enter(struct widosha_loop_event *event, enum widosha_action task)
{
    int flags = widosha_host_flags(&host);
    event->kind = WIDOSHA_LOOP_ENTERED;
    event->time = event->entry = radio.ends;
    event->result = radio.sends ? WIDOSHA_RESULT_SENT : WIDOSHA_RESULT_OFF;
    if (radio.hears != NULL) {
        event->result = radio.hears->damaged ? WIDOSHA_RESULT_CRC_ERROR : WIDOSHA_RESULT_FRAME;
        event->length = FRAME;
        event->quality = 187;
        if (radio.hears->damaged && flags & WIDOSHA_FLAG_ROLLBACK)
            event->kind = WIDOSHA_LOOP_ROLLBACK;
    } else if (flags & WIDOSHA_FLAG_CCA && !radio.found_busy) {
        radio.found_busy = 1;
        event->kind = WIDOSHA_LOOP_FALLBACK;
    }
    radio.hears = NULL;
    radio.sends = task == WIDOSHA_ACTION_TX && event->kind == WIDOSHA_LOOP_ENTERED;
    if (radio.sends)
        radio.ends = (flags & WIDOSHA_FLAG_AT ? widosha_host_time(&host) : radio.ends)
            + AIR_TIME(widosha_host_length(&host) + 2);
    if (task == WIDOSHA_ACTION_RX)
        radio.buffer = widosha_host_buffer(&host);
}

/* The interrupt handler: what the task has come to. 0 if the radio has none, or the air is silent. */
static int interrupt(void)
{
    struct widosha_loop_event event = {
        WIDOSHA_LOOP_STOPPED, WIDOSHA_OUTCOME_WINDOW_ENDED, WIDOSHA_RESULT_OFF, WIDOSHA_CAUSE_TASK, 0, 0, 0, 0, 0, 0};
    enum widosha_action task = radio.task;
    radio.task = WIDOSHA_ACTION_NOTHING;
    switch (task) {
    case WIDOSHA_ACTION_NOTHING:
        return 0;
    case WIDOSHA_ACTION_LISTEN:
        if (radio.heard == sizeof air / sizeof air[0])
            return 0;
        radio.hears = &air[radio.heard++];
        radio.ends = radio.hears->starts + AIR_TIME(FRAME + 2);
        event.kind = WIDOSHA_LOOP_FRAME_START;
        break;
    case WIDOSHA_ACTION_STOP_NOW:
    case WIDOSHA_ACTION_STOP_BEFORE:
        if (radio.hears != NULL)
            event.outcome = WIDOSHA_OUTCOME_FRAME_STARTED;
        break;
    case WIDOSHA_ACTION_READ_HEADER: /* this frame is all there before its header is asked for */
        put_frame(radio.buffer, radio.hears->frame);
        event.kind = WIDOSHA_LOOP_HEADER;
        event.arrived = FRAME;
        event.length = FRAME + 2;
        break;
    default:
        enter(&event, task);
    }
    put(&event);
    return 1;
}

static const char *event_name(const struct widosha_loop_event *event)
{
    switch (event->kind) {
    case WIDOSHA_LOOP_FRAME_START:
        return "a frame starts";
    case WIDOSHA_LOOP_STOPPED:
        return event->outcome == WIDOSHA_OUTCOME_FRAME_STARTED ? "stopped: a frame started" : "stopped: the window ended";
    case WIDOSHA_LOOP_HEADER:
        return "the header is there";
    case WIDOSHA_LOOP_ENTERED:
        return event->result == WIDOSHA_RESULT_OFF ? "entered, was off"
            : event->result == WIDOSHA_RESULT_SENT ? "entered, frame is sent" : "entered, frame is received";
    case WIDOSHA_LOOP_FALLBACK:
        return "not entered: the channel is busy";
    default:
        return "the frame is damaged";
    }
}

/* ---- The main loop */

int main(void)
{
    static const struct widosha_host_settings settings = {2, 1, 2, UINT64_C(0x0011223344550000), 0x1234, 0, ACK_BUFFER, SPARE_BUFFER};
    struct widosha_loop loop = {&host, NULL, next_request, refused, answered, begin, 0};
    struct widosha_loop_event event;
    uint8_t refusal;
    if (!widosha_host_version_fits() || widosha_host_start(&host, &settings, pool, BUFFERS) != 0)
        return 1;
    hub.rx_buffer = FIRST_RX_BUFFER;
    printf("started\n");
    refusal = widosha_loop_host_has_more(&loop);
    while (refusal == 0 && interrupt()) {
        if (radio.hears != NULL && radio.hears->command && !hub.closes) {
            printf("the hub has a command\n");
            hub.has_command = hub.closes = 1;
            hub.command_at = 12000 * MICROSECOND;
        }
        refusal = widosha_loop_host_has_more(&loop); /* whatever woke the loop: the host has its turn */
        while (refusal == 0 && take(&event)) {
            printf("%s\n", event_name(&event));
            refusal = widosha_loop_told(&loop, &event);
        }
    }
    printf("%s\n", widosha_host_refusal(refusal));
    return refusal;
}
