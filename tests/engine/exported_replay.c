/* Replays the records of standard input, 64 bytes each, over the exported library, and prints a line of 122 bytes for each call and
 * each dump: the records and lines of crates/driver_replay (docs/REPLAY-FORMAT.md). It holds what a caller of the library holds, state,
 * line, reply and pool as bytes, and decodes the reply by docs/LAYOUTS.md.
 *
 * It ends with status 1 and says why where a refused call changes a byte, an accepted call on the line changes a byte of state or pool
 * or writes another reply than 48 zero bytes, a call writes beside its slices, or a reply has bytes that no reply is written as. */
#include <inttypes.h>
#include <stdarg.h>
#include <stdbool.h>
#include <stdio.h>
#include <stdlib.h>
#include <string.h>

#include "widosha.h"

#define RECORD 64
#define LINE 122
#define SHOWN 48
/* 33 buffers: one more than the most that a start accepts. */
#define POOL (33 * WIDOSHA_BUFFER_LENGTH)
#define ANSWER 18

/* A record by its columns; z is 1 or 0. */
struct record {
    char kind;
    uint32_t a;
    uint16_t b, c;
    uint64_t d, e;
    char x, y, w;
    uint8_t z;
};

/* Guards stand beside the slices; pool bytes that are not lent are another one. */
struct session {
    uint8_t state[WIDOSHA_STATE_LENGTH], after_state[32];
    uint8_t line[WIDOSHA_LINE_LENGTH], after_line[32];
    uint8_t reply[WIDOSHA_REPLY_LENGTH], after_reply[32];
    uint8_t pool[POOL];
    size_t lent;
};

static struct session now, before;

#define SLICES(lent) \
    now.state, sizeof now.state, now.line, sizeof now.line, now.reply, sizeof now.reply, now.pool, lent

static void fail(const char *why, const struct record *r)
{
    fflush(stdout);
    fprintf(stderr, "record of kind %c: %s\n", r->kind, why);
    exit(1);
}

/* ---- Records */

static uint64_t number(const char *digits, int count)
{
    char text[17] = {0};
    memcpy(text, digits, (size_t)count);
    return strtoull(text, NULL, 16);
}

static struct record record(const char *text)
{
    struct record r = {
        .kind = text[0],
        .a = (uint32_t)number(text + 2, 8),
        .b = (uint16_t)number(text + 11, 4),
        .c = (uint16_t)number(text + 16, 4),
        .d = number(text + 21, 16),
        .e = number(text + 38, 16),
        .x = text[55],
        .y = text[57],
        .z = text[59] == '1',
        .w = text[61],
    };
    return r;
}

/* ---- Codes of the C functions: docs/LAYOUTS.md, "Codes of the numbers" */

/* The place of a letter, or the last one's for a letter that is not among them. */
static uint8_t code(const char *letters, char letter)
{
    uint8_t i = 0;
    while (letters[i + 1] != '\0' && letters[i] != letter)
        i++;
    return i;
}

static uint8_t start_code(char y)
{
    return y == 't';
}

static uint8_t result_code(char w)
{
    return code("osfcw", w) < 3 ? code("osfcw", w) : w == 'c' ? 4 : 3;
}

static uint8_t outcome_code(const struct record *r)
{
    switch (r->x) {
    case 'f': return 0;
    case 'e': return r->w == 'f' ? 2 : r->w == 'c' ? 4 : 3;
    default: return 1;
    }
}

static uint8_t cause_code(const struct record *r)
{
    return r->x == 't' ? 2 : start_code(r->y);
}

/* ---- Calls */

static size_t pool_length(const struct record *r)
{
    size_t length = r->d & 0xffff;
    return length < POOL ? length : POOL;
}

static uint8_t start(const struct record *r)
{
    uint8_t refusal = widosha_start(
        (uint8_t)(r->a >> 24), (uint8_t)(r->a >> 16), (uint8_t)(r->a >> 8), (uint8_t)r->a,
        r->e, r->c, r->z, (uint8_t)(r->b >> 8), (uint8_t)r->b, SLICES(pool_length(r)));
    if (refusal == 0)
        now.lent = pool_length(r);
    return refusal;
}

/* The returned number of a start or a call; -1 for another record. */
static int returned(const struct record *r)
{
    uint8_t low_c = (uint8_t)r->c;
    switch (r->kind) {
    case 's': return start(r);
    case 'A':
        return widosha_arrive(r->a, r->x != 't', start_code(r->y), r->d, low_c, r->b, r->z, SLICES(now.lent));
    case 'W': return widosha_withdraw(r->a, SLICES(now.lent));
    case 'q': return widosha_request(SLICES(now.lent));
    case 'n': return widosha_none(SLICES(now.lent));
    case 'f': return widosha_frame_start(SLICES(now.lent));
    case 'o': return widosha_outbound_seen(start_code(r->y), r->d, r->z, SLICES(now.lent));
    case 'p': return widosha_stopped(outcome_code(r), r->b, r->d, low_c, SLICES(now.lent));
    case 'h': return widosha_header(r->b, r->c, SLICES(now.lent));
    case 'e': return widosha_entered(result_code(r->w), r->b, r->d, r->e, low_c, SLICES(now.lent));
    case 'b':
        return widosha_fallback(result_code(r->w), r->b, r->d, cause_code(r), r->e, low_c, SLICES(now.lent));
    case 'r': return widosha_rollback(SLICES(now.lent));
    default: return -1;
    }
}

/* What every call leaves as it was. */
static void check(const struct record *r, int refusal)
{
    static const uint8_t zero[WIDOSHA_REPLY_LENGTH];
    size_t lent = r->kind == 's' ? pool_length(r) : now.lent;
    if (refusal != 0 && memcmp(&before, &now, sizeof now) != 0)
        fail("a refused call has changed a byte", r);
    if (memcmp(before.after_state, now.after_state, sizeof now.after_state) != 0
        || memcmp(before.after_line, now.after_line, sizeof now.after_line) != 0
        || memcmp(before.after_reply, now.after_reply, sizeof now.after_reply) != 0
        || memcmp(before.pool + lent, now.pool + lent, POOL - lent) != 0)
        fail("a call has written beside its slices", r);
    if (refusal != 0 || (r->kind != 'A' && r->kind != 'W'))
        return;
    if (memcmp(before.state, now.state, sizeof now.state) != 0)
        fail("a call on the line has changed the state", r);
    if (memcmp(before.pool, now.pool, sizeof now.pool) != 0)
        fail("a call on the line has changed the pool", r);
    if (memcmp(now.reply, zero, sizeof zero) != 0)
        fail("a call on the line has written a reply that is not all 0", r);
}

/* ---- The reply as columns */

static uint64_t little(const uint8_t *bytes, int count)
{
    uint64_t sum = 0;
    while (count-- > 0)
        sum = sum << 8 | bytes[count];
    return sum;
}

/* Prints a line, with blanks up to its end. */
static void print_line(const char *format, ...)
{
    char text[LINE + 1];
    va_list rest;
    va_start(rest, format);
    int length = vsnprintf(text, sizeof text, format, rest);
    va_end(rest);
    printf("%-*s\n", LINE - 1, length < LINE ? text : "a line that is too long");
}

struct columns {
    char text[48];
};

/* docs/LAYOUTS.md, "The reply's 48 bytes". */
static struct columns action(const uint8_t *reply, const struct record *r)
{
    static const char letters[] = "-iqolstbhTRO", spacings[] = "nasl";
    /* Which bits of byte 3 an action has: channel check or flag 1, rollback 2, a time 4, spacing 18 in hexadecimal. */
    static const uint8_t bits[] = {0, 0, 0, 0, 0, 0, 0, 1, 0, 0x1f, 0x1e, 2};
    struct columns columns;
    uint8_t kind = reply[0], flags = reply[3];
    if (kind >= sizeof bits || (flags & ~bits[kind]) != 0)
        fail("a reply has a code or a bit that stands for nothing", r);
    bool task = (bits[kind] & 4) != 0;
    snprintf(columns.text, sizeof columns.text, "%c %02x %04x %d %c %016" PRIx64 " %c %d", letters[kind], reply[1], reply[2],
        flags & 1, !task ? '-' : flags & 4 ? 't' : 'b', little(reply + 4, 8), task ? spacings[flags >> 3] : '-', flags >> 1 & 1);
    return columns;
}

/* docs/LAYOUTS.md, "An answer's 18 bytes". */
static struct columns answer(const uint8_t *bytes, const struct record *r)
{
    static const char letters[] = "-sneetfwc", starts[] = "---bt----";
    struct columns columns;
    if (bytes[0] >= sizeof letters - 1 || bytes[16] != 0 || bytes[17] != 0)
        fail("an answer has a code or a byte that stands for nothing", r);
    snprintf(columns.text, sizeof columns.text, "%c %08" PRIx32 " %02x %04x %c %016" PRIx64 " %02x", letters[bytes[0]],
        (uint32_t)little(bytes + 1, 4), bytes[5], bytes[6], starts[bytes[0]], little(bytes + 7, 8), bytes[15]);
    return columns;
}

/* Of a refused call the reply's bytes are an older one's, and nothing of them is shown. */
static void print_reply(const struct record *r, int refusal)
{
    static const uint8_t none[WIDOSHA_REPLY_LENGTH];
    const uint8_t *reply = refusal == 0 ? now.reply : none;
    print_line("%c %02x %s %s %s", r->kind, refusal, action(reply, r).text, answer(reply + 12, r).text,
        answer(reply + 12 + ANSWER, r).text);
}

/* ---- Records that are no calls */

/* Bytes from a place on; those past the end are 0. */
static void dump(const struct record *r, const uint8_t *bytes, size_t length, size_t place, size_t shown)
{
    char text[2 * SHOWN + 1] = "";
    for (size_t i = 0; i < shown; i++)
        snprintf(text + 2 * i, 3, "%02x", place < length && i < length - place ? bytes[place + i] : 0);
    print_line("%c %08zx %s", r->kind, place, text);
}

/* Writes up to 16 bytes, and nothing past the pool's end. */
static void write_pool(const struct record *r)
{
    for (size_t i = 0; i < r->b && i < 16 && i + r->a < POOL; i++)
        now.pool[i + r->a] = (uint8_t)((i < 8 ? r->d : r->e) >> (56 - 8 * (i % 8)));
}

static void other(const struct record *r)
{
    switch (r->kind) {
    case 'l': now.lent = pool_length(r); break;
    case 'w': write_pool(r); break;
    case 'z': memset(now.pool, 0, sizeof now.pool); break;
    case 'd': dump(r, now.pool, sizeof now.pool, r->a, SHOWN); break;
    case 'L': dump(r, now.line, sizeof now.line, r->a, SHOWN); break;
    case 'a': dump(r, now.pool, sizeof now.pool, (size_t)WIDOSHA_BUFFER_LENGTH * now.state[15] + now.state[1], 3); break;
    default: printf("unknown record\n");
    }
}

int main(void)
{
    char text[RECORD];
    while (fread(text, 1, sizeof text, stdin) == sizeof text) {
        struct record r = record(text);
        memcpy(&before, &now, sizeof now);
        int refusal = returned(&r);
        if (refusal < 0) {
            other(&r);
            continue;
        }
        check(&r, refusal);
        print_reply(&r, refusal);
    }
    return ferror(stdin) || fflush(stdout) != 0;
}
