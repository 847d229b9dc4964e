/* The driver service of IEEE 802.15.4, its header reader and the checksum of frames as C functions on numbers and byte slices.
 *
 * docs/LAYOUTS.md gives every code and all layouts byte by byte; c/widosha_host.h has wrappers and accessors over this header. A
 * slice is a pointer and its length in bytes. The four slices of start and of a call are the state, the waiting line, the reply and
 * the pool; the two of the header reader are the frame, which is only read, and the facts; the two functions of the checksum have
 * one slice, which is only read. Each pointer must be good for reading and writing as many bytes as its length says (one that is
 * only read for reading), and the slices must not overlap. Where a radio reads and writes the pool by itself, c/widosha_host.h says
 * whose a buffer is when, which bytes a call touches, and which fences belong beside it.
 *
 * Requests reach the service by its line: widosha_arrive puts one behind those that wait, at most four, and widosha_withdraw takes
 * one out; both fit at any time, change the line alone and write a reply of 48 zero bytes. When the service waits or asks for a
 * request, widosha_request takes the earliest that it may take now; if there is none (9), an ask is answered by widosha_none.
 * State and line belong together: both are what start and the last accepted call left, and nobody else writes them. Refusal 1 finds
 * bytes that are no state or no line; an older copy of a line beside a newer state it need not find.
 *
 * Start, the calls and the header reader return 0 or the number of the refusal, and a refusal leaves all slices as they were.
 * widosha_fcs returns the checksum itself, of which the low byte is sent first; it refuses nothing. widosha_check_fcs returns 0
 * (yes), 255 (no) or 14 (refused: the frame with its checksum has under 3 or over 127 bytes). So 0 is the one answer of a function
 * that returns uint8_t which says that all is well, and no refusal has the number 255.
 *
 * Start and each call test the slices first: they are refused by 1 for the length of state, line or reply and (but for start, which
 * reads neither) for the bytes of state or line, and by 2 for a pool that is not 144 bytes for each buffer. Below, "Refused by" names
 * what comes after that, in checking order.
 *
 * Times are nanoseconds of the radio's clock. A length is that of a frame without its checksum where nothing else is said.
 *
 * quality is the standard's link quality (LQI) of the frame that the radio received, 0 the lowest to 255 the highest. It belongs to
 * the outcomes and results 2 (a frame) and 4 (a CRC error); with every other code it is ignored, whatever it is. Byte 15 of an
 * answer (byte 27 of the reply, 45 for the second answer) holds it, unaltered, if the answer is a received frame (6) or a CRC error
 * (8), and is 0 in all other answers. A call's quality is in that very call's answer or nowhere: the state does not keep it.
 *
 * A null pointer with length 0 may be passed for any slice. It is a slice of length 0, and so the call is refused: 1 for the state,
 * the line, the reply or the facts, 2 for the pool, 14 for the frame of widosha_check_fcs. For the header reader's frame it is no
 * refusal: no byte has arrived, and no fact is there. The checksum of no bytes is 0.
 *
 * tests/40-header.sh compares the declarations, all numbers and the sentences of the refusals with the source, with the Rust crate
 * and with docs/LAYOUTS.md. */
#ifndef WIDOSHA_H
#define WIDOSHA_H

#include <stddef.h>
#include <stdint.h>

/* The version of the functions, numbers, codes and layouts below. At its start a host compares it with what the libraries return:
 * widosha_abi_version of driver_c, widosha_frame_abi_version of frame_c. */
#define WIDOSHA_ABI_VERSION 1

/* The lengths of the slices in bytes. The pool has as many buffers as start is told. */
#define WIDOSHA_STATE_LENGTH 64
#define WIDOSHA_LINE_LENGTH 96
#define WIDOSHA_REPLY_LENGTH 48
#define WIDOSHA_BUFFER_LENGTH 144
#define WIDOSHA_INFO_LENGTH 32

/* Limits. */
#define WIDOSHA_LINE_CAPACITY 4 /* requests that can wait */
#define WIDOSHA_COUNT_LEAST 3 /* buffers of a pool */
#define WIDOSHA_COUNT_MOST 32
#define WIDOSHA_FRAME_LENGTH 127 /* bytes of the longest frame, with its checksum */
#define WIDOSHA_HEADER_LENGTH 23 /* bytes of the longest header, to the end of its addresses */
#define WIDOSHA_ACK_WAIT_NANOSECONDS 10000 /* from the entry into the wait for an ACK to the latest start of one */

/* Direction of a request. */
enum widosha_direction {
    WIDOSHA_DIRECTION_TX = 0, /* send a frame */
    WIDOSHA_DIRECTION_RX = 1 /* receive a frame */
};

/* Start of a request. */
enum widosha_start_code {
    WIDOSHA_START_BEST_EFFORT = 0, /* as soon as may be; the time is ignored */
    WIDOSHA_START_AT = 1 /* at the time */
};

/* What stopping to listen came to. */
enum widosha_stop_outcome {
    WIDOSHA_OUTCOME_FRAME_STARTED = 0, /* a frame started, which the radio receives */
    WIDOSHA_OUTCOME_FAILED = 1, /* it could not stop so; it listens on */
    WIDOSHA_OUTCOME_FRAME = 2, /* the window ended, with a frame */
    WIDOSHA_OUTCOME_WINDOW_ENDED = 3, /* the window ended, with no frame */
    WIDOSHA_OUTCOME_CRC_ERROR = 4 /* the window ended, with a damaged frame */
};

/* What the task that the radio leaves came to. */
enum widosha_result {
    WIDOSHA_RESULT_OFF = 0, /* it was off */
    WIDOSHA_RESULT_SENT = 1, /* the frame was sent */
    WIDOSHA_RESULT_FRAME = 2, /* a frame was received */
    WIDOSHA_RESULT_WINDOW_ENDED = 3, /* no frame was received */
    WIDOSHA_RESULT_CRC_ERROR = 4 /* a damaged frame was received */
};

/* Why the radio could not begin its task. */
enum widosha_cause {
    WIDOSHA_CAUSE_SCHEDULING = 0, /* it could not be scheduled; no time belongs to it */
    WIDOSHA_CAUSE_SCHEDULING_AT = 1, /* it could not be scheduled at a time */
    WIDOSHA_CAUSE_TASK = 2 /* the task itself, as a busy channel */
};

/* What the host or the radio is to do next: byte 0 of the reply. */
enum widosha_action {
    WIDOSHA_ACTION_NOTHING = 0, /* of an arrival or a withdrawal: what the last action asked for still stands */
    WIDOSHA_ACTION_RECEIVE_REQUEST = 1, /* wait until a request waits, then widosha_request */
    WIDOSHA_ACTION_TRY_RECEIVE_REQUEST = 2, /* widosha_request; if it is refused by 9, widosha_none */
    WIDOSHA_ACTION_TRY_RECEIVE_OUTBOUND = 3, /* widosha_request: the Tx that widosha_outbound_seen named */
    WIDOSHA_ACTION_LISTEN = 4, /* listen; then widosha_frame_start, or widosha_outbound_seen once a Tx waits */
    WIDOSHA_ACTION_STOP_NOW = 5, /* stop listening; then widosha_stopped, as for the next two */
    WIDOSHA_ACTION_STOP_AT = 6, /* stop listening at the time, if no frame has started */
    WIDOSHA_ACTION_STOP_BEFORE = 7, /* stop listening in time for a start at the time, with the flag */
    WIDOSHA_ACTION_READ_HEADER = 8, /* wait for the header's bytes; then widosha_header */
    WIDOSHA_ACTION_TX = 9, /* send the frame in the buffer; then widosha_entered; or _rollback with that flag, _fallback without */
    WIDOSHA_ACTION_RX = 10, /* receive into the buffer; then widosha_entered, as no Rx has the rollback flag */
    WIDOSHA_ACTION_OFF = 11 /* switch off; then widosha_entered; or _rollback with that flag */
};

/* Byte 3 of the reply: three flags, and above them the spacing that goes before the task (Tx, Rx). */
#define WIDOSHA_FLAG_CCA 1 /* check the channel (Tx); the seen request's flag (stop before a start) */
#define WIDOSHA_FLAG_ROLLBACK 2 /* if the frame that it receives is damaged, the radio receives on (Tx of an ACK for that frame, off) */
#define WIDOSHA_FLAG_AT 4 /* the start is the reply's time (Tx, Rx) */
#define WIDOSHA_SPACING_SHIFT 3 /* the spacing is (byte 3 >> this) & 3 */
enum widosha_spacing {
    WIDOSHA_SPACING_NONE = 0, /* none */
    WIDOSHA_SPACING_AIFS = 1, /* before an acknowledgement */
    WIDOSHA_SPACING_SIFS = 2, /* after a short frame */
    WIDOSHA_SPACING_LIFS = 3 /* after a long frame */
};

/* What a request came to: byte 0 of an answer, so byte 12 and byte 30 of the reply. */
enum widosha_answer_code {
    WIDOSHA_ANSWER_NONE = 0, /* no answer; all its bytes are 0 */
    WIDOSHA_ANSWER_SENT = 1, /* sent, and acknowledged if it wanted that */
    WIDOSHA_ANSWER_NACK = 2, /* sent and not acknowledged */
    WIDOSHA_ANSWER_ERROR_SCHEDULING = 3, /* not sent: scheduling without a time */
    WIDOSHA_ANSWER_ERROR_SCHEDULING_AT = 4, /* not sent: scheduling at the answer's time */
    WIDOSHA_ANSWER_ERROR_TASK = 5, /* not sent: the task itself */
    WIDOSHA_ANSWER_FRAME = 6, /* a frame was received */
    WIDOSHA_ANSWER_WINDOW_ENDED = 7, /* the window ended */
    WIDOSHA_ANSWER_CRC_ERROR = 8 /* a damaged frame was received */
};

/* The mode of an address in the facts of a frame. */
enum widosha_address {
    WIDOSHA_ADDRESS_ABSENT = 0, /* no address */
    WIDOSHA_ADDRESS_SHORT = 2, /* two bytes */
    WIDOSHA_ADDRESS_EXTENDED = 3 /* eight bytes */
};

/* Why a call is refused. Each function tests in the order of these numbers. */
enum widosha_refusal {
    /* A slice has the wrong length, or its bytes are no state, or no line that fits the state. */
    WIDOSHA_REFUSAL_STATE = 1,
    /* The count of buffers is not 3 to 32, or the pool is not 144 bytes for each of them. */
    WIDOSHA_REFUSAL_COUNT = 2,
    /* Headroom or tailroom is over 8, the checksum length is neither 2 nor 4, or implicit_broadcast is over 1. */
    WIDOSHA_REFUSAL_ROOMS = 3,
    /* The two own buffers are equal, or one of them is not below the count. */
    WIDOSHA_REFUSAL_OWN_BUFFERS = 4,
    /* The call or its outcome does not fit the wait or what waits, or a code stands for nothing. */
    WIDOSHA_REFUSAL_UNFIT = 5,
    /* An unanswered request that has left the line has the token. */
    WIDOSHA_REFUSAL_TOKEN_HELD = 6,
    /* The buffer is not below the count, or it is held. */
    WIDOSHA_REFUSAL_BUFFER_HELD = 7,
    /* The length of the frame to send is under 3, or over 127 less the checksum length. */
    WIDOSHA_REFUSAL_TX_LENGTH = 8,
    /* No request waits whose direction and start the wait allows. */
    WIDOSHA_REFUSAL_NOT_ALLOWED = 9,
    /* A received length is 0, or it or the arrived bytes are over 127 less the checksum length. */
    WIDOSHA_REFUSAL_RECEIVED_LENGTH = 10,
    /* The entry that begins a wait for an acknowledgement plus 10,000 exceeds 64 bits. */
    WIDOSHA_REFUSAL_ENTRY_TOO_LATE = 11,
    /* Four requests wait. */
    WIDOSHA_REFUSAL_LINE_FULL = 12,
    /* A request with the token waits; or none does to withdraw, or OutboundSeen has named it and its stop or ask is open. */
    WIDOSHA_REFUSAL_TOKEN_WAITS = 13,
    /* A frame with its checksum has under 3 or over 127 bytes. */
    WIDOSHA_REFUSAL_FRAME_LENGTH = 14
};

/* What widosha_check_fcs returns. */
#define WIDOSHA_FCS_YES 0
#define WIDOSHA_FCS_NO 255
#define WIDOSHA_FCS_REFUSED 14

#ifdef __cplusplus
extern "C" {
#endif

/* ---- In the library driver_c: start and the eleven calls */

/* The version of this library. If it is not WIDOSHA_ABI_VERSION, this header describes another library. */
uint32_t widosha_abi_version(void);

/* Begins the service: writes the first state, an empty line, and 02 10 00 into the ACK buffer's frame. It reads neither state nor
 * line, so a later start forgets all requests; the radio has to be off then, as it is where a request is waited for (action 1).
 *     count               buffers in the pool, 3 to 32
 *     headroom            bytes of a buffer before its frame, 0 to 8
 *     tailroom            bytes of a buffer kept behind its frame, 0 to 8
 *     fcs_length          bytes of a frame's checksum, which the radio adds and takes away: 2 or 4
 *     hardware_addr       the station's extended address as a number, its first byte the highest
 *     pan_id              the station's PAN
 *     implicit_broadcast  1 if a frame without a destination is for this station, else 0
 *     ack_buffer, spare_buffer  the two buffers that belong to the service itself
 * Reply: wait for a request.
 * Refused by: 2, the count; 3, headroom, tailroom, fcs_length or implicit_broadcast; 4, the own buffers. */
uint8_t widosha_start(
    uint8_t count, uint8_t headroom, uint8_t tailroom, uint8_t fcs_length,
    uint64_t hardware_addr, uint16_t pan_id, uint8_t implicit_broadcast,
    uint8_t ack_buffer, uint8_t spare_buffer,
    uint8_t *state, size_t state_len, uint8_t *line, size_t line_len,
    uint8_t *reply, size_t reply_len, uint8_t *pool, size_t pool_len);

/* A request of the host arrives in the waiting line, behind those that wait. It fits at any time. From now on the service holds the
 * buffer, until the request is withdrawn, or an answer returns it or the one that was exchanged for it.
 *     token       the host's name for the request; its answer has it
 *     direction   WIDOSHA_DIRECTION_
 *     start, time WIDOSHA_START_, and the start if it is at a time
 *     buffer      Tx: the one with the frame; Rx: one that a frame may be received into
 *     length      Tx: the frame's, 3 to 127 less fcs_length; Rx: ignored
 *     cca         Tx: 1 if the channel is to be checked before sending, else 0; Rx: ignored
 * Reply: 48 zero bytes.
 * Refused by: 5, a code stands for nothing; 6, the token; 7, the buffer; 8, the length; 12, four wait; 13, the token waits. */
uint8_t widosha_arrive(
    uint32_t token, uint8_t direction, uint8_t start, uint64_t time,
    uint8_t buffer, uint16_t length, uint8_t cca,
    uint8_t *state, size_t state_len, uint8_t *line, size_t line_len,
    uint8_t *reply, size_t reply_len, uint8_t *pool, size_t pool_len);

/* A request that waits leaves the line: it gets no answer, and its buffer is the host's again. It fits at any time.
 *     token  that of the request
 * Reply: 48 zero bytes.
 * Refused by: 13, no request with this token waits, or it is the Tx that widosha_outbound_seen named, while its stop or the ask
 * after its window ended is open. */
uint8_t widosha_withdraw(
    uint32_t token,
    uint8_t *state, size_t state_len, uint8_t *line, size_t line_len,
    uint8_t *reply, size_t reply_len, uint8_t *pool, size_t pool_len);

/* The service takes the earliest request of the line that its wait allows. One of the actions 1 to 3 asks for it.
 * Reply: Tx or Rx, for that request; where a window has ended also the earlier request's answer, window ended or Nack.
 * Refused by: 5, the wait asks for nothing; 9, no request waits that the wait allows. */
uint8_t widosha_request(
    uint8_t *state, size_t state_len, uint8_t *line, size_t line_len,
    uint8_t *reply, size_t reply_len, uint8_t *pool, size_t pool_len);

/* No request waits that the wait allows: what else action 2 may be answered with.
 * Reply: off; or, where an ACK's window has ended, wait for a request, with the answer Nack.
 * Refused by: 5, the wait does not take it, or a request waits that widosha_request would take. */
uint8_t widosha_none(
    uint8_t *state, size_t state_len, uint8_t *line, size_t line_len,
    uint8_t *reply, size_t reply_len, uint8_t *pool, size_t pool_len);

/* A frame has started while the radio listens.
 * Reply: stop listening, without a time.
 * Refused by: 5, the radio does not listen. */
uint8_t widosha_frame_start(
    uint8_t *state, size_t state_len, uint8_t *line, size_t line_len,
    uint8_t *reply, size_t reply_len, uint8_t *pool, size_t pool_len);

/* While the radio listens, a request to send waits, for which the listening is to be broken off.
 *     start, time, cca  those of the line's earliest Tx
 * Reply: stop listening before that start or, if it is best effort, without a time.
 * Refused by: 5, a code stands for nothing, the radio does not listen, or they are not those of the line's earliest Tx. */
uint8_t widosha_outbound_seen(
    uint8_t start, uint64_t time, uint8_t cca,
    uint8_t *state, size_t state_len, uint8_t *line, size_t line_len,
    uint8_t *reply, size_t reply_len, uint8_t *pool, size_t pool_len);

/* What stopping the listening radio came to, which one of the actions 5 to 7 asked for.
 *     outcome                WIDOSHA_OUTCOME_
 *     length, time, quality  outcome 2: of the frame; outcome 4: time and quality of the damaged one. They come into no answer.
 * After widosha_frame_start outcome 0 alone fits; a start that proves false is told as a frame of which no byte arrives. After
 * widosha_outbound_seen all fit, and so they do of an awaited ACK, but not outcome 1 a second time.
 * Reply: a frame started: read the header, or, of an awaited ACK, ask for a request. The window ended: ask for a request. Failed:
 * listen on, or, of an awaited ACK, stop without a time.
 * Refused by: 5, the outcome does not fit the wait or stands for nothing; 10, the length. */
uint8_t widosha_stopped(
    uint8_t outcome, uint16_t length, uint64_t time, uint8_t quality,
    uint8_t *state, size_t state_len, uint8_t *line, size_t line_len,
    uint8_t *reply, size_t reply_len, uint8_t *pool, size_t pool_len);

/* The header of the frame that is being received has arrived, in the buffer that the last Rx action named. Told earlier, of fewer bytes
 * than its header has, a frame for this station is taken for one that is not.
 *     arrived  how many of the frame's bytes are there by now: 23 are enough for every header, and a frame that is shorter or breaks
 *              off is told with those that there are, also none
 *     length   the frame's length with checksum, as the radio has it; it decides the spacing after the frame
 * Reply: for us and to be acknowledged: Tx of the ACK buffer, into which the number is written now. Else for us: ask for a request.
 * Not for us, or too few bytes to say: Rx, into the spare buffer.
 * Refused by: 5, no header is to be read; 10, the arrived bytes. */
uint8_t widosha_header(
    uint16_t arrived, uint16_t length,
    uint8_t *state, size_t state_len, uint8_t *line, size_t line_len,
    uint8_t *reply, size_t reply_len, uint8_t *pool, size_t pool_len);

/* The radio has left its previous task and entered the one that the last action (Tx, Rx or off) named.
 *     result                 WIDOSHA_RESULT_, of the previous task: 0 if it was off, 1 if it sent, else 2 to 4; but if it received
 *                            what may be an awaited ACK, 3 does not fit
 *     length, time, quality  result 1: time; result 2: all three; result 4: time and quality
 *     entry                  when the new task began, as measured; it matters where a wait for an ACK begins
 * A Tx with the rollback flag is the ACK of the frame that the radio receives. It is entered once that frame is there and found
 * undamaged; else it is not sent, and widosha_rollback is the call. No refusal finds an ACK that was sent for a damaged frame.
 * Reply: what follows, and the answer of the request whose task has ended, if one is owed now.
 * Refused by: 5, the result does not fit the wait or stands for nothing; 10, the length; 11, the entry. */
uint8_t widosha_entered(
    uint8_t result, uint16_t length, uint64_t time, uint64_t entry, uint8_t quality,
    uint8_t *state, size_t state_len, uint8_t *line, size_t line_len,
    uint8_t *reply, size_t reply_len, uint8_t *pool, size_t pool_len);

/* The radio has left its previous task, but could not enter the Tx of a request that the last action named, and is off. For other tasks
 * there is no such call. The ACK of a received frame checks no channel and keeps no time: what keeps the radio from sending it is the
 * frame's damage, and that is widosha_rollback.
 *     result, length, time, quality  as above
 *     cause, cause_time              WIDOSHA_CAUSE_, and the time of cause 1
 * Reply: wait for a request, with the answer of the request whose task has ended, if one is owed, and the error of the other.
 * Refused by: 5, the result does not fit the wait, a code stands for nothing, or no request's Tx is to be entered; 10, the length. */
uint8_t widosha_fallback(
    uint8_t result, uint16_t length, uint64_t time, uint8_t cause, uint64_t cause_time, uint8_t quality,
    uint8_t *state, size_t state_len, uint8_t *line, size_t line_len,
    uint8_t *reply, size_t reply_len, uint8_t *pool, size_t pool_len);

/* The frame that the radio receives is damaged; so it did not leave this task for the one that the last action named, and receives on,
 * in the same buffer. It does so where that action has the flag for it. The frame gets no acknowledgement, and the request to receive
 * no answer yet.
 * Reply: listen.
 * Refused by: 5, the last action has no such flag. */
uint8_t widosha_rollback(
    uint8_t *state, size_t state_len, uint8_t *line, size_t line_len,
    uint8_t *reply, size_t reply_len, uint8_t *pool, size_t pool_len);

/* ---- In the library frame_c: what can be told of a frame alone, without a service */

/* The version of this library. If it is not WIDOSHA_ABI_VERSION, this header describes another library. */
uint32_t widosha_frame_abi_version(void);

/* What the header of a frame says, of so many bytes as have arrived, without checksum: into the 32 bytes of facts, each there or
 * missing.
 * Refused by: 1, the slice of facts is not 32 bytes. */
uint8_t widosha_preliminary_frame_info(
    const uint8_t *frame, size_t frame_len, uint8_t *info, size_t info_len);

/* The 16-bit checksum (FCS) of any bytes, also of none. */
uint16_t widosha_fcs(const uint8_t *bytes, size_t bytes_len);

/* Whether the last two bytes of a frame are the checksum of the bytes before them: WIDOSHA_FCS_. */
uint8_t widosha_check_fcs(const uint8_t *frame, size_t frame_len);

#ifdef __cplusplus
}
#endif

#endif
