//! The exported functions as they are, without any check. `tests/40-header.sh` compares these declarations with
//! `include/widosha.h` and with the source of the library; `docs/LAYOUTS.md` gives the codes and all layouts.
//!
//! Start, each call and the header reader return 0 or the number of the refusal, and a refusal leaves all slices as they were.
//!
//! # Safety
//!
//! Of every function: each pointer is valid for reads and writes (a `*const` one for reads) of as many bytes as the length after it
//! says, and the slices of a call do not overlap. Any length and any number is answered; a pointer with length 0 may be null.

/// Length of the state slice in bytes.
pub const STATE_LENGTH: usize = 64;
/// Length of the line slice in bytes.
pub const LINE_LENGTH: usize = 96;
/// Length of the reply slice in bytes.
pub const REPLY_LENGTH: usize = 48;
/// Length of one buffer of the pool in bytes.
pub const BUFFER_LENGTH: usize = 144;
/// Length of the slice of facts in bytes.
pub const INFO_LENGTH: usize = 32;

/// How many requests can wait.
pub const LINE_CAPACITY: usize = 4;
/// The least count of buffers in a pool.
pub const COUNT_LEAST: u8 = 3;
/// The greatest count of buffers in a pool.
pub const COUNT_MOST: u8 = 32;
/// The longest frame with its checksum, in bytes.
pub const FRAME_LENGTH: usize = 127;
/// The longest header, to the end of its addresses, in bytes.
pub const HEADER_LENGTH: usize = 23;
/// From the entry into the wait for an acknowledgement to the latest start of one.
pub const ACK_WAIT_NANOSECONDS: u64 = 10000;

/// The check's answer yes: the last two bytes are the checksum of the rest.
pub const FCS_YES: u8 = 0;
/// The check's answer no. 255 is no number of a refusal.
pub const FCS_NO: u8 = 255;
/// The check's refusal: the frame has under 3 or over 127 bytes.
pub const FCS_REFUSED: u8 = 14;

/// The version of functions, numbers, codes and layouts that these declarations are of: what `widosha_abi_version` and
/// `widosha_frame_abi_version` have to return.
pub const ABI_VERSION: u32 = 1;

// The direction of a request.
/// Direction of a request: it sends.
pub const DIRECTION_TX: u8 = 0;
/// Direction of a request: it receives.
pub const DIRECTION_RX: u8 = 1;

// The start of a request.
/// Start of a request: as soon as may be; `time` is ignored.
pub const START_BEST_EFFORT: u8 = 0;
/// Start of a request: at `time`.
pub const START_AT: u8 = 1;

// The outcome of Stopped.
/// Outcome of a stop: a frame started before the radio had stopped.
pub const OUTCOME_FRAME_STARTED: u8 = 0;
/// Outcome of a stop: the radio could not stop so.
pub const OUTCOME_FAILED: u8 = 1;
/// Outcome of a stop: the window ended with a frame.
pub const OUTCOME_FRAME: u8 = 2;
/// Outcome of a stop: the window ended with "window ended".
pub const OUTCOME_WINDOW_ENDED: u8 = 3;
/// Outcome of a stop: the window ended with a CRC error.
pub const OUTCOME_CRC_ERROR: u8 = 4;

// The result of the task that the radio left.
/// Result of a task: the radio was off.
pub const RESULT_OFF: u8 = 0;
/// Result of a task: the frame is sent.
pub const RESULT_SENT: u8 = 1;
/// Result of a task: a frame was received.
pub const RESULT_FRAME: u8 = 2;
/// Result of a task: the window ended.
pub const RESULT_WINDOW_ENDED: u8 = 3;
/// Result of a task: a damaged frame was received.
pub const RESULT_CRC_ERROR: u8 = 4;

// The cause of Fallback.
/// Cause of a fallback: scheduling, without a time.
pub const CAUSE_SCHEDULING: u8 = 0;
/// Cause of a fallback: scheduling, with the time `cause_time`.
pub const CAUSE_SCHEDULING_AT: u8 = 1;
/// Cause of a fallback: the task.
pub const CAUSE_TASK: u8 = 2;

// The action of a reply.
/// Action: nothing new, of Arrive and Withdraw alone. The last action before it still stands.
pub const ACTION_NOTHING: u8 = 0;
/// Action: wait for a request.
pub const ACTION_RECEIVE_REQUEST: u8 = 1;
/// Action: ask for a request of any direction; Request, or None if none waits that the wait allows.
pub const ACTION_TRY_RECEIVE_REQUEST: u8 = 2;
/// Action: ask for the outbound request that was seen; Request.
pub const ACTION_TRY_RECEIVE_OUTBOUND: u8 = 3;
/// Action: listen.
pub const ACTION_LISTEN: u8 = 4;
/// Action: stop listening, without a time.
pub const ACTION_STOP_NOW: u8 = 5;
/// Action: stop listening at the reply's time.
pub const ACTION_STOP_AT: u8 = 6;
/// Action: stop listening before the start at the reply's time; `FLAG_CCA` is that request's flag.
pub const ACTION_STOP_BEFORE: u8 = 7;
/// Action: read the header of the frame that is being received.
pub const ACTION_READ_HEADER: u8 = 8;
/// Action: send the frame in the reply's buffer.
pub const ACTION_TX: u8 = 9;
/// Action: receive into the reply's buffer.
pub const ACTION_RX: u8 = 10;
/// Action: switch the radio off.
pub const ACTION_OFF: u8 = 11;

// Byte 3 of a reply: flags, and the spacing above them.
/// Flag of a reply's byte 3: check the channel (Tx), or the flag of a stop before a start.
pub const FLAG_CCA: u8 = 1;
/// Flag of a reply's byte 3: the radio may go back to its previous task (Tx, Rx, off).
pub const FLAG_ROLLBACK: u8 = 2;
/// Flag of a reply's byte 3: the start is the reply's time (Tx, Rx).
pub const FLAG_AT: u8 = 4;
/// Where the two bits of the spacing begin in a reply's byte 3 (Tx, Rx).
pub const SPACING_SHIFT: u8 = 3;
/// Spacing: none.
pub const SPACING_NONE: u8 = 0;
/// Spacing: that before an acknowledgement.
pub const SPACING_AIFS: u8 = 1;
/// Spacing: that after a short frame.
pub const SPACING_SIFS: u8 = 2;
/// Spacing: that after a long frame.
pub const SPACING_LIFS: u8 = 3;

// What a request came to.
/// No answer; all its bytes are 0.
pub const ANSWER_NONE: u8 = 0;
/// Answer: the frame is sent and, if it wanted one, acknowledged.
pub const ANSWER_SENT: u8 = 1;
/// Answer: the frame is sent and not acknowledged.
pub const ANSWER_NACK: u8 = 2;
/// Answer: error, scheduling without a time.
pub const ANSWER_ERROR_SCHEDULING: u8 = 3;
/// Answer: error, scheduling with a time.
pub const ANSWER_ERROR_SCHEDULING_AT: u8 = 4;
/// Answer: error, the task.
pub const ANSWER_ERROR_TASK: u8 = 5;
/// Answer: a frame was received.
pub const ANSWER_FRAME: u8 = 6;
/// Answer: the window ended.
pub const ANSWER_WINDOW_ENDED: u8 = 7;
/// Answer: a damaged frame was received.
pub const ANSWER_CRC_ERROR: u8 = 8;

// The mode of an address.
/// Mode of an address: absent.
pub const ADDRESS_ABSENT: u8 = 0;
/// Mode of an address: short, two bytes.
pub const ADDRESS_SHORT: u8 = 2;
/// Mode of an address: extended, eight bytes.
pub const ADDRESS_EXTENDED: u8 = 3;

// The refusals, each with its sentence.
/// A slice has the wrong length, or its bytes are no state, or no line that fits the state.
pub const REFUSAL_STATE: u8 = 1;
/// The count of buffers is not 3 to 32, or the pool is not 144 bytes for each of them.
pub const REFUSAL_COUNT: u8 = 2;
/// Headroom or tailroom is over 8, the checksum length is neither 2 nor 4, or implicit_broadcast is over 1.
pub const REFUSAL_ROOMS: u8 = 3;
/// The two own buffers are equal, or one of them is not below the count.
pub const REFUSAL_OWN_BUFFERS: u8 = 4;
/// The call or its outcome does not fit the wait or what waits, or a code stands for nothing.
pub const REFUSAL_UNFIT: u8 = 5;
/// An unanswered request that has left the line has the token.
pub const REFUSAL_TOKEN_HELD: u8 = 6;
/// The buffer is not below the count, or it is held.
pub const REFUSAL_BUFFER_HELD: u8 = 7;
/// The length of the frame to send is under 3, or over 127 less the checksum length.
pub const REFUSAL_TX_LENGTH: u8 = 8;
/// No request waits whose direction and start the wait allows.
pub const REFUSAL_NOT_ALLOWED: u8 = 9;
/// A received length is 0, or it or the arrived bytes are over 127 less the checksum length.
pub const REFUSAL_RECEIVED_LENGTH: u8 = 10;
/// The entry that begins a wait for an acknowledgement plus 10,000 exceeds 64 bits.
pub const REFUSAL_ENTRY_TOO_LATE: u8 = 11;
/// Four requests wait.
pub const REFUSAL_LINE_FULL: u8 = 12;
/// A request with the token waits; or none does to withdraw, or OutboundSeen has named it and its stop or ask is open.
pub const REFUSAL_TOKEN_WAITS: u8 = 13;
/// A frame with its checksum has under 3 or over 127 bytes.
pub const REFUSAL_FRAME_LENGTH: u8 = 14;

unsafe extern "C" {
    /// The version of the library that has start and the calls: `ABI_VERSION` if these declarations are of it.
    pub fn widosha_abi_version() -> u32;

    /// Checks the settings, writes the first state and an empty line, and writes 02 10 00 into the ACK buffer's frame.
    pub fn widosha_start(
        count: u8,
        headroom: u8,
        tailroom: u8,
        fcs_length: u8,
        hardware_addr: u64,
        pan_id: u16,
        implicit_broadcast: u8,
        ack_buffer: u8,
        spare_buffer: u8,
        state: *mut u8,
        state_len: usize,
        line: *mut u8,
        line_len: usize,
        reply: *mut u8,
        reply_len: usize,
        pool: *mut u8,
        pool_len: usize,
    ) -> u8;

    /// A request of the host arrives in the waiting line.
    pub fn widosha_arrive(
        token: u32,
        direction: u8,
        start: u8,
        time: u64,
        buffer: u8,
        length: u16,
        cca: u8,
        state: *mut u8,
        state_len: usize,
        line: *mut u8,
        line_len: usize,
        reply: *mut u8,
        reply_len: usize,
        pool: *mut u8,
        pool_len: usize,
    ) -> u8;

    /// The waiting request with this token leaves the line unanswered.
    pub fn widosha_withdraw(
        token: u32,
        state: *mut u8,
        state_len: usize,
        line: *mut u8,
        line_len: usize,
        reply: *mut u8,
        reply_len: usize,
        pool: *mut u8,
        pool_len: usize,
    ) -> u8;

    /// The earliest waiting request that the wait allows leaves the line and is taken.
    pub fn widosha_request(
        state: *mut u8,
        state_len: usize,
        line: *mut u8,
        line_len: usize,
        reply: *mut u8,
        reply_len: usize,
        pool: *mut u8,
        pool_len: usize,
    ) -> u8;

    /// No request waits that the wait allows.
    pub fn widosha_none(
        state: *mut u8,
        state_len: usize,
        line: *mut u8,
        line_len: usize,
        reply: *mut u8,
        reply_len: usize,
        pool: *mut u8,
        pool_len: usize,
    ) -> u8;

    /// A frame starts while the radio listens.
    pub fn widosha_frame_start(
        state: *mut u8,
        state_len: usize,
        line: *mut u8,
        line_len: usize,
        reply: *mut u8,
        reply_len: usize,
        pool: *mut u8,
        pool_len: usize,
    ) -> u8;

    /// The earliest outbound request of the line is seen while the radio listens.
    pub fn widosha_outbound_seen(
        start: u8,
        time: u64,
        cca: u8,
        state: *mut u8,
        state_len: usize,
        line: *mut u8,
        line_len: usize,
        reply: *mut u8,
        reply_len: usize,
        pool: *mut u8,
        pool_len: usize,
    ) -> u8;

    /// What stopping the listening radio came to. No answer shows the link quality.
    pub fn widosha_stopped(
        outcome: u8,
        length: u16,
        time: u64,
        quality: u8,
        state: *mut u8,
        state_len: usize,
        line: *mut u8,
        line_len: usize,
        reply: *mut u8,
        reply_len: usize,
        pool: *mut u8,
        pool_len: usize,
    ) -> u8;

    /// How many bytes have arrived, and the frame's length with checksum.
    pub fn widosha_header(
        arrived: u16,
        length: u16,
        state: *mut u8,
        state_len: usize,
        line: *mut u8,
        line_len: usize,
        reply: *mut u8,
        reply_len: usize,
        pool: *mut u8,
        pool_len: usize,
    ) -> u8;

    /// The radio has entered its task: the previous task's result, the measured entry, and the link quality of what was received.
    pub fn widosha_entered(
        result: u8,
        length: u16,
        time: u64,
        entry: u64,
        quality: u8,
        state: *mut u8,
        state_len: usize,
        line: *mut u8,
        line_len: usize,
        reply: *mut u8,
        reply_len: usize,
        pool: *mut u8,
        pool_len: usize,
    ) -> u8;

    /// The radio could not enter its task: the previous task's result, the cause, and the link quality of what was received.
    pub fn widosha_fallback(
        result: u8,
        length: u16,
        time: u64,
        cause: u8,
        cause_time: u64,
        quality: u8,
        state: *mut u8,
        state_len: usize,
        line: *mut u8,
        line_len: usize,
        reply: *mut u8,
        reply_len: usize,
        pool: *mut u8,
        pool_len: usize,
    ) -> u8;

    /// The radio went back to its previous task.
    pub fn widosha_rollback(
        state: *mut u8,
        state_len: usize,
        line: *mut u8,
        line_len: usize,
        reply: *mut u8,
        reply_len: usize,
        pool: *mut u8,
        pool_len: usize,
    ) -> u8;

    /// The version of the library that has the next three functions: `ABI_VERSION` if these declarations are of it.
    pub fn widosha_frame_abi_version() -> u32;

    /// What the header says of a frame of which these bytes have arrived.
    pub fn widosha_preliminary_frame_info(frame: *const u8, frame_len: usize, info: *mut u8, info_len: usize) -> u8;

    /// The 16-bit FCS of these bytes, as a number whose low byte is sent first.
    pub fn widosha_fcs(bytes: *const u8, bytes_len: usize) -> u16;

    /// Whether the last two bytes of the frame are the checksum of the rest: FCS_YES, FCS_NO or FCS_REFUSED.
    pub fn widosha_check_fcs(frame: *const u8, frame_len: usize) -> u8;
}
