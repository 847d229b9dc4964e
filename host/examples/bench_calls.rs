//! A mixed run over start and the eleven calls: whole transmissions with and without ACK, receptions with an ACK turn, frames for
//! others, windows that end, errors, and refusals. A request arrives right before it is to leave, so that the line holds one at most.
//! Every returned number is compared with the expected one.
//!
//!     bench_calls              prints calls and nanoseconds per call (fastest of 31 runs of 400 rounds)
//!     bench_calls --count N    makes exactly N rounds and prints how often each function was called, for an instruction counter
//!     bench_calls --waiting N  the same with three requests more in the line, which no wait of the round allows but idle
//!     bench_calls --accepted N the same as --count with one start and, N times, the accepted calls of a round
//!     bench_calls --script N   prints those in the language of the script runner of the Rust service, which has a queue of its own:
//!                              a request is in it where it leaves our line
//!     bench_calls --trace      makes one round, and prints the instructions of each accepted call by their addresses, beside those
//!                              of the same call with a byte of state or line spoilt: where the ways part, that part had been read
//!     bench_calls --facts N    reads the facts of five frames N times, and once each time into a slice of a wrong length

#[path = "../../bench/names.rs"]
mod names;
#[path = "../../bench/steps.rs"]
#[allow(dead_code)]
mod steps;

use names::NAMES;
use std::fmt::Write;
use std::time::Instant;
use widosha::ffi::*;

const COUNT: u8 = 8;
const HEADROOM: usize = 2;

/// The functions, in the order of their names.
const ENTRIES: [*const (); 12] = [
    widosha_start as *const (),
    widosha_arrive as *const (),
    widosha_withdraw as *const (),
    widosha_request as *const (),
    widosha_none as *const (),
    widosha_frame_start as *const (),
    widosha_outbound_seen as *const (),
    widosha_stopped as *const (),
    widosha_header as *const (),
    widosha_entered as *const (),
    widosha_fallback as *const (),
    widosha_rollback as *const (),
];

/// The numbers of one call, by function. A start is a time or none.
#[derive(Clone, Copy)]
enum Numbers {
    /// Headroom, ACK buffer, spare buffer; and the count.
    Start(u8, u8, u8, u8),
    /// A Tx arrives: token, start, buffer, length.
    Tx(u32, Option<u64>, u8, u16),
    /// An Rx arrives: token, start, buffer.
    Rx(u32, Option<u64>, u8),
    /// Token.
    Withdraw(u32),
    Request,
    NoRequest,
    FrameStart,
    OutboundSeen(Option<u64>),
    /// Outcome, length.
    Stopped(u8, u16),
    /// Arrived bytes.
    Header(u16),
    /// Result, length, entry.
    Entered(u8, u16, u64),
    /// Result, length, cause.
    Fallback(u8, u16, u8),
    Rollback,
}

/// What is wrong with the state slice.
#[derive(Clone, Copy, PartialEq, Eq)]
enum State {
    Right,
    Short,
    ForeignByte,
}

/// A call, what it must return, and what the host or the radio writes into which buffer before it.
#[derive(Clone, Copy)]
struct Step {
    write: Option<(u8, &'static [u8])>,
    numbers: Numbers,
    state: State,
    returns: u8,
}

#[derive(Clone)]
struct Memory {
    state: [u8; STATE_LENGTH],
    line: [u8; LINE_LENGTH],
    reply: [u8; REPLY_LENGTH],
    pool: [u8; BUFFER_LENGTH * COUNT as usize],
}

const HARDWARE: u64 = 0x0011_2233_4455_6677;
const PAN: u16 = 0x1234;
const TIME: u64 = 1_000_000;
const QUALITY: u8 = 200;
const OFF: u8 = 0;
const SENT: u8 = 1;
const FRAME: u8 = 2;
const ENDED: u8 = 3;

fn timed(start: Option<u64>) -> (u8, u64) {
    start.map_or((0, 0), |time| (1, time))
}

impl Memory {
    fn write(&mut self, buffer: u8, bytes: &[u8]) {
        let at = BUFFER_LENGTH * usize::from(buffer) + HEADROOM;
        self.pool[at..at + bytes.len()].copy_from_slice(bytes);
    }

    /// Makes one call and gives what the function returns.
    fn make(&mut self, step: &Step) -> u8 {
        if let Some((buffer, bytes)) = step.write {
            self.write(buffer, bytes);
        }
        let mut foreign = self.state;
        let state = match step.state {
            State::ForeignByte => {
                foreign[STATE_LENGTH - 1] = 1;
                foreign.as_mut_ptr()
            }
            _ => self.state.as_mut_ptr(),
        };
        let length = STATE_LENGTH - usize::from(step.state == State::Short);
        let line = (self.line.as_mut_ptr(), LINE_LENGTH);
        let reply = (self.reply.as_mut_ptr(), REPLY_LENGTH);
        let pool = (self.pool.as_mut_ptr(), self.pool.len());
        // SAFETY: the state is valid for at least `length` bytes, the others for their lengths, and they are four variables.
        unsafe { call(step.numbers, (state, length), line, reply, pool) }
    }
}

type Slice = (*mut u8, usize);

unsafe fn call(numbers: Numbers, s: Slice, l: Slice, r: Slice, p: Slice) -> u8 {
    match numbers {
        Numbers::Start(headroom, ack, spare, count) => widosha_start(
            count, headroom, 0, 2, HARDWARE, PAN, 0, ack, spare, s.0, s.1, l.0, l.1, r.0, r.1, p.0, p.1,
        ),
        Numbers::Tx(token, start, buffer, length) => {
            let (start, time) = timed(start);
            widosha_arrive(
                token, 0, start, time, buffer, length, 1, s.0, s.1, l.0, l.1, r.0, r.1, p.0, p.1,
            )
        }
        Numbers::Rx(token, start, buffer) => {
            let (start, time) = timed(start);
            widosha_arrive(token, 1, start, time, buffer, 0, 0, s.0, s.1, l.0, l.1, r.0, r.1, p.0, p.1)
        }
        Numbers::Withdraw(token) => widosha_withdraw(token, s.0, s.1, l.0, l.1, r.0, r.1, p.0, p.1),
        Numbers::Request => widosha_request(s.0, s.1, l.0, l.1, r.0, r.1, p.0, p.1),
        Numbers::NoRequest => widosha_none(s.0, s.1, l.0, l.1, r.0, r.1, p.0, p.1),
        Numbers::FrameStart => widosha_frame_start(s.0, s.1, l.0, l.1, r.0, r.1, p.0, p.1),
        Numbers::OutboundSeen(start) => {
            let (start, time) = timed(start);
            widosha_outbound_seen(start, time, 1, s.0, s.1, l.0, l.1, r.0, r.1, p.0, p.1)
        }
        Numbers::Stopped(outcome, length) => {
            widosha_stopped(outcome, length, TIME, QUALITY, s.0, s.1, l.0, l.1, r.0, r.1, p.0, p.1)
        }
        Numbers::Header(arrived) => widosha_header(arrived, 17, s.0, s.1, l.0, l.1, r.0, r.1, p.0, p.1),
        Numbers::Entered(result, length, entry) => {
            widosha_entered(result, length, TIME, entry, QUALITY, s.0, s.1, l.0, l.1, r.0, r.1, p.0, p.1)
        }
        Numbers::Fallback(result, length, cause) => widosha_fallback(
            result, length, TIME, cause, TIME, QUALITY, s.0, s.1, l.0, l.1, r.0, r.1, p.0, p.1,
        ),
        Numbers::Rollback => widosha_rollback(s.0, s.1, l.0, l.1, r.0, r.1, p.0, p.1),
    }
}

fn function(numbers: Numbers) -> usize {
    match numbers {
        Numbers::Start(..) => 0,
        Numbers::Tx(..) | Numbers::Rx(..) => 1,
        Numbers::Withdraw(_) => 2,
        Numbers::Request => 3,
        Numbers::NoRequest => 4,
        Numbers::FrameStart => 5,
        Numbers::OutboundSeen(_) => 6,
        Numbers::Stopped(..) => 7,
        Numbers::Header(_) => 8,
        Numbers::Entered(..) => 9,
        Numbers::Fallback(..) => 10,
        Numbers::Rollback => 11,
    }
}

// ---- The round

/// A frame of ours that wants an ACK with number 7, and one that wants none.
const TX_ACK: &[u8] = &[0x61, 0x88, 7, 0x34, 0x12, 0, 0, 0x77, 0x66, 1, 2, 3, 4, 5, 6];
const TX_PLAIN: &[u8] = &[0x41, 0x88, 8, 0x34, 0x12, 0, 0, 0x77, 0x66, 1, 2, 3, 4, 5, 6];
/// A received frame for us that wants an ACK, one that wants none, and one for another station.
const FOR_US_ACK: &[u8] = &[0x61, 0x88, 9, 0x34, 0x12, 0x77, 0x66, 0, 0, 1, 2, 3, 4, 5, 6];
const FOR_US: &[u8] = &[0x41, 0x88, 10, 0x34, 0x12, 0x77, 0x66, 0, 0, 1, 2, 3, 4, 5, 6];
const FOR_OTHERS: &[u8] = &[0x61, 0x88, 11, 0x34, 0x12, 0x99, 0x99, 0, 0, 1, 2, 3, 4, 5, 6];
const ACK: &[u8] = &[0x02, 0x00, 7];

fn ok(numbers: Numbers) -> Step {
    refused(0, numbers)
}

fn refused(returns: u8, numbers: Numbers) -> Step {
    let (write, state) = (None, State::Right);
    Step {
        write,
        numbers,
        state,
        returns,
    }
}

fn on(buffer: u8, bytes: &'static [u8], numbers: Numbers) -> Step {
    let write = Some((buffer, bytes));
    Step { write, ..ok(numbers) }
}

fn bad_state(state: State) -> Step {
    Step {
        state,
        ..refused(1, Numbers::Rx(1, None, 2))
    }
}

fn round() -> Vec<Step> {
    [transmissions(), receptions(), waits_that_end(), chains()].concat()
}

/// Start and its refusals; a whole Tx with its ACK, and one that wants none, during which a request arrives that may not follow it.
fn transmissions() -> Vec<Step> {
    use Numbers::*;
    vec![
        refused(2, Start(2, 0, 1, 2)),
        refused(3, Start(9, 0, 1, COUNT)),
        refused(4, Start(2, 1, 1, COUNT)),
        ok(Start(2, 0, 1, COUNT)),
        bad_state(State::Short),
        bad_state(State::ForeignByte),
        refused(5, FrameStart),
        refused(7, Rx(1, None, 1)),
        refused(8, Tx(1, None, 2, 2)),
        on(2, TX_ACK, Tx(1, None, 2, 15)),
        ok(Request),
        ok(Entered(OFF, 0, TIME)),
        refused(11, Entered(SENT, 0, u64::MAX - 9_999)),
        ok(Entered(SENT, 0, TIME)),
        ok(Stopped(0, 0)),
        ok(NoRequest),
        refused(5, Entered(ENDED, 0, TIME)),
        on(1, ACK, Entered(FRAME, 3, TIME)),
        on(2, TX_PLAIN, Tx(2, Some(TIME), 2, 15)),
        ok(Request),
        ok(Entered(OFF, 0, TIME)),
        refused(6, Rx(2, None, 3)),
        ok(Rx(3, Some(TIME), 3)),
        refused(9, Request),
        ok(NoRequest),
        ok(Withdraw(3)),
        ok(Entered(SENT, 0, TIME)),
    ]
}

/// A frame with an ACK turn, two for others (after which the spare buffer is the old one again), one that rolls back, and one that
/// is followed by a Tx.
fn receptions() -> Vec<Step> {
    use Numbers::*;
    vec![
        ok(Rx(3, None, 3)),
        ok(Request),
        ok(Entered(OFF, 0, TIME)),
        ok(FrameStart),
        ok(Stopped(0, 0)),
        refused(10, Header(126)),
        on(3, FOR_US_ACK, Header(15)),
        refused(10, Entered(FRAME, 0, TIME)),
        ok(Entered(FRAME, 15, TIME)),
        ok(Rx(4, None, 3)),
        ok(Request),
        ok(Entered(SENT, 0, TIME)),
        ok(FrameStart),
        ok(Stopped(0, 0)),
        on(3, FOR_OTHERS, Header(15)),
        ok(Entered(FRAME, 15, TIME)),
        ok(FrameStart),
        ok(Stopped(0, 0)),
        on(1, FOR_OTHERS, Header(15)),
        ok(Entered(FRAME, 15, TIME)),
        ok(FrameStart),
        ok(Stopped(0, 0)),
        on(3, FOR_US, Header(15)),
        ok(NoRequest),
        ok(Rollback),
        ok(FrameStart),
        ok(Stopped(0, 0)),
        ok(Header(15)),
        on(2, TX_ACK, Tx(5, Some(TIME), 2, 15)),
        ok(Request),
        ok(Entered(FRAME, 15, TIME)),
    ]
}

/// The ACK's window fails to stop once and ends; a listening window ends for a Tx, which falls back. Before, one that was seen is
/// withdrawn.
fn waits_that_end() -> Vec<Step> {
    use Numbers::*;
    vec![
        ok(Entered(SENT, 0, TIME)),
        ok(Stopped(1, 0)),
        ok(Stopped(3, 0)),
        ok(Rx(6, None, 4)),
        ok(Request),
        ok(Entered(OFF, 0, TIME)),
        ok(Tx(7, Some(TIME), 2, 15)),
        ok(OutboundSeen(Some(TIME))),
        ok(Stopped(1, 0)),
        ok(Withdraw(7)),
        on(2, TX_PLAIN, Tx(7, None, 2, 15)),
        ok(OutboundSeen(None)),
        ok(Stopped(3, 0)),
        refused(5, NoRequest),
        ok(Request),
        ok(Fallback(OFF, 0, 2)),
    ]
}

/// Two transmissions and a reception without a pause, an ACK turn that rolls back, and one that goes off.
fn chains() -> Vec<Step> {
    use Numbers::*;
    vec![
        on(2, TX_PLAIN, Tx(8, None, 2, 15)),
        ok(Request),
        ok(Entered(OFF, 0, TIME)),
        on(4, TX_PLAIN, Tx(9, None, 4, 15)),
        ok(Request),
        ok(Entered(SENT, 0, TIME)),
        ok(Rx(10, None, 2)),
        ok(Request),
        ok(Entered(SENT, 0, TIME)),
        ok(FrameStart),
        ok(Stopped(0, 0)),
        on(2, FOR_US_ACK, Header(15)),
        ok(Rollback),
        ok(FrameStart),
        ok(Stopped(0, 0)),
        ok(Header(15)),
        ok(Entered(FRAME, 15, TIME)),
        ok(NoRequest),
        ok(Entered(SENT, 0, TIME)),
    ]
}

/// The same round with three timed receive requests in the line. No wait of it allows them but idle: there they are withdrawn for as
/// long as the request of the round takes.
fn with_three_waiting(steps: &[Step], memory: &mut Memory) -> Vec<Step> {
    let three = [(101, 5), (102, 6), (103, 7)];
    let arrivals = three.map(|(token, buffer)| ok(Numbers::Rx(token, Some(TIME), buffer)));
    let withdrawals = three.map(|(token, _)| ok(Numbers::Withdraw(token)));
    let (mut all, mut waiting) = (Vec::new(), false);
    for step in steps {
        let from_idle = matches!(step.numbers, Numbers::Request) && memory.state[17..19] == [0, 0];
        assert_eq!(memory.make(step), step.returns);
        if from_idle && waiting {
            all.extend(withdrawals);
        }
        all.push(*step);
        if from_idle {
            all.extend(arrivals);
        }
        waiting |= from_idle;
    }
    all
}

// ---- Running it

fn run(memory: &mut Memory, steps: &[Step], rounds: u32) -> bool {
    let mut right = true;
    for _ in 0..rounds {
        for step in steps {
            right &= memory.make(step) == step.returns;
        }
    }
    right
}

fn check(memory: &mut Memory, steps: &[Step]) {
    for (place, step) in steps.iter().enumerate() {
        let returned = memory.make(step);
        let name = NAMES[function(step.numbers)];
        assert_eq!(returned, step.returns, "step {place}, {name}");
    }
}

fn count(steps: &[Step], rounds: u32) {
    println!("function accepted refused");
    for (place, name) in NAMES.iter().enumerate() {
        let mine = || steps.iter().filter(|step| function(step.numbers) == place);
        let accepted = mine().filter(|step| step.returns == 0).count() as u32 * rounds;
        println!("widosha_{name} {accepted} {}", mine().count() as u32 * rounds - accepted);
    }
}

/// One step as lines of the script language of the Rust service's runner. What waits in our line is kept in `waiting`, and stands in
/// its queue no sooner than our Request takes it: a call on the line is no line of the script.
fn script(step: &Step, waiting: &mut Vec<Numbers>) -> String {
    let mut text = String::new();
    if let Some((buffer, bytes)) = step.write {
        let hex: String = bytes.iter().map(|byte| format!("{byte:02x}")).collect();
        writeln!(text, "pool {buffer} {HEADROOM} {hex}").expect("a string takes all text");
    }
    match step.numbers {
        Numbers::Tx(..) | Numbers::Rx(..) => waiting.push(step.numbers),
        Numbers::Withdraw(token) => {
            waiting.retain(|each| !matches!(each, Numbers::Tx(held, ..) | Numbers::Rx(held, ..) if *held == token));
        }
        Numbers::Request => {
            assert_eq!(waiting.len(), 1, "so there is no question which one leaves");
            text += &script_line(waiting.remove(0));
        }
        numbers => text += &script_line(numbers),
    }
    text
}

/// A call in that language, which knows no link quality; a request with the fields that it arrived with.
fn script_line(numbers: Numbers) -> String {
    let start = |start: Option<u64>| start.map_or("best".to_string(), |time| time.to_string());
    let result = |result, length| match result {
        OFF => "off".to_string(),
        SENT => format!("sent:{TIME}"),
        FRAME => format!("frame:{length}:{TIME}"),
        ENDED => "ended".to_string(),
        _ => format!("crc:{TIME}"),
    };
    let call = match numbers {
        Numbers::Start(h, ack, spare, n) => format!("start {n} {h} 0 2 {HARDWARE:016x} {PAN:04x} 0 {ack} {spare}"),
        Numbers::Tx(token, at, buffer, length) => format!("request {token} tx {} {buffer} {length} 1", start(at)),
        Numbers::Rx(token, at, buffer) => format!("request {token} rx {} {buffer}", start(at)),
        Numbers::Withdraw(_) | Numbers::Request => panic!("these have no line of their own"),
        Numbers::NoRequest => "none".into(),
        Numbers::FrameStart => "framestart".into(),
        Numbers::OutboundSeen(at) => format!("outbound {} 1", start(at)),
        Numbers::Stopped(0, _) => "stopped frame".into(),
        Numbers::Stopped(1, _) => "stopped failed".into(),
        Numbers::Stopped(outcome, length) => format!("stopped ended {}", result(outcome, length)),
        Numbers::Header(arrived) => format!("header {arrived} 17"),
        Numbers::Entered(what, length, entry) => format!("entered {} {entry}", result(what, length)),
        Numbers::Fallback(what, length, _) => format!("fallback {} task", result(what, length)),
        Numbers::Rollback => "rollback".into(),
    };
    call + "\n"
}

/// Of the accepted calls, the start, and those after it. A round of these begins and ends idle with the same spare buffer.
fn accepted(steps: &[Step]) -> (Vec<Step>, Vec<Step>) {
    let accepted = steps.iter().filter(|step| step.returns == 0);
    accepted.partition(|step| matches!(step.numbers, Numbers::Start(..)))
}

/// Frames whose facts are read: a weighing, the same cut off inside its source, two extended addresses with a PAN each, two of
/// version 2 with none, and a control that is not well formed.
const FRAMES: [&[u8]; 5] = [
    &[0x61, 0x88, 7, 0x34, 0x12, 0x00, 0x00, 0x01, 0x00, 0xc0, 0x5d, 0x00],
    &[0x61, 0x88, 7, 0x34, 0x12, 0x00, 0x00, 0x01],
    &[
        0x01, 0xdc, 7, 0x34, 0x12, 1, 2, 3, 4, 5, 6, 7, 8, 0x78, 0x56, 9, 10, 11, 12, 13, 14, 15, 16, 0xee,
    ],
    &[0x41, 0xec, 7, 1, 2, 3, 4, 5, 6, 7, 8, 9, 10, 11, 12, 13, 14, 15, 16, 0xee],
    &[0x01, 0x04, 7, 0x34, 0x12],
];

fn facts(rounds: u32) {
    let mut info = [0; INFO_LENGTH];
    let mut read = |frame: &[u8], length: usize| {
        // SAFETY: two slices that do not overlap; the length is that of `info` or less.
        unsafe { widosha_preliminary_frame_info(frame.as_ptr(), frame.len(), info.as_mut_ptr(), length) }
    };
    for _ in 0..rounds {
        assert!(FRAMES.iter().all(|frame| read(frame, INFO_LENGTH) == 0), "32 bytes are taken");
        assert_eq!(read(FRAMES[0], INFO_LENGTH - 1), 1, "31 bytes are refused");
    }
    println!("function accepted refused");
    println!("widosha_preliminary_frame_info {} {rounds}", FRAMES.len() as u32 * rounds);
}

/// What is spoilt, and where: the count (no settings have 0 buffers), the last byte of the state and of the line, which are always 0.
const SPOILT: [(&str, Option<usize>); 4] = [
    ("whole", None),
    ("settings", Some(0)),
    ("state", Some(STATE_LENGTH - 1)),
    ("line", Some(STATE_LENGTH + LINE_LENGTH - 1)),
];

fn trace(memory: &mut Memory, round: &[Step]) {
    steps::begin();
    for step in round {
        let name = NAMES[function(step.numbers)];
        for (what, at) in SPOILT {
            let mut twin = memory.clone();
            match at {
                Some(at) if at < STATE_LENGTH => twin.state[at] ^= twin.state[at].max(1),
                Some(at) => twin.line[at - STATE_LENGTH] = 1,
                None => {}
            }
            let (returned, trace) = steps::trace(ENTRIES[function(step.numbers)] as usize, || twin.make(step));
            if step.returns == 0 && name != "start" {
                assert_eq!(returned, u8::from(at.is_some()), "{name}, {what} spoilt");
                println!("{name} {what} {}", trace.words());
            }
        }
        assert_eq!(memory.make(step), step.returns);
    }
}

fn time(memory: &mut Memory, steps: &[Step]) {
    check(memory, steps);
    let once = || {
        let begun = Instant::now();
        assert!(run(memory, steps, 400), "every call returns what is expected");
        begun.elapsed().as_nanos() as f64
    };
    let fastest = std::iter::repeat_with(once).take(31).fold(f64::INFINITY, f64::min);
    let refusals = steps.iter().filter(|step| step.returns != 0).count();
    println!("{} calls in a round, {refusals} of them refused", steps.len());
    let each = fastest / (400 * steps.len()) as f64;
    println!("{each:.1} ns per call, the loop and the bytes that host and radio write included");
}

fn main() {
    let steps = round();
    let mut memory = Memory {
        state: [0; STATE_LENGTH],
        line: [0; LINE_LENGTH],
        reply: [0; REPLY_LENGTH],
        pool: [0; BUFFER_LENGTH * COUNT as usize],
    };
    let arguments: Vec<String> = std::env::args().skip(1).collect();
    let rounds: Option<u32> = arguments.get(1).and_then(|text| text.parse().ok());
    match (arguments.first().map(String::as_str), rounds) {
        (Some("--count"), Some(rounds)) => {
            (0..rounds).for_each(|_| check(&mut memory, &steps));
            count(&steps, rounds);
        }
        (Some("--waiting"), Some(rounds)) => {
            let steps = with_three_waiting(&steps, &mut memory);
            (0..rounds).for_each(|_| check(&mut memory, &steps));
            count(&steps, rounds);
        }
        (Some("--accepted"), Some(rounds)) => {
            let (start, rest) = accepted(&steps);
            check(&mut memory, &start);
            (0..rounds).for_each(|_| check(&mut memory, &rest));
            count(&rest, rounds);
        }
        (Some("--script"), Some(rounds)) => {
            let (start, rest) = accepted(&steps);
            let rest = std::iter::repeat_n(&rest, rounds as usize).flatten();
            let mut waiting = Vec::new();
            start
                .iter()
                .chain(rest)
                .for_each(|step| print!("{}", script(step, &mut waiting)));
        }
        (Some("--facts"), Some(rounds)) => facts(rounds),
        (Some("--trace"), None) => trace(&mut memory, &steps),
        (None, None) => time(&mut memory, &steps),
        _ => panic!("bench_calls [--count N | --waiting N | --accepted N | --script N | --trace | --facts N]"),
    }
}
