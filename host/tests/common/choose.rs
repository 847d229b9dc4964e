//! The choice of settings, calls and pool bytes: mostly what fits the wait, often around the limits, sometimes anything.
use super::frames;
use super::random::Rng;
use crate::model::calls::{Raw, RawStart, Request, Start};
use crate::model::engine::{Left, Next, State, Wait};
use crate::model::header::Control;
use crate::model::line::Line;

/// What a call or a poke is chosen for: state and line as the model reads them, and the pool.
#[derive(Clone, Copy)]
pub struct Now<'a> {
    pub state: &'a State,
    pub line: &'a Line,
    pub pool: &'a [u8],
}

/// A hardware address; now and then one that ends as the broadcast address, or is nothing but FF.
fn hardware(rng: &mut Rng) -> u64 {
    match rng.below(20) {
        0 => rng.number() | 0xffff,
        1 => u64::MAX,
        _ => rng.number(),
    }
}

/// Settings that start accepts. Eight buffers are enough for two own ones, two requests that have left and four that wait.
pub fn settings(rng: &mut Rng) -> RawStart {
    let count = match rng.below(10) {
        0 => 3,
        1 => 32,
        2 => 3 + rng.below(30) as u8,
        _ => 5 + rng.below(6) as u8,
    };
    let ack = rng.below(usize::from(count)) as u8;
    let spare = (usize::from(ack) + 1 + rng.below(usize::from(count) - 1)) % usize::from(count);
    RawStart {
        count,
        headroom: rng.below(9) as u8,
        tailroom: rng.below(9) as u8,
        fcs_length: rng.pick(&[2, 4]),
        hardware_addr: hardware(rng),
        pan_id: if rng.chance(5) { 0xffff } else { rng.number() as u16 },
        implicit_broadcast: rng.below(2) as u8,
        ack_buffer: ack,
        spare_buffer: spare as u8,
    }
}

/// Settings with something odd in one or two places.
pub fn odd_settings(rng: &mut Rng) -> RawStart {
    let mut raw = settings(rng);
    for _ in 0..1 + rng.below(2) {
        match rng.below(7) {
            0 => raw.count = rng.pick(&[0, 1, 2, 33, 34, 64, 255]),
            1 => raw.headroom = rng.pick(&[9, 10, 255]),
            2 => raw.tailroom = rng.pick(&[9, 10, 255]),
            3 => raw.fcs_length = rng.pick(&[0, 1, 3, 5, 255]),
            4 => raw.implicit_broadcast = rng.pick(&[2, 3, 255]),
            5 => raw.ack_buffer = rng.pick(&[raw.spare_buffer, raw.count, 255]),
            _ => raw.spare_buffer = rng.pick(&[raw.ack_buffer, raw.count, 255]),
        }
    }
    raw
}

pub fn time(rng: &mut Rng) -> u64 {
    match rng.below(10) {
        0 => rng.pick(&[0, 1, 10_000, u64::MAX, u64::MAX - 1]),
        // 2^64 − 10,001 and its neighbours.
        1 => (u64::MAX - 10_000).wrapping_add(rng.below(5) as u64).wrapping_sub(2),
        2 | 3 => rng.number(),
        _ => rng.number() >> 24,
    }
}

/// A link quality, for every call that has the number: also where its code leaves it unused.
pub fn quality(rng: &mut Rng) -> u8 {
    match rng.below(10) {
        0 => rng.pick(&[0, 1, 127, 128, 254, 255]),
        _ => rng.byte(),
    }
}

fn code(rng: &mut Rng, fits: u8) -> u8 {
    if rng.chance(2) {
        rng.pick(&[2, 3, 4, 5, 6, 127, 128, 254, 255])
    } else {
        fits
    }
}

/// The tokens of unanswered requests that have left the line.
fn left(now: Now) -> Vec<u32> {
    now.state.wait.open().iter().flatten().map(|open| open.0).collect()
}

/// A token: mostly one that is not in use, now and then one that is.
fn token(rng: &mut Rng, now: Now) -> u32 {
    let (left, waiting) = (left(now), &now.line.0);
    let small = rng.pick(&[0, 1, 2, 3, 7, u32::MAX, 0x8000_0000, 0x0102_0304]);
    match rng.below(40) {
        0 if !left.is_empty() => rng.pick(&left),
        1 | 2 if !waiting.is_empty() => rng.pick(waiting).token(),
        3..=22 if !left.contains(&small) && now.line.place_of(small).is_none() => small,
        _ => rng.number() as u32,
    }
}

/// A buffer: mostly one that is not held, if there is one.
fn buffer(rng: &mut Rng, now: Now) -> u8 {
    let count = now.state.settings.count;
    let own = [now.state.settings.ack, now.state.settings.spare];
    let open = now.state.wait.open();
    let held = |b: u8| own.contains(&b) || open.iter().flatten().any(|open| open.1 == b) || now.line.holds(b);
    let free: Vec<u8> = (0..count).filter(|b| !held(*b)).collect();
    match rng.below(30) {
        0 => rng.pick(&[count, count - 1, 255, own[0], own[1]]),
        1 => rng.byte(),
        _ if free.is_empty() => rng.below(usize::from(count)) as u8,
        _ => rng.pick(&free),
    }
}

fn tx_length(rng: &mut Rng, state: &State) -> u16 {
    let longest = state.settings.longest();
    match rng.below(20) {
        0 => rng.pick(&[0, 1, 2, longest + 1, 255, 256, 259, 65535]),
        1 | 2 => rng.pick(&[3, 4, longest - 1, longest]),
        // Around 18 bytes with checksum.
        3..=10 => 13 + rng.below(6) as u16,
        _ => 3 + rng.below(usize::from(longest) - 2) as u16,
    }
}

/// An arrival, of any direction and start in every wait.
pub fn arrive(rng: &mut Rng, now: Now) -> Raw {
    let (direction, timed, cca) = (rng.chance(45), rng.chance(40), rng.chance(50));
    Raw::Arrive {
        token: token(rng, now),
        direction: code(rng, u8::from(direction)),
        start: code(rng, u8::from(timed)),
        time: time(rng),
        buffer: buffer(rng, now),
        length: tx_length(rng, now.state),
        cca: code(rng, u8::from(cca)),
    }
}

/// A withdrawal: mostly of one that waits; while the stop after OutboundSeen or its ask is open, often of the named Tx.
pub fn withdraw(rng: &mut Rng, now: Now) -> Raw {
    let open = matches!(now.state.wait, Wait::StopForOutbound(_) | Wait::AfterWindow(_));
    let (left, waiting) = (left(now), &now.line.0);
    let token = match (rng.below(10), now.line.earliest_tx()) {
        (0, _) if !left.is_empty() => rng.pick(&left),
        (0 | 1, _) => token(rng, now),
        (2..=5, Some(named)) if open => named.token(),
        _ if waiting.is_empty() => token(rng, now),
        _ => rng.pick(waiting).token(),
    };
    Raw::Withdraw { token }
}

/// Arrivals in a hundred calls, by how many wait, so that the line is now empty, now full.
const ARRIVALS: [usize; 5] = [24, 20, 18, 16, 12];
/// The same for withdrawals.
const WITHDRAWALS: [usize; 5] = [1, 3, 3, 4, 6];

/// The line's share of the calls that fit, in every wait.
fn on_the_line(rng: &mut Rng, now: Now) -> Option<Raw> {
    let waiting = now.line.0.len();
    match rng.below(100) {
        below if below < ARRIVALS[waiting] => Some(arrive(rng, now)),
        below if below < ARRIVALS[waiting] + WITHDRAWALS[waiting] => Some(withdraw(rng, now)),
        _ => None,
    }
}

/// A wait that asks: what fits the line, mostly.
fn asked(rng: &mut Rng, now: Now, leaves: Option<usize>) -> Raw {
    let takes_none = !matches!(now.state.wait, Wait::Idle | Wait::AfterWindow(_));
    match (leaves, rng.below(20)) {
        (Some(_), 0) | (None, 1) => Raw::None,
        (Some(_), _) | (None, 0) => Raw::Request,
        (None, 2..) if takes_none => Raw::None,
        _ => arrive(rng, now),
    }
}

/// Mostly with start and flag of the line's earliest Tx, now and then with another's, or with one of them changed.
fn outbound_seen(rng: &mut Rng, now: Now) -> Raw {
    let seen = match now.line.earliest_tx() {
        Some(_) if rng.chance(8) => rng.pick(&now.line.0),
        Some(earliest) => *earliest,
        None => Request::Tx {
            token: 0,
            start: rng.pick(&[Start::BestEffort, Start::At(7)]),
            buffer: 0,
            length: 3,
            check: rng.chance(50),
        },
    };
    let (mut start, mut time) = match seen.start() {
        Start::BestEffort => (0, time(rng)),
        Start::At(time) => (1, time),
    };
    let mut cca = u8::from(matches!(seen, Request::Tx { check: true, .. }));
    match rng.below(20) {
        0 => start = 1 - start,
        1 => time ^= 1 << rng.below(64),
        2 => cca = 1 - cca,
        _ => {}
    }
    Raw::outbound_seen(code(rng, start), time, code(rng, cca))
}

/// A length of a received frame.
fn received_length(rng: &mut Rng, state: &State, acknowledgement: bool) -> u16 {
    let longest = state.settings.longest();
    match rng.below(20) {
        0 => rng.pick(&[0, longest + 1, longest + 2, 127, 256, 259, 65535]),
        1 => rng.pick(&[1, 2, 3, 4, longest - 1, longest]),
        2..=16 if acknowledgement => 3,
        _ => 1 + rng.below(usize::from(longest)) as u16,
    }
}

/// Result codes that mostly fit what the radio leaves.
fn result(rng: &mut Rng, left: &Left) -> u8 {
    let fits = match left {
        Left::Off => 0,
        Left::Receiving(_) => rng.pick(&[2, 2, 2, 3, 4]),
        Left::Sending(_) | Left::SendingAck => 1,
        Left::ReceivingAck(_) => rng.pick(&[2, 2, 2, 2, 2, 2, 4]),
    };
    if rng.chance(4) {
        rng.below(6) as u8
    } else {
        code(rng, fits)
    }
}

fn change(rng: &mut Rng, state: &State, left: &Left, next: &Next) -> Raw {
    let acknowledgement = matches!(left, Left::ReceivingAck(_));
    let result = result(rng, left);
    let (length, time_of_result) = (received_length(rng, state, acknowledgement), time(rng));
    match next {
        Next::Tx(..) if rng.chance(30) => {
            let cause = rng.below(3) as u8;
            let cause = code(rng, cause);
            Raw::fallback(result, length, time_of_result, cause, time(rng), quality(rng))
        }
        Next::Off if rng.chance(20) => Raw::Rollback,
        _ => Raw::entered(result, length, time_of_result, time(rng), quality(rng)),
    }
}

/// How many bytes have arrived: mostly to the end of the addresses, or one byte less, or more.
fn header(rng: &mut Rng, state: &State, buffer: u8, pool: &[u8]) -> Raw {
    let frame = state.settings.frame(buffer);
    let whole = Control(u16::from_le_bytes([pool[frame], pool[frame + 1]])).header_length() as u16;
    let longest = state.settings.longest();
    let arrived = match rng.below(20) {
        0 => rng.pick(&[longest + 1, longest + 2, 127, 255, 256, 65535]),
        1 => rng.below(6) as u16,
        2 | 3 => whole - 1,
        4 | 5 => whole + 1,
        6 => rng.below(usize::from(longest) + 1) as u16,
        7..=10 => longest,
        _ => whole,
    };
    let length = match rng.below(4) {
        0 => rng.pick(&[0, 1, 17, 18, 19, 20, 127, 128, 255, 256, 257, 274, 65535]),
        1 => 16 + rng.below(5) as u16,
        2 => rng.below(128) as u16,
        _ => rng.number() as u16,
    };
    Raw::header(arrived, length)
}

fn stopped(rng: &mut Rng, state: &State, fits: &[u8]) -> Raw {
    let outcome = if rng.chance(5) { rng.below(6) as u8 } else { rng.pick(fits) };
    let (outcome, length) = (code(rng, outcome), received_length(rng, state, false));
    Raw::stopped(outcome, length, time(rng), quality(rng))
}

/// A call that mostly fits the wait; with it the line changes, in every wait.
pub fn fitting(rng: &mut Rng, now: Now) -> Raw {
    if let Some(raw) = on_the_line(rng, now) {
        return raw;
    }
    let Now { state, line, pool } = now;
    if let Some(leaves) = state.leaves(line) {
        return asked(rng, now, leaves);
    }
    match &state.wait {
        Wait::Change(left, next) => change(rng, state, left, next),
        Wait::AckTurn(..) if rng.chance(25) => Raw::Rollback,
        Wait::Rearm(rx) | Wait::AckTurn(rx, _) => change(rng, state, &Left::Receiving(*rx), &Next::Rx(*rx)),
        Wait::TurnToAck(tx, _) => change(rng, state, &Left::Sending(*tx), &Next::Tx(*tx, None)),
        Wait::Listening(_) if rng.chance(if line.earliest_tx().is_some() { 50 } else { 90 }) => Raw::FrameStart,
        Wait::StopForFrame(_) => stopped(rng, state, &[0]),
        Wait::StopForOutbound(_) => stopped(rng, state, &[0, 1, 2, 3, 4]),
        Wait::StopForAck(_) => stopped(rng, state, &[0, 0, 0, 1, 1, 2, 3, 4]),
        Wait::StopForAckAgain(_) => stopped(rng, state, &[0, 0, 2, 3, 4]),
        Wait::ReadingHeader(rx) => header(rng, state, rx.buffer, pool),
        // Listening; all others ask.
        _ => outbound_seen(rng, now),
    }
}

/// Any of the eleven calls with numbers that are often codes.
pub fn any(rng: &mut Rng, now: Now) -> Raw {
    let small = |rng: &mut Rng| if rng.chance(90) { rng.below(6) as u8 } else { rng.byte() };
    let length = received_length(rng, now.state, true);
    match rng.below(12) {
        0 => arrive(rng, now),
        1 => withdraw(rng, now),
        2 => Raw::Request,
        3 => Raw::None,
        4 => Raw::FrameStart,
        5 => Raw::outbound_seen(small(rng), time(rng), small(rng)),
        6 => outbound_seen(rng, now),
        7 => Raw::stopped(small(rng), length, time(rng), quality(rng)),
        8 => Raw::header(length, rng.number() as u16),
        9 => Raw::entered(small(rng), length, time(rng), time(rng), quality(rng)),
        10 => Raw::fallback(small(rng), length, time(rng), small(rng), time(rng), quality(rng)),
        _ => Raw::Rollback,
    }
}

/// Bytes for the pool, with the place they begin at.
pub type Poke = (usize, Vec<u8>);

/// What host and radio may put into the pool before the next call.
pub fn poke(rng: &mut Rng, now: Now) -> Poke {
    let (state, settings) = (now.state, &now.state.settings);
    let some_buffer = rng.below(usize::from(settings.count)) as u8;
    match rng.below(40) {
        0 => {
            let mut bytes = vec![0; 144];
            rng.fill(&mut bytes);
            return (144 * usize::from(some_buffer), bytes);
        }
        1 | 2 => return (rng.below(settings.pool_length()), vec![rng.byte()]),
        // The host changes a frame that waits.
        3..=6 if !now.line.0.is_empty() => {
            let waiting = rng.pick(&now.line.0);
            return (settings.frame(waiting.buffer()), frames::outbound(rng));
        }
        _ => {}
    }
    match &state.wait {
        Wait::Listening(rx) | Wait::StopForFrame(rx) | Wait::StopForOutbound(rx) | Wait::ReadingHeader(rx) => {
            (settings.frame(rx.buffer), frames::header(rng, settings))
        }
        Wait::ReceivingAck(awaited) | Wait::Change(Left::ReceivingAck(awaited), _) => {
            (settings.frame(settings.spare), frames::acknowledgement(rng, awaited.number))
        }
        _ => (settings.frame(some_buffer), frames::outbound(rng)),
    }
}
