//! docs/LAYOUTS.md: the state's 64 bytes, the line's 96, the reply's 48 and the facts' 32.
use super::calls::{Action, Answer, CameTo, Cause, Received, Reply, Request, Start, Task};
use super::engine::{Awaited, Left, Next, Rx, State, Tx, Wait};
use super::header::{Address, Facts};
use super::line::{Line, CAPACITY};
use super::settings::{Settings, Spacing};

pub const STATE: usize = 64;
/// One waiting request.
pub const RECORD: usize = 24;
pub const LINE: usize = CAPACITY * RECORD;
pub const REPLY: usize = 48;
pub const INFO: usize = 32;

fn put(bytes: &mut [u8], at: usize, low_byte_first: &[u8]) {
    bytes[at..at + low_byte_first.len()].copy_from_slice(low_byte_first);
}

/// A number of `width` bytes, "low byte first".
fn get(bytes: &[u8], at: usize, width: usize) -> u64 {
    (0..width).map(|i| u64::from(bytes[at + i]) << (8 * i)).sum()
}

fn put_settings(bytes: &mut [u8; STATE], settings: &Settings) {
    let Settings {
        count,
        headroom,
        tailroom,
        fcs,
        ..
    } = *settings;
    put(bytes, 0, &[count, headroom, tailroom, fcs]);
    put(bytes, 4, &u64::from_be_bytes(settings.hardware).to_le_bytes());
    put(bytes, 12, &settings.pan.to_le_bytes());
    put(bytes, 14, &[u8::from(settings.implicit), settings.ack, settings.spare]);
}

fn get_settings(bytes: &[u8]) -> Settings {
    Settings {
        count: bytes[0],
        headroom: bytes[1],
        tailroom: bytes[2],
        fcs: bytes[3],
        hardware: get(bytes, 4, 8).to_be_bytes(),
        pan: get(bytes, 12, 2) as u16,
        implicit: bytes[14] == 1,
        ack: bytes[15],
        spare: bytes[16],
    }
}

/// Kind and case of a wait, bytes 17 and 18, and what the radio enters, byte 19.
pub fn codes(wait: &Wait) -> [u8; 3] {
    match wait {
        Wait::Idle => [0, 0, 0],
        Wait::AfterWindow(_) => [0, 1, 0],
        Wait::AfterAckWindow(..) => [0, 2, 0],
        Wait::Receiving(..) => [0, 3, 0],
        Wait::Sending(_) => [0, 4, 0],
        Wait::SendingAck(_) => [0, 5, 0],
        Wait::ReceivingAck(_) => [0, 6, 0],
        Wait::Change(left, next) => [1, left_code(left), next_code(next)],
        Wait::Rearm(_) => [2, 0, 0],
        Wait::AckTurn(..) => [2, 1, 0],
        Wait::TurnToAck(..) => [2, 2, 0],
        Wait::Listening(_) => [3, 0, 0],
        Wait::StopForFrame(_) => [4, 0, 0],
        Wait::StopForOutbound(_) => [4, 1, 0],
        Wait::StopForAck(_) => [4, 2, 0],
        Wait::StopForAckAgain(_) => [4, 3, 0],
        Wait::ReadingHeader(_) => [5, 0, 0],
    }
}

fn left_code(left: &Left) -> u8 {
    match left {
        Left::Off => 0,
        Left::Receiving(_) => 1,
        Left::Sending(_) => 2,
        Left::SendingAck => 3,
        Left::ReceivingAck(_) => 4,
    }
}

fn next_code(next: &Next) -> u8 {
    match next {
        Next::Off => 0,
        Next::Tx(_, None) => 1,
        Next::Tx(_, Some(_)) => 2,
        Next::Rx(_) => 3,
    }
}

/// Token and buffer of a receive request, at byte 20 or at byte 27.
fn put_rx(bytes: &mut [u8; STATE], at: usize, rx: &Rx) {
    put(bytes, at, &rx.token.to_le_bytes());
    bytes[at + 4] = rx.buffer;
}

/// Token, buffer and length of a transmit request, at byte 20 or at byte 27.
fn put_tx(bytes: &mut [u8; STATE], at: usize, tx: &Tx) {
    put(bytes, at, &tx.token.to_le_bytes());
    bytes[at + 4] = tx.buffer;
    put(bytes, at + 5, &tx.length.to_le_bytes());
}

/// "20 to 26, 34, 37 to 44"
fn put_awaited(bytes: &mut [u8; STATE], awaited: &Awaited) {
    put_tx(bytes, 20, &awaited.tx);
    bytes[34] = awaited.number;
    put(bytes, 37, &awaited.sent.to_le_bytes());
}

fn put_change(bytes: &mut [u8; STATE], left: &Left, next: &Next) {
    match left {
        Left::Off | Left::SendingAck => {}
        Left::Receiving(rx) => put_rx(bytes, 20, rx),
        Left::Sending(tx) => put_tx(bytes, 20, tx),
        Left::ReceivingAck(awaited) => put_awaited(bytes, awaited),
    }
    match next {
        Next::Off => {}
        Next::Tx(tx, number) => {
            put_tx(bytes, 27, tx);
            bytes[35] = number.unwrap_or(0);
        }
        Next::Rx(rx) => put_rx(bytes, 27, rx),
    }
}

fn spacing_code(spacing: Spacing) -> u8 {
    match spacing {
        Spacing::Ack => 0,
        Spacing::Short => 1,
        Spacing::Long => 2,
    }
}

/// The state as its 64 bytes. "Bytes that a code leaves unused are 0".
pub fn write_state(state: &State) -> [u8; STATE] {
    let mut bytes = [0; STATE];
    put_settings(&mut bytes, &state.settings);
    put(&mut bytes, 17, &codes(&state.wait));
    match &state.wait {
        Wait::Idle => {}
        Wait::AfterWindow(rx) | Wait::Rearm(rx) | Wait::Listening(rx) => put_rx(&mut bytes, 20, rx),
        Wait::StopForFrame(rx) | Wait::StopForOutbound(rx) | Wait::ReadingHeader(rx) => put_rx(&mut bytes, 20, rx),
        Wait::Receiving(rx, kept) | Wait::AckTurn(rx, kept) => {
            put_rx(&mut bytes, 20, rx);
            bytes[36] = spacing_code(*kept);
        }
        Wait::SendingAck(kept) => bytes[36] = spacing_code(*kept),
        Wait::Sending(tx) => put_tx(&mut bytes, 20, tx),
        Wait::AfterAckWindow(tx, sent) => {
            put_tx(&mut bytes, 20, tx);
            put(&mut bytes, 37, &sent.to_le_bytes());
        }
        Wait::TurnToAck(tx, number) => {
            put_tx(&mut bytes, 20, tx);
            bytes[34] = *number;
        }
        Wait::ReceivingAck(awaited) | Wait::StopForAck(awaited) | Wait::StopForAckAgain(awaited) => {
            put_awaited(&mut bytes, awaited)
        }
        Wait::Change(left, next) => put_change(&mut bytes, left, next),
    }
    bytes
}

fn get_rx(bytes: &[u8], at: usize) -> Rx {
    Rx {
        token: get(bytes, at, 4) as u32,
        buffer: bytes[at + 4],
    }
}

fn get_tx(bytes: &[u8], at: usize) -> Tx {
    Tx {
        token: get(bytes, at, 4) as u32,
        buffer: bytes[at + 4],
        length: get(bytes, at + 5, 2) as u16,
    }
}

fn get_awaited(bytes: &[u8]) -> Awaited {
    Awaited {
        tx: get_tx(bytes, 20),
        number: bytes[34],
        sent: get(bytes, 37, 8),
    }
}

fn get_spacing(bytes: &[u8]) -> Option<Spacing> {
    [Spacing::Ack, Spacing::Short, Spacing::Long]
        .get(usize::from(bytes[36]))
        .copied()
}

fn get_change(bytes: &[u8]) -> Option<Wait> {
    let left = match bytes[18] {
        0 => Left::Off,
        1 => Left::Receiving(get_rx(bytes, 20)),
        2 => Left::Sending(get_tx(bytes, 20)),
        3 => Left::SendingAck,
        4 => Left::ReceivingAck(get_awaited(bytes)),
        _ => return None,
    };
    let next = match bytes[19] {
        0 => Next::Off,
        1 => Next::Tx(get_tx(bytes, 27), None),
        2 => Next::Tx(get_tx(bytes, 27), Some(bytes[35])),
        3 => Next::Rx(get_rx(bytes, 27)),
        _ => return None,
    };
    Some(Wait::Change(left, next))
}

fn get_wait(bytes: &[u8]) -> Option<Wait> {
    let (rx, tx) = (get_rx(bytes, 20), get_tx(bytes, 20));
    Some(match (bytes[17], bytes[18]) {
        (0, 0) => Wait::Idle,
        (0, 1) => Wait::AfterWindow(rx),
        (0, 2) => Wait::AfterAckWindow(tx, get(bytes, 37, 8)),
        (0, 3) => Wait::Receiving(rx, get_spacing(bytes)?),
        (0, 4) => Wait::Sending(tx),
        (0, 5) => Wait::SendingAck(get_spacing(bytes)?),
        (0, 6) => Wait::ReceivingAck(get_awaited(bytes)),
        (1, _) => get_change(bytes)?,
        (2, 0) => Wait::Rearm(rx),
        (2, 1) => Wait::AckTurn(rx, get_spacing(bytes)?),
        (2, 2) => Wait::TurnToAck(tx, bytes[34]),
        (3, 0) => Wait::Listening(rx),
        (4, 0) => Wait::StopForFrame(rx),
        (4, 1) => Wait::StopForOutbound(rx),
        (4, 2) => Wait::StopForAck(get_awaited(bytes)),
        (4, 3) => Wait::StopForAckAgain(get_awaited(bytes)),
        (5, 0) => Wait::ReadingHeader(rx),
        _ => return None,
    })
}

/// "settings that pass 2 to 4, in-range buffers all different and open tokens different"
fn valid(state: &State) -> bool {
    let settings = &state.settings;
    if settings.refusal(settings.pool_length()).is_some() {
        return false;
    }
    let open = state.wait.open();
    let apart = |buffer: u8| buffer < settings.count && buffer != settings.ack && buffer != settings.spare;
    let different = match open {
        [Some(left), Some(next)] => left.0 != next.0 && left.1 != next.1,
        _ => true,
    };
    different && open.iter().flatten().all(|open| apart(open.1))
}

/// The state that the bytes are written as: they are read by the table, the state must be valid, and writing it must give the same
/// bytes again.
pub fn read_state(bytes: &[u8]) -> Option<State> {
    if bytes.len() != STATE {
        return None;
    }
    let state = State {
        settings: get_settings(bytes),
        wait: get_wait(bytes)?,
    };
    (valid(&state) && write_state(&state) == *bytes).then_some(state)
}

/// A record's 24 bytes: kind, start, channel-check flag, buffer, token, time, length; the last six are 0.
fn put_request(bytes: &mut [u8], request: &Request) {
    let (kind, flag, sent) = match *request {
        Request::Tx { check, length, .. } => (1, check, length),
        Request::Rx { .. } => (2, false, 0),
    };
    let (start, time) = match request.start() {
        Start::BestEffort => (0, 0),
        Start::At(time) => (1, time),
    };
    put(bytes, 0, &[kind, start, u8::from(flag), request.buffer()]);
    put(bytes, 4, &request.token().to_le_bytes());
    put(bytes, 8, &time.to_le_bytes());
    put(bytes, 16, &sent.to_le_bytes());
}

/// The line as its 96 bytes: records in the order of arrival, those that are free last and all 0.
pub fn write_line(line: &Line) -> [u8; LINE] {
    let mut bytes = [0; LINE];
    for (record, request) in bytes.chunks_mut(RECORD).zip(&line.0) {
        put_request(record, request);
    }
    bytes
}

fn get_request(record: &[u8]) -> Option<Request> {
    let (token, buffer) = (get(record, 4, 4) as u32, record[3]);
    let start = match record[1] {
        0 => Start::BestEffort,
        1 => Start::At(get(record, 8, 8)),
        _ => return None,
    };
    match record[0] {
        1 => Some(Request::Tx {
            token,
            start,
            buffer,
            length: get(record, 16, 2) as u16,
            check: record[2] == 1,
        }),
        2 => Some(Request::Rx { token, start, buffer }),
        _ => None,
    }
}

fn all_different<T: Ord>(mut all: Vec<T>) -> bool {
    all.sort_unstable();
    all.windows(2).all(|pair| pair[0] != pair[1])
}

/// E1: "Tx lengths pass 8, buffers are in range and, like tokens, all different over state and line."
fn valid_line(line: &Line, state: &State) -> bool {
    let settings = &state.settings;
    let fits = |request: &Request| match *request {
        Request::Tx { buffer, length, .. } => buffer < settings.count && settings.sends(length),
        Request::Rx { buffer, .. } => buffer < settings.count,
    };
    let open = state.wait.open();
    let open = open.iter().flatten();
    let tokens = open.clone().map(|open| open.0).chain(line.0.iter().map(Request::token));
    let buffers = open.map(|open| open.1).chain(line.0.iter().map(Request::buffer));
    let own = [settings.ack, settings.spare];
    line.0.iter().all(fits) && all_different(tokens.collect()) && all_different(buffers.chain(own).collect())
}

/// The line that the bytes are written as, beside a valid state: records are read up to the first that is free, the line must be
/// valid, and writing it must give the same bytes again.
pub fn read_line(bytes: &[u8], state: &State) -> Option<Line> {
    if bytes.len() != LINE {
        return None;
    }
    let waiting = bytes.chunks(RECORD).take_while(|record| record[0] != 0);
    let line = Line(waiting.map(get_request).collect::<Option<_>>()?);
    (valid_line(&line, state) && write_line(&line) == *bytes).then_some(line)
}

fn put_task(bytes: &mut [u8; REPLY], task: &Task) {
    bytes[1] = task.buffer;
    bytes[3] |= u8::from(task.rollback) << 1;
    if let Start::At(time) = task.start {
        bytes[3] |= 1 << 2;
        put(bytes, 4, &time.to_le_bytes());
    }
    // "bits 3 and 4 spacing (Tx, Rx): 0 none, 1 ACK, 2 short, 3 long"
    bytes[3] |= task.spacing.map_or(0, |spacing| 1 + spacing_code(spacing)) << 3;
}

fn put_action(bytes: &mut [u8; REPLY], action: &Action) {
    match action {
        Action::Nothing => {}
        Action::WaitForRequest => bytes[0] = 1,
        Action::Ask => bytes[0] = 2,
        Action::AskOutbound => bytes[0] = 3,
        Action::Listen => bytes[0] = 4,
        Action::Stop => bytes[0] = 5,
        Action::StopAt(time) => {
            bytes[0] = 6;
            put(bytes, 4, &time.to_le_bytes());
        }
        Action::StopBefore(time, flag) => {
            bytes[0] = 7;
            bytes[3] = u8::from(*flag);
            put(bytes, 4, &time.to_le_bytes());
        }
        Action::ReadHeader => bytes[0] = 8,
        Action::Tx { task, length, check } => {
            bytes[0] = 9;
            bytes[2] = *length as u8;
            bytes[3] = u8::from(*check);
            put_task(bytes, task);
        }
        Action::Rx(task) => {
            bytes[0] = 10;
            put_task(bytes, task);
        }
        Action::Off { rollback } => {
            bytes[0] = 11;
            bytes[3] = u8::from(*rollback) << 1;
        }
    }
}

/// An answer's 18 bytes: what the request came to, token, buffer, length, time, link quality.
fn put_answer(bytes: &mut [u8; REPLY], at: usize, answer: &Answer) {
    let (code, length, time, quality) = match answer.came_to {
        CameTo::Sent(time) => (1, 0, time, 0),
        CameTo::Nack(time) => (2, 0, time, 0),
        CameTo::Error(Cause::Scheduling) => (3, 0, 0, 0),
        CameTo::Error(Cause::SchedulingAt(time)) => (4, 0, time, 0),
        CameTo::Error(Cause::Task) => (5, 0, 0, 0),
        CameTo::Received(Received::Frame { length, time, quality }) => (6, length as u8, time, quality),
        CameTo::Received(Received::WindowEnded) => (7, 0, 0, 0),
        CameTo::Received(Received::CrcError { time, quality }) => (8, 0, time, quality),
    };
    bytes[at] = code;
    put(bytes, at + 1, &answer.token.to_le_bytes());
    bytes[at + 5] = answer.buffer;
    bytes[at + 6] = length;
    put(bytes, at + 7, &time.to_le_bytes());
    bytes[at + 15] = quality;
}

/// The reply as its 48 bytes.
pub fn write_reply(reply: &Reply) -> [u8; REPLY] {
    let mut bytes = [0; REPLY];
    put_action(&mut bytes, &reply.action);
    for (at, answer) in [(12, &reply.first), (30, &reply.second)] {
        if let Some(answer) = answer {
            put_answer(&mut bytes, at, answer);
        }
    }
    bytes
}

/// "0 omitted, 1 there", or "0 missing, 1 there"; then the PAN.
fn put_pan(bytes: &mut [u8; INFO], at: usize, pan: Option<u16>) {
    if let Some(pan) = pan {
        bytes[at] = 1;
        put(bytes, at + 1, &pan.to_le_bytes());
    }
}

/// "0 absent, 2 short, 3 extended"; then "one number in eight bytes, so the upper six of a short one are 0".
fn put_address(bytes: &mut [u8; INFO], at: usize, address: &Address) {
    let (code, number) = match *address {
        Address::Absent => (0, 0),
        Address::Short(short) => (2, u64::from(short)),
        Address::Extended(extended) => (3, extended),
    };
    bytes[at] = code;
    put(bytes, at + 1, &number.to_le_bytes());
}

/// The facts as their 32 bytes. "All bytes of a missing fact are 0".
pub fn write_info(facts: &Facts) -> [u8; INFO] {
    let mut bytes = [0; INFO];
    if let Some(control) = facts.control {
        bytes[0] = 1;
        put(&mut bytes, 1, &control.to_le_bytes());
    }
    if let Some(number) = facts.number {
        put(&mut bytes, 3, &[1, number]);
    }
    if let Some(addressing) = &facts.addressing {
        bytes[5] = 1;
        put_pan(&mut bytes, 6, addressing.destination_pan);
        put_address(&mut bytes, 9, &addressing.destination);
    }
    put_pan(&mut bytes, 18, facts.source_pan);
    if let Some(source) = &facts.source {
        bytes[21] = 1;
        put_address(&mut bytes, 22, source);
    }
    // "0 missing, else 2 to 23"
    bytes[31] = facts.end.map_or(0, |end| end as u8);
    bytes
}
