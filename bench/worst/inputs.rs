//! The aimed set: valid states of every wait, lines of 0 to 4 requests, and for each of the eleven functions numbers of every kind.
use crate::model::bytes::codes;
use crate::model::calls::{Raw, RawStart, Request, Start};
use crate::model::engine::{Awaited, Left, Next, Rx, Tx, Wait};
use crate::model::header::Control;
use crate::model::line::Line;
use crate::model::settings::{Settings, Spacing};

const HARDWARE: [u8; 8] = [0xac, 0xde, 0x48, 0x00, 0x00, 0x00, 0x01, 0x02];
const PAN: u16 = 0x4321;
const TIME: u64 = 0x0123_4567_89ab_cdef;
/// Buffers: own 0 and 1, those of requests that have left 2 and 3, of those that wait 4 to 7; 8 is free.
const FREE: u8 = 8;

pub fn settings() -> Settings {
    Settings {
        count: 32,
        headroom: 8,
        tailroom: 8,
        fcs: 2,
        hardware: HARDWARE,
        pan: PAN,
        implicit: true,
        ack: 0,
        spare: 1,
    }
}

/// Numbers of start around the limits of each, with every other.
pub fn starts() -> Vec<RawStart> {
    let mut all = vec![];
    for (count, fcs_length) in [2, 3, 8, 32, 33]
        .into_iter()
        .flat_map(|count| [2, 3, 4].map(|fcs| (count, fcs)))
    {
        for (headroom, tailroom) in [0, 8, 9].into_iter().flat_map(|head| [0, 8, 9].map(|tail| (head, tail))) {
            for (ack_buffer, spare_buffer) in [(0, 1), (1, 0), (2, 2), (0, 40)] {
                all.extend([0, 1, 2].map(|implicit_broadcast| RawStart {
                    count,
                    headroom,
                    tailroom,
                    fcs_length,
                    hardware_addr: u64::from_be_bytes(HARDWARE),
                    pan_id: PAN,
                    implicit_broadcast,
                    ack_buffer,
                    spare_buffer,
                }));
            }
        }
    }
    all
}

/// The settings, with others in every place that decides nothing else.
pub fn other_settings() -> Vec<Settings> {
    let mut all = vec![];
    for bits in 0..1 << 6 {
        let is = |bit: u8| bits >> bit & 1 == 1;
        let (ack, spare) = if is(0) { (0, 1) } else { (1, 0) };
        all.push(Settings {
            count: if is(1) { 32 } else { 9 },
            headroom: if is(2) { 8 } else { 0 },
            tailroom: if is(3) { 8 } else { 0 },
            fcs: if is(4) { 2 } else { 4 },
            implicit: is(5),
            ack,
            spare,
            ..settings()
        });
    }
    all
}

const SPACINGS: [Spacing; 3] = [Spacing::Ack, Spacing::Short, Spacing::Long];

/// Every kind, case and entered code of docs/LAYOUTS.md, each number that stands in it long or short where that decides something.
pub fn waits() -> Vec<Wait> {
    let rx = Rx { token: 1, buffer: 2 };
    let next_rx = Rx { token: 2, buffer: 3 };
    let mut waits = vec![Wait::Idle, Wait::AfterWindow(rx), Wait::Rearm(rx), Wait::Listening(rx)];
    waits.extend([Wait::StopForFrame(rx), Wait::StopForOutbound(rx), Wait::ReadingHeader(rx)]);
    for spacing in SPACINGS {
        waits.extend([
            Wait::Receiving(rx, spacing),
            Wait::SendingAck(spacing),
            Wait::AckTurn(rx, spacing),
        ]);
    }
    let (number, time) = (7, TIME);
    let sent = |length| Tx {
        token: 1,
        buffer: 2,
        length,
    };
    let awaited = |length| Awaited {
        tx: sent(length),
        number,
        sent: time,
    };
    let next_tx = Tx {
        token: 2,
        buffer: 3,
        length: 125,
    };
    // The length decides the spacing of what follows.
    waits.extend([15, 125].map(|length| Wait::Sending(sent(length))));
    waits.extend([15, 125].map(|length| Wait::ReceivingAck(awaited(length))));
    let (sent, awaited) = (sent(125), awaited(125));
    waits.extend([Wait::AfterAckWindow(sent, time), Wait::TurnToAck(sent, number)]);
    waits.extend([Wait::StopForAck(awaited), Wait::StopForAckAgain(awaited)]);
    let left = [
        Left::Off,
        Left::Receiving(rx),
        Left::Sending(sent),
        Left::SendingAck,
        Left::ReceivingAck(awaited),
    ];
    let next = [
        Next::Off,
        Next::Tx(next_tx, None),
        Next::Tx(next_tx, Some(number)),
        Next::Rx(next_rx),
    ];
    waits.extend(left.iter().flat_map(|left| next.map(|next| Wait::Change(*left, next))));
    waits
}

/// The request at a place of the line, of a kind: a Tx and an Rx, best effort and at a time.
fn waiting(place: usize, kind: char) -> Request {
    let (token, buffer) = (11 + place as u32, 4 + place as u8);
    let start = if kind.is_lowercase() {
        Start::BestEffort
    } else {
        Start::At(TIME + place as u64)
    };
    match kind.to_ascii_lowercase() {
        't' => Request::Tx {
            token,
            start,
            buffer,
            length: 125,
            check: true,
        },
        _ => Request::Rx { token, start, buffer },
    }
}

/// t is a Tx, best effort; T a Tx at a time; r an Rx, best effort; R an Rx at a time.
pub fn line(kinds: &str) -> Line {
    Line(kinds.chars().enumerate().map(|(place, kind)| waiting(place, kind)).collect())
}

/// Lines of each length, of one kind, and those in which the request that a wait allows, or the earliest Tx, stands last.
pub const LINES: [&str; 24] = [
    "", "t", "T", "r", "R", "tt", "TT", "rr", "RR", "RT", "ttt", "TTT", "rrr", "RRR", "RRT", "tttt", "TTTT", "rrrr", "RRRR",
    "RRRT", "RRRt", "RRRr", "TTTr", "rrrT",
];

/// How a line is written in `LINES`.
pub fn kinds(line: &Line) -> String {
    let kind = |request: &Request| {
        let kind = if request.transmits() { 't' } else { 'r' };
        if request.start() == Start::BestEffort {
            kind
        } else {
            kind.to_ascii_uppercase()
        }
    };
    line.0.iter().map(kind).collect()
}

/// Accepted arrivals of each kind, and what 6, 7, 8, 12 and 13 refuse, as far as the line lets it come to that.
fn arrivals(line: &Line) -> Vec<Raw> {
    let mut all = vec![];
    for start in 0..2 {
        all.push(Raw::arrive(99, 0, start, TIME, FREE, 125, 1));
        all.push(Raw::arrive(99, 1, start, TIME, FREE, 0, 0));
        all.push(Raw::arrive(99, 0, start, TIME, FREE, 126, 0));
        all.extend([1, 2, 11, 14].map(|token| Raw::arrive(token, 0, start, TIME, FREE, 125, 0)));
    }
    all.extend([0, 1, 2, 3, 4, 7, 32].map(|buffer| Raw::arrive(99, 1, 0, 0, buffer, 0, 0)));
    all.extend([
        Raw::arrive(99, 2, 0, 0, FREE, 3, 0),
        Raw::arrive(99, 0, 2, 0, FREE, 3, 0),
        Raw::arrive(99, 0, 0, 0, FREE, 3, 2),
    ]);
    all.extend(line.0.iter().map(|request| Raw::withdraw(request.token())));
    all.push(Raw::withdraw(99));
    all
}

/// OutboundSeen of the line's earliest Tx, and of none.
fn seen(line: &Line) -> Vec<Raw> {
    let mut all = vec![
        Raw::outbound_seen(0, 0, 0),
        Raw::outbound_seen(1, TIME, 0),
        Raw::outbound_seen(2, 0, 0),
    ];
    if let Some(Request::Tx { start, check, .. }) = line.earliest_tx() {
        let (code, time) = match *start {
            Start::BestEffort => (0, 0),
            Start::At(time) => (1, time),
        };
        all.push(Raw::outbound_seen(code, time, u8::from(*check)));
    }
    all
}

/// Entered and Fallback with every result and cause: an awaited ACK, another frame, one too long, an entry that is too late.
fn results() -> Vec<Raw> {
    let mut all = vec![];
    for result in 0..6 {
        for length in if result == 2 { vec![3, 125, 126] } else { vec![0] } {
            all.push(Raw::entered(result, length, TIME, TIME, 200));
            all.extend((0..4).map(|cause| Raw::fallback(result, length, TIME, cause, TIME, 200)));
        }
    }
    all.push(Raw::entered(1, 0, TIME, u64::MAX, 200));
    all
}

/// Every call but Header with bytes of its own (`headers`), for a line.
pub fn calls(line: &Line) -> Vec<Raw> {
    let mut all = [arrivals(line), seen(line), results()].concat();
    all.extend([Raw::Request, Raw::None, Raw::FrameStart, Raw::Rollback]);
    all.extend((0..6).map(|outcome| Raw::stopped(outcome, 125, TIME, 200)));
    all.push(Raw::stopped(2, 126, TIME, 200));
    all.extend([(0, 0), (2, 3), (125, 127), (126, 127)].map(|(arrived, length)| Raw::header(arrived, length)));
    all
}

/// Whom the frames of `headers` are for: our address, another, everyone.
const DESTINATIONS: [[u8; 8]; 3] = [
    [0x02, 0x01, 0x00, 0x00, 0x00, 0x48, 0xde, 0xac],
    [0x02, 0x01, 9, 9, 9, 9, 9, 9],
    [0xff; 8],
];

/// Frames of every control that decides something, for us, for another and for everyone.
pub fn frames() -> Vec<Vec<u8>> {
    let mut all = vec![];
    for kind in [1, 2, 7] {
        for bits in 0..1 << 9 {
            // Request bit, PAN compression, suppressed number; destination mode, version, source mode.
            let control = kind | (bits & 3) << 5 | (bits >> 2 & 1) << 8 | (bits >> 3) << 10;
            all.extend(DESTINATIONS.iter().map(|whom| frame(control, whom)));
        }
    }
    all
}

fn frame(number: u16, whom: &[u8; 8]) -> Vec<u8> {
    let control = Control(number);
    let mut bytes = number.to_le_bytes().to_vec();
    if !control.suppressed() {
        bytes.push(7);
    }
    let (destination, source) = control.pans();
    let length = |mode| [0, 0, 2, 8][usize::from(mode)];
    if destination {
        bytes.extend(PAN.to_le_bytes());
    }
    bytes.extend(&whom[..length(control.destination_mode())]);
    if source {
        bytes.extend([0x12, 0x34]);
    }
    bytes.extend(&[0x55; 8][..length(control.source_mode())]);
    bytes
}

/// A frame of ours that wants an ACK, one that wants none, one that is the awaited ACK, and one that is another's.
pub const FRAMES: [[u8; 3]; 4] = [[0x61, 0x88, 7], [0x41, 0x88, 7], [0x02, 0x00, 7], [0x02, 0x00, 8]];

pub fn name(wait: &Wait) -> String {
    let [kind, case, entered] = codes(wait);
    format!("{kind}/{case}/{entered}")
}
