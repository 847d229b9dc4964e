//! Document 02, E1, "A waiting line of four", told outright: what each call on the line and each ask comes to, without the model's word.
mod common;
mod model;

use common::compare::{before, Pair};
use common::reached::{collect, Reached};
use common::run::Run;
use common::scenes::*;
use common::{divisor, seed, stride};
use model::calls::{Raw, RawStart, Request, Start};
use std::collections::BTreeMap;

const RECORD: usize = 24;

/// A waiting request as its record: kind, start, flag, buffer, token, time, length, and six bytes 0.
fn record(raw: &Raw) -> [u8; RECORD] {
    let Raw::Arrive {
        token,
        direction,
        start,
        time,
        buffer,
        length,
        cca,
    } = *raw
    else {
        panic!("{raw:?} is no arrival")
    };
    let mut bytes = [0; RECORD];
    bytes[..4].copy_from_slice(&[1 + direction, start, if direction == 0 { cca } else { 0 }, buffer]);
    bytes[4..8].copy_from_slice(&token.to_le_bytes());
    if start == 1 {
        bytes[8..16].copy_from_slice(&time.to_le_bytes());
    }
    if direction == 0 {
        bytes[16..18].copy_from_slice(&length.to_le_bytes());
    }
    bytes
}

/// The line in which these wait.
fn line_of(arrivals: &[Raw]) -> Vec<u8> {
    let mut bytes: Vec<u8> = arrivals.iter().flat_map(record).collect();
    bytes.resize(96, 0);
    bytes
}

/// "`DRIVER_CHANNEL_CAPACITY` is 4, so it is a lent run of four request records": each field in its bytes, what a code leaves unused 0.
#[test]
fn records() {
    let mut run = open(ten_buffers());
    calls(&mut run, &[Raw::arrive(258, 0, 0, 0, 2, 12, 1)]);
    let documented = [1, 0, 1, 2, 2, 1, 0, 0, 0, 0, 0, 0, 0, 0, 0, 0, 12, 0, 0, 0, 0, 0, 0, 0];
    assert_eq!(run.pair.line()[..RECORD], documented);
    assert_eq!(run.pair.line()[RECORD..], [0; 72]);
    let (token, time) = (0x0102_0304, 0x1112_1314_1516_1718);
    let rows = [
        (Raw::arrive(token, 0, 1, time, 2, 125, 0), [1, 1, 0, 2, 4, 3, 2, 1]),
        (Raw::arrive(token, 0, 0, time, 9, 3, 0), [1, 0, 0, 9, 4, 3, 2, 1]),
        (Raw::arrive(token, 1, 1, time, 0, 77, 1), [2, 1, 0, 0, 4, 3, 2, 1]),
        (Raw::arrive(token, 1, 0, time, 3, 0, 255), [2, 0, 0, 3, 4, 3, 2, 1]),
    ];
    for (raw, first) in rows {
        let mut run = open(ten_buffers());
        calls(&mut run, &[raw]);
        assert_eq!(run.pair.line()[..8], first, "{raw:?}");
        let timed = first[1] == 1;
        assert_eq!(
            run.pair.line()[8..16],
            if timed { time.to_le_bytes() } else { [0; 8] },
            "{raw:?}"
        );
        let length = [125, 3, 0, 0][usize::from(first[0] - 1) * 2 + usize::from(!timed)];
        assert_eq!(run.pair.line()[16..24], [length, 0, 0, 0, 0, 0, 0, 0], "{raw:?}");
    }
}

/// Enough for the service's own two, two that have left, four that wait and two more.
fn ten_buffers() -> RawStart {
    RawStart {
        count: 10,
        ..settings(2)
    }
}

/// "Start empties it", whatever the slice holds; a start that is refused keeps it.
#[test]
fn starts() {
    let right = ten_buffers();
    let (headroom, implicit_broadcast, spare_buffer) = (9, 2, ACK);
    let rows = [
        (0, right, 1440),
        (2, RawStart { count: 2, ..right }, 288),
        (2, right, 1439),
        (3, RawStart { headroom, ..right }, 1440),
        (
            3,
            RawStart {
                implicit_broadcast,
                ..right
            },
            1440,
        ),
        (4, RawStart { spare_buffer, ..right }, 1440),
    ];
    for found in [line_of(&[tx(1, 2, 9), rx(2, 3)]), vec![0xee; 96]] {
        for (number, start, pool) in rows {
            let mut pair = Pair::new(&[0x99; 64], &found, &[0x99; 48], &vec![0x99; pool]);
            assert_eq!(pair.start(&start), Ok(number), "{start:?}");
            let expected = if number == 0 { vec![0; 96] } else { found.clone() };
            assert_eq!(pair.line(), expected, "{start:?}");
        }
    }
}

/// A call on the line, in any wait: "no action (code 0) and no answer"; state and pool stay.
fn on_the_line(pair: &mut Pair, raw: &Raw) {
    let (state, pool) = (pair.state().to_vec(), pair.pool().to_vec());
    assert_eq!(pair.must(raw), 0, "{raw:?}");
    assert_eq!(pair.reply(), [0; 48], "{raw:?}");
    assert_eq!(pair.state(), state, "{raw:?}");
    assert_eq!(pair.pool(), pool, "{raw:?}");
}

/// What a call returned. A refusal: "state, pool, state slice and reply slice keep their bytes"; E1, of the line: "a refusal keeps its
/// bytes".
fn told(pair: &mut Pair, raw: &Raw) -> u8 {
    let slices = |pair: &Pair| [pair.state().to_vec(), pair.line().to_vec(), pair.pool().to_vec()];
    let found = slices(pair);
    let returned = pair.must(raw);
    if returned != 0 {
        assert_eq!(slices(pair), found, "{raw:?}");
        let kept = pair.reply().iter().enumerate().all(|(at, byte)| *byte == before(at));
        assert!(kept, "{raw:?}");
    }
    returned
}

/// A buffer that nobody holds.
fn free_buffer(from: &Reached) -> Option<u8> {
    let (state, line) = from.read();
    let mut held = vec![state.settings.ack, state.settings.spare];
    held.extend(state.wait.open().iter().flatten().map(|open| open.1));
    held.extend(line.0.iter().map(Request::buffer));
    (0..state.settings.count).find(|buffer| !held.contains(buffer))
}

/// Each kind of arrival goes behind those that wait, and its withdrawal gives back the line as it was.
fn arrive_and_go(from: &Reached, waiting: usize) -> u64 {
    let token = 0x7654_3210;
    let Some(buffer) = free_buffer(from).filter(|_| waiting < 4) else {
        return 0;
    };
    let mut pair = Pair::on(&from.state, &from.line, &from.pool);
    for raw in [
        Raw::arrive(token, 0, 0, 5, buffer, 3, 1),
        Raw::arrive(token, 0, 1, 5, buffer, 20, 0),
        Raw::arrive(token, 1, 0, 5, buffer, 20, 1),
        Raw::arrive(token, 1, 1, 5, buffer, 0, 0),
    ] {
        on_the_line(&mut pair, &raw);
        let mut line = from.line.clone();
        line[RECORD * waiting..][..RECORD].copy_from_slice(&record(&raw));
        assert_eq!(pair.line(), line, "{raw:?}");
        on_the_line(&mut pair, &Raw::withdraw(token));
        assert_eq!(pair.line(), from.line);
    }
    4
}

/// Each that waits is withdrawn from its place, and those behind it move up; but the Tx that OutboundSeen named stays.
fn withdraw_each(from: &Reached, waiting: usize) -> u64 {
    let mut withdrawn = 0;
    let named = [[0, 1, 0], [4, 1, 0]].contains(&[from.state[17], from.state[18], from.state[19]]);
    let earliest_tx = (0..waiting).find(|at| from.line[RECORD * at] == 1);
    for at in 0..waiting {
        let mut pair = Pair::on(&from.state, &from.line, &from.pool);
        let raw = Raw::withdraw(from.read().1 .0[at].token());
        if named && Some(at) == earliest_tx {
            assert_eq!(told(&mut pair, &raw), 13, "it is the Tx that OutboundSeen named");
            continue;
        }
        on_the_line(&mut pair, &raw);
        let mut line = [&from.line[..RECORD * at], &from.line[RECORD * (at + 1)..]].concat();
        line.resize(96, 0);
        assert_eq!(pair.line(), line, "place {at}");
        withdrawn += 1;
    }
    withdrawn
}

/// "Requests arrive and may be withdrawn by token in every wait".
#[test]
fn arrivals_and_withdrawals_in_every_wait() {
    let (mut arrived, mut withdrawn) = (0, 0);
    for from in collect(seed(50), 5) {
        let waiting = from.read().1 .0.len();
        arrived += arrive_and_go(&from, waiting);
        withdrawn += withdraw_each(&from, waiting);
    }
    assert!(arrived >= 800 && withdrawn >= 600, "{arrived}, {withdrawn}");
    println!("line: {arrived} arrivals and {withdrawn} withdrawals in every wait");
}

/// What may be wrong with an arrival, in checking order, with the number that it is refused by.
const FAULTS: [(&str, u8); 8] = [
    ("a code stands for nothing", 5),
    ("the token has left the line", 6),
    ("the buffer is out of range", 7),
    ("the buffer is the service's own", 7),
    ("the buffer is held by one that has left", 7),
    ("the buffer is held by one that waits", 7),
    ("the Tx length is out of range", 8),
    ("the token waits", 13),
];

/// The arrival with these faults, if it can have them together in this state.
fn arrival_with(from: &Reached, faults: u32, transmit: bool) -> Option<Raw> {
    let (state, line) = from.read();
    let fault = |at: u32| faults >> at & 1 == 1;
    let left = state.wait.open().into_iter().flatten().last();
    let waiting = line.0.last();
    let token = match (fault(1), fault(7)) {
        (true, true) => return None,
        (true, _) => left?.0,
        (_, true) => waiting?.token(),
        _ => 0x7654_3210,
    };
    let buffers = [fault(2), fault(3), fault(4), fault(5)];
    let buffer = match buffers.iter().filter(|held| **held).count() {
        0 => free_buffer(from)?,
        1 if buffers[0] => state.settings.count,
        1 if buffers[1] => [state.settings.ack, state.settings.spare][(faults >> 6 & 1) as usize],
        1 if buffers[2] => left?.1,
        1 => waiting?.buffer(),
        _ => return None,
    };
    if fault(6) && !transmit {
        return None;
    }
    let length = if fault(6) { state.settings.longest() + 1 } else { 20 };
    let code = 2 * u8::from(fault(0));
    Some(match transmit {
        true => Raw::arrive(token, 0, 0, 9, buffer, length, code),
        false => Raw::arrive(token, 1, code, 9, buffer, 300, 255),
    })
}

/// Every set of faults in every wait, with 0 to 4 waiting: "Refused: 12 for an arrival when four wait; 13 when the token already
/// waits ..; both after 8." "Arrival skips 9."
#[test]
fn refusals_of_arrivals_in_order() {
    let mut numbers: BTreeMap<u8, u64> = BTreeMap::new();
    for from in collect(seed(51), 5) {
        let full = from.read().1 .0.len() == 4;
        let mut pair = Pair::on(&from.state, &from.line, &from.pool);
        for faults in (0..256).step_by(stride().min(7)) {
            for raw in [true, false]
                .into_iter()
                .filter_map(|transmit| arrival_with(&from, faults, transmit))
            {
                let before_full = FAULTS[..7].iter().enumerate().find(|(at, _)| faults >> at & 1 == 1);
                let expected = match before_full {
                    Some((_, fault)) => fault.1,
                    None if full => 12,
                    None if faults >> 7 & 1 == 1 => FAULTS[7].1,
                    None => 0,
                };
                pair.set(&from.state, &from.line);
                let number = told(&mut pair, &raw);
                assert_eq!(number, expected, "{raw:?}, faults {faults:08b}, full {full}");
                *numbers.entry(number).or_default() += 1;
            }
        }
    }
    if divisor().is_none() {
        assert_eq!(numbers.keys().copied().collect::<Vec<_>>(), [0, 5, 6, 7, 8, 12, 13]);
    }
    println!("line: arrivals with every set of faults, by number: {numbers:?}");
}

/// Four wait: a fifth is 12, also with the token of one of them, but 8 with a wrong length; one is withdrawn, and it arrives.
#[test]
fn four_wait() {
    let mut run = open(ten_buffers());
    let four = [rx(10, 0), tx(11, 2, 9), rx(12, 3), tx(13, 5, 9)];
    calls(&mut run, &four);
    assert_eq!(run.pair.line(), line_of(&four));
    let fifth = tx(14, 6, 9);
    for (raw, number) in [
        (fifth, 12),
        (rx(14, 6), 12),
        (tx(11, 6, 9), 12),
        (tx(11, 6, 2), 8),
        (tx(14, 5, 9), 7),
        (tx(14, 6, 126), 8),
        (Raw::withdraw(14), 13),
    ] {
        assert_eq!(call(&mut run, raw), number, "{raw:?}");
    }
    calls(&mut run, &[Raw::withdraw(11)]);
    assert_eq!(call(&mut run, Raw::withdraw(11)), 13, "it has been withdrawn");
    assert_eq!(call(&mut run, tx(10, 6, 9)), 13, "three wait, and 10 is one of them");
    calls(&mut run, &[fifth]);
    assert_eq!(run.pair.line(), line_of(&[four[0], four[2], four[3], fifth]));
    // The withdrawn token and its buffer are free; only there is no place.
    assert_eq!(call(&mut run, tx(11, 2, 9)), 12);
    calls(&mut run, &[Raw::withdraw(12), tx(11, 2, 9)]);
    assert_eq!(run.pair.line(), line_of(&[four[0], four[3], fifth, tx(11, 2, 9)]));
}

/// The waits that ask.
#[derive(Clone, Copy, Debug, PartialEq, Eq)]
enum Ask {
    Idle,
    Window,
    AckWindow,
    Receiving,
    Sending,
    SendingAck,
    ReceivingAck,
}

const EVERY_ASK: [Ask; 7] = [
    Ask::Idle,
    Ask::Window,
    Ask::AckWindow,
    Ask::Receiving,
    Ask::Sending,
    Ask::SendingAck,
    Ask::ReceivingAck,
];

impl Ask {
    /// By document 01: whether a request of this direction and start is taken.
    fn allows(self, transmit: bool, timed: bool) -> bool {
        match self {
            // "Idle: Request, any direction and start"
            Ask::Idle => true,
            // "ask for an outbound request (None does not fit)"
            Ask::Window => transmit,
            // "Tx any start, Rx best effort"
            Ask::AckWindow | Ask::Receiving | Ask::ReceivingAck => transmit || !timed,
            // "Tx and Rx best effort only"
            Ask::Sending | Ask::SendingAck => !timed,
        }
    }

    fn takes_none(self) -> bool {
        !matches!(self, Ask::Idle | Ask::Window)
    }

    /// The run asks, and these wait. Nothing for a window that no Tx could have ended.
    fn with(self, arrivals: &[Raw]) -> Option<Run> {
        if self == Ask::Window {
            return after_window(arrivals);
        }
        let mut run = self.reached();
        calls(&mut run, arrivals);
        Some(run)
    }

    /// The run asks, and nothing waits. Buffer 2 is that of the request before, if there is one.
    fn reached(self) -> Run {
        let mut run = open(ten_buffers());
        let listening = [rx(9, 2), Raw::Request, entered_from_off(), Raw::FrameStart, frame_started()];
        let sent = [tx(70, 2, 20), Raw::Request, entered_from_off()];
        match self {
            Ask::Idle => {}
            Ask::Window => panic!("the window ends for a Tx that waits"),
            Ask::Receiving | Ask::SendingAck => {
                let control = if self == Ask::SendingAck { 0x61 } else { 0x41 };
                calls(&mut run, &listening);
                put(&mut run, 2, &[control, 0x88, 1, 0xcd, 0xab, 0x88, 0x77, 0, 0]);
                calls(&mut run, &[Raw::header(9, 40)]);
                if self == Ask::SendingAck {
                    calls(&mut run, &[entered_after_frame(38)]);
                }
            }
            Ask::Sending => {
                put(&mut run, 2, &[0x41, 0x88, 7]);
                calls(&mut run, &sent);
            }
            Ask::AckWindow | Ask::ReceivingAck => {
                let window_ended = Raw::stopped(3, 0, 0, 204);
                let stopped = if self == Ask::AckWindow {
                    window_ended
                } else {
                    frame_started()
                };
                put(&mut run, 2, &[0x61, 0x88, 7]);
                calls(&mut run, &sent);
                calls(&mut run, &[entered_after_sending(900, 1_000_000), stopped]);
            }
        }
        run
    }
}

/// A run that listens with buffer 2 for token 9, and these wait.
fn listening(arrivals: &[Raw]) -> Run {
    let mut run = open(ten_buffers());
    calls(&mut run, &[rx(9, 2), Raw::Request, entered_from_off()]);
    calls(&mut run, arrivals);
    run
}

/// OutboundSeen with start and flag of this arrival.
fn seen(arrival: &Raw) -> Raw {
    match *arrival {
        Raw::Arrive { start, time, cca, .. } => Raw::outbound_seen(start, time, cca),
        _ => panic!("{arrival:?} is no arrival"),
    }
}

fn transmits(arrival: &Raw) -> bool {
    matches!(arrival, Raw::Arrive { direction: 0, .. })
}

/// The window has ended for the earliest Tx of these.
fn after_window(arrivals: &[Raw]) -> Option<Run> {
    let named = arrivals.iter().find(|arrival| transmits(arrival))?;
    let mut run = listening(arrivals);
    calls(&mut run, &[seen(named), Raw::stopped(3, 0, 0, 205)]);
    Some(run)
}

/// The arrival in this place of the line: its direction and start are the bits of its kind, all else is its own.
fn arrival(place: usize, kind: usize) -> Raw {
    let (direction, start) = ((kind & 1) as u8, (kind >> 1) as u8);
    let (token, time) = (100 + place as u32, 5_000 - place as u64);
    Raw::arrive(
        token,
        direction,
        start,
        time,
        [6, 0, 7, 5][place],
        20 + place as u16,
        (place & 1) as u8,
    )
}

/// Every line of up to four requests, by direction and start.
fn every_line() -> Vec<Vec<Raw>> {
    let mut all = vec![Vec::new()];
    let mut from = 0;
    for place in 0..4 {
        let to = all.len();
        for line in from..to {
            for kind in 0..4 {
                all.push([&all[line][..], &[arrival(place, kind)]].concat());
            }
        }
        from = to;
    }
    all
}

/// The action's bytes for the arrival that is taken, without the spacing.
fn action_of(arrival: &Raw) -> [u8; 12] {
    let Raw::Arrive {
        direction,
        start,
        time,
        buffer,
        length,
        cca,
        ..
    } = *arrival
    else {
        panic!("{arrival:?} is no arrival")
    };
    let mut bytes = [0; 12];
    bytes[..4].copy_from_slice(&match direction {
        0 => [9, buffer, length as u8, cca | start << 2],
        _ => [10, buffer, 0, start << 2],
    });
    if start == 1 {
        bytes[4..].copy_from_slice(&time.to_le_bytes());
    }
    bytes
}

/// "An ask takes the earliest arrival whose direction and start the wait allows; where a wait takes None, it now fits exactly if the
/// line holds no such arrival; a Request, now without fields, that finds none such is 9."
#[test]
fn every_line_at_every_ask() {
    let lines = every_line();
    assert_eq!(lines.len(), 1 + 4 + 16 + 64 + 256);
    let (mut taken, mut none) = (0, 0);
    for line in lines.iter().step_by(stride().min(5)) {
        for ask in EVERY_ASK {
            let Some(mut run) = ask.with(line) else {
                assert!(!line.iter().any(transmits));
                continue;
            };
            assert_eq!(run.pair.line(), line_of(line), "{ask:?}");
            let allowed = line
                .iter()
                .position(|raw| matches!(*raw, Raw::Arrive { direction, start, .. } if ask.allows(direction == 0, start == 1)));
            let mut asked = run.pair.clone();
            let number = if ask.takes_none() && allowed.is_none() { 0 } else { 5 };
            assert_eq!(told(&mut asked, &Raw::None), number, "None, {ask:?}, {line:?}");
            assert_eq!(asked.line(), line_of(line), "None takes nothing, {ask:?}");
            let Some(place) = allowed else {
                assert_eq!(told(&mut run.pair, &Raw::Request), 9, "{ask:?}, {line:?}");
                none += 1;
                continue;
            };
            let reply = calls(&mut run, &[Raw::Request]);
            let mut action: [u8; 12] = reply[..12].try_into().expect("twelve bytes");
            action[3] &= 0b111;
            assert_eq!(action, action_of(&line[place]), "{ask:?}, {line:?}");
            let others = [&line[..place], &line[place + 1..]].concat();
            assert_eq!(run.pair.line(), line_of(&others), "{ask:?}, {line:?}");
            taken += 1;
        }
    }
    // Of 341 lines the 31 without a Tx end no window. Nothing is allowed in idle where nothing waits, in the three asks of "Tx any
    // start, Rx best effort" where none to four timed Rx wait, and in the two of best effort only where all that wait are timed.
    if divisor().is_none() {
        let expected = 1 + 3 * 5 + 2 * (1 + 2 + 4 + 8 + 16);
        assert_eq!((taken, none), (7 * 341 - 31 - expected, expected));
    }
    println!("line: {taken} requests taken from every line at every ask, {none} asks that found none");
}

/// In a wait that does not ask, Request and None are 5, whatever waits; OutboundSeen is 5 but in listening.
#[test]
fn asked_in_no_other_wait() {
    let mut made = 0;
    for from in collect(seed(52), 5) {
        let codes = [from.state[17], from.state[18], from.state[19]];
        let mut raws = if codes[0] == 0 {
            Vec::new()
        } else {
            vec![Raw::Request, Raw::None]
        };
        let (_, line) = from.read();
        if let Some(Request::Tx { start, check, .. }) = line.earliest_tx().filter(|_| codes != [3, 0, 0]) {
            raws.push(match *start {
                Start::BestEffort => Raw::outbound_seen(0, 0, u8::from(*check)),
                Start::At(time) => Raw::outbound_seen(1, time, u8::from(*check)),
            });
        }
        for raw in raws {
            let mut pair = Pair::on(&from.state, &from.line, &from.pool);
            assert_eq!(told(&mut pair, &raw), 5, "{raw:?} in {codes:?}");
            made += 1;
        }
    }
    println!("line: {made} asks and OutboundSeen in waits that do not take them");
}

/// "OutboundSeen fits only with the start and flag of its earliest Tx": both, also of best effort, whose time is no part of it.
#[test]
fn outbound_seen_is_of_the_earliest_tx() {
    let timed = |token, buffer, time, cca| Raw::arrive(token, 0, 1, time, buffer, 9, cca);
    let soon = |token, buffer, cca| Raw::arrive(token, 0, 0, 0, buffer, 9, cca);
    let receive = Raw::arrive(30, 1, 1, 500, 7, 0, 0);
    type Row<'a> = (&'a [Raw], &'a [(u8, u64, u8)]);
    let rows: [Row; 8] = [
        (&[], &[]),
        (&[rx(30, 7)], &[]),
        (&[receive], &[]),
        (&[timed(31, 5, 500, 1)], &[(1, 500, 1)]),
        (&[soon(31, 5, 0)], &[(0, 500, 0), (0, 501, 0), (0, 0, 0)]),
        (&[receive, timed(31, 5, 501, 0), timed(32, 6, 500, 0)], &[(1, 501, 0)]),
        (
            &[soon(31, 5, 1), timed(32, 6, 500, 0)],
            &[(0, 500, 1), (0, 501, 1), (0, 0, 1)],
        ),
        (&[timed(31, 5, 0, 1), soon(32, 6, 1), rx(30, 7)], &[(1, 0, 1)]),
    ];
    for (arrivals, fitting) in rows {
        for start in [0, 1, 2] {
            for time in [0, 500, 501] {
                for cca in [0, 1, 2] {
                    let mut run = listening(arrivals);
                    let fits = fitting.contains(&(start, time, cca));
                    let returned = call(&mut run, Raw::outbound_seen(start, time, cca));
                    assert_eq!(returned, if fits { 0 } else { 5 }, "{start}, {time}, {cca}: {arrivals:?}");
                    assert_eq!(run.pair.line(), line_of(arrivals), "OutboundSeen takes nothing");
                }
            }
        }
    }
}

/// "13 .. for a withdrawal, does not [wait] or is the Tx OutboundSeen named, its stop or the ask after its window ended still open."
#[test]
fn the_named_tx_is_not_withdrawn() {
    let (first, named, other) = (
        rx(20, 0),
        Raw::arrive(21, 0, 1, 77, 5, 9, 1),
        Raw::arrive(22, 0, 1, 77, 6, 9, 1),
    );
    let waiting = [first, named, other];
    let withdraw = |run: &Run, token| call(&mut run.clone(), Raw::withdraw(token));
    let all = |run: &Run| [20, 21, 22, 9].map(|token| withdraw(run, token));
    let run = listening(&waiting);
    assert_eq!(all(&run), [0, 0, 0, 13], "nothing is named, and 9 has left");
    let mut stopping = run.clone();
    calls(&mut stopping, &[seen(&named)]);
    assert_eq!(all(&stopping), [0, 13, 0, 13], "the stop is open");
    // The others are withdrawn and arrive again, and the named one stays what it is.
    calls(&mut stopping, &[Raw::withdraw(20), Raw::withdraw(22), other, first]);
    assert_eq!(all(&stopping), [0, 13, 0, 13]);
    for (outcome, length) in [(2, 40), (3, 0), (4, 0)] {
        let mut asked = stopping.clone();
        calls(&mut asked, &[Raw::stopped(outcome, length, 3, 206)]);
        assert_eq!(all(&asked), [0, 13, 0, 13], "the window has ended, and the ask is open");
        let reply = calls(&mut asked, &[Raw::Request]);
        assert_eq!(reply[..2], [9, 5], "the named one leaves");
        assert_eq!(all(&asked), [0, 13, 0, 13], "it has left");
    }
    // "failed returns to listening", and a frame that has started is received: nothing is named any more.
    for outcome in [1, 0] {
        let mut run = stopping.clone();
        calls(&mut run, &[Raw::stopped(outcome, 0, 0, 207)]);
        assert_eq!(all(&run), [0, 0, 0, 13], "outcome {outcome}");
        calls(&mut run, &[Raw::withdraw(21)]);
        assert_eq!(withdraw(&run, 21), 13);
    }
    // Then it is the next that is seen.
    let mut run = stopping;
    calls(&mut run, &[Raw::stopped(1, 0, 0, 208), Raw::withdraw(21), seen(&other)]);
    assert_eq!(all(&run), [0, 13, 13, 13]);
}

/// "Requests of one direction and one kind of start leave in arrival order, none twice": all that wait leave, whatever asks come.
#[test]
fn leaving_in_order() {
    let mut run = Ask::Sending.reached();
    let (timed_tx, timed_rx) = (Raw::arrive(20, 0, 1, 9, 0, 9, 0), Raw::arrive(21, 1, 1, 8, 3, 0, 0));
    put(&mut run, 6, &[0x41, 0x88, 8]);
    // The timed ones are passed by both that are not.
    calls(&mut run, &[timed_tx, timed_rx, tx(22, 6, 9), rx(23, 7)]);
    let sent = Raw::entered(1, 0, 5, 6, 209);
    assert_eq!(calls(&mut run, &[Raw::Request])[..2], [9, 6]);
    // Another arrives behind them, of the kind of the first.
    let earlier = Raw::arrive(24, 0, 1, 1, 5, 9, 0);
    calls(&mut run, &[earlier, sent]);
    assert_eq!(calls(&mut run, &[Raw::Request])[..2], [10, 7]);
    calls(&mut run, &[sent, Raw::FrameStart, frame_started()]);
    put(&mut run, 7, &[0x41, 0x88, 1, 0xcd, 0xab, 0x88, 0x77, 0, 0]);
    calls(&mut run, &[Raw::header(9, 40)]);
    // Received, "Tx any start": by arrival, not by its time.
    assert_eq!(calls(&mut run, &[Raw::Request])[..2], [9, 0]);
    calls(&mut run, &[Raw::fallback(2, 38, 5, 2, 0, 210)]);
    // Idle: whatever is first.
    assert_eq!(calls(&mut run, &[Raw::Request])[..2], [10, 3]);
    assert_eq!(run.pair.line(), line_of(&[earlier]));
}

/// Accepted and refused calls on the line, after which the line is as it was.
fn busy(run: &mut Run) {
    for token in 40..44 {
        calls(run, &[rx(token, 9), Raw::withdraw(token)]);
        assert_eq!(call(run, Raw::withdraw(token)), 13);
    }
}

/// "the six calls, or the three, run from leaving, calls on the line not counted": the book of each run counts so. A Tx waits for more
/// calls than six, and more calls on the line than six come between its leaving and its answer.
#[test]
fn calls_on_the_line_are_not_counted() {
    let mut run = Ask::Sending.reached();
    put(&mut run, 5, &[0x61, 0x88, 7]);
    calls(&mut run, &[Raw::arrive(30, 0, 1, 99, 5, 20, 0)]);
    let sent = Raw::entered(1, 0, 5, 6, 211);
    for (token, buffer) in [(31, 3), (32, 6), (33, 3), (34, 6)] {
        put(&mut run, buffer, &[0x41, 0x88, 8]);
        calls(&mut run, &[tx(token, buffer, 9), Raw::Request]);
        busy(&mut run);
        calls(&mut run, &[sent]);
        busy(&mut run);
    }
    calls(&mut run, &[Raw::None, sent]);
    assert_eq!(calls(&mut run, &[Raw::Request])[..2], [9, 5]);
    let five = [
        entered_from_off(),
        entered_after_sending(900, 1_000),
        Raw::stopped(1, 0, 0, 212),
        frame_started(),
        Raw::None,
    ];
    for raw in five {
        busy(&mut run);
        calls(&mut run, &[raw]);
    }
    busy(&mut run);
    put(&mut run, SPARE, &[0x02, 0x00, 7]);
    let reply = calls(&mut run, &[entered_after_frame(3)]);
    assert_eq!(reply[12..18], [1, 30, 0, 0, 0, 5]);
}

/// "The book enters a request once, at arrival": one that is withdrawn and arrives again is another, and it is answered once.
#[test]
fn withdrawn_and_back() {
    let mut run = open(ten_buffers());
    calls(
        &mut run,
        &[tx(50, 2, 9), Raw::withdraw(50), rx(50, 3), Raw::withdraw(50), tx(50, 3, 9)],
    );
    put(&mut run, 3, &[0x41, 0x88, 7]);
    calls(&mut run, &[Raw::Request, entered_from_off()]);
    assert_eq!(call(&mut run, rx(50, 2)), 6, "it has left");
    assert_eq!(call(&mut run, rx(51, 3)), 7, "its buffer is held still");
    let reply = calls(&mut run, &[Raw::None, Raw::entered(1, 0, 5, 6, 212)]);
    assert_eq!(reply[12..18], [1, 50, 0, 0, 0, 3]);
    calls(&mut run, &[rx(50, 3), Raw::Request]);
}
