//! Inputs around each boundary of document 01, its marked rows, its departures, and every value of every code. A request arrives in
//! the waiting line and is taken by a Request (document 02, E1); what E1 says of the line stands in line.rs.
mod common;
mod model;

use common::compare::Pair;
use common::random::Rng;
use common::reached::{collect, every_wait, Reached};
use common::run::Run;
use common::scenes::*;
use common::{choose, choose::Now, divisor, seed, stride};
use model::bytes::codes;
use model::calls::{Raw, RawStart, Request, Start};
use model::header::Control;

/// "*02 00 07 Sent, *02 10 07 Sent, *12 00 07 Nack, *02 20 07 Nack, *02 00 08 Nack, a fourth byte Nack."
#[test]
fn acknowledgement_rows() {
    let (sent, nack) = (1, 2);
    let rows: [([u8; 4], u16, u8); 9] = [
        ([0x02, 0x00, 7, 0], 3, sent),
        ([0x02, 0x10, 7, 0], 3, sent),
        ([0x12, 0x00, 7, 0], 3, nack),
        ([0x02, 0x20, 7, 0], 3, nack),
        ([0x02, 0x00, 8, 0], 3, nack),
        ([0x02, 0x00, 7, 0], 4, nack),
        ([0x02, 0x00, 7, 0], 2, nack),
        ([0x00, 0x02, 7, 0], 3, nack),
        ([0x02, 0x10, 7, 0], 125, nack),
    ];
    for (bytes, length, code) in rows {
        acknowledged(&bytes, length, code);
    }
    for bit in 0..24 {
        let mut bytes = [0x02, 0x00, 7];
        bytes[bit / 8] ^= 1 << (bit % 8);
        acknowledged(&bytes, 3, if bit == 12 { sent } else { nack });
    }
}

/// The bytes in the spare buffer's frame answer the frame with this code, whatever comes next.
fn acknowledged(bytes: &[u8], length: u16, code: u8) {
    let after = entered_after_frame(length);
    let fallback = Raw::fallback(2, length, 55, 2, 0, 203);
    for (next, last) in [
        (Raw::None, after),
        (rx(71, 0), after),
        (tx(71, 0, 9), after),
        (tx(71, 0, 9), fallback),
    ] {
        let mut run = receiving_ack(2, 20);
        put(&mut run, SPARE, &[0xff; 4]);
        calls(&mut run, &met_by(next));
        put(&mut run, SPARE, bytes);
        let reply = calls(&mut run, &[last]);
        let mut expected = vec![code, 70, 0, 0, 0, 2, 0];
        expected.extend(900u64.to_le_bytes());
        expected.extend([0; 3]);
        assert_eq!(reply[12..30], expected, "{bytes:02x?}, {length} bytes");
    }
}

/// "the number noted at acceptance": neither the number of later, nor that of the buffer of another frame. E1: "Acceptance, where it
/// says when a Tx frame's bytes are noted, is leaving", so it is not the number of earlier either.
#[test]
fn number_is_noted_at_leaving() {
    for (noted, other, acknowledged, code) in [(7, 8, 7, 1), (7, 8, 8, 2), (0, 255, 0, 1), (255, 0, 255, 1)] {
        let mut run = open(settings(2));
        put(&mut run, 2, &[0x61, 0x88, other]);
        calls(&mut run, &[tx(70, 2, 20)]);
        put(&mut run, 2, &[0x61, 0x88, noted]);
        calls(&mut run, &[Raw::Request]);
        put(&mut run, 2, &[0x00, 0x00, other]);
        calls(
            &mut run,
            &[entered_from_off(), entered_after_sending(900, 0), frame_started(), Raw::None],
        );
        put(&mut run, SPARE, &[0x02, 0x00, acknowledged]);
        let reply = calls(&mut run, &[entered_after_frame(3)]);
        assert_eq!(reply[12], code, "noted {noted}, acknowledged {acknowledged}");
    }
}

/// "Damaged awaited ACK, nothing queued: ... Here rollback is off and the answer is Nack."
#[test]
fn damaged_acknowledgement_is_nack() {
    let mut run = receiving_ack(2, 20);
    put(&mut run, SPARE, &[0x02, 0x00, 7]);
    let off = calls(&mut run, &[Raw::None]);
    assert_eq!(off[..12], [11, 0, 0, 0, 0, 0, 0, 0, 0, 0, 0, 0]);
    assert_eq!(call(&mut run, Raw::Rollback), 5);
    let window_ended = Raw::entered(3, 0, 0, 0, 205);
    assert_eq!(call(&mut run, window_ended), 5, "\"window ended\" does not fit");
    let reply = calls(&mut run, &[Raw::entered(4, 0, 77, 0, 206)]);
    assert_eq!((reply[0], reply[12], reply[17]), (1, 2, 2));
}

/// "*Entry 1,000,000: latest 1,010,000. Entry 2^64 − 10,001 fits, one more is 11."
#[test]
fn measured_entry() {
    let last = u64::MAX - 10_000;
    assert_eq!(u128::from(last), (1u128 << 64) - 10_001);
    let mut rows = vec![(0, 0), (1, 0), (1_000_000, 0), (last - 1, 0), (last, 0)];
    rows.extend([last + 1, last + 2, last + 9_999, u64::MAX - 1, u64::MAX].map(|entry| (entry, 11)));
    for (entry, number) in rows {
        let mut run = open(settings(4));
        put(&mut run, 2, &[0x61, 0x88, 7]);
        calls(&mut run, &[tx(70, 2, 20), Raw::Request, entered_from_off()]);
        assert_eq!(call(&mut run, entered_after_sending(3, entry)), number, "entry {entry}");
        if number == 0 {
            assert_eq!(run.pair.reply()[0], 6);
            assert_eq!(run.pair.reply()[4..12], (entry + 10_000).to_le_bytes());
        }
        if entry == 1_000_000 {
            assert_eq!(run.pair.reply()[4..12], 1_010_000u64.to_le_bytes());
        }
    }
    // No other measured entry is refused.
    let mut run = open(settings(4));
    put(&mut run, 2, &[0x61, 0x88, 7]);
    calls(&mut run, &[tx(70, 2, 20), Raw::Request, Raw::entered(0, 0, 0, u64::MAX, 207)]);
}

/// "Tx length 2 is 8."
#[test]
fn tx_lengths() {
    for (fcs, longest) in [(2, 125), (4, 123)] {
        let lengths = (0..=300).chain([511, 512, 515, 32767, 32768, 65533, 65534, 65535]);
        for length in lengths {
            let mut run = open(settings(fcs));
            put(&mut run, 2, &[0x61, 0x88, 7]);
            let expected = if (3..=longest).contains(&length) { 0 } else { 8 };
            assert_eq!(call(&mut run, tx(1, 2, length)), expected, "F {fcs}, length {length}");
            if expected == 0 {
                assert_eq!(u16::from(calls(&mut run, &[Raw::Request])[2]), length);
            }
        }
    }
}

/// The settings of start around each boundary, in all combinations: the number of the first refusal in checking order.
#[test]
fn start_boundaries() {
    let mut made = 0;
    for (index, count) in [0u8, 1, 2, 3, 32, 33, 255].into_iter().enumerate() {
        let right = 144 * usize::from(count);
        for pool in [0, right.saturating_sub(1), right, right + 1, right + 144] {
            for rest in (index % stride().min(5)..4 * 4 * 6 * 4).step_by(stride()) {
                let headroom = [0, 8, 9, 255][rest % 4];
                let tailroom = [0, 8, 9, 255][rest / 4 % 4];
                let fcs_length = (rest / 16 % 6) as u8;
                let implicit_broadcast = [0, 1, 2, 255][rest / 96];
                let start = RawStart {
                    count,
                    headroom,
                    tailroom,
                    fcs_length,
                    implicit_broadcast,
                    ..settings(2)
                };
                made += starts_with_own_buffers(&start, pool);
            }
        }
    }
    println!("boundaries: {made} starts");
}

fn starts_with_own_buffers(start: &RawStart, pool: usize) -> usize {
    let n = start.count;
    let last = n.wrapping_sub(1);
    let own = [
        (0, 0),
        (0, 1),
        (1, 0),
        (last, 0),
        (0, last),
        (last, last),
        (n, 0),
        (0, n),
        (n, n),
        (255, 0),
        (0, 255),
    ];
    for (ack_buffer, spare_buffer) in own {
        let raw = RawStart {
            ack_buffer,
            spare_buffer,
            ..*start
        };
        let mut pair = Pair::new(&[0x99; 64], &[0x99; 96], &[0x99; 48], &vec![0x99; pool]);
        let returned = pair
            .start(&raw)
            .unwrap_or_else(|wrong| panic!("{wrong}\n{raw:?}, pool {pool}"));
        let in_range = raw.headroom <= 8 && raw.tailroom <= 8 && [2, 4].contains(&raw.fcs_length) && raw.implicit_broadcast < 2;
        let own_fit = ack_buffer != spare_buffer && ack_buffer < n && spare_buffer < n;
        let expected = match ((3..=32).contains(&n) && pool == 144 * usize::from(n), in_range, own_fit) {
            (false, _, _) => 2,
            (_, false, _) => 3,
            (_, _, false) => 4,
            _ => 0,
        };
        assert_eq!(returned, expected, "{raw:?}, pool {pool}");
    }
    own.len()
}

/// "Start writes 02 10 00 into the ACK buffer's frame and no other byte." E1, of the line: "Start empties it."
#[test]
fn start_writes_three_bytes() {
    for headroom in 0..=8 {
        for (count, ack_buffer, spare_buffer) in [(3, 0, 1), (3, 2, 0), (32, 31, 30), (17, 5, 16)] {
            let start = RawStart {
                count,
                headroom,
                ack_buffer,
                spare_buffer,
                ..settings(2)
            };
            let mut pool = vec![0x99; 144 * usize::from(count)];
            let mut pair = Pair::new(&[0x99; 64], &[0x99; 96], &[0x99; 48], &pool);
            assert_eq!(pair.start(&start), Ok(0));
            assert_eq!(pair.line(), [0; 96]);
            let at = 144 * usize::from(ack_buffer) + usize::from(headroom);
            pool[at..at + 3].copy_from_slice(&[0x02, 0x10, 0x00]);
            assert_eq!(pair.pool(), pool);
            let mut reply = [0; 48];
            reply[0] = 1;
            assert_eq!(pair.reply(), reply);
        }
    }
}

/// For every reached state, the calls that `make` gives for it, each on the state as it was.
fn on_every_state(seed: u64, of_each: usize, make: impl Fn(Now, &mut Rng) -> Vec<Raw>) -> usize {
    let mut rng = Rng::new(seed);
    let mut made = 0;
    for from in collect(seed, of_each) {
        let Reached { state, line, pool } = &from;
        let mut pair = Pair::on(state, line, pool);
        for raw in make(from.now(&from.read()), &mut rng).into_iter().step_by(stride()) {
            made += 1;
            if pair.must(&raw) == 0 {
                pair.set(state, line);
                pair.poke(0, pool);
            }
        }
    }
    made
}

/// A number of each interesting length, also in the bytes above the lowest.
fn lengths() -> impl Iterator<Item = u16> {
    (0..=130).chain([255, 256, 257, 259, 381, 32768, 32771, 65408, 65534, 65535])
}

/// Received lengths and arrived bytes in every wait: 10 only where the call and its outcome kind fit.
#[test]
fn received_lengths() {
    let made = on_every_state(seed(20), 2, |_, _| {
        let mut raws = Vec::new();
        for length in lengths() {
            raws.push(Raw::stopped(2, length, 5, 8));
            raws.push(Raw::entered(2, length, 5, 6, 8));
            raws.push(Raw::fallback(2, length, 5, 1, 7, 8));
            raws.push(Raw::header(length, 30));
            // A length that the code leaves unused is ignored.
            for result in [0, 1, 3, 4] {
                raws.push(Raw::stopped(result, length, 5, 8));
                raws.push(Raw::entered(result, length, 5, 6, 8));
                raws.push(Raw::fallback(result, length, 5, 0, 7, 8));
            }
        }
        raws
    });
    println!("boundaries: {made} calls with received lengths");
}

/// The limits of received lengths and arrived bytes, said outright.
#[test]
fn received_length_limits() {
    for (fcs, longest) in [(2, 125), (4, 123)] {
        for length in lengths() {
            let mut run = reading_header(settings(fcs));
            put(&mut run, 2, &[0x41, 0x88, 1, 0xcd, 0xab, 0x88, 0x77, 0, 0]);
            assert_eq!(call(&mut run, Raw::header(length, 0)), if length > longest { 10 } else { 0 });
            if length > longest {
                continue;
            }
            // Fewer than 9 bytes: not for us, and the re-arm's Entered takes any receive result. Else receiving, and asked.
            if length >= 9 {
                calls(&mut run, &[Raw::None]);
            }
            assert_eq!(call(&mut run, entered_after_frame(longest + 1)), 10);
            assert_eq!(call(&mut run, entered_after_frame(0)), 10);
            calls(&mut run, &[entered_after_frame(length.clamp(1, longest))]);
        }
    }
}

/// The time of the line's earliest Tx; 0 if it has none, or if none waits.
fn time_of_earliest_tx(now: Now) -> u64 {
    match now.line.earliest_tx().map(|request| request.start()) {
        Some(Start::At(time)) => time,
        _ => 0,
    }
}

/// Every value of every code argument, in every wait.
#[test]
fn every_code_value() {
    let made = on_every_state(seed(21), 2, |now, rng| {
        let mut raws = Vec::new();
        for code in 0..=255 {
            let Raw::Arrive {
                token,
                direction,
                start,
                time,
                buffer,
                length,
                cca,
            } = choose::arrive(rng, now)
            else {
                unreachable!("an arrival")
            };
            let (d, s, c) = (direction & 1, start & 1, cca & 1);
            let quality = choose::quality(rng);
            raws.push(Raw::arrive(token, code, s, time, buffer, length, c));
            raws.push(Raw::arrive(token, d, code, time, buffer, length, c));
            raws.push(Raw::arrive(token, d, s, time, buffer, length, code));
            raws.push(Raw::arrive(token, 1, 0, time, buffer, 0, code));
            for time in [time, time_of_earliest_tx(now)] {
                raws.push(Raw::outbound_seen(code, time, c));
                raws.push(Raw::outbound_seen(0, time, code));
                raws.push(Raw::outbound_seen(1, time, code));
            }
            raws.push(Raw::stopped(code, 3, time, quality));
            raws.push(Raw::entered(code, 3, time, 9, quality));
            for result in 0..5 {
                raws.push(Raw::fallback(result, 3, time, code, 8, quality));
            }
            for cause in 0..3 {
                raws.push(Raw::fallback(code, 3, time, cause, 8, quality));
            }
        }
        raws
    });
    println!("boundaries: {made} calls with every code value");
}

/// Two or three codes of one call together, some of them standing for nothing.
#[test]
fn codes_together() {
    let values = [0, 1, 2, 3, 4, 5, 255];
    let made = on_every_state(seed(22), 1, |now, rng| {
        let mut raws = Vec::new();
        for (first, second) in values.into_iter().flat_map(|first| values.map(|second| (first, second))) {
            for cca in values {
                let Raw::Arrive {
                    token,
                    time,
                    buffer,
                    length,
                    ..
                } = choose::arrive(rng, now)
                else {
                    continue;
                };
                raws.push(Raw::arrive(token, first, second, time, buffer, length, cca));
            }
            for time in [4, time_of_earliest_tx(now)] {
                raws.push(Raw::outbound_seen(first, time, second));
            }
            for length in [0, 3, 200] {
                raws.push(Raw::fallback(first, length, 4, second, 8, choose::quality(rng)));
            }
        }
        raws
    });
    println!("boundaries: {made} calls with codes together");
}

/// Tokens and buffers in every wait: those held, those one bit beside them, the smallest and largest.
#[test]
fn tokens_and_buffers() {
    let made = on_every_state(seed(23), 3, |now, _| {
        let mut tokens = vec![0, 1, u32::MAX, u32::MAX - 1, 0x8000_0000];
        let left = now.state.wait.open().into_iter().flatten().map(|open| open.0);
        for token in left.chain(now.line.0.iter().map(Request::token)) {
            tokens.push(token);
            tokens.extend((0..32).map(|bit| token ^ (1 << bit)));
        }
        let n = now.state.settings.count;
        let mut raws: Vec<Raw> = tokens.iter().map(|token| Raw::withdraw(*token)).collect();
        for token in tokens {
            for buffer in (0..n).chain([n, n + 1, 127, 128, 254, 255]) {
                raws.push(tx(token, buffer, 9));
                raws.push(rx(token, buffer));
            }
        }
        raws.extend((0..=255).flat_map(|buffer| [tx(0x5555_aaaa, buffer, 9), rx(0x5555_aaaa, buffer)]));
        raws
    });
    println!("boundaries: {made} calls with tokens and buffers");
}

/// "Length with checksum up to 18: short; 19 and over: long", and "length with checksum (any 16 bits)".
#[test]
fn spacing_after_receiving() {
    let mut run = reading_header(settings(2));
    put(&mut run, 2, &[0x41, 0x88, 1, 0xcd, 0xab, 0x88, 0x77, 0, 0]);
    calls(&mut run, &[rx(10, 3)]);
    let Reached { state, line, pool } = Reached::of(&run);
    for length in (0..=u16::MAX).step_by(stride()) {
        let mut pair = Pair::on(&state, &line, &pool);
        assert_eq!(pair.must(&Raw::header(9, length)), 0);
        assert_eq!(pair.state()[36], if length <= 18 { 1 } else { 2 }, "length {length}");
        assert_eq!(pair.must(&Raw::Request), 0);
        assert_eq!(pair.reply()[3], if length <= 18 { 2 << 3 } else { 3 << 3 }, "length {length}");
    }
}

/// After an ACK turn the spacing is by the received data frame's length, "Choosing spacing after an ACK by the ACK's length" being
/// ruled out.
#[test]
fn spacing_after_an_ack_turn() {
    for (length, spacing) in [(0, 2), (17, 2), (18, 2), (19, 3), (65535, 3)] {
        let mut run = reading_header(settings(2));
        put(&mut run, 2, &[0x61, 0x88, 201, 0xcd, 0xab, 0x88, 0x77, 0, 0]);
        let turn = calls(&mut run, &[Raw::header(9, length)]);
        assert_eq!(
            turn[..4],
            [9, ACK, 3, 1 << 3 | 2],
            "ACK spacing, rollback on, no channel check"
        );
        assert_eq!(run.pair.pool()[144 + usize::from(HEADROOM)..][..3], [0x02, 0x10, 201]);
        let asked = calls(&mut run, &[entered_after_frame(20)]);
        assert_eq!((asked[0], asked[12], asked[17], asked[18]), (2, 6, 2, 20));
        let reply = calls(&mut run, &[tx(11, 3, 50), Raw::Request]);
        assert_eq!(reply[..4], [9, 3, 50, spacing << 3], "length {length}");
    }
}

/// The spacing after sending is by the sent data frame's length, with or without an awaited ACK.
#[test]
fn spacing_after_sending() {
    for fcs in [2, 4] {
        for length in 3..=127 - u16::from(fcs) {
            let expected = if length + u16::from(fcs) <= 18 { 2 << 3 } else { 3 << 3 };
            let mut run = receiving_ack(fcs, length);
            assert_eq!(
                calls(&mut run, &[rx(71, 0), Raw::Request])[..4],
                [10, 0, 0, expected],
                "F {fcs}, length {length}"
            );
            let mut run = open(settings(fcs));
            put(&mut run, 2, &[0x41, 0x88, 7]);
            calls(&mut run, &[tx(70, 2, length), Raw::Request, entered_from_off()]);
            assert_eq!(
                calls(&mut run, &[rx(71, 0), Raw::Request])[..4],
                [10, 0, 0, expected],
                "F {fcs}, length {length}"
            );
        }
    }
}

/// "Returning the request's own buffer after a re-arm swapped it" is ruled out; the swapped buffer becomes the spare, is held, and
/// the old spare is what the answer returns.
#[test]
fn rearm_exchanges_buffers() {
    let mut run = reading_header(settings(2));
    put(&mut run, 2, &[0x41, 0x88, 1, 0xcd, 0xab, 0x89, 0x77, 0, 0]);
    let rearm = calls(&mut run, &[Raw::header(9, 40)]);
    assert_eq!(
        rearm[..12],
        [10, SPARE, 0, 0, 0, 0, 0, 0, 0, 0, 0, 0],
        "no spacing, no rollback"
    );
    assert_eq!(call(&mut run, Raw::Rollback), 5);
    calls(&mut run, &[Raw::entered(4, 0, 8, 0, 206), Raw::FrameStart, frame_started()]);
    put(&mut run, SPARE, &[0x41, 0x88, 1, 0xcd, 0xab, 0x88, 0x77, 0, 0]);
    calls(&mut run, &[Raw::header(9, 40)]);
    assert_eq!(call(&mut run, rx(10, 2)), 7, "the old buffer is the spare");
    assert_eq!(call(&mut run, rx(10, SPARE)), 7, "the old spare is listened with");
    assert_eq!(call(&mut run, rx(9, 3)), 6, "the token is kept");
    let reply = calls(&mut run, &[Raw::None, entered_after_frame(38)]);
    assert_eq!(reply[12..19], [6, 9, 0, 0, 0, SPARE, 38]);
    let again = [
        rx(10, SPARE),
        Raw::Request,
        entered_from_off(),
        Raw::FrameStart,
        frame_started(),
    ];
    calls(&mut run, &again);
    put(&mut run, SPARE, &[0x41, 0x88, 1, 0xcd, 0xab, 0x89, 0x77, 0, 0]);
    let again = calls(&mut run, &[Raw::header(9, 40)]);
    assert_eq!(again[..4], [10, 2, 0, 0]);
}

/// "*Control 8861: 9 header bytes. *EC01: 21. *EC41: 19. *DC01: 23." With one byte fewer the addressing is missing.
#[test]
fn header_length_rows() {
    let pan = PAN.to_le_bytes();
    let extended = HARDWARE.to_le_bytes();
    let other = [9; 8];
    let rows: [(u16, u16, Vec<u8>); 4] = [
        (0x8861, 9, [&pan[..], &extended[..2], &other[..2]].concat()),
        (0xec01, 21, [&pan[..], &extended, &other].concat()),
        (0xec41, 19, [&extended[..], &other].concat()),
        (0xdc01, 23, [&pan[..], &extended, &other[..2], &other].concat()),
    ];
    for (control, whole, addresses) in rows {
        let mut bytes = control.to_le_bytes().to_vec();
        bytes.push(77);
        bytes.extend(&addresses);
        assert_eq!(bytes.len(), usize::from(whole));
        assert_eq!(Control(control).header_length(), bytes.len());
        for arrived in 0..=125 {
            let mut run = reading_header(settings(2));
            put(&mut run, 2, &bytes);
            let reply = calls(&mut run, &[Raw::header(arrived, 30)]);
            let expected = if arrived < whole {
                [10, SPARE]
            } else {
                [if control == 0x8861 { 9 } else { 2 }, 0]
            };
            assert_eq!(reply[0], expected[0], "control {control:04x}, {arrived} bytes");
        }
    }
}

/// The bytes that are or aren't ours, with and without implicit broadcast.
#[test]
fn for_us_rows() {
    let rows: [(&[u8], u8, u8); 9] = [
        (&[0x41, 0x88, 5, 0xcd, 0xab, 0xff, 0xff, 1, 1], 0, 2),
        (&[0x41, 0x88, 5, 0xcc, 0xab, 0xff, 0xff, 1, 1], 0, 10),
        (&[0x41, 0x88, 5, 0xcd, 0xab, 0x77, 0x88, 1, 1], 0, 10),
        (&[0x01, 0x80, 5, 0xcd, 0xab, 1, 1, 0, 0], 0, 10),
        (&[0x01, 0x80, 5, 0xcd, 0xab, 1, 1, 0, 0], 1, 2),
        (&[0x21, 0xa1, 0xcd, 0xab, 1, 1, 0, 0, 0], 1, 2),
        (&[0x41, 0x20, 5, 0xcd, 0xab, 0, 0, 0, 0], 1, 2),
        (&[0x41, 0x20, 5, 0xcd, 0xaa, 0, 0, 0, 0], 1, 10),
        (&[0x02, 0x00, 5, 0, 0, 0, 0, 0, 0], 1, 2),
    ];
    for (bytes, implicit_broadcast, action) in rows {
        let mut run = reading_header(RawStart {
            implicit_broadcast,
            ..settings(2)
        });
        put(&mut run, 2, bytes);
        let reply = calls(&mut run, &[Raw::header(9, 30)]);
        assert_eq!(reply[0], action, "{bytes:02x?}, implicit broadcast {implicit_broadcast}");
    }
}

/// What Header makes of a frame.
#[derive(Clone, Copy, Debug, PartialEq, Eq)]
enum Becomes {
    /// "write it in the ACK frame, send it, rollback on"
    AckTurn,
    /// "Else ask, any direction."
    Received,
    /// "not for us, re-arm with the spare buffer and no spacing"
    NotForUs,
}
use Becomes::{AckTurn, NotForUs, Received};

impl Becomes {
    /// The action's first four bytes, all others being 0, and the wait.
    fn action_and_wait(self) -> ([u8; 4], [u8; 3]) {
        match self {
            AckTurn => ([9, ACK, 3, 1 << 3 | 2], [2, 1, 0]),
            Received => ([2, 0, 0, 0], [0, 3, 0]),
            NotForUs => ([10, SPARE, 0, 0], [2, 0, 0]),
        }
    }
}

/// Why it stands here; our hardware address and implicit broadcast; the frame's control and address fields; what becomes of it.
struct Row(&'static str, u64, u8, u16, &'static [&'static [u8]], Becomes);

/// Bytes 6 and 7 are those of the broadcast address.
const ENDS_FF: u64 = 0x1122_3344_5566_ffff;
const EIGHT_FF: u64 = u64::MAX;

// The fields, low byte first. FFFF is a PAN or a short address.
const OURS: &[u8] = &PAN.to_le_bytes();
const OTHER: &[u8] = &[0xc0, 0x00];
const FFFF: &[u8] = &[0xff, 0xff];
const OWN: &[u8] = &[0x88, 0x77];
const OWN_8: &[u8] = &HARDWARE.to_le_bytes();
const ENDS_8: &[u8] = &ENDS_FF.to_le_bytes();
const FF_8: &[u8] = &[0xff; 8];
const FROM: &[u8] = &[0x01, 0x00];

/// Control 8861: data, request bit, one PAN for two short addresses. In the first digit 8 is version 0 with a short source, 9 is
/// version 1, a is version 2; 0, 1 and 2 are the same without a source. The second is 8 for a short destination, c for an extended
/// one, 0 for none, and one more suppresses the number in version 2. The third has the request bit (2) and PAN compression (4).
const BROADCAST_ROWS: &[Row] = &[
    // An own address, the request bit and a number make an ACK turn, whatever implicit broadcast is.
    Row("own short", HARDWARE, 0, 0x8861, &[OURS, OWN, FROM], AckTurn),
    Row("own short, implicit on", HARDWARE, 1, 0x8861, &[OURS, OWN, FROM], AckTurn),
    Row("own extended", HARDWARE, 0, 0x8c61, &[OURS, OWN_8, FROM], AckTurn),
    Row("no request bit", HARDWARE, 0, 0x8841, &[OURS, OWN, FROM], Received),
    Row("no number", HARDWARE, 0, 0xa961, &[OURS, OWN, FROM], Received),
    Row("bit 8 in version 0", HARDWARE, 0, 0x8961, &[OURS, OWN, FROM], AckTurn),
    // The address decides: PAN FFFF, or none, before our own address makes no broadcast.
    Row("PAN FFFF, own short", HARDWARE, 0, 0x8861, &[FFFF, OWN, FROM], AckTurn),
    Row("PAN FFFF, own extended", HARDWARE, 0, 0x8c61, &[FFFF, OWN_8, FROM], AckTurn),
    Row("no PAN, own short", HARDWARE, 0, 0x2861, &[OWN], AckTurn),
    Row("no PAN, own extended", HARDWARE, 0, 0x2c61, &[OWN_8], AckTurn),
    // "a frame for us whose destination is short FFFF", in each version, with each PAN that is for us.
    Row("FFFF in our PAN", HARDWARE, 0, 0x8861, &[OURS, FFFF, FROM], Received),
    Row("FFFF in PAN FFFF", HARDWARE, 0, 0x8861, &[FFFF, FFFF, FROM], Received),
    Row("FFFF in no PAN", HARDWARE, 0, 0x2861, &[FFFF], Received),
    Row("FFFF, two PANs", HARDWARE, 0, 0x8821, &[FFFF, FFFF, OTHER, FROM], Received),
    Row("FFFF, version 1", HARDWARE, 0, 0x9861, &[OURS, FFFF, FROM], Received),
    Row("FFFF, version 2", HARDWARE, 0, 0xa861, &[OURS, FFFF, FROM], Received),
    Row("FFFF, implicit on", HARDWARE, 1, 0x8861, &[OURS, FFFF, FROM], Received),
    Row("FFFF, no request bit", HARDWARE, 0, 0x8841, &[OURS, FFFF, FROM], Received),
    Row("FFFF, no number", HARDWARE, 0, 0xa961, &[OURS, FFFF, FROM], Received),
    Row("FFFF in another PAN", HARDWARE, 0, 0x8861, &[OTHER, FFFF, FROM], NotForUs),
    Row("FFFE", HARDWARE, 0, 0x8861, &[OURS, &[0xfe, 0xff], FROM], NotForUs),
    // It is a broadcast whatever our hardware address is, and that address makes no other frame one.
    Row("FFFF is our own", ENDS_FF, 0, 0x8861, &[OURS, FFFF, FROM], Received),
    Row("PAN FFFF, FFFF is our own", ENDS_FF, 0, 0x8861, &[FFFF, FFFF, FROM], Received),
    Row("own ends FF FF", ENDS_FF, 0, 0x8c61, &[OURS, ENDS_8, FROM], AckTurn),
    Row("FFFF, own is eight FF", EIGHT_FF, 0, 0x8861, &[OURS, FFFF, FROM], Received),
    // "or which passed by implicit broadcast", in each version; without it the frame is not for us.
    Row("absent, version 0, on", HARDWARE, 1, 0x8021, &[OURS, FROM], Received),
    Row("absent, version 1, on", HARDWARE, 1, 0x9021, &[OURS, FROM], Received),
    Row("absent, version 2, on", HARDWARE, 1, 0xa021, &[OURS, FROM], Received),
    Row("absent, version 0, off", HARDWARE, 0, 0x8021, &[OURS, FROM], NotForUs),
    Row("absent, version 1, off", HARDWARE, 0, 0x9021, &[OURS, FROM], NotForUs),
    Row("absent, version 2, off", HARDWARE, 0, 0xa021, &[OURS, FROM], NotForUs),
    Row("no address, version 0, on", HARDWARE, 1, 0x0021, &[], Received),
    Row("no address, version 1, on", HARDWARE, 1, 0x1021, &[], Received),
    Row("no address, version 2, on", HARDWARE, 1, 0x2021, &[], Received),
    Row("no address, version 0, off", HARDWARE, 0, 0x0021, &[], NotForUs),
    Row("no address, version 1, off", HARDWARE, 0, 0x1021, &[], NotForUs),
    Row("no address, version 2, off", HARDWARE, 0, 0x2021, &[], NotForUs),
    Row("our PAN alone, on", HARDWARE, 1, 0x2061, &[OURS], Received),
    Row("our PAN alone, off", HARDWARE, 0, 0x2061, &[OURS], NotForUs),
    Row("PAN FFFF alone, on", HARDWARE, 1, 0x2061, &[FFFF], Received),
    Row("another PAN alone, on", HARDWARE, 1, 0x2061, &[OTHER], NotForUs),
    Row("absent, no request bit, on", HARDWARE, 1, 0x8001, &[OURS, FROM], Received),
    Row("absent, no number, on", HARDWARE, 1, 0xa121, &[OURS, FROM], Received),
    // An extended destination of eight FF bytes is no broadcast: it is for us if it is our hardware address, and then as any other.
    Row("eight FF, ours", EIGHT_FF, 0, 0x8c61, &[OURS, FF_8, FROM], AckTurn),
    Row("PAN FFFF, eight FF, ours", EIGHT_FF, 0, 0x8c61, &[FFFF, FF_8, FROM], AckTurn),
    Row("eight FF, not ours", HARDWARE, 0, 0x8c61, &[OURS, FF_8, FROM], NotForUs),
    Row("eight FF, implicit on", HARDWARE, 1, 0x8c61, &[OURS, FF_8, FROM], NotForUs),
    Row("eight FF, own ends so", ENDS_FF, 0, 0x8c61, &[OURS, FF_8, FROM], NotForUs),
];

/// E4: "From now on a frame for us whose destination is short FFFF, or which passed by implicit broadcast, is received without an
/// ACK turn."
#[test]
fn broadcasts_are_never_acknowledged() {
    for row in BROADCAST_ROWS {
        for length in [0, 18, 19, 65535] {
            header_makes_of(row, length);
        }
    }
    println!("boundaries: {} rows about broadcasts", BROADCAST_ROWS.len());
}

/// Number 5 and a row's fields after this control, by Header: the run, and the pool before the call.
fn run_of(row: &Row, control: u16, length: u16) -> (Run, Vec<u8>) {
    let Row(why, hardware_addr, implicit_broadcast, _, fields, _) = *row;
    let mut run = reading_header(RawStart {
        hardware_addr,
        implicit_broadcast,
        ..settings(2)
    });
    let mut bytes = control.to_le_bytes().to_vec();
    if !Control(control).suppressed() {
        bytes.push(5);
    }
    bytes.extend(fields.concat());
    assert_eq!(Control(control).header_length(), bytes.len(), "{why}: a whole header");
    put(&mut run, 2, &bytes);
    // As an ACK turn for another frame left it.
    put(&mut run, ACK, &[0x02, 0x10, 0xc9]);
    let before = run.pair.pool().to_vec();
    calls(&mut run, &[Raw::header(bytes.len() as u16, length)]);
    (run, before)
}

/// Action, wait, pool and spacing are those of the row; a frame that is received is treated as one with bit 5 clear.
fn header_makes_of(row: &Row, length: u16) {
    let Row(why, _, _, control, _, becomes) = *row;
    let (mut run, mut pool) = run_of(row, control, length);
    let (action, wait) = becomes.action_and_wait();
    assert_eq!(run.pair.reply()[..4], action, "{why}");
    assert_eq!(run.pair.reply()[4..], [0; 44], "{why}: no time and no answer");
    assert_eq!(run.codes(), wait, "{why}");
    let frame = |buffer: u8| 144 * usize::from(buffer) + usize::from(HEADROOM);
    // The number is the only byte that is written, and only for an ACK turn.
    if becomes == AckTurn {
        pool[frame(ACK) + 2] = 5;
    }
    assert_eq!(run.pair.pool(), pool, "{why}");
    let spacing = if length <= 18 { 1 } else { 2 };
    let kept = if becomes == NotForUs { 0 } else { spacing };
    assert_eq!(run.pair.state()[36], kept, "{why}, length {length}");
    if becomes != Received {
        return;
    }
    let (unrequested, _) = run_of(row, control & !0x20, length);
    assert_eq!(run.pair.state(), unrequested.pair.state(), "{why}");
    assert_eq!(run.pair.reply(), unrequested.pair.reply(), "{why}");
    let mut pool = unrequested.pair.pool().to_vec();
    pool[frame(2)] = control as u8;
    assert_eq!(run.pair.pool(), pool, "{why}");
    let next = calls(&mut run, &[rx(10, 3), Raw::Request]);
    assert_eq!(next[..4], [10, 3, 0, (1 + spacing) << 3], "{why}, length {length}");
}

/// Of a frame that is *sent*, bit 5 and the number decide as before, whatever its destination is: a broadcast awaits its ACK.
#[test]
fn sent_broadcasts_want_what_they_ask_for() {
    let frames: [(&[u8], bool); 4] = [
        (&[0x61, 0x88, 5, 0xff, 0xff, 0xff, 0xff, 1, 0], true),
        (&[0x21, 0x80, 5, 0xcd, 0xab, 1, 0], true),
        (&[0x41, 0x88, 5, 0xff, 0xff, 0xff, 0xff, 1, 0], false),
        (&[0x61, 0xa9, 0xff, 0xff, 0xff, 0xff, 1, 0], false),
    ];
    for (bytes, wanted) in frames {
        let mut run = open(settings(2));
        put(&mut run, 2, bytes);
        let entered = calls(&mut run, &[tx(70, 2, 20), Raw::Request, entered_from_off()]);
        let expected = if wanted { [10, SPARE, 0, 1 << 3] } else { [2, 0, 0, 0] };
        assert_eq!(entered[..4], expected, "{bytes:02x?}");
    }
}

/// "A suppressed number counts in version 2 only": of a frame that is sent, whatever else its control says.
#[test]
fn which_frames_want_an_acknowledgement() {
    let mut run = open(settings(2));
    put(&mut run, 2, &[0, 0, 0x6b]);
    calls(&mut run, &[tx(1, 2, 9)]);
    let Reached { state, line, pool } = Reached::of(&run);
    let mut pair = Pair::on(&state, &line, &pool);
    let at = 2 * 144 + usize::from(HEADROOM);
    for control in (0..=u16::MAX).step_by(stride()) {
        pair.set(&state, &line);
        pair.poke(at, &control.to_le_bytes());
        assert_eq!(pair.must(&Raw::Request), 0);
        let suppressed = control & 0x3000 == 0x2000 && control & 0x0100 != 0;
        let wants = control & 0x0020 != 0 && !suppressed;
        let expected = if wants { [2, 0x6b] } else { [1, 0] };
        assert_eq!([pair.state()[19], pair.state()[35]], expected, "control {control:04x}");
    }
}

/// Bytes after the control in which each layout finds an address of ours, or only some do; and how many of all controls before them
/// lead to an ACK turn. That takes bit 5, a number and an own address. Each of 4 types, 3 source modes and versions 0 and 1 has 64
/// such controls, bits 3, 4, 6, 7, 8 and 9 being free; in version 2, where bit 8 is clear, it is 32, and 16 if bit 6 is fixed.
fn tails() -> [(RawStart, Vec<u8>, u32); 5] {
    let same = RawStart {
        hardware_addr: 0x5a5a_5a5a_5a5a_5a5a,
        pan_id: 0x5a5a,
        ..settings(2)
    };
    let usual = settings(2);
    let (pan, extended) = (PAN.to_le_bytes(), HARDWARE.to_le_bytes());
    let short = [&[7][..], &pan, &extended[..2], &pan, &[1; 20]].concat();
    let long = [&[7][..], &pan, &extended, &pan, &[1; 20]].concat();
    let bare = [&[7][..], &extended, &[1; 20]].concat();
    let everyone = [&[7][..], &[0xff; 24]].concat();
    // Both destination modes, in every layout.
    let turns_same = 2 * 4 * 3 * (2 * 64 + 32);
    // A short destination after a PAN: in version 2 without a source only with bit 6 clear, else always.
    let turns_short = 4 * 3 * 2 * 64 + 4 * (16 + 2 * 32);
    // That, as the address begins with its lower bytes; and an extended one after a PAN: in version 2 with no source and with an
    // extended one only with bit 6 clear.
    let turns_long = turns_short + 4 * 3 * 2 * 64 + 4 * (16 + 32 + 16);
    // No PAN: version 2 with bit 6 set, and no source with either destination, or both extended.
    let turns_bare = 4 * (2 * 16 + 16);
    [
        (same, vec![0x5a; 25], turns_same),
        (usual, short, turns_short),
        (usual, long, turns_long),
        (usual, bare, turns_bare),
        // Short FFFF is a broadcast, and eight FF bytes are not our address.
        (usual, everyone, 0),
    ]
}

/// All 65,536 frame controls through Header: whether the frame is for us, and whether an ACK is sent.
#[test]
fn every_frame_control() {
    let mut made = 0;
    for (start, tail, turns) in tails() {
        for implicit_broadcast in [0, 1] {
            let mut run = reading_header(RawStart {
                implicit_broadcast,
                ..start
            });
            put(&mut run, 2, &tail);
            let (mut well_formed, mut acknowledged) = (0, 0);
            for control in (0..=u16::MAX).step_by(stride()) {
                let whole = Control(control).header_length() as u16;
                for arrived in [125, whole, whole - 1] {
                    made += 1;
                    let action = header_of(&run, control, &tail, arrived);
                    well_formed += u32::from(arrived == 125 && action != 10);
                    acknowledged += u32::from(arrived == 125 && action == 9);
                }
            }
            if divisor().is_some() {
                continue;
            }
            // With one byte everywhere and implicit broadcast on, all that are well formed are for us: 4 types, 3 versions, 3 modes
            // twice, and 7 bits that say nothing about it.
            if tail[0] == 0x5a && implicit_broadcast == 1 {
                assert_eq!(well_formed, 4 * 3 * 3 * 3 * 128);
            }
            // The same with implicit broadcast on and off: what passes by it gets no ACK turn.
            assert_eq!(acknowledged, turns, "{tail:02x?}");
        }
    }
    println!("boundaries: {made} headers");
}

/// The action that Header gives for a control before the tail.
fn header_of(run: &Run, control: u16, tail: &[u8], arrived: u16) -> u8 {
    let mut bytes = control.to_le_bytes().to_vec();
    bytes.extend_from_slice(tail);
    let at = 2 * 144 + usize::from(HEADROOM);
    let mut pair = run.pair.clone();
    pair.poke(at, &bytes);
    assert_eq!(pair.must(&Raw::header(arrived, 19)), 0);
    pair.reply()[0]
}

/// Every number of arrived bytes for many controls and random addresses.
#[test]
fn every_arrived_count() {
    let mut rng = Rng::new(seed(25));
    for _ in 0..common::rounds(3_000) {
        let start = RawStart {
            count: 6,
            ack_buffer: 0,
            spare_buffer: 1,
            ..choose::settings(&mut rng)
        };
        let mut run = reading_header(start);
        let settings = run.read.0.settings;
        let bytes = common::frames::header(&mut rng, &settings);
        put(&mut run, 2, &bytes);
        for arrived in 0..=26 {
            run.pair.clone().must(&Raw::header(arrived, 19));
        }
    }
}

/// "OutboundSeen, stop before that start (best effort: without a time)"
#[test]
fn outbound_seen() {
    for (start, time, cca) in [
        (0, 0, 0),
        (0, 99, 1),
        (1, 0, 0),
        (1, 1, 1),
        (1, u64::MAX, 0),
        (1, u64::MAX, 1),
    ] {
        let mut run = open(settings(2));
        calls(&mut run, &[rx(9, 2), Raw::Request, entered_from_off()]);
        let outbound = Raw::arrive(11, 0, start, time, 3, 9, cca);
        // The Rx, which arrived first, is not what is asked for.
        let reply = calls(&mut run, &[rx(10, 5), outbound, Raw::outbound_seen(start, time, cca)]);
        let mut expected = [0; 48];
        expected[0] = if start == 0 { 5 } else { 7 };
        if start == 1 {
            expected[3] = cca;
            expected[4..12].copy_from_slice(&time.to_le_bytes());
        }
        assert_eq!(reply, expected);
        let asked = calls(&mut run, &[Raw::stopped(2, 40, 3, 208)]);
        assert_eq!(asked[0], 3);
        assert_eq!(call(&mut run, Raw::None), 5, "None does not fit");
        let reply = calls(&mut run, &[Raw::Request]);
        assert_eq!(reply[..4], [9, 3, 9, cca | start << 2], "from off there is no spacing");
        assert_eq!(
            reply[12..30],
            [7, 9, 0, 0, 0, 2, 0, 0, 0, 0, 0, 0, 0, 0, 0, 0, 0, 0],
            "answer \"window ended\""
        );
    }
}

/// "failed once, stop without a time": the second failure does not fit.
#[test]
fn awaiting_an_acknowledgement() {
    let mut run = open(settings(2));
    put(&mut run, 2, &[0x61, 0x88, 7]);
    let listen = calls(&mut run, &[tx(70, 2, 20), Raw::Request, entered_from_off()]);
    assert_eq!(
        listen[..12],
        [10, SPARE, 0, 1 << 3, 0, 0, 0, 0, 0, 0, 0, 0],
        "spare buffer, ACK spacing"
    );
    let failed = Raw::stopped(1, 0, 0, 209);
    let again = calls(&mut run, &[entered_after_sending(900, 5), failed]);
    assert_eq!(again[..12], [5, 0, 0, 0, 0, 0, 0, 0, 0, 0, 0, 0]);
    assert_eq!(call(&mut run, failed), 5);
    assert_eq!(calls(&mut run, &[Raw::stopped(4, 0, 9, 210)])[0], 2);
    calls(&mut run, &[Raw::arrive(72, 1, 1, 5, 3, 0, 0)]);
    assert_eq!(call(&mut run, Raw::Request), 9, "a timed Rx is not allowed");
    let reply = calls(&mut run.clone(), &[Raw::None]);
    assert_eq!((reply[0], reply[12], reply[17], reply[19]), (1, 2, 2, 900u16 as u8));
    let reply = calls(&mut run, &[rx(71, 0), Raw::Request]);
    assert_eq!(reply[..4], [10, 0, 0, 0], "from off there is no spacing");
    assert_eq!((reply[12], reply[13], reply[17]), (2, 70, 2));
}

/// The codes that the model gives to the waits are those of the table, and every one of them is reached.
#[test]
fn every_wait_is_reached() {
    let mut waits: Vec<[u8; 3]> = Vec::new();
    for from in collect(seed(26), 1) {
        let (state, _) = from.read();
        assert_eq!(codes(&state.wait), from.state[17..20]);
        waits.push(codes(&state.wait));
    }
    waits.sort_unstable();
    waits.dedup();
    let mut every = every_wait();
    every.sort_unstable();
    assert_eq!(waits, every);
}
