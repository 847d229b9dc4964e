//! Document 02, E6, "Link quality with every frame", through C: "The receive results "frame" and "CRC error" gain the standard's
//! link quality, one byte, and the receive answers made from them, no others, carry it unaltered." The first tests say outright
//! which answers have which byte 15; the last two show that nothing else depends on it.
mod common;
mod model;

use common::compare::Pair;
use common::random::Rng;
use common::reached::{collect, Reached};
use common::run::{Opening, Run, Step};
use common::scenes::*;
use common::{choose, divisor, rounds, seed, stride};
use model::calls::Raw;

const FRAME: u8 = 2;
const WINDOW_ENDED: u8 = 3;
const CRC_ERROR: u8 = 4;

/// Each byte is another, and none is a length, a token or a buffer of these tests.
const TIME: u64 = 0xf1e2_d3c4_b5a6_9788;
const CAUSE_TIME: u64 = 0x8192_a3b4_c5d6_e7f8;
const LENGTH: u16 = 77;
/// For codes that leave the length unused: with any other code it is refused.
const NO_LENGTH: u16 = 300;

const TO_US: [u8; 9] = [0x41, 0x88, 1, 0xcd, 0xab, 0x88, 0x77, 0, 0];
const TO_US_WITH_ACK: [u8; 9] = [0x61, 0x88, 1, 0xcd, 0xab, 0x88, 0x77, 0, 0];
const TO_OTHERS: [u8; 9] = [0x41, 0x88, 1, 0xcd, 0xab, 0x99, 0x77, 0, 0];
/// Of frames to be sent with number 7; the first wants an ACK.
const WANTS_ACK: [u8; 3] = [0x61, 0x88, 7];
const WANTS_NONE: [u8; 3] = [0x41, 0x88, 7];

/// An answer's 18 bytes: what it came to, token, buffer, length, time, link quality.
fn answer(code: u8, token: u8, buffer: u8, length: u8, time: u64, quality: u8) -> [u8; 18] {
    let mut bytes = [0; 18];
    bytes[..7].copy_from_slice(&[code, token, 0, 0, 0, buffer, length]);
    bytes[7..15].copy_from_slice(&time.to_le_bytes());
    bytes[15] = quality;
    bytes
}

/// The error answer for this cause.
fn error(cause: u8, token: u8, buffer: u8) -> [u8; 18] {
    let time = if cause == 1 { CAUSE_TIME } else { 0 };
    answer(3 + cause, token, buffer, 0, time, 0)
}

const NO_ANSWER: [u8; 18] = [0; 18];

/// What follows when a reception is asked about: None or the arrival that a Request takes, and the last call, which is Entered or
/// Fallback with a cause. The Tx with buffer 3 wants an ACK, that with buffer 5 wants none.
fn ways() -> Vec<(Raw, Option<u8>)> {
    let mut all: Vec<_> = [Raw::None, rx(10, 3), tx(10, 3, 9), tx(10, 5, 9)]
        .into_iter()
        .map(|next| (next, None))
        .collect();
    for buffer in [3, 5] {
        all.extend((0..3).map(|cause| (tx(10, buffer, 9), Some(cause))));
    }
    all
}

/// The last call, by its result and quality, and the second answer that it gives.
fn last(way: &(Raw, Option<u8>), result: u8, length: u16, quality: u8) -> (Raw, [u8; 18]) {
    match *way {
        (Raw::Arrive { buffer, .. }, Some(cause)) => (
            Raw::fallback(result, length, TIME, cause, CAUSE_TIME, quality),
            error(cause, 10, buffer),
        ),
        _ => (Raw::entered(result, length, TIME, 5, quality), NO_ANSWER),
    }
}

/// Puts the frames that may be sent next into their buffers.
fn put_next(run: &mut Run) {
    put(run, 3, &WANTS_ACK);
    put(run, 5, &WANTS_NONE);
}

/// The last call with every quality and each receive result: the first answer has it unaltered, if it is a frame or a CRC error.
fn received_with_every_quality(run: &Run, way: &(Raw, Option<u8>)) -> u64 {
    for quality in 0..=255 {
        let rows = [
            (FRAME, LENGTH, answer(6, 9, 2, LENGTH as u8, TIME, quality)),
            (WINDOW_ENDED, NO_LENGTH, answer(7, 9, 2, 0, 0, 0)),
            (CRC_ERROR, NO_LENGTH, answer(8, 9, 2, 0, TIME, quality)),
        ];
        for (result, length, first) in rows {
            let (raw, second) = last(way, result, length, quality);
            let reply = calls(&mut run.clone(), &[raw]);
            assert_eq!(reply[12..30], first, "{way:?}, {raw:?}");
            assert_eq!(reply[30..], second, "{way:?}, {raw:?}");
        }
    }
    3 * 256
}

/// Every way to a receive answer: Entered in the ACK turn, and Entered or Fallback after each call that a reception is asked with.
#[test]
fn receive_answers() {
    let mut made = 0;
    let mut turn = reading_header(settings(2));
    put(&mut turn, 2, &TO_US_WITH_ACK);
    calls(&mut turn, &[Raw::header(9, 30)]);
    made += received_with_every_quality(&turn, &(Raw::None, None));
    for way in ways() {
        let mut run = reading_header(settings(2));
        put(&mut run, 2, &TO_US);
        put_next(&mut run);
        calls(&mut run, &[Raw::header(9, 30)]);
        calls(&mut run, &met_by(way.0));
        made += received_with_every_quality(&run, &way);
    }
    println!("quality: {made} receive answers, {} ways to one", 1 + ways().len());
}

/// Sent and Nack have none, though the outcome of the awaited ACK was a frame or a CRC error with a quality; nor has the error
/// after it.
#[test]
fn awaited_acknowledgements() {
    let (sent, nack) = (1, 2);
    let rows: [(u8, u8, u16, u8); 4] = [
        (7, FRAME, 3, sent),
        (8, FRAME, 3, nack),
        (7, FRAME, 4, nack),
        (7, CRC_ERROR, NO_LENGTH, nack),
    ];
    let mut made = 0;
    for way in ways() {
        for (number, result, length, code) in rows {
            let mut run = receiving_ack(2, 20);
            put_next(&mut run);
            put(&mut run, SPARE, &[0x02, 0x00, number]);
            calls(&mut run, &met_by(way.0));
            for quality in 0..=255 {
                let (raw, second) = last(&way, result, length, quality);
                let reply = calls(&mut run.clone(), &[raw]);
                assert_eq!(reply[12..30], answer(code, 70, 2, 0, 900, 0), "{way:?}, {raw:?}");
                assert_eq!(reply[30..], second, "{way:?}, {raw:?}");
                made += 1;
            }
        }
    }
    println!("quality: {made} outcomes of awaited ACKs");
}

/// A window that ends, whatever it ended with and whatever quality that had: its Stopped has no answer, and the call after it
/// answers without a quality.
fn ended(run: &Run, after: &[Raw], first: [u8; 18]) -> u64 {
    let mut made = 0;
    for quality in 0..=255 {
        for (outcome, length) in [(FRAME, LENGTH), (WINDOW_ENDED, NO_LENGTH), (CRC_ERROR, NO_LENGTH)] {
            for raw in after {
                let mut run = run.clone();
                let stopped = calls(&mut run, &[Raw::stopped(outcome, length, TIME, quality)]);
                assert_eq!(stopped[12..], [0; 36], "{outcome}, quality {quality}");
                let reply = calls(&mut run, &met_by(*raw));
                assert_eq!(reply[12..30], first, "{outcome}, quality {quality}, {raw:?}");
                assert_eq!(reply[30..], NO_ANSWER, "{outcome}, quality {quality}, {raw:?}");
                made += 1;
            }
        }
    }
    made
}

#[test]
fn windows() {
    let mut made = 0;
    for (start, buffer) in [(0, 3), (0, 5), (1, 3), (1, 5)] {
        let mut run = open(settings(2));
        put_next(&mut run);
        let outbound = Raw::arrive(10, 0, start, CAUSE_TIME, buffer, 9, 1);
        let seen = Raw::outbound_seen(start, CAUSE_TIME, 1);
        calls(&mut run, &[rx(9, 2), Raw::Request, entered_from_off(), outbound, seen]);
        made += ended(&run, &[Raw::Request], answer(7, 9, 2, 0, 0, 0));
    }
    let again = Raw::stopped(1, 0, 0, 209);
    for failures in [0, 1] {
        let mut run = open(settings(2));
        put(&mut run, 2, &WANTS_ACK);
        put_next(&mut run);
        calls(&mut run, &[tx(70, 2, 20), Raw::Request, entered_from_off()]);
        calls(&mut run, &[entered_after_sending(900, 5)]);
        calls(&mut run, &[again][..failures]);
        let after = [Raw::None, rx(10, 3), tx(10, 3, 9), tx(10, 5, 9)];
        made += ended(&run, &after, answer(2, 70, 2, 0, 900, 0));
    }
    println!("quality: {made} windows that ended");
}

fn made(raws: &[Raw]) -> Vec<Step> {
    raws.iter().map(|raw| Step::Call(*raw)).collect()
}

/// An arrival, the Request that takes it, and these calls.
fn asked(arrival: Raw, then: &[Raw]) -> Vec<Raw> {
    [&[arrival, Raw::Request], then].concat()
}

fn written(buffer: u8, bytes: &[u8]) -> Vec<Step> {
    vec![Step::Poke((
        144 * usize::from(buffer) + usize::from(HEADROOM),
        bytes.to_vec(),
    ))]
}

/// A frame is heard in this buffer; then come these calls.
fn heard(buffer: u8, bytes: &[u8], then: &[Raw]) -> Vec<Step> {
    let before = [Raw::FrameStart, Raw::stopped(0, 0, 0, 0), Raw::header(9, 40)];
    [written(buffer, bytes), made(&before), made(then)].concat()
}

/// A long run with every kind of answer, and re-arms, windows and ACKs between the receptions. All qualities are 0.
fn story() -> Vec<Step> {
    let (from_off, sent) = (Raw::entered(0, 0, 0, 5, 0), Raw::entered(1, 0, 57, 5, 0));
    let received = Raw::entered(FRAME, 38, 55, 5, 0);
    let damaged = Raw::entered(CRC_ERROR, 0, 56, 5, 0);
    let nothing = Raw::entered(WINDOW_ENDED, 0, 0, 5, 0);
    let (started, failed) = (Raw::stopped(0, 0, 0, 0), Raw::stopped(1, 0, 0, 0));
    let seen = Raw::outbound_seen(0, 0, 0);
    [
        written(5, &WANTS_ACK),
        made(&asked(rx(9, 2), &[from_off])),
        // Three re-arms, each of which exchanges the buffers; then a frame for us, and the next reception begins, with a Tx that is
        // seen, and withdrawn as the stop failed.
        heard(2, &TO_OTHERS, &[received]),
        heard(SPARE, &TO_OTHERS, &[damaged]),
        heard(2, &TO_OTHERS, &[nothing]),
        heard(
            SPARE,
            &TO_US,
            &asked(rx(10, 3), &[received, tx(12, 5, 9), seen, failed, Raw::withdraw(12)]),
        ),
        // A re-arm before one that turns out to be damaged in its ACK turn, and one whose next Tx falls back.
        heard(3, &TO_OTHERS, &[received]),
        heard(2, &TO_US_WITH_ACK, &[damaged]),
        made(&asked(rx(11, 0), &[sent])),
        heard(0, &TO_US, &asked(tx(12, 5, 9), &[Raw::fallback(FRAME, 37, 58, 2, 0, 0)])),
        // A window that ends with a frame for the Tx that was seen, its ACK's window that ends with a damaged one, and an ACK.
        made(&asked(rx(13, SPARE), &[from_off, tx(14, 5, 9), seen])),
        made(&[Raw::stopped(FRAME, 36, 59, 0), Raw::Request]),
        made(&[from_off, sent, Raw::stopped(CRC_ERROR, 0, 60, 0), Raw::None]),
        made(&asked(tx(15, 5, 9), &[from_off, sent, started, Raw::None])),
        written(3, &[0x02, 0x00, 7]),
        made(&[Raw::entered(FRAME, 3, 61, 5, 0)]),
        made(&asked(rx(16, 2), &[from_off])),
        heard(2, &TO_US, &[Raw::None, received]),
    ]
    .concat()
}

/// What a call left in state, line, reply and pool, the qualities of receive answers taken out.
type Left = [Vec<u8>; 4];

/// The story with these qualities: what each call left, and the code of each answer. A receive answer has its own call's quality.
fn told(mut quality: impl FnMut(usize) -> u8) -> (Vec<Left>, Vec<u8>) {
    let mut run = open(settings(2));
    let (mut left, mut codes) = (Vec::new(), Vec::new());
    for (place, mut step) in story().into_iter().enumerate() {
        let own = quality(place);
        if let Step::Call(raw) = &mut step {
            raw.quality().into_iter().for_each(|number| *number = own);
        }
        assert_eq!(run.step(step.clone()), Ok(0), "{step:?}");
        if matches!(step, Step::Poke(_)) {
            continue;
        }
        let mut reply = run.pair.reply().to_vec();
        for at in [12, 30] {
            codes.extend((reply[at] != 0).then_some(reply[at]));
            let expected = if matches!(reply[at], 6 | 8) { own } else { 0 };
            assert_eq!(
                std::mem::take(&mut reply[at + 15]),
                expected,
                "{step:?}, answer {}",
                reply[at]
            );
        }
        left.push([
            run.pair.state().to_vec(),
            run.pair.line().to_vec(),
            reply,
            run.pair.pool().to_vec(),
        ]);
    }
    (left, codes)
}

/// No state holds a quality: each answer has its own call's, whatever the calls before it told, and of two runs that differ in
/// qualities alone every state, every line, every pool and all else of the replies are the same.
#[test]
fn never_kept() {
    let (without, codes) = told(|_| 0);
    assert_eq!(codes, [6, 8, 6, 5, 7, 2, 1, 6]);
    let mut rng = Rng::new(seed(40));
    let runs = rounds(500);
    for run in 0..runs {
        let (left, _) = match run {
            0 => told(|_| 255),
            1 => told(|place| 200 - place as u8),
            2 => told(|place| 1 + place as u8),
            _ => told(|_| rng.byte()),
        };
        assert_eq!(left, without);
    }
    println!(
        "quality: {runs} runs of one list of {} calls, each with other qualities",
        without.len()
    );
}

/// Returned number, state, reply, line and pool of one call.
fn outcome(from: &Reached, raw: &Raw) -> (u8, [Vec<u8>; 4]) {
    let mut pair = Pair::on(&from.state, &from.line, &from.pool);
    let returned = pair.must(raw);
    let left = [pair.state(), pair.reply(), pair.line(), pair.pool()];
    (returned, left.map(<[u8]>::to_vec))
}

/// Each call that has the number, with this outcome or result and every cause; the quality is 0.
fn with_code(code: u8) -> Vec<Raw> {
    let length = if code == FRAME { 3 } else { NO_LENGTH };
    let mut all = vec![Raw::stopped(code, length, TIME, 0), Raw::entered(code, length, TIME, 5, 0)];
    all.extend((0..=3).map(|cause| Raw::fallback(code, length, TIME, cause, CAUSE_TIME, 0)));
    all
}

/// In every wait, with every code, one that stands for nothing among them: a call differs from the one with quality 0 in byte 15 of
/// a receive answer alone. So where the code leaves the quality unused nothing differs, and whether an ACK is the awaited one is
/// not decided by it.
#[test]
fn nothing_else_in_every_wait() {
    let (mut made, mut received) = (0, 0);
    for (from, code) in collect(seed(41), 1)
        .iter()
        .flat_map(|from| (0..=5).map(move |code| (from, code)))
    {
        for mut raw in with_code(code) {
            let (returned, without) = outcome(from, &raw);
            let answered = returned == 0 && matches!(without[1][12], 6 | 8);
            assert!(code == FRAME || code == CRC_ERROR || !answered, "{raw:?}");
            for quality in (1..=255).step_by(stride()) {
                *raw.quality().expect("it has one") = quality;
                let mut expected = without.clone();
                if answered {
                    expected[1][27] = quality;
                }
                assert_eq!(outcome(from, &raw), (returned, expected), "{raw:?}");
                made += 1;
                received += u64::from(answered);
            }
        }
    }
    println!("quality: {made} calls in every wait beside those with quality 0, {received} of them receive answers");
}

/// The same step with another quality, if its call has one.
fn with_another(rng: &mut Rng, step: &Step) -> Step {
    let mut step = step.clone();
    if let Step::Call(raw) | Step::Cut(raw, _) | Step::Damaged(raw, ..) = &mut step {
        if let Some(quality) = raw.quality() {
            *quality = quality.wrapping_add(1 + rng.below(255) as u8);
        }
    }
    step
}

/// A random step on the run and, with other qualities, on its twin: what a call leaves differs in byte 15 of a receive answer
/// alone, and does differ there. Whether there was one.
fn twin_step(rng: &mut Rng, run: &mut Run, twin: &mut Run) -> Result<bool, String> {
    let before = run.steps.len();
    let (returned, _) = run.random_step(rng)?;
    let mut of_twin = 0;
    for step in &run.steps[before..] {
        of_twin = twin.step(with_another(rng, step))?;
    }
    let different = |what: &str| Err(format!("the twin differs in {what}, after {:?}", twin.steps.last()));
    if returned != of_twin {
        return different("what was returned");
    }
    // The other steps are made on copies.
    if !matches!(run.steps.last(), Some(Step::Call(_))) {
        return Ok(false);
    }
    let (mut reply, other) = (run.pair.reply().to_vec(), twin.pair.reply());
    let received = returned == 0 && matches!(reply[12], 6 | 8);
    if received && reply[27] == other[27] {
        return Err("two different qualities were told, but the answers have the same".to_string());
    }
    if received {
        reply[27] = other[27];
    }
    match [
        (&reply[..], other),
        (run.pair.state(), twin.pair.state()),
        (run.pair.line(), twin.pair.line()),
        (run.pair.pool(), twin.pair.pool()),
    ]
    .iter()
    .position(|(one, other)| one != other)
    {
        None => Ok(received),
        Some(which) => different(["the reply", "the state", "the line", "the pool"][which]),
    }
}

/// Random walks, each beside a twin that differs from it in qualities alone.
#[test]
fn twin_walks() {
    let mut seeds = Rng::new(seed(42));
    let (mut walks, mut received) = (0, 0);
    while walks * 200 < rounds(1_000_000) {
        walks += 1;
        let seed = seeds.number();
        let mut rng = Rng::new(seed);
        let opening = Opening {
            start: choose::settings(&mut rng),
            fill: rng.number(),
        };
        let open = || Run::open(opening.clone()).unwrap_or_else(|wrong| panic!("seed {seed}: {wrong}\n{opening:?}"));
        let (mut run, mut twin) = (open(), open());
        for _ in 0..200 {
            match twin_step(&mut rng, &mut run, &mut twin) {
                Ok(answered) => received += u64::from(answered),
                Err(wrong) => panic!("seed {seed}, after {} steps: {wrong}", run.steps.len()),
            }
        }
    }
    assert!(divisor().is_some() || received > 10_000, "only {received} receive answers");
    println!("quality: {walks} random walks beside their twins, {received} receive answers");
}
