//! Slices of wrong lengths, null pointers with length 0 among them, for every exported function: refused in checking order, and not
//! one byte written. Only a frame has no wrong length.
mod common;
mod model;

use common::compare::{must_read, Pair};
use common::library::FrameSlices;
use common::random::Rng;
use common::reached::{collect, Reached};
use common::run::{Opening, Run, Step};
use common::{choose, rounds, seed, stride};
use model::calls::{Raw, RawStart};

/// Two buffers beside the own ones: one to listen with, and one for the Tx that OutboundSeen names.
const COUNT: u8 = 4;
const POOL: usize = 144 * COUNT as usize;

fn good_start() -> RawStart {
    RawStart {
        count: COUNT,
        headroom: 1,
        tailroom: 2,
        fcs_length: 2,
        hardware_addr: 0x0102_0304_0506_0708,
        pan_id: 0x1234,
        implicit_broadcast: 1,
        ack_buffer: 0,
        spare_buffer: 1,
    }
}

/// The slices after these calls from start.
fn after(raws: &[Raw]) -> Reached {
    let mut run = Run::open(Opening {
        start: good_start(),
        fill: 7,
    })
    .unwrap_or_else(|wrong| panic!("{wrong}"));
    let frame = 2 * 144 + usize::from(good_start().headroom);
    run.step(Step::Poke((frame, vec![0x41, 0x88, 1, 0x34, 0x12, 0x08, 0x07, 9, 9])))
        .expect("a poke");
    for raw in raws {
        assert_eq!(run.step(Step::Call(*raw)), Ok(0), "{raw:?}");
    }
    Reached::of(&run)
}

/// One call of each function, on slices on which it is accepted if they have their right lengths.
fn fitting_calls() -> Vec<(Raw, Reached)> {
    let transmit = Raw::arrive(6, 0, 1, 77, 3, 9, 1);
    let receive = Raw::arrive(5, 1, 0, 0, 2, 0, 0);
    let entered = Raw::entered(0, 0, 0, 5, 6);
    let stopped = Raw::stopped(0, 0, 0, 7);
    let header = Raw::header(9, 30);
    let fallback = Raw::fallback(0, 0, 0, 2, 0, 8);
    let path = [receive, Raw::Request, entered, Raw::FrameStart, stopped, header, Raw::None];
    let seen = [receive, Raw::Request, entered, transmit];
    vec![
        (transmit, after(&[])),
        (receive, after(&[transmit])),
        (Raw::withdraw(6), after(&[transmit, receive])),
        (Raw::Request, after(&[transmit])),
        (Raw::Request, after(&[receive])),
        (entered, after(&path[..2])),
        (Raw::FrameStart, after(&path[..3])),
        (Raw::outbound_seen(1, 77, 1), after(&seen)),
        (stopped, after(&path[..4])),
        (header, after(&path[..5])),
        (Raw::None, after(&path[..6])),
        (Raw::Rollback, after(&path)),
        (fallback, after(&[transmit, Raw::Request])),
    ]
}

/// What is passed as the pointer of a slice of length 0.
#[derive(Clone, Copy, PartialEq, Eq)]
enum Empty {
    Place,
    Null,
}

/// Start (no call) or the call, on slices of these lengths; a length beyond the slice is made up with other bytes.
fn returned(call: &Option<(Raw, Reached)>, lengths: [usize; 4]) -> u8 {
    returned_on(call, lengths, Empty::Place)
}

fn returned_on(call: &Option<(Raw, Reached)>, lengths: [usize; 4], empty: Empty) -> u8 {
    let (mut state, mut line, mut pool) = match call {
        None => (vec![0x44; 64], vec![0x99; 96], vec![0x55; POOL]),
        Some((_, reached)) => (reached.state.clone(), reached.line.clone(), reached.pool.clone()),
    };
    state.resize(lengths[0], 0);
    line.resize(lengths[1], 0);
    pool.resize(lengths[3], 0x66);
    let mut pair = Pair::new(&state, &line, &vec![0x88; lengths[2]], &pool);
    if empty == Empty::Null {
        pair = pair.null_if_empty();
    }
    let returned = match call {
        None => pair.start(&good_start()),
        Some((raw, _)) => pair.call(raw),
    };
    let returned = returned.unwrap_or_else(|wrong| panic!("{wrong}\n{call:?} on slices of {lengths:?}"));
    if returned != 0 {
        assert_eq!(pair.state(), state, "a refusal changed the state slice");
        assert_eq!(pair.line(), line, "a refusal changed the line slice");
        assert_eq!(pair.pool(), pool, "a refusal changed the pool");
    }
    returned
}

/// The lengths with which the call, or start, is accepted.
fn right_lengths(call: &Option<(Raw, Reached)>) -> [usize; 4] {
    [64, 96, 48, call.as_ref().map_or(POOL, |call| call.1.pool.len())]
}

/// Start first, then the eleven calls.
fn every_function() -> Vec<Option<(Raw, Reached)>> {
    let mut all = vec![None];
    all.extend(fitting_calls().into_iter().map(Some));
    let mut kinds: Vec<usize> = all.iter().flatten().map(|call| call.0.kind()).collect();
    kinds.sort_unstable();
    kinds.dedup();
    assert_eq!(kinds, (0..11).collect::<Vec<_>>());
    all
}

/// Of state, line and reply, so that the line's bytes are right or its length alone is wrong.
#[test]
fn wrong_lengths_are_1() {
    let mut count = 0;
    for call in every_function() {
        let right = right_lengths(&call);
        assert_eq!(returned(&call, right), 0, "{call:?}");
        for (slice, longest) in [(0, 130), (1, 200), (2, 100)] {
            for length in (0..=longest)
                .filter(|length| *length != right[slice])
                .step_by(stride().min(7))
            {
                let mut lengths = right;
                lengths[slice] = length;
                assert_eq!(returned(&call, lengths), 1, "{call:?}, slices of {lengths:?}");
                count += 1;
            }
        }
    }
    println!("slices: {count} wrong lengths of state, line and reply");
}

#[test]
fn wrong_pool_lengths_are_2() {
    let mut count = 0;
    for call in every_function() {
        let right = right_lengths(&call);
        let lengths = (0..=700).chain([right[3] - 1, right[3] + 1, 144 * 32, 144 * 33, 65536]);
        for length in lengths.filter(|length| *length != right[3]).step_by(stride().min(23)) {
            assert_eq!(returned(&call, [64, 96, 48, length]), 2, "{call:?}, pool {length}");
            count += 1;
        }
    }
    println!("slices: {count} wrong pool lengths");
}

/// "1" before "2": a wrong state, line or reply slice is told first, whatever the pool is.
#[test]
fn wrong_lengths_together_are_1_first() {
    let rows = [
        ([63, 96, 48], 1),
        ([64, 95, 48], 1),
        ([64, 96, 47], 1),
        ([0, 0, 0], 1),
        ([64, 0, 48], 1),
        ([65, 97, 49], 1),
        ([96, 64, 48], 1),
        ([64, 48, 96], 1),
        ([64, 96, 48], 2),
    ];
    for call in every_function() {
        for ([state, line, reply], expected) in rows {
            for pool in [0, 143, POOL - 1, POOL + 1, 4609] {
                assert_eq!(returned(&call, [state, line, reply, pool]), expected, "{call:?}");
            }
        }
    }
}

/// Null pointers with length 0 in place of each slice, and of each two, three and four. The comparison with the model shows that the
/// slices that are there keep every byte.
fn null_pointers(call: &Option<(Raw, Reached)>) -> u64 {
    let right = right_lengths(call);
    for set in 1..16 {
        let null = [0, 1, 2, 3].map(|slice| set >> slice & 1 == 1);
        let lengths = [0, 1, 2, 3].map(|slice| if null[slice] { 0 } else { right[slice] });
        let expected = if null[..3].contains(&true) { 1 } else { 2 };
        assert_eq!(returned_on(call, lengths, Empty::Null), expected, "{call:?}, null {null:?}");
    }
    15
}

#[test]
fn null_pointers_with_length_0_are_refused() {
    let every_function = every_function();
    let mut count: u64 = every_function.iter().map(null_pointers).sum();
    let mut rng = Rng::new(seed(11));
    for from in collect(seed(12), 2) {
        let raw = choose::fitting(&mut rng, from.now(&from.read()));
        count += null_pointers(&Some((raw, from)));
    }
    println!("slices: {count} calls with null pointers of length 0");
}

/// Wrong lengths in every wait and with any call, codes that stand for nothing among them.
#[test]
fn wrong_lengths_in_every_wait() {
    let mut rng = Rng::new(seed(3));
    let reached = collect(seed(4), 2);
    let count = rounds(100_000);
    for round in 0..count {
        let from = &reached[round as usize % reached.len()];
        let read = from.read();
        let raw = if rng.chance(50) {
            choose::fitting(&mut rng, from.now(&read))
        } else {
            choose::any(&mut rng, from.now(&read))
        };
        let other = [rng.below(131), rng.below(201), rng.below(101), rng.below(701)];
        let right = [64, 96, 48, from.pool.len()];
        // One of the four, or all.
        let which = rng.below(5);
        let lengths = [0, 1, 2, 3].map(|slice| {
            if which == slice || which == 4 {
                other[slice]
            } else {
                right[slice]
            }
        });
        if lengths != right {
            let expected = if lengths[..3] == right[..3] { 2 } else { 1 };
            assert_eq!(returned(&Some((raw, from.clone())), lengths), expected, "{raw:?}");
        }
    }
    println!("slices: {count} wrong lengths in every wait");
}

/// Frames of the header reader: none, cut off, whole, and longer than any.
fn some_frames() -> Vec<Vec<u8>> {
    let mut rng = Rng::new(seed(13));
    let mut frames = vec![Vec::new()];
    for control in [0x0002u16, 0x8861, 0xa841, 0xdc01, 0xec41, 0x0004, 0xffff] {
        for length in [1, 2, 3, 8, 9, 22, 23, 24, 31, 32, 33, 127, 300] {
            let mut frame = control.to_le_bytes().to_vec();
            frame.resize(length, 0);
            if length > 2 {
                rng.fill(&mut frame[2..]);
            }
            frames.push(frame);
        }
    }
    frames
}

#[test]
fn wrong_lengths_of_facts_are_1() {
    let mut count = 0;
    for frame in some_frames() {
        let lengths = (0..=40).chain([48, 63, 64, 65, 127, 255, 256, 287, 288, 289, 65_535, 65_536, 65_568]);
        for length in lengths.filter(|length| *length != 32) {
            let info: Vec<u8> = (0..length).map(|at| 0x88 ^ at as u8).collect();
            let mut slices = FrameSlices::new(&frame, &info);
            assert_eq!(must_read(&mut slices), 1, "{frame:02x?}, facts {length}");
            assert_eq!(slices.info.get(), info, "a refusal changed the slice of facts");
            count += 1;
        }
    }
    println!("slices: {count} wrong lengths of facts");
}

/// As a frame, a null pointer with length 0 is one of which no byte has arrived; as facts it is refused.
#[test]
fn null_pointers_of_the_header_reader() {
    let mut count = 0;
    for frame in some_frames() {
        for info in [vec![], vec![0x99; 32], vec![0x99; 31]] {
            let mut slices = FrameSlices::new(&frame, &info);
            slices.null_if_empty = true;
            let expected = if info.len() == 32 { 0 } else { 1 };
            assert_eq!(must_read(&mut slices), expected, "{frame:02x?}, facts {}", info.len());
            if expected == 0 && frame.is_empty() {
                assert_eq!(slices.info.get(), [0; 32], "no byte has arrived, so no fact is there");
            }
            count += usize::from(frame.is_empty() || info.is_empty());
        }
    }
    println!("slices: {count} reads with null pointers of length 0");
}
