//! Random lists of calls through the library, by its C functions and by the safe types, against the model: every result compared and
//! the book of document 01 kept.
mod common;
mod model;

use common::frames::{self, For, EVERY_FOR};
use common::met::{Before, Frames, Met, Tally, BEST_EFFORT, EVERY_MET, IDLE, NAMED, TX_OR_BEST_EFFORT};
use common::random::Rng;
use common::run::{fail, Opening, Run};
use common::safe::Safe;
use common::{choose, compare::Pair, divisor, reached::every_wait, rounds, seed};
use model::calls::{Raw, Request, Start, CALL_NAMES};
use model::engine::Wait;
use std::collections::{BTreeMap, BTreeSet};

/// What has been reached, by count.
#[derive(Default)]
struct Coverage {
    calls: u64,
    /// Those that were made by the safe types too, and starts of which they said so.
    safe: u64,
    safe_refused: [u64; 5],
    runs: u64,
    accepted: [u64; 11],
    refused: [u64; 14],
    start_refused: [u64; 5],
    waits: BTreeMap<[u8; 3], u64>,
    actions: BTreeMap<u8, u64>,
    answers: [BTreeMap<u8, u64>; 2],
    /// By answer: 6 a frame, 8 a CRC error.
    qualities: BTreeMap<u8, BTreeSet<u8>>,
    requested: BTreeMap<For, u64>,
    met: Tally,
    /// Accepted calls by how many wait after them, and in which wait.
    lengths: BTreeMap<usize, BTreeMap<[u8; 3], u64>>,
    /// What has left at which ask: direction and start.
    left: BTreeMap<[u8; 3], BTreeSet<(bool, bool)>>,
}

/// Whether it transmits, and whether it is timed.
fn kind(request: &Request) -> (bool, bool) {
    (request.transmits(), request.start() != Start::BestEffort)
}

impl Coverage {
    /// Counts a call that was made on the run's own slices, or (no call) on a copy.
    fn count(&mut self, before: &Before, frames: &mut Frames, run: &Run, returned: u8, raw: Option<Raw>) {
        self.calls += 1;
        self.refused[usize::from(returned)] += u64::from(returned != 0);
        let Some(raw) = raw else { return };
        for met in before.met(&raw, returned) {
            self.met.add(met, before.wait());
        }
        if returned == 0 {
            self.count_accepted(before, frames, run, raw);
        }
    }

    fn count_accepted(&mut self, before: &Before, frames: &mut Frames, run: &Run, raw: Raw) {
        self.accepted[raw.kind()] += 1;
        *self.waits.entry(run.codes()).or_default() += 1;
        let waiting = run.read.1 .0.len();
        *self.lengths.entry(waiting).or_default().entry(run.codes()).or_default() += 1;
        if let Some(changed) = frames.changed(before, &raw, run.pair.pool()) {
            self.met.add(changed, before.wait());
        }
        if let Some(leaving) = before.leaving().filter(|_| raw == Raw::Request) {
            self.left.entry(before.wait()).or_default().insert(kind(&leaving));
        }
        let reply = run.pair.reply();
        *self.actions.entry(reply[0]).or_default() += 1;
        for (place, at) in [12, 30].into_iter().enumerate() {
            *self.answers[place].entry(reply[at]).or_default() += 1;
            if matches!(reply[at], 6 | 8) {
                self.qualities.entry(reply[at]).or_default().insert(reply[at + 15]);
            }
        }
        if let Raw::Header { arrived, .. } = raw {
            self.count_requested(run, arrived);
        }
    }

    /// Counts a header that was read, if it is for us, requests an ACK and has a number. Only one for us alone gets an ACK turn.
    fn count_requested(&mut self, run: &Run, arrived: u16) {
        let state = run.read.0;
        let Some((_, buffer)) = state.wait.open()[0] else { return };
        let frame = state.settings.frame(buffer);
        let bytes = &run.pair.pool()[frame..frame + usize::from(arrived)];
        let Some(whom) = frames::requested(&state.settings, bytes) else {
            return;
        };
        let ack_turn = matches!(state.wait, Wait::AckTurn(..));
        assert_eq!(ack_turn, matches!(whom, For::Us(_)), "{whom:?}: {bytes:02x?}");
        *self.requested.entry(whom).or_default() += 1;
    }

    fn print(&self) {
        println!(
            "random: {} of the calls by the safe types too, and starts that these refused by number: {:?}",
            self.safe,
            &self.safe_refused[1..]
        );
        println!(
            "random: {} calls in {} runs, {} accepted",
            self.calls,
            self.runs,
            self.accepted.iter().sum::<u64>()
        );
        for (name, count) in CALL_NAMES.iter().zip(self.accepted) {
            println!("  accepted {name}: {count}");
        }
        println!(
            "  refused by number: {:?}, starts: {:?}",
            &self.refused[1..],
            &self.start_refused[1..]
        );
        println!("  waits: {:?}", self.waits);
        let met: Vec<(Met, u64)> = EVERY_MET.into_iter().map(|met| (met, self.met.total(met))).collect();
        println!("random: on the line: {met:?}");
        let lengths: Vec<u64> = self.lengths.values().map(|waits| waits.values().sum()).collect();
        println!("random: accepted calls after which 0 to 4 wait: {lengths:?}");
        println!("  actions: {:?}", self.actions);
        println!("  answers, first: {:?}, second: {:?}", self.answers[0], self.answers[1]);
        let qualities: Vec<usize> = self.qualities.values().map(BTreeSet::len).collect();
        println!("random: link qualities in answers, of frames and of CRC errors: {qualities:?}");
        println!(
            "random: frames for us that request an ACK and have a number: {:?}",
            self.requested
        );
    }

    fn check(&self) {
        for (name, count) in CALL_NAMES.iter().zip(self.accepted) {
            assert!(count >= 1_000, "{name} was accepted only {count} times");
        }
        // All but those on slices cut or damaged, those with a code that stands for nothing, and those of runs on 11 to 31 buffers;
        // of the refusals of start 3 and 4 can be met.
        assert!(
            self.safe * 100 >= self.calls * 85,
            "only {} of the calls went both ways",
            self.safe
        );
        assert!(self.safe_refused[3] >= 100 && self.safe_refused[4] >= 100);
        // 3 and 4 are start's alone: a state slice with such settings is refused with 1.
        let numbers: Vec<usize> = (1..14).filter(|number| self.refused[*number] > 0).collect();
        assert_eq!(numbers, [1, 2, 5, 6, 7, 8, 9, 10, 11, 12, 13], "refusals of calls");
        let numbers: Vec<usize> = (1..5).filter(|number| self.start_refused[*number] > 0).collect();
        assert_eq!(numbers, [1, 2, 3, 4], "refusals of start");
        let mut waits = every_wait();
        waits.sort_unstable();
        assert_eq!(
            self.waits.keys().copied().collect::<Vec<_>>(),
            waits,
            "not exactly the waits that can be reached"
        );
        // Each answer can be the first, and only an error the second.
        assert_eq!(
            self.actions.keys().copied().collect::<Vec<_>>(),
            (0..=11).collect::<Vec<u8>>()
        );
        assert_eq!(
            self.answers[0].keys().copied().collect::<Vec<_>>(),
            (0..=8).collect::<Vec<u8>>()
        );
        assert_eq!(self.answers[1].keys().copied().collect::<Vec<_>>(), [0, 3, 4, 5]);
        assert!(
            [6, 8].iter().all(|code| self.qualities[code].len() == 256),
            "not every link quality"
        );
        for whom in EVERY_FOR {
            let count = self.requested.get(&whom).copied().unwrap_or_default();
            assert!(count >= 500, "{whom:?} was reached only {count} times");
        }
        self.check_line(&waits);
    }

    /// What document 02, E1, says of the line has happened, in the waits in which it can and in no other.
    fn check_line(&self, every_wait: &[[u8; 3]]) {
        for met in EVERY_MET {
            let (waits, total) = (self.met.waits(met), self.met.total(met));
            assert_eq!(
                waits,
                met.waits(every_wait),
                "{met:?} was not met in exactly the waits in which it can be"
            );
            assert!(total >= 1_000, "{met:?} was met only {total} times");
        }
        for (waiting, waits) in &self.lengths {
            // The Tx that OutboundSeen named waits.
            let expected = every_wait.iter().filter(|wait| *waiting > 0 || !NAMED.contains(wait));
            assert!(waits.keys().eq(expected), "{waiting} wait, in {waits:?}");
        }
        assert!(self.lengths.keys().copied().eq(0..=4));
        let (tx, timed_tx, rx, timed_rx) = ((true, false), (true, true), (false, false), (false, true));
        let mut left = BTreeMap::from([
            (IDLE, BTreeSet::from([tx, timed_tx, rx, timed_rx])),
            (NAMED[0], BTreeSet::from([tx, timed_tx])),
        ]);
        left.extend(TX_OR_BEST_EFFORT.map(|wait| (wait, BTreeSet::from([tx, timed_tx, rx]))));
        left.extend(BEST_EFFORT.map(|wait| (wait, BTreeSet::from([tx, rx]))));
        assert_eq!(self.left, left, "not exactly the requests that may leave at each ask");
    }
}

/// Starts with odd settings or slices: refused, and counted.
fn odd_starts(rng: &mut Rng, coverage: &mut Coverage) {
    for _ in 0..1 + rng.below(4) {
        let raw = if rng.chance(70) {
            choose::odd_settings(rng)
        } else {
            choose::settings(rng)
        };
        let length = 144 * usize::from(raw.count);
        let mut lengths = [64, 96, 48, length];
        match rng.below(8) {
            0 => lengths[0] = rng.pick(&[0, 63, 65]),
            1 => lengths[1] = rng.pick(&[0, 95, 97]),
            2 => lengths[2] = rng.pick(&[0, 47, 49]),
            3 => lengths[3] = rng.pick(&[0, length + 1, length + 143, length.saturating_sub(1)]),
            _ => {}
        }
        let [state, line, reply, pool] = [0, 1, 2, 3].map(|slice| vec![0x11 * (1 + slice as u8); lengths[slice]]);
        let mut pair = Pair::new(&state, &line, &reply, &pool);
        let returned = pair.start(&raw);
        let returned = returned.unwrap_or_else(|wrong| panic!("{wrong}\n{raw:?} with slices of {lengths:?}"));
        if lengths == [64, 96, 48, length] && Safe::can_say(&raw) {
            let safe = Safe::start(&raw, &pool, returned, pair.reply());
            safe.unwrap_or_else(|wrong| panic!("{wrong}\n{raw:?}"));
            coverage.safe_refused[usize::from(returned)] += 1;
        }
        coverage.start_refused[usize::from(returned)] += 1;
        coverage.calls += 1;
    }
}

fn random_run(seed: u64, coverage: &mut Coverage) {
    let mut rng = Rng::new(seed);
    if rng.chance(20) {
        odd_starts(&mut rng, coverage);
    }
    let opening = Opening {
        start: choose::settings(&mut rng),
        fill: rng.number(),
    };
    let mut run = Run::open(opening.clone()).unwrap_or_else(|wrong| panic!("seed {seed}: {wrong}\n{opening:?}"));
    coverage.calls += 1;
    coverage.runs += 1;
    let steps = match rng.below(10) {
        0..=4 => 1 + rng.below(40),
        5..=8 => 200,
        _ => 2_000,
    };
    let mut frames = Frames::default();
    for _ in 0..steps {
        let before = Before::of(&run);
        match run.random_step(&mut rng) {
            Ok((returned, raw)) => coverage.count(&before, &mut frames, &run, returned, raw),
            Err(wrong) => fail(seed, &run, &wrong),
        }
    }
    coverage.safe += run.beside.0.map_or(0, |safe| safe.made);
}

#[test]
fn random_runs() {
    let mut coverage = Coverage::default();
    let mut seeds = Rng::new(seed(1));
    while coverage.calls < rounds(8_000_000) {
        random_run(seeds.number(), &mut coverage);
    }
    coverage.print();
    if divisor().is_none() {
        coverage.check();
    }
}
