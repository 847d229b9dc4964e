//! States that calls have reached, some of each wait, with the line and the pool beside them.
use super::choose::{self, Now};
use super::random::Rng;
use super::run::{fail, Opening, Run, Step};
use crate::model::bytes::{read_line, read_state};
use crate::model::engine::State;
use crate::model::line::Line;
use std::cmp::Ordering;
use std::collections::BTreeMap;

/// State slice and line slice as the library left them, with the pool beside them.
#[derive(Clone, Debug)]
pub struct Reached {
    pub state: Vec<u8>,
    pub line: Vec<u8>,
    pub pool: Vec<u8>,
}

impl Reached {
    pub fn of(run: &Run) -> Reached {
        Reached {
            state: run.pair.state().to_vec(),
            line: run.pair.line().to_vec(),
            pool: run.pair.pool().to_vec(),
        }
    }

    /// As the model reads them.
    pub fn read(&self) -> (State, Line) {
        let state = read_state(&self.state).expect("a reached state");
        let line = read_line(&self.line, &state).expect("a reached line");
        (state, line)
    }

    /// With the pool, for choosing a call.
    pub fn now<'a>(&'a self, read: &'a (State, Line)) -> Now<'a> {
        Now {
            state: &read.0,
            line: &read.1,
            pool: &self.pool,
        }
    }
}

/// Every kind, case and entered code that can be reached: all of docs/LAYOUTS.md but a transition from off to off.
pub fn every_wait() -> Vec<[u8; 3]> {
    let mut all: Vec<[u8; 3]> = (0..7).map(|case| [0, case, 0]).collect();
    for left in 0..5 {
        all.extend(
            (0..4)
                .filter(|entered| (left, *entered) != (0, 0))
                .map(|entered| [1, left, entered]),
        );
    }
    all.extend((0..3).map(|case| [2, case, 0]));
    all.push([3, 0, 0]);
    all.extend((0..4).map(|case| [4, case, 0]));
    all.push([5, 0, 0]);
    all
}

/// How many wait in the first, second .. state that is taken of a wait: in five of them 0 to 4, in fewer not the same in each wait.
/// The Tx that OutboundSeen named waits in its stop and its ask.
fn to_wait(codes: [u8; 3], taken: usize) -> usize {
    let named = codes == [4, 1, 0] || codes == [0, 1, 0];
    let first: usize = codes.iter().map(|code| usize::from(*code)).sum();
    [2, 0, 4, 1, 3][(first + taken) % 5].max(usize::from(named))
}

/// The run after arrivals or withdrawals, which change the line alone, until so many wait; nothing if that takes too many.
fn with_waiting(run: &Run, rng: &mut Rng, waiting: usize) -> Option<Run> {
    let mut run = run.clone();
    for _ in 0..30 {
        let raw = match run.read.1 .0.len().cmp(&waiting) {
            Ordering::Equal => return Some(run),
            Ordering::Less => choose::arrive(rng, run.now()),
            Ordering::Greater => choose::withdraw(rng, run.now()),
        };
        run.step(Step::Call(raw)).unwrap_or_else(|wrong| panic!("{wrong}"));
    }
    None
}

/// So many states of every wait for each checksum length, with small pools.
pub fn collect(seed: u64, of_each: usize) -> Vec<Reached> {
    let mut found: BTreeMap<([u8; 3], u8), Vec<Reached>> = BTreeMap::new();
    let mut rng = Rng::new(seed);
    let missing = |found: &BTreeMap<([u8; 3], u8), Vec<Reached>>| {
        let full = found.values().filter(|states| states.len() >= of_each).count();
        full < 2 * every_wait().len()
    };
    let mut runs = 0;
    while missing(&found) {
        runs += 1;
        assert!(runs < 100_000, "some waits are not reached: {:?}", found.keys());
        let mut start = choose::settings(&mut rng);
        if start.count > 10 {
            continue;
        }
        start.fcs_length = [2, 4][runs % 2];
        let opening = Opening {
            start,
            fill: rng.number(),
        };
        let mut run = Run::open(opening).unwrap_or_else(|wrong| panic!("{wrong}"));
        for _ in 0..60 {
            if let Err(wrong) = run.random_step(&mut rng) {
                fail(seed, &run, &wrong);
            }
            let states = found.entry((run.codes(), start.fcs_length)).or_default();
            if states.len() < of_each && rng.chance(20) {
                let waiting = to_wait(run.codes(), states.len());
                states.extend(with_waiting(&run, &mut rng, waiting).map(|run| Reached::of(&run)));
            }
        }
    }
    found.into_values().flatten().collect()
}
