//! What calls meet on the waiting line: each refusal by its cause, and what leaves in front of what.
use super::run::Run;
use crate::model::bytes::codes;
use crate::model::calls::{Call, Raw, Request, Start};
use crate::model::engine::State;
use crate::model::header::Control;
use crate::model::line::Line;
use std::collections::BTreeMap;

#[derive(Clone, Copy, Debug, PartialEq, Eq, PartialOrd, Ord)]
pub enum Met {
    /// An accepted arrival, an accepted withdrawal.
    Arrived,
    Withdrawn,
    /// 6 and 7 of an arrival, by a request that has left and by one that waits.
    TokenLeft,
    BufferLeft,
    BufferWaits,
    /// 12, and 13 of an arrival.
    Full,
    TokenWaits,
    /// 13 of a withdrawal: by a token that nobody has, by one that has left, and by the Tx that OutboundSeen named.
    NoToken,
    LeftAlready,
    Named,
    /// 9.
    NothingToTake,
    /// None is refused for what waits, or accepted though something waits that the wait does not allow.
    AllowedWaits,
    OthersWait,
    /// OutboundSeen is refused while listening.
    NoTxSeen,
    OtherStartSeen,
    OtherFlagSeen,
    /// A request leaves in front of an earlier arrival; best effort in front of a timed one; a Tx in front of a Tx.
    Passes,
    BestEffortPasses,
    TxPasses,
    /// Between arrival and leaving the host changed whether the frame of a Tx wants an ACK, or its number.
    WantChanged,
    NumberChanged,
}

/// All of them, in order.
pub const EVERY_MET: [Met; 21] = [
    Met::Arrived,
    Met::Withdrawn,
    Met::TokenLeft,
    Met::BufferLeft,
    Met::BufferWaits,
    Met::Full,
    Met::TokenWaits,
    Met::NoToken,
    Met::LeftAlready,
    Met::Named,
    Met::NothingToTake,
    Met::AllowedWaits,
    Met::OthersWait,
    Met::NoTxSeen,
    Met::OtherStartSeen,
    Met::OtherFlagSeen,
    Met::Passes,
    Met::BestEffortPasses,
    Met::TxPasses,
    Met::WantChanged,
    Met::NumberChanged,
];

pub const IDLE: [u8; 3] = [0, 0, 0];
/// The ask after the window that OutboundSeen ended, and its stop.
pub const NAMED: [[u8; 3]; 2] = [[0, 1, 0], [4, 1, 0]];
/// Asks of "Tx any start, Rx best effort": receiving, and for an awaited ACK: its window has ended, or its frame has started.
pub const TX_OR_BEST_EFFORT: [[u8; 3]; 3] = [[0, 2, 0], [0, 3, 0], [0, 6, 0]];
/// Asks of "Tx and Rx best effort only": sending a frame or an ACK.
pub const BEST_EFFORT: [[u8; 3]; 2] = [[0, 4, 0], [0, 5, 0]];

impl Met {
    /// The waits in which it can be met, of all of them.
    pub fn waits(self, every_wait: &[[u8; 3]]) -> Vec<[u8; 3]> {
        let taking_none = [&TX_OR_BEST_EFFORT[..], &BEST_EFFORT].concat();
        let can_be: Vec<[u8; 3]> = match self {
            Met::Named => NAMED.to_vec(),
            // Asked for the Tx that OutboundSeen named, the line has it: never 9.
            Met::NothingToTake => [&taking_none[..], &[IDLE]].concat(),
            Met::AllowedWaits | Met::OthersWait => taking_none,
            Met::NoTxSeen | Met::OtherStartSeen | Met::OtherFlagSeen => vec![[3, 0, 0]],
            // In idle the first of the line leaves.
            Met::Passes | Met::BestEffortPasses => [&taking_none[..], &NAMED[..1]].concat(),
            Met::TxPasses => BEST_EFFORT.to_vec(),
            Met::WantChanged | Met::NumberChanged => [&taking_none[..], &[IDLE], &NAMED[..1]].concat(),
            // Only with a request that has left: not where the radio is off or sends an ACK, with nothing to enter.
            Met::TokenLeft | Met::BufferLeft | Met::LeftAlready => {
                let none_left = [IDLE, [0, 5, 0], [1, 3, 0]];
                every_wait.iter().copied().filter(|wait| !none_left.contains(wait)).collect()
            }
            Met::Arrived | Met::Withdrawn | Met::BufferWaits | Met::Full | Met::TokenWaits | Met::NoToken => every_wait.to_vec(),
        };
        every_wait.iter().copied().filter(|wait| can_be.contains(wait)).collect()
    }
}

/// State and line before a call.
pub struct Before {
    pub state: State,
    pub line: Line,
}

impl Before {
    pub fn of(run: &Run) -> Before {
        let (state, line) = run.read.clone();
        Before { state, line }
    }

    /// Kind, case and what is entered.
    pub fn wait(&self) -> [u8; 3] {
        codes(&self.state.wait)
    }

    fn has_left(&self, test: impl Fn((u32, u8)) -> bool) -> bool {
        self.state.wait.open().into_iter().flatten().any(test)
    }

    /// What a call that returned this number met, but for what the host did to a frame.
    pub fn met(&self, raw: &Raw, returned: u8) -> Vec<Met> {
        let Some(call) = raw.call() else { return Vec::new() };
        match (call, returned) {
            (Call::Arrive(_), 0) => vec![Met::Arrived],
            (Call::Arrive(_), 6) => vec![Met::TokenLeft],
            (Call::Arrive(request), 7) if self.line.holds(request.buffer()) => vec![Met::BufferWaits],
            (Call::Arrive(request), 7) if self.has_left(|open| open.1 == request.buffer()) => vec![Met::BufferLeft],
            (Call::Arrive(_), 12) => vec![Met::Full],
            (Call::Arrive(_), 13) => vec![Met::TokenWaits],
            (Call::Withdraw(_), 0) => vec![Met::Withdrawn],
            (Call::Withdraw(token), _) if self.line.place_of(token).is_some() => vec![Met::Named],
            (Call::Withdraw(token), _) if self.has_left(|open| open.0 == token) => vec![Met::LeftAlready],
            (Call::Withdraw(_), _) => vec![Met::NoToken],
            (Call::Request, 9) => vec![Met::NothingToTake],
            (Call::Request, 0) => self.passed(),
            (Call::None, 5) if self.takes_none() && self.leaving().is_some() => vec![Met::AllowedWaits],
            (Call::None, 0) if !self.line.0.is_empty() => vec![Met::OthersWait],
            (Call::OutboundSeen(start, flag), 5) if self.wait() == [3, 0, 0] => self.not_seen(start, flag),
            _ => Vec::new(),
        }
    }

    fn takes_none(&self) -> bool {
        TX_OR_BEST_EFFORT.contains(&self.wait()) || BEST_EFFORT.contains(&self.wait())
    }

    /// The request that leaves.
    pub fn leaving(&self) -> Option<Request> {
        Some(self.line.0[self.state.leaves(&self.line)??])
    }

    fn passed(&self) -> Vec<Met> {
        let Some(leaving) = self.leaving() else { return Vec::new() };
        let timed = |request: &Request| request.start() != Start::BestEffort;
        let earlier: Vec<&Request> = self.line.0.iter().take_while(|request| **request != leaving).collect();
        let tests = [
            (Met::Passes, !earlier.is_empty()),
            (
                Met::BestEffortPasses,
                !timed(&leaving) && earlier.iter().any(|other| timed(other)),
            ),
            (
                Met::TxPasses,
                leaving.transmits() && earlier.iter().any(|other| other.transmits()),
            ),
        ];
        tests.into_iter().filter(|test| test.1).map(|test| test.0).collect()
    }

    fn not_seen(&self, seen: Start, flag: bool) -> Vec<Met> {
        let Some(Request::Tx { start, check, .. }) = self.line.earliest_tx() else {
            return vec![Met::NoTxSeen];
        };
        // Only one thing is other, so that no other test could have refused it.
        match (*start == seen, *check == flag) {
            (false, true) => vec![Met::OtherStartSeen],
            (true, false) => vec![Met::OtherFlagSeen],
            _ => Vec::new(),
        }
    }
}

/// Control and number of the frames of Tx requests as they stood in the pool at arrival, by token.
#[derive(Default)]
pub struct Frames(BTreeMap<u32, [u8; 3]>);

/// The number that is noted of a frame that begins so.
fn noted(frame: [u8; 3]) -> Option<u8> {
    let control = Control(u16::from_le_bytes([frame[0], frame[1]]));
    (control.wants_ack() && !control.suppressed()).then_some(frame[2])
}

impl Frames {
    /// After an accepted call: what the host changed of the frame of a Tx that leaves, since its arrival.
    pub fn changed(&mut self, before: &Before, raw: &Raw, pool: &[u8]) -> Option<Met> {
        let frame = |request: &Request| {
            let at = before.state.settings.frame(request.buffer());
            [pool[at], pool[at + 1], pool[at + 2]]
        };
        if let Some(Call::Arrive(request)) = raw.call() {
            self.0.insert(request.token(), frame(&request));
        }
        let leaving = before
            .leaving()
            .filter(|request| *raw == Raw::Request && request.transmits())?;
        let arrived = self.0.get(&leaving.token())?;
        match (noted(*arrived), noted(frame(&leaving))) {
            (Some(old), Some(new)) if old != new => Some(Met::NumberChanged),
            (old, new) if old.is_some() != new.is_some() => Some(Met::WantChanged),
            _ => None,
        }
    }
}

/// How often each was met, by the wait.
#[derive(Default)]
pub struct Tally(BTreeMap<Met, BTreeMap<[u8; 3], u64>>);

impl Tally {
    pub fn add(&mut self, met: Met, wait: [u8; 3]) {
        *self.0.entry(met).or_default().entry(wait).or_default() += 1;
    }

    pub fn total(&self, met: Met) -> u64 {
        self.0.get(&met).map_or(0, |waits| waits.values().sum())
    }

    /// The waits in which it was met, in order.
    pub fn waits(&self, met: Met) -> Vec<[u8; 3]> {
        self.0
            .get(&met)
            .map_or_else(Vec::new, |waits| waits.keys().copied().collect())
    }
}
