//! Document 01, "Waits", by calls and replies alone: what is asked for "in the wait that document 01 gives for the calls so far"
//! (document 02, E1), and what the radio does.
use super::calls::{Call, Raw, Request, Start, Stop};

/// What is asked for.
#[derive(Clone, Copy, Debug, PartialEq, Eq)]
pub enum Asked {
    Nothing,
    Anything,
    Outbound,
    TxOrBestEffort,
    BestEffort,
}

impl Asked {
    /// By the last accepted call that was not on the line, and the code of its action.
    fn after(call: &Call, action: u8) -> Asked {
        match (action, call) {
            // "wait for a request". "Idle: Request, any direction and start".
            (1, _) => Asked::Anything,
            // "ask for an outbound request".
            (3, _) => Asked::Outbound,
            // What Entered asks for, it asks for with the radio sending. "ACK turn: Entered answers the receive result, then sending
            // without a token"; "Sending otherwise: ask; Tx and Rx best effort only".
            (2, Call::Entered(..)) => Asked::BestEffort,
            // After Header, "Receiving, asked: Tx any start, Rx best effort". After Stopped, for an awaited ACK: "Window ended: ask; ..
            // the Request (Tx any start, Rx best effort) or None"; "Frame started: ask as when receiving".
            (2, _) => Asked::TxOrBestEffort,
            _ => Asked::Nothing,
        }
    }

    /// "whose direction and start the wait allows"
    pub fn allows(self, request: &Request) -> bool {
        let best_effort = request.start() == Start::BestEffort;
        match self {
            Asked::Nothing => false,
            Asked::Anything => true,
            Asked::Outbound => request.transmits(),
            Asked::TxOrBestEffort => request.transmits() || best_effort,
            Asked::BestEffort => best_effort,
        }
    }

    /// "where a wait takes None": not in idle, and "ask for an outbound request (None does not fit)".
    pub fn takes_none(self) -> bool {
        matches!(self, Asked::TxOrBestEffort | Asked::BestEffort)
    }
}

#[derive(Clone, Copy, Debug, PartialEq, Eq)]
enum Radio {
    Off,
    Receives,
    Sends,
}

/// What the last accepted call that was not on the line was told, and what the radio does.
#[derive(Clone, Copy, Debug)]
pub struct Told {
    pub asked: Asked,
    /// The action's code, and whether it has rollback on.
    pub action: u8,
    pub rollback: bool,
    radio: Radio,
    /// What the radio is to do.
    next: Radio,
}

impl Told {
    pub fn by_start() -> Told {
        Told {
            asked: Asked::Anything,
            action: 1,
            rollback: false,
            radio: Radio::Off,
            next: Radio::Off,
        }
    }

    /// The radio is where the calls say that it is: after Entered in what the last action named; after Fallback and after a window that
    /// ended, off. Rollback leaves it where it was.
    pub fn after(self, call: &Call, reply: &[u8]) -> Told {
        Told {
            asked: Asked::after(call, reply[0]),
            action: reply[0],
            rollback: reply[0] >= 9 && reply[3] & 2 != 0,
            radio: match call {
                Call::Entered(..) => self.next,
                Call::Fallback(..) | Call::Stopped(Stop::WindowEnded(_)) => Radio::Off,
                _ => self.radio,
            },
            next: match reply[0] {
                9 => Radio::Sends,
                10 => Radio::Receives,
                _ => Radio::Off,
            },
        }
    }

    /// Entered, with a result of what the radio does: off, sent, or a frame of one byte.
    pub fn entered(&self) -> Raw {
        let result = match self.radio {
            Radio::Off => 0,
            Radio::Sends => 1,
            Radio::Receives => 2,
        };
        Raw::entered(result, 1, 0, 0, 0)
    }
}
