//! Document 01, "Calls", and document 02, E1 and E6: what the host and the radio say, and what is replied; and the numbers of
//! docs/LAYOUTS.md they stand for.
use super::settings::Spacing;

#[derive(Clone, Copy, Debug, PartialEq, Eq)]
pub enum Start {
    BestEffort,
    At(u64),
}

/// "token (32 bits), direction, start (best effort or a time), buffer, and for Tx the length without checksum and a channel-check
/// flag."
#[derive(Clone, Copy, Debug, PartialEq, Eq)]
pub enum Request {
    Tx {
        token: u32,
        start: Start,
        buffer: u8,
        length: u16,
        check: bool,
    },
    Rx {
        token: u32,
        start: Start,
        buffer: u8,
    },
}

impl Request {
    pub fn token(&self) -> u32 {
        let (Request::Tx { token, .. } | Request::Rx { token, .. }) = *self;
        token
    }

    pub fn start(&self) -> Start {
        let (Request::Tx { start, .. } | Request::Rx { start, .. }) = *self;
        start
    }

    pub fn buffer(&self) -> u8 {
        let (Request::Tx { buffer, .. } | Request::Rx { buffer, .. }) = *self;
        buffer
    }

    pub fn transmits(&self) -> bool {
        matches!(self, Request::Tx { .. })
    }
}

/// "A receive result is frame (length without checksum, time), window ended, or CRC error (time)". E6: "The receive results "frame"
/// and "CRC error" gain the standard's link quality, one byte".
#[derive(Clone, Copy, Debug, PartialEq, Eq)]
pub enum Received {
    Frame { length: u16, time: u64, quality: u8 },
    WindowEnded,
    CrcError { time: u64, quality: u8 },
}

/// "previous task's result": "a transmit result is the time sent. Off has no result."
#[derive(Clone, Copy, Debug, PartialEq, Eq)]
pub enum Outcome {
    Off,
    Sent(u64),
    Received(Received),
}

/// "cause (scheduling with or without a time, or task)"
#[derive(Clone, Copy, Debug, PartialEq, Eq)]
pub enum Cause {
    Scheduling,
    SchedulingAt(u64),
    Task,
}

/// "Stopped: frame started, window ended with receive result, or failed."
#[derive(Clone, Copy, Debug, PartialEq, Eq)]
pub enum Stop {
    FrameStarted,
    WindowEnded(Received),
    Failed,
}

/// E1: "Requests arrive and may be withdrawn by token in every wait, and leave when the service asks." "a Request, now without fields".
#[derive(Clone, Copy, Debug, PartialEq, Eq)]
pub enum Call {
    Arrive(Request),
    Withdraw(u32),
    Request,
    None,
    FrameStart,
    OutboundSeen(Start, bool),
    Stopped(Stop),
    Header { arrived: u16, length: u16 },
    Entered(Outcome, u64),
    Fallback(Outcome, Cause),
    Rollback,
}

/// What a request came to.
#[derive(Clone, Copy, Debug, PartialEq, Eq)]
pub enum CameTo {
    Sent(u64),
    Nack(u64),
    Error(Cause),
    Received(Received),
}

/// "Every answer returns one buffer".
#[derive(Clone, Copy, Debug, PartialEq, Eq)]
pub struct Answer {
    pub token: u32,
    pub buffer: u8,
    pub came_to: CameTo,
}

/// A Tx or Rx for the radio.
#[derive(Clone, Copy, Debug, PartialEq, Eq)]
pub struct Task {
    pub buffer: u8,
    pub start: Start,
    pub spacing: Option<Spacing>,
    pub rollback: bool,
}

/// "one radio or queue action"; nothing where a call changes the line alone.
#[derive(Clone, Copy, Debug, PartialEq, Eq)]
pub enum Action {
    Nothing,
    WaitForRequest,
    Ask,
    AskOutbound,
    Listen,
    Stop,
    StopAt(u64),
    StopBefore(u64, bool),
    ReadHeader,
    Tx { task: Task, length: u16, check: bool },
    Rx(Task),
    Off { rollback: bool },
}

/// "one radio or queue action and up to two answers, the earlier request's first."
#[derive(Clone, Copy, Debug, PartialEq, Eq)]
pub struct Reply {
    pub action: Action,
    pub first: Option<Answer>,
    pub second: Option<Answer>,
}

/// A call as the numbers that the exported function takes.
#[derive(Clone, Copy, Debug, PartialEq, Eq)]
pub enum Raw {
    Arrive {
        token: u32,
        direction: u8,
        start: u8,
        time: u64,
        buffer: u8,
        length: u16,
        cca: u8,
    },
    Withdraw {
        token: u32,
    },
    Request,
    None,
    FrameStart,
    OutboundSeen {
        start: u8,
        time: u64,
        cca: u8,
    },
    Stopped {
        outcome: u8,
        length: u16,
        time: u64,
        quality: u8,
    },
    Header {
        arrived: u16,
        length: u16,
    },
    Entered {
        result: u8,
        length: u16,
        time: u64,
        entry: u64,
        quality: u8,
    },
    Fallback {
        result: u8,
        length: u16,
        time: u64,
        cause: u8,
        cause_time: u64,
        quality: u8,
    },
    Rollback,
}

/// The numbers of `widosha_start`.
#[derive(Clone, Copy, Debug, PartialEq, Eq)]
pub struct RawStart {
    pub count: u8,
    pub headroom: u8,
    pub tailroom: u8,
    pub fcs_length: u8,
    pub hardware_addr: u64,
    pub pan_id: u16,
    pub implicit_broadcast: u8,
    pub ack_buffer: u8,
    pub spare_buffer: u8,
}

fn yes_or_no(code: u8) -> Option<bool> {
    match code {
        0 => Some(false),
        1 => Some(true),
        _ => None,
    }
}

fn start_of(code: u8, time: u64) -> Option<Start> {
    match code {
        0 => Some(Start::BestEffort),
        1 => Some(Start::At(time)),
        _ => None,
    }
}

/// Codes 2 to 4, which stand for the same in `outcome` and `result`.
fn received_of(code: u8, length: u16, time: u64, quality: u8) -> Option<Received> {
    match code {
        2 => Some(Received::Frame { length, time, quality }),
        3 => Some(Received::WindowEnded),
        4 => Some(Received::CrcError { time, quality }),
        _ => None,
    }
}

fn stop_of(code: u8, length: u16, time: u64, quality: u8) -> Option<Stop> {
    match code {
        0 => Some(Stop::FrameStarted),
        1 => Some(Stop::Failed),
        _ => received_of(code, length, time, quality).map(Stop::WindowEnded),
    }
}

fn outcome_of(code: u8, length: u16, time: u64, quality: u8) -> Option<Outcome> {
    match code {
        0 => Some(Outcome::Off),
        1 => Some(Outcome::Sent(time)),
        _ => received_of(code, length, time, quality).map(Outcome::Received),
    }
}

fn cause_of(code: u8, time: u64) -> Option<Cause> {
    match code {
        0 => Some(Cause::Scheduling),
        1 => Some(Cause::SchedulingAt(time)),
        2 => Some(Cause::Task),
        _ => None,
    }
}

impl Raw {
    pub fn arrive(token: u32, direction: u8, start: u8, time: u64, buffer: u8, length: u16, cca: u8) -> Raw {
        Raw::Arrive {
            token,
            direction,
            start,
            time,
            buffer,
            length,
            cca,
        }
    }

    pub fn withdraw(token: u32) -> Raw {
        Raw::Withdraw { token }
    }

    pub fn outbound_seen(start: u8, time: u64, cca: u8) -> Raw {
        Raw::OutboundSeen { start, time, cca }
    }

    pub fn stopped(outcome: u8, length: u16, time: u64, quality: u8) -> Raw {
        Raw::Stopped {
            outcome,
            length,
            time,
            quality,
        }
    }

    pub fn header(arrived: u16, length: u16) -> Raw {
        Raw::Header { arrived, length }
    }

    pub fn entered(result: u8, length: u16, time: u64, entry: u64, quality: u8) -> Raw {
        Raw::Entered {
            result,
            length,
            time,
            entry,
            quality,
        }
    }

    pub fn fallback(result: u8, length: u16, time: u64, cause: u8, cause_time: u64, quality: u8) -> Raw {
        Raw::Fallback {
            result,
            length,
            time,
            cause,
            cause_time,
            quality,
        }
    }

    /// The number `quality` of the calls that have one.
    pub fn quality(&mut self) -> Option<&mut u8> {
        match self {
            Raw::Stopped { quality, .. } | Raw::Entered { quality, .. } | Raw::Fallback { quality, .. } => Some(quality),
            _ => None,
        }
    }

    /// The call that the numbers stand for, or nothing if one of them is "a code that stands for nothing". "A number that the codes
    /// leave unused is ignored, whatever it is".
    pub fn call(self) -> Option<Call> {
        Some(match self {
            Raw::Arrive { .. } => Call::Arrive(self.arriving()?),
            Raw::Withdraw { token } => Call::Withdraw(token),
            Raw::Request => Call::Request,
            Raw::None => Call::None,
            Raw::FrameStart => Call::FrameStart,
            Raw::OutboundSeen { start, time, cca } => Call::OutboundSeen(start_of(start, time)?, yes_or_no(cca)?),
            Raw::Stopped {
                outcome,
                length,
                time,
                quality,
            } => Call::Stopped(stop_of(outcome, length, time, quality)?),
            Raw::Header { arrived, length } => Call::Header { arrived, length },
            Raw::Entered {
                result,
                length,
                time,
                entry,
                quality,
            } => Call::Entered(outcome_of(result, length, time, quality)?, entry),
            Raw::Fallback {
                result,
                length,
                time,
                cause,
                cause_time,
                quality,
            } => Call::Fallback(outcome_of(result, length, time, quality)?, cause_of(cause, cause_time)?),
            Raw::Rollback => Call::Rollback,
        })
    }

    /// The request that the numbers of `widosha_arrive` stand for.
    fn arriving(self) -> Option<Request> {
        let Raw::Arrive {
            token,
            direction,
            start,
            time,
            buffer,
            length,
            cca,
        } = self
        else {
            return None;
        };
        let start = start_of(start, time)?;
        match direction {
            0 => Some(Request::Tx {
                token,
                start,
                buffer,
                length,
                check: yes_or_no(cca)?,
            }),
            1 => Some(Request::Rx { token, start, buffer }),
            _ => None,
        }
    }

    /// Which of the eleven calls it is, for counting.
    pub fn kind(self) -> usize {
        match self {
            Raw::Arrive { .. } => 0,
            Raw::Withdraw { .. } => 1,
            Raw::Request => 2,
            Raw::None => 3,
            Raw::FrameStart => 4,
            Raw::OutboundSeen { .. } => 5,
            Raw::Stopped { .. } => 6,
            Raw::Header { .. } => 7,
            Raw::Entered { .. } => 8,
            Raw::Fallback { .. } => 9,
            Raw::Rollback => 10,
        }
    }
}

pub const CALL_NAMES: [&str; 11] = [
    "Arrive",
    "Withdraw",
    "Request",
    "None",
    "FrameStart",
    "OutboundSeen",
    "Stopped",
    "Header",
    "Entered",
    "Fallback",
    "Rollback",
];
