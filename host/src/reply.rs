//! What the service says to a call: an action and up to two answers, decoded from the reply's 48 bytes.
use crate::call::{Cause, RxResult, Timestamp};
use crate::ffi::{self, REPLY_LENGTH};
use crate::time::LocalClockInstant;

/// The spacings between frames.
#[derive(Clone, Copy, Debug, PartialEq, Eq)]
pub enum Ifs {
    /// Before an acknowledgement.
    Aifs,
    /// After a short frame.
    Sifs,
    /// After a long frame.
    Lifs,
}

/// The spacing before a scheduled task.
#[derive(Clone, Copy, Debug, PartialEq, Eq)]
pub enum Spacing {
    /// None is kept.
    None,
    /// This one, after the end of the radio's present task.
    After(Ifs),
}

/// Which requests an ask takes.
#[derive(Clone, Copy, Debug, PartialEq, Eq)]
pub enum TaskDirection {
    /// Any that the wait allows; if none such waits, None is the call to make.
    Any,
    /// The outbound request that was seen.
    Outbound,
}

/// How a listening radio is to be stopped.
#[derive(Clone, Copy, Debug, PartialEq, Eq)]
pub enum StopListening {
    /// At once.
    Now,
    /// At this time.
    At(LocalClockInstant),
    /// Early enough for a transmission.
    Before {
        /// The transmission's start.
        start: LocalClockInstant,
        /// Its channel-check flag.
        cca: bool,
    },
}

/// What the radio or the host is to do. A host has to do each of them, and no request of document 02 adds one: an action that came
/// later is to keep a host from compiling.
#[derive(Clone, Copy, Debug, PartialEq, Eq)]
pub enum Action {
    /// Nothing new: a request has arrived in the line or was withdrawn, and what was to be done before still is.
    Nothing,
    /// Wait for a request.
    ReceiveRequest,
    /// Ask whether a request waits.
    TryReceiveRequest(TaskDirection),
    /// Listen.
    Listen,
    /// Stop listening.
    Stop(StopListening),
    /// Read the header of the frame that is being received.
    ReadHeader,
    /// Send.
    Tx {
        /// The buffer of the frame.
        buffer: u8,
        /// Its length without checksum.
        length: u8,
        /// Whether the channel is checked before.
        cca: bool,
        /// When.
        start: Timestamp,
        /// The spacing before it.
        spacing: Spacing,
        /// Whether the radio goes back to listening if the present frame turns out to be damaged.
        rollback: bool,
    },
    /// Receive.
    Rx {
        /// The buffer for the frame.
        buffer: u8,
        /// When.
        start: Timestamp,
        /// The spacing before it.
        spacing: Spacing,
        /// As in Tx.
        rollback: bool,
    },
    /// Switch off.
    Off {
        /// As in Tx.
        rollback: bool,
    },
}

/// What a request came to: for transmit Sent, Nack and errors, for receive a receive result.
#[derive(Clone, Copy, Debug, PartialEq, Eq)]
pub enum Response {
    /// The frame was sent and, if it wanted an acknowledgement, acknowledged.
    Sent {
        /// When it was sent.
        time: LocalClockInstant,
    },
    /// The frame was sent and not acknowledged.
    Nack {
        /// When it was sent.
        time: LocalClockInstant,
    },
    /// The frame was not sent.
    Error(Cause),
    /// What receiving came to.
    Received(RxResult),
}

impl Response {
    /// The link quality of the frame or the CRC error that a receive request came to; no other answer has one. A Sent has none
    /// either: that of the acknowledgement is not told.
    pub const fn quality(self) -> Option<u8> {
        match self {
            Response::Received(result) => result.quality(),
            Response::Sent { .. } | Response::Nack { .. } | Response::Error(_) => None,
        }
    }
}

/// The answer to a request. Request E8 of document 02 adds the identity that the request named.
#[derive(Clone, Copy, Debug, PartialEq, Eq)]
#[non_exhaustive]
pub struct Answer {
    /// The request's token.
    pub token: u32,
    /// The buffer that is returned. A received frame stands in it, and `DriverService::received` gives it; it need not be the
    /// request's own.
    pub buffer: u8,
    /// What the request came to.
    pub response: Response,
}

impl Answer {
    /// An answer of something else than the library: of a model in the place of the service (`Service`).
    pub const fn new(token: u32, buffer: u8, response: Response) -> Self {
        Self { token, buffer, response }
    }
}

/// Up to two answers, the earlier request's first.
#[derive(Clone, Copy, Debug, PartialEq, Eq)]
pub enum Answers {
    /// No request is answered.
    None,
    /// One is.
    One(Answer),
    /// Two are.
    Two(Answer, Answer),
}

impl IntoIterator for Answers {
    type Item = Answer;
    type IntoIter = core::iter::Flatten<core::array::IntoIter<Option<Answer>, 2>>;

    fn into_iter(self) -> Self::IntoIter {
        let pair = match self {
            Answers::None => [None, None],
            Answers::One(first) => [Some(first), None],
            Answers::Two(first, second) => [Some(first), Some(second)],
        };
        pair.into_iter().flatten()
    }
}

/// What an accepted call gives.
#[derive(Clone, Copy, Debug, PartialEq, Eq)]
pub struct Reply {
    /// What is to be done next.
    pub action: Action,
    /// The requests that are answered.
    pub answers: Answers,
}

/// Bytes of the reply before the answers, and of each answer.
const ACTION_LENGTH: usize = 12;
const ANSWER_LENGTH: usize = 18;

impl Reply {
    /// The reply of an accepted call on the line. None if the bytes are not all 0.
    pub(crate) fn decode_on_line(reply: &[u8; REPLY_LENGTH]) -> Option<Self> {
        let (action, answers) = (Action::Nothing, Answers::None);
        (*reply == [0; REPLY_LENGTH]).then_some(Self { action, answers })
    }

    /// The reply of any other accepted call. None if the bytes are not those of such a one.
    pub(crate) fn decode(reply: &[u8; REPLY_LENGTH]) -> Option<Self> {
        let (action, rest) = reply.split_first_chunk::<ACTION_LENGTH>()?;
        let (first, rest) = rest.split_first_chunk::<ANSWER_LENGTH>()?;
        let second = rest.first_chunk::<ANSWER_LENGTH>()?;
        let answers = match (first[0], second[0]) {
            (ffi::ANSWER_NONE, ffi::ANSWER_NONE) => Answers::None,
            (_, ffi::ANSWER_NONE) => Answers::One(answer(first)?),
            (_, _) => Answers::Two(answer(first)?, answer(second)?),
        };
        Some(Self {
            action: decode_action(action)?,
            answers,
        })
    }
}

fn decode_action(bytes: &[u8; ACTION_LENGTH]) -> Option<Action> {
    let [code, buffer, length, flags, time @ ..] = *bytes;
    let time = LocalClockInstant::from_nanos(u64::from_le_bytes(time));
    let (flag, rollback) = (flags & ffi::FLAG_CCA != 0, flags & ffi::FLAG_ROLLBACK != 0);
    let start = if flags & ffi::FLAG_AT != 0 {
        Timestamp::Scheduled(time)
    } else {
        Timestamp::BestEffort
    };
    let spacing = match flags >> ffi::SPACING_SHIFT & 3 {
        ffi::SPACING_NONE => Spacing::None,
        ffi::SPACING_AIFS => Spacing::After(Ifs::Aifs),
        ffi::SPACING_SIFS => Spacing::After(Ifs::Sifs),
        _ => Spacing::After(Ifs::Lifs),
    };
    Some(match code {
        ffi::ACTION_RECEIVE_REQUEST => Action::ReceiveRequest,
        ffi::ACTION_TRY_RECEIVE_REQUEST => Action::TryReceiveRequest(TaskDirection::Any),
        ffi::ACTION_TRY_RECEIVE_OUTBOUND => Action::TryReceiveRequest(TaskDirection::Outbound),
        ffi::ACTION_LISTEN => Action::Listen,
        ffi::ACTION_STOP_NOW => Action::Stop(StopListening::Now),
        ffi::ACTION_STOP_AT => Action::Stop(StopListening::At(time)),
        ffi::ACTION_STOP_BEFORE => Action::Stop(StopListening::Before { start: time, cca: flag }),
        ffi::ACTION_READ_HEADER => Action::ReadHeader,
        ffi::ACTION_TX => Action::Tx {
            buffer,
            length,
            cca: flag,
            start,
            spacing,
            rollback,
        },
        ffi::ACTION_RX => Action::Rx {
            buffer,
            start,
            spacing,
            rollback,
        },
        ffi::ACTION_OFF => Action::Off { rollback },
        _ => return None,
    })
}

/// Bytes that the code leaves unused are not looked at, as in an action: the quality of any answer but 6 and 8 among them.
fn answer(bytes: &[u8; ANSWER_LENGTH]) -> Option<Answer> {
    let [code, t0, t1, t2, t3, buffer, length, n0, n1, n2, n3, n4, n5, n6, n7, quality, ..] = *bytes;
    let time = LocalClockInstant::from_nanos(u64::from_le_bytes([n0, n1, n2, n3, n4, n5, n6, n7]));
    let length = u16::from(length);
    let response = match code {
        ffi::ANSWER_SENT => Response::Sent { time },
        ffi::ANSWER_NACK => Response::Nack { time },
        ffi::ANSWER_ERROR_SCHEDULING => Response::Error(Cause::Scheduling(Timestamp::BestEffort)),
        ffi::ANSWER_ERROR_SCHEDULING_AT => Response::Error(Cause::Scheduling(Timestamp::Scheduled(time))),
        ffi::ANSWER_ERROR_TASK => Response::Error(Cause::Task),
        ffi::ANSWER_FRAME => Response::Received(RxResult::Frame { length, time, quality }),
        ffi::ANSWER_WINDOW_ENDED => Response::Received(RxResult::RxWindowEnded),
        ffi::ANSWER_CRC_ERROR => Response::Received(RxResult::CrcError { time, quality }),
        _ => return None,
    };
    Some(Answer {
        token: u32::from_le_bytes([t0, t1, t2, t3]),
        buffer,
        response,
    })
}

#[cfg(test)]
mod tests {
    use super::*;

    fn with(parts: &[(usize, &[u8])]) -> [u8; REPLY_LENGTH] {
        let mut reply = [0; REPLY_LENGTH];
        for (at, bytes) in parts {
            reply[*at..*at + bytes.len()].copy_from_slice(bytes);
        }
        reply
    }

    fn action(parts: &[(usize, &[u8])]) -> Option<Action> {
        Reply::decode(&with(parts)).map(|reply| reply.action)
    }

    #[test]
    fn actions_are_those_of_the_layouts() {
        let at: &[u8] = &[8, 7, 6, 5, 4, 3, 2, 1];
        let time = LocalClockInstant::from_nanos(0x0102_0304_0506_0708);
        assert_eq!(action(&[]), None, "only on the line");
        assert_eq!(action(&[(0, &[12])]), None);
        assert_eq!(action(&[(0, &[1])]), Some(Action::ReceiveRequest));
        assert_eq!(action(&[(0, &[2])]), Some(Action::TryReceiveRequest(TaskDirection::Any)));
        assert_eq!(action(&[(0, &[3])]), Some(Action::TryReceiveRequest(TaskDirection::Outbound)));
        assert_eq!(action(&[(0, &[4])]), Some(Action::Listen));
        assert_eq!(action(&[(0, &[5])]), Some(Action::Stop(StopListening::Now)));
        assert_eq!(action(&[(0, &[6]), (4, at)]), Some(Action::Stop(StopListening::At(time))));
        let before = Action::Stop(StopListening::Before { start: time, cca: true });
        assert_eq!(action(&[(0, &[7, 0, 0, 1]), (4, at)]), Some(before));
        assert_eq!(action(&[(0, &[8])]), Some(Action::ReadHeader));
        let tx = Action::Tx {
            buffer: 2,
            length: 12,
            cca: true,
            start: Timestamp::Scheduled(time),
            spacing: Spacing::After(Ifs::Lifs),
            rollback: false,
        };
        assert_eq!(action(&[(0, &[9, 2, 12, 0b11101]), (4, at)]), Some(tx));
        let rx = Action::Rx {
            buffer: 1,
            start: Timestamp::BestEffort,
            spacing: Spacing::After(Ifs::Aifs),
            rollback: true,
        };
        assert_eq!(action(&[(0, &[10, 1, 0, 0b01010])]), Some(rx));
        assert_eq!(action(&[(0, &[11, 0, 0, 2])]), Some(Action::Off { rollback: true }));
        assert_eq!(action(&[(0, &[11])]), Some(Action::Off { rollback: false }));
    }

    #[test]
    fn replies_on_the_line_are_all_zero() {
        let nothing = Reply {
            action: Action::Nothing,
            answers: Answers::None,
        };
        assert_eq!(Reply::decode_on_line(&with(&[])), Some(nothing));
        for place in 0..REPLY_LENGTH {
            assert_eq!(Reply::decode_on_line(&with(&[(place, &[1])])), None, "byte {place}");
        }
    }

    #[test]
    fn answers_are_those_of_the_layouts() {
        let bytes = |code| [code, 4, 3, 2, 1, 9, 11, 7, 0, 0, 0, 0, 0, 0, 0x80, 0xc5, 0xc6, 0xc7];
        let one = |code| match Reply::decode(&with(&[(0, &[1]), (12, &bytes(code))]))?.answers {
            Answers::One(Answer {
                token: 0x0102_0304,
                buffer: 9,
                response,
            }) => Some(response),
            _ => None,
        };
        let (length, time, quality) = (11, LocalClockInstant::from_nanos(0x8000_0000_0000_0007), 0xc5);
        let at = Timestamp::Scheduled(time);
        assert_eq!(one(1), Some(Response::Sent { time }));
        assert_eq!(one(2), Some(Response::Nack { time }));
        assert_eq!(one(3), Some(Response::Error(Cause::Scheduling(Timestamp::BestEffort))));
        assert_eq!(one(4), Some(Response::Error(Cause::Scheduling(at))));
        assert_eq!(one(5), Some(Response::Error(Cause::Task)));
        let frame = RxResult::Frame { length, time, quality };
        assert_eq!(one(6), Some(Response::Received(frame)));
        assert_eq!(one(7), Some(Response::Received(RxResult::RxWindowEnded)));
        assert_eq!(one(8), Some(Response::Received(RxResult::CrcError { time, quality })));
        assert_eq!(one(9), None);
        let two = Reply::decode(&with(&[(0, &[1]), (12, &bytes(1)), (30, &bytes(5))])).map(|reply| reply.answers);
        let mut tokens = two.into_iter().flatten().map(|answer| (answer.token, answer.response));
        assert_eq!(tokens.next(), Some((0x0102_0304, Response::Sent { time })));
        assert_eq!(tokens.next(), Some((0x0102_0304, Response::Error(Cause::Task))));
        assert_eq!(tokens.next(), None);
        assert_eq!(Reply::decode(&with(&[(0, &[1]), (30, &bytes(1))])), None);
    }

    // Byte 15 of each answer, unaltered, and of a frame or a CRC error only; the second answer has its own.
    #[test]
    fn quality_is_byte_15_of_what_was_received() {
        let qualities = |codes: [u8; 2], quality| {
            let reply = with(&[
                (0, &[1]),
                (12, &codes[..1]),
                (27, &[quality]),
                (30, &codes[1..]),
                (45, &[!quality]),
            ]);
            let answers = Reply::decode(&reply).map(|reply| reply.answers).into_iter().flatten();
            let found: std::vec::Vec<_> = answers.map(|answer| answer.response.quality()).collect();
            found
        };
        for quality in 0..=255 {
            for code in 1..=8 {
                let received = code == 6 || code == 8;
                let (this, other) = (received.then_some(quality), received.then_some(!quality));
                assert_eq!(qualities([code, 0], quality), [this], "code {code}");
                assert_eq!(qualities([code, 5], quality), [this, None], "code {code}");
                assert_eq!(qualities([1, code], quality), [None, other], "code {code}");
            }
        }
    }
}
