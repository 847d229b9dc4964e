//! Drivers that are loose in one place. Each is the model of the documents with a pair of spectacles: where its loosened rule takes a
//! received frame for the awaited ACK, the model is told that this very ACK was received. All else the model does, line, waits and
//! answers, is as it is. None of these rules is anywhere in the proved driver.
use crate::model::documents::calls::{Action, Answer, Call, CameTo, Outcome, Received, Reply};
use crate::model::documents::engine::{Awaited, Left, State, Wait};

/// What the driver ignores.
#[derive(Clone, Copy, Debug, PartialEq, Eq)]
pub enum Ignores {
    Nothing,
    /// Bit 0 of the number.
    LowestBit,
    /// Bit 4 of control.
    PendingBit,
    /// That the frame has three bytes and no more.
    Length,
    /// That the ACK's window has ended: the next frame that is received then, in whatever wait, is looked at as if it came in its own.
    Wait,
}

/// What a driver ignores, and what it has of frames whose ACK's window has ended, if that is what it ignores.
pub struct Loose {
    ignores: Ignores,
    /// The frame whose ACK's window has ended, until it is to be answered.
    ended: Option<Awaited>,
    /// The same from then on, its Nack held back, until a frame has arrived or another is to be sent.
    late: Option<Awaited>,
    /// Its answer, until a reply has room for it.
    due: Option<Answer>,
}

/// Whether a frame is taken for the ACK of this number.
fn takes(ignores: Ignores, frame: &[u8], number: u8) -> bool {
    let [low, high, third, ..] = *frame else { return false };
    let control = u16::from_le_bytes([low, high]);
    let lowest = u8::from(ignores == Ignores::LowestBit);
    let pending = u16::from(ignores == Ignores::PendingBit) << 4;
    let length = frame.len() == 3 || ignores == Ignores::Length;
    length && control & 0xefff & !pending == 2 && third | lowest == number | lowest
}

/// The frame that a call tells of, as it stands in this buffer.
fn frame_told<'a>(state: &State, call: &Call, buffer: u8, pool: &'a [u8]) -> Option<&'a [u8]> {
    match call {
        Call::Entered(Outcome::Received(Received::Frame { length, .. }), _)
        | Call::Fallback(Outcome::Received(Received::Frame { length, .. }), _) => {
            let frame = pool.get(state.settings.frame(buffer)..)?;
            frame.get(..usize::from(*length))
        }
        _ => None,
    }
}

/// The same call of a frame of three bytes.
fn of_three_bytes(call: &Call) -> Call {
    let mut call = *call;
    if let Call::Entered(Outcome::Received(Received::Frame { length, .. }), _)
    | Call::Fallback(Outcome::Received(Received::Frame { length, .. }), _) = &mut call
    {
        *length = 3;
    }
    call
}

/// A reply has the answer before its own, if it has room.
fn put_first(said: &mut Reply, due: &mut Option<Answer>) {
    if due.is_some() && said.second.is_none() {
        said.second = said.first.take();
        said.first = due.take();
    }
}

fn answer(awaited: &Awaited, came_to: CameTo) -> Option<Answer> {
    Some(Answer {
        token: awaited.tx.token,
        buffer: awaited.tx.buffer,
        came_to,
    })
}

impl Loose {
    pub fn of(ignores: Ignores) -> Self {
        Loose {
            ignores,
            ended: None,
            late: None,
            due: None,
        }
    }

    /// What the model is told instead of a call, and which bytes it finds at the beginning of which buffer's frame.
    pub fn told(&self, state: &State, call: &Call, pool: &[u8]) -> (Call, Option<(u8, [u8; 3])>) {
        let spare = state.settings.spare;
        if let Wait::Change(Left::ReceivingAck(awaited), _) = &state.wait {
            let frame = frame_told(state, call, spare, pool);
            if frame.is_some_and(|frame| takes(self.ignores, frame, awaited.number)) {
                return (of_three_bytes(call), Some((spare, [0x02, 0x00, awaited.number])));
            }
        }
        (*call, None)
    }

    /// What is said instead of what the model says to an accepted call, which it was told in this state.
    pub fn says(&mut self, state: &State, call: &Call, pool: &[u8], said: &mut Reply) {
        if self.ignores == Ignores::Wait {
            self.hold_back(state, call, said);
            self.decide(state, call, pool, said);
            put_first(said, &mut self.due);
        }
    }

    /// The Nack of a window that has ended is not said.
    fn hold_back(&mut self, state: &State, call: &Call, said: &mut Reply) {
        match (&state.wait, call) {
            (Wait::StopForAck(awaited) | Wait::StopForAckAgain(awaited), Call::Stopped(_)) => self.ended = Some(*awaited),
            (Wait::AfterAckWindow(..), Call::Request | Call::None) => {
                said.first = None;
                self.late = self.ended.take();
            }
            _ => {}
        }
    }

    /// The next frame that arrives decides, or that another is to be sent.
    fn decide(&mut self, state: &State, call: &Call, pool: &[u8], said: &Reply) {
        let Some(late) = self.late else { return };
        let received_in = match &state.wait {
            Wait::Rearm(rx) | Wait::AckTurn(rx, _) | Wait::Change(Left::Receiving(rx), _) => Some(rx.buffer),
            _ => None,
        };
        let frame = received_in.and_then(|buffer| frame_told(state, call, buffer, pool));
        let came_to = match frame {
            Some(frame) if takes(self.ignores, frame, late.number) => CameTo::Sent(late.sent),
            Some(_) => CameTo::Nack(late.sent),
            None if matches!(said.action, Action::Tx { .. }) => CameTo::Nack(late.sent),
            None => return,
        };
        self.due = answer(&late, came_to);
        self.late = None;
    }
}
