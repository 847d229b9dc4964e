//! Document 01, "Waits" and "Refusals, in checking order", and document 02, E1, E4 and E6: the state and what each call does with
//! it, the waiting line and the pool.
use super::calls::{Action, Answer, Call, CameTo, Cause, Outcome, Received, Reply, Request, Start, Stop, Task};
use super::header::{self, Control};
use super::line::Line;
use super::settings::{latest_ack_start, spacing, Settings, Spacing};

/// A receive request that the radio works on.
#[derive(Clone, Copy, Debug, PartialEq, Eq)]
pub struct Rx {
    pub token: u32,
    pub buffer: u8,
}

/// A transmit request that the radio works on.
#[derive(Clone, Copy, Debug, PartialEq, Eq)]
pub struct Tx {
    pub token: u32,
    pub buffer: u8,
    pub length: u16,
}

/// A sent frame whose ACK is awaited: its request, the number noted when it left the line, the time sent.
#[derive(Clone, Copy, Debug, PartialEq, Eq)]
pub struct Awaited {
    pub tx: Tx,
    pub number: u8,
    pub sent: u64,
}

/// What the radio leaves in a transition for a request.
#[derive(Clone, Copy, Debug, PartialEq, Eq)]
pub enum Left {
    Off,
    Receiving(Rx),
    Sending(Tx),
    SendingAck,
    ReceivingAck(Awaited),
}

/// What the radio enters in a transition for a request; a Tx with the number noted if its frame wants an ACK.
#[derive(Clone, Copy, Debug, PartialEq, Eq)]
pub enum Next {
    Off,
    Tx(Tx, Option<u8>),
    Rx(Rx),
}

#[derive(Clone, Copy, Debug, PartialEq, Eq)]
pub enum Wait {
    Idle,
    AfterWindow(Rx),
    AfterAckWindow(Tx, u64),
    Receiving(Rx, Spacing),
    Sending(Tx),
    SendingAck(Spacing),
    ReceivingAck(Awaited),
    Change(Left, Next),
    Rearm(Rx),
    AckTurn(Rx, Spacing),
    TurnToAck(Tx, u8),
    Listening(Rx),
    StopForFrame(Rx),
    StopForOutbound(Rx),
    StopForAck(Awaited),
    StopForAckAgain(Awaited),
    ReadingHeader(Rx),
}

#[derive(Clone, Copy, Debug, PartialEq, Eq)]
pub struct State {
    pub settings: Settings,
    pub wait: Wait,
}

/// An accepted call's next state and reply, or the refusal's number.
pub type Step = Result<(State, Reply), u8>;

/// A request that has left the line and is not answered yet, as the state has it: token and buffer.
pub type Open = (u32, u8);

impl Wait {
    /// The unanswered requests that have left the line: the one that the radio works on or leaves, the one whose task it enters.
    pub fn open(&self) -> [Option<Open>; 2] {
        let rx = |rx: &Rx| Some((rx.token, rx.buffer));
        let tx = |tx: &Tx| Some((tx.token, tx.buffer));
        match self {
            Wait::Idle | Wait::SendingAck(_) => [None, None],
            Wait::AfterWindow(r) | Wait::Receiving(r, _) | Wait::Rearm(r) | Wait::AckTurn(r, _) => [rx(r), None],
            Wait::Listening(r) | Wait::StopForFrame(r) | Wait::StopForOutbound(r) | Wait::ReadingHeader(r) => [rx(r), None],
            Wait::AfterAckWindow(t, _) | Wait::Sending(t) | Wait::TurnToAck(t, _) => [tx(t), None],
            Wait::ReceivingAck(a) | Wait::StopForAck(a) | Wait::StopForAckAgain(a) => [tx(&a.tx), None],
            Wait::Change(left, next) => [
                match left {
                    Left::Off | Left::SendingAck => None,
                    Left::Receiving(r) => rx(r),
                    Left::Sending(t) | Left::ReceivingAck(Awaited { tx: t, .. }) => tx(t),
                },
                match next {
                    Next::Off => None,
                    Next::Tx(t, _) => tx(t),
                    Next::Rx(r) => rx(r),
                },
            ],
        }
    }
}

/// Which requests a wait that asks takes: "Tx any start, Rx best effort" and the like.
#[derive(Clone, Copy, Debug, PartialEq, Eq)]
enum Takes {
    Anything,
    TxOnly,
    TxAnyRxBestEffort,
    BestEffort,
}

impl Takes {
    fn takes(self, request: &Request) -> bool {
        match (self, request) {
            (Takes::Anything, _) => true,
            (Takes::TxOnly, Request::Tx { .. }) => true,
            (Takes::TxOnly, Request::Rx { .. }) => false,
            (Takes::TxAnyRxBestEffort, Request::Tx { .. }) => true,
            (_, Request::Tx { start, .. } | Request::Rx { start, .. }) => *start == Start::BestEffort,
        }
    }
}

/// A wait that asks: what it takes, what the radio then leaves, the spacing carried, the answer that the request brings at once.
struct Asking {
    takes: Takes,
    left: Left,
    spacing: Option<Spacing>,
    answer: Option<Answer>,
}

fn accepted(settings: Settings, wait: Wait, action: Action, first: Option<Answer>) -> Step {
    Ok((
        State { settings, wait },
        Reply {
            action,
            first,
            second: None,
        },
    ))
}

/// E6: "the receive answers made from them, no others, carry it unaltered": the result is the answer's as it was told.
fn answer_rx(rx: Rx, received: Received) -> Answer {
    Answer {
        token: rx.token,
        buffer: rx.buffer,
        came_to: CameTo::Received(received),
    }
}

fn answer_tx(tx: Tx, came_to: CameTo) -> Answer {
    Answer {
        token: tx.token,
        buffer: tx.buffer,
        came_to,
    }
}

/// A task of the service's own, with one of its own buffers, best effort.
fn own_task(buffer: u8, spacing: Option<Spacing>, rollback: bool) -> Task {
    Task {
        buffer,
        start: Start::BestEffort,
        spacing,
        rollback,
    }
}

/// "Start writes 02 10 00 into the ACK buffer's frame and no other byte." The refusals 2 to 4 are the settings' own. E1, of the line:
/// "Start empties it."
pub fn start(settings: Settings, line: &mut Line, pool: &mut [u8]) -> Step {
    if let Some(number) = settings.refusal(pool.len()) {
        return Err(number);
    }
    *line = Line::default();
    let frame = settings.frame(settings.ack);
    pool[frame..frame + 3].copy_from_slice(&[0x02, 0x10, 0x00]);
    accepted(settings, Wait::Idle, Action::WaitForRequest, None)
}

/// One call on a state and a line, with the pool as the call finds it. Only an accepted call may change line or pool: "a refusal keeps
/// its bytes".
pub fn step(state: &State, line: &mut Line, call: &Call, pool: &mut [u8]) -> Step {
    if let Some(number) = state.settings.refusal(pool.len()) {
        return Err(number);
    }
    match call {
        Call::Arrive(request) => state.arrive(line, request),
        Call::Withdraw(token) => state.withdraw(line, *token),
        Call::Request => state.request(line, pool),
        Call::None => state.none(line),
        Call::FrameStart => state.frame_start(),
        Call::OutboundSeen(start, flag) => state.outbound_seen(line, *start, *flag),
        Call::Stopped(stop) => state.stopped(stop),
        Call::Header { arrived, length } => state.header(*arrived, *length, pool),
        Call::Entered(outcome, entry) => state.entered(outcome, *entry, pool),
        Call::Fallback(outcome, cause) => state.fallback(outcome, *cause, pool),
        Call::Rollback => state.rollback(),
    }
}

impl State {
    /// The spacing after a sent data frame, by its "length with checksum".
    fn after(&self, tx: &Tx) -> Option<Spacing> {
        Some(spacing(u32::from(tx.length) + u32::from(self.settings.fcs)))
    }

    /// The wait as one that asks for a request; none of the others takes a Request.
    fn asking(&self) -> Option<Asking> {
        let from_off = |takes, answer| Asking {
            takes,
            left: Left::Off,
            spacing: None,
            answer,
        };
        let running = |takes, left, spacing| Asking {
            takes,
            left,
            spacing,
            answer: None,
        };
        Some(match self.wait {
            // "Idle: Request, any direction and start"
            Wait::Idle => from_off(Takes::Anything, None),
            // "ask for an outbound request (None does not fit); answer "window ended" and go off-to-Tx"
            Wait::AfterWindow(rx) => from_off(Takes::TxOnly, Some(answer_rx(rx, Received::WindowEnded))),
            // "the Request (Tx any start, Rx best effort) or None answers Nack and goes on from off"
            Wait::AfterAckWindow(tx, sent) => from_off(Takes::TxAnyRxBestEffort, Some(answer_tx(tx, CameTo::Nack(sent)))),
            // "Receiving, asked: Tx any start, Rx best effort"
            Wait::Receiving(rx, kept) => running(Takes::TxAnyRxBestEffort, Left::Receiving(rx), Some(kept)),
            // "Sending otherwise: ask; Tx and Rx best effort only"
            Wait::Sending(tx) => running(Takes::BestEffort, Left::Sending(tx), self.after(&tx)),
            Wait::SendingAck(kept) => running(Takes::BestEffort, Left::SendingAck, Some(kept)),
            // "Frame started: ask as when receiving"; of the spacing after an ACK: "the data frame's counts"
            Wait::ReceivingAck(awaited) => running(Takes::TxAnyRxBestEffort, Left::ReceivingAck(awaited), self.after(&awaited.tx)),
            _ => return None,
        })
    }

    /// E1: "Requests arrive .. in every wait". The refusals 6 to 8, 12 and 13, in checking order; "Arrival skips 9."
    fn arrive(&self, line: &mut Line, request: &Request) -> Step {
        let open = self.wait.open();
        let buffer = request.buffer();
        // "6 is for arrivals only and looks at requests that have left the line."
        if open.iter().flatten().any(|open| open.0 == request.token()) {
            return Err(6);
        }
        // "7. The buffer is not below n or is held." E1: "A waiting request's buffer is held from arrival".
        let own = buffer == self.settings.ack || buffer == self.settings.spare;
        let held = own || line.holds(buffer) || open.iter().flatten().any(|open| open.1 == buffer);
        if buffer >= self.settings.count || held {
            return Err(7);
        }
        // "8. A Tx length is below 3 or above 127 − F."
        if let Request::Tx { length, .. } = *request {
            if !self.settings.sends(length) {
                return Err(8);
            }
        }
        // "Refused: 12 for an arrival when four wait; 13 when the token already waits .. ; both after 8."
        if line.is_full() {
            return Err(12);
        }
        if line.place_of(request.token()).is_some() {
            return Err(13);
        }
        line.0.push(*request);
        self.changes_the_line_alone()
    }

    /// E1: "may be withdrawn by token in every wait"; "withdrawal frees" the buffer.
    fn withdraw(&self, line: &mut Line, token: u32) -> Step {
        // "13 when the token .. , for a withdrawal, does not [wait] or is the Tx OutboundSeen named, its stop or the ask after its
        // window ended still open". The named one is the earliest Tx still: others arrive behind it, and until that ask none leaves.
        let place = line.place_of(token).ok_or(13)?;
        let open = matches!(self.wait, Wait::StopForOutbound(_) | Wait::AfterWindow(_));
        if open && line.earliest(Request::transmits) == Some(place) {
            return Err(13);
        }
        line.0.remove(place);
        self.changes_the_line_alone()
    }

    /// What an arrival and a withdrawal are told: no action and no answer. The wait stays.
    fn changes_the_line_alone(&self) -> Step {
        accepted(self.settings, self.wait, Action::Nothing, None)
    }

    /// Which arrival leaves at an ask, by its place in the line; None where the wait does not ask.
    pub fn leaves(&self, line: &Line) -> Option<Option<usize>> {
        let asking = self.asking()?;
        Some(line.earliest(|request| asking.takes.takes(request)))
    }

    /// E1: "An ask takes the earliest arrival whose direction and start the wait allows"; "a Request, now without fields, that finds none
    /// such is 9." "on leaving the buffer is no ground for 7".
    fn request(&self, line: &mut Line, pool: &[u8]) -> Step {
        let asking = self.asking().ok_or(5)?;
        let place = line.earliest(|request| asking.takes.takes(request)).ok_or(9)?;
        let (next, action) = self.schedule(&line.0.remove(place), asking.spacing, pool);
        accepted(self.settings, Wait::Change(asking.left, next), action, asking.answer)
    }

    /// The radio's task for a request; rollback is off for every request.
    fn schedule(&self, request: &Request, spacing: Option<Spacing>, pool: &[u8]) -> (Next, Action) {
        match *request {
            Request::Tx {
                token,
                start,
                buffer,
                length,
                check,
            } => {
                let task = Task {
                    buffer,
                    start,
                    spacing,
                    rollback: false,
                };
                let next = Next::Tx(Tx { token, buffer, length }, self.noted(buffer, pool));
                (next, Action::Tx { task, length, check })
            }
            Request::Rx { token, start, buffer } => {
                let task = Task {
                    buffer,
                    start,
                    spacing,
                    rollback: false,
                };
                (Next::Rx(Rx { token, buffer }), Action::Rx(task))
            }
        }
    }

    /// "A Tx frame wants an ACK if its control at acceptance has bit 5 and its number is not suppressed; that number, its third
    /// byte, is noted." "A suppressed number counts in version 2 only". E1: "Acceptance, where it says when a Tx frame's bytes are
    /// noted, is leaving."
    fn noted(&self, buffer: u8, pool: &[u8]) -> Option<u8> {
        let frame = &pool[self.settings.frame(buffer)..];
        let control = Control(u16::from_le_bytes([frame[0], frame[1]]));
        (control.wants_ack() && !control.suppressed()).then_some(frame[2])
    }

    /// "None: no request waits." E1: "where a wait takes None, it now fits exactly if the line holds no such arrival", that is none
    /// "whose direction and start the wait allows".
    fn none(&self, line: &Line) -> Step {
        if self.leaves(line).ok_or(5)?.is_some() {
            return Err(5);
        }
        let off = |left, rollback| accepted(self.settings, Wait::Change(left, Next::Off), Action::Off { rollback }, None);
        match self.wait {
            // "the Request ... or None answers Nack and goes on from off"
            Wait::AfterAckWindow(tx, sent) => accepted(
                self.settings,
                Wait::Idle,
                Action::WaitForRequest,
                Some(answer_tx(tx, CameTo::Nack(sent))),
            ),
            // "None goes off, rollback on"
            Wait::Receiving(rx, _) => off(Left::Receiving(rx), true),
            // "None goes off"
            Wait::Sending(tx) => off(Left::Sending(tx), false),
            Wait::SendingAck(_) => off(Left::SendingAck, false),
            // "ask as when receiving, but rollback always off"
            Wait::ReceivingAck(awaited) => off(Left::ReceivingAck(awaited), false),
            _ => Err(5),
        }
    }

    /// "Listening: FrameStart, stop without a time"
    fn frame_start(&self) -> Step {
        match self.wait {
            Wait::Listening(rx) => accepted(self.settings, Wait::StopForFrame(rx), Action::Stop, None),
            _ => Err(5),
        }
    }

    /// "OutboundSeen, stop before that start (best effort: without a time)". E1: "OutboundSeen fits only with the start and flag of its
    /// earliest Tx", the line's.
    fn outbound_seen(&self, line: &Line, start: Start, flag: bool) -> Step {
        let Wait::Listening(rx) = self.wait else { return Err(5) };
        match line.earliest_tx() {
            Some(Request::Tx { start: own, check, .. }) if (*own, *check) == (start, flag) => {}
            _ => return Err(5),
        }
        let action = match start {
            Start::BestEffort => Action::Stop,
            Start::At(time) => Action::StopBefore(time, flag),
        };
        accepted(self.settings, Wait::StopForOutbound(rx), action, None)
    }

    /// "10. A received length is 0 or above 127 − F"
    fn length_fits(&self, received: &Received) -> Result<(), u8> {
        match *received {
            Received::Frame { length, .. } if length == 0 || length > self.settings.longest() => Err(10),
            _ => Ok(()),
        }
    }

    fn stopped(&self, stop: &Stop) -> Step {
        let to = |wait, action| accepted(self.settings, wait, action, None);
        match (self.wait, stop) {
            // After FrameStart "only "frame started" fits".
            (Wait::StopForFrame(rx) | Wait::StopForOutbound(rx), Stop::FrameStarted) => {
                to(Wait::ReadingHeader(rx), Action::ReadHeader)
            }
            // After OutboundSeen "failed returns to listening. Window ended there: ask for an outbound request".
            (Wait::StopForOutbound(rx), Stop::Failed) => to(Wait::Listening(rx), Action::Listen),
            (Wait::StopForOutbound(rx), Stop::WindowEnded(received)) => {
                self.length_fits(received)?;
                to(Wait::AfterWindow(rx), Action::AskOutbound)
            }
            // For an awaited ACK "failed once, stop without a time. Window ended: ask". "Frame started: ask as when receiving".
            (Wait::StopForAck(awaited), Stop::Failed) => to(Wait::StopForAckAgain(awaited), Action::Stop),
            (Wait::StopForAck(awaited) | Wait::StopForAckAgain(awaited), Stop::FrameStarted) => {
                to(Wait::ReceivingAck(awaited), Action::Ask)
            }
            (Wait::StopForAck(awaited) | Wait::StopForAckAgain(awaited), Stop::WindowEnded(received)) => {
                self.length_fits(received)?;
                to(Wait::AfterAckWindow(awaited.tx, awaited.sent), Action::Ask)
            }
            _ => Err(5),
        }
    }

    fn header(&self, arrived: u16, length: u16, pool: &mut [u8]) -> Step {
        let Wait::ReadingHeader(rx) = self.wait else { return Err(5) };
        // "or arrived bytes are above 127 − F"
        if arrived > self.settings.longest() {
            return Err(10);
        }
        let frame = self.settings.frame(rx.buffer);
        let facts = header::read(&pool[frame..frame + usize::from(arrived)]);
        let kept = spacing(u32::from(length));
        if !header::for_us(&self.settings, &facts) {
            // "not for us, re-arm with the spare buffer and no spacing"
            return accepted(
                self.settings,
                Wait::Rearm(rx),
                Action::Rx(own_task(self.settings.spare, None, false)),
                None,
            );
        }
        // E4: "Broadcasts are never acknowledged." "From now on a frame for us whose destination is short FFFF, or which passed by
        // implicit broadcast, is received without an ACK turn."
        let broadcast = header::is_broadcast(&self.settings, &facts);
        match (facts.control, facts.number) {
            // "For us with request bit and sequence number: write it in the ACK frame, send it, rollback on."
            (Some(control), Some(number)) if Control(control).wants_ack() && !broadcast => {
                pool[self.settings.frame(self.settings.ack) + 2] = number;
                // "before an ACK: the ACK spacing"
                let task = own_task(self.settings.ack, Some(Spacing::Ack), true);
                let action = Action::Tx {
                    task,
                    length: 3,
                    check: false,
                };
                accepted(self.settings, Wait::AckTurn(rx, kept), action, None)
            }
            // "Else ask, any direction."
            _ => accepted(self.settings, Wait::Receiving(rx, kept), Action::Ask, None),
        }
    }

    /// What the request that the radio leaves came to.
    fn outcome(&self, left: &Left, outcome: &Outcome, pool: &[u8]) -> Result<Option<Answer>, u8> {
        match (left, outcome) {
            // "Off has no result."
            (Left::Off, Outcome::Off) => Ok(None),
            (Left::Receiving(rx), Outcome::Received(received)) => {
                self.length_fits(received)?;
                Ok(Some(answer_rx(*rx, *received)))
            }
            // "the outcome answers Sent, or nothing after an ACK turn"
            (Left::Sending(tx), Outcome::Sent(time)) => Ok(Some(answer_tx(*tx, CameTo::Sent(*time)))),
            (Left::SendingAck, Outcome::Sent(_)) => Ok(None),
            // "the outcome answers Sent or Nack, and "window ended" does not fit"
            (Left::ReceivingAck(_), Outcome::Received(Received::WindowEnded)) => Err(5),
            (Left::ReceivingAck(awaited), Outcome::Received(received)) => {
                self.length_fits(received)?;
                let came_to = match self.is_the_ack(awaited, received, pool) {
                    true => CameTo::Sent(awaited.sent),
                    false => CameTo::Nack(awaited.sent),
                };
                Ok(Some(answer_tx(awaited.tx, came_to)))
            }
            _ => Err(5),
        }
    }

    /// "Sent for such a frame exactly if, after frame started, the received frame is 3 bytes, (control & EFFF) = 0002 hexadecimal,
    /// and the third byte is the number noted at acceptance." It was received in the spare buffer.
    fn is_the_ack(&self, awaited: &Awaited, received: &Received, pool: &[u8]) -> bool {
        let frame = &pool[self.settings.frame(self.settings.spare)..];
        let control = u16::from_le_bytes([frame[0], frame[1]]);
        matches!(received, Received::Frame { length: 3, .. }) && control & 0xefff == 0x0002 && frame[2] == awaited.number
    }

    fn entered(&self, outcome: &Outcome, entry: u64, pool: &[u8]) -> Step {
        match (self.wait, outcome) {
            (Wait::Change(left, next), _) => {
                let first = self.outcome(&left, outcome, pool)?;
                self.enter(&next, first)
            }
            // "on Entered the old buffer is the spare, token kept, listening"
            (Wait::Rearm(rx), Outcome::Received(received)) => {
                self.length_fits(received)?;
                let listening = Rx {
                    token: rx.token,
                    buffer: self.settings.spare,
                };
                let settings = Settings {
                    spare: rx.buffer,
                    ..self.settings
                };
                accepted(settings, Wait::Listening(listening), Action::Listen, None)
            }
            // "ACK turn: Entered answers the receive result, then sending without a token"
            (Wait::AckTurn(rx, kept), Outcome::Received(received)) => {
                self.length_fits(received)?;
                accepted(
                    self.settings,
                    Wait::SendingAck(kept),
                    Action::Ask,
                    Some(answer_rx(rx, *received)),
                )
            }
            // "Entered; stop at latest ACK start"
            (Wait::TurnToAck(tx, number), Outcome::Sent(sent)) => {
                // "11. A measured entry that begins an ACK wait plus 10,000 exceeds 64 bits."
                let latest = latest_ack_start(entry).ok_or(11)?;
                let awaited = Awaited { tx, number, sent: *sent };
                accepted(self.settings, Wait::StopForAck(awaited), Action::StopAt(latest), None)
            }
            _ => Err(5),
        }
    }

    /// The radio is in the task that it was to enter.
    fn enter(&self, next: &Next, first: Option<Answer>) -> Step {
        match *next {
            Next::Off => accepted(self.settings, Wait::Idle, Action::WaitForRequest, first),
            // "Off-to-Rx: Entered, to listening."
            Next::Rx(rx) => accepted(self.settings, Wait::Listening(rx), Action::Listen, first),
            // "Sending, frame wants an ACK: listen with the spare buffer after ACK spacing"
            Next::Tx(tx, Some(number)) => {
                let task = own_task(self.settings.spare, Some(Spacing::Ack), false);
                accepted(self.settings, Wait::TurnToAck(tx, number), Action::Rx(task), first)
            }
            // "Sending otherwise: ask"
            Next::Tx(tx, None) => accepted(self.settings, Wait::Sending(tx), Action::Ask, first),
        }
    }

    /// "Off-to-Tx: ... Fallback, error answer, idle." "After any ask Fallback fits with a Tx only, adds the next request's error and
    /// goes idle."
    fn fallback(&self, outcome: &Outcome, cause: Cause, pool: &[u8]) -> Step {
        let Wait::Change(left, Next::Tx(tx, _)) = self.wait else {
            return Err(5);
        };
        let error = Some(answer_tx(tx, CameTo::Error(cause)));
        let earlier = self.outcome(&left, outcome, pool)?;
        let (first, second) = if earlier.is_some() { (earlier, error) } else { (error, None) };
        let state = State {
            settings: self.settings,
            wait: Wait::Idle,
        };
        Ok((
            state,
            Reply {
                action: Action::WaitForRequest,
                first,
                second,
            },
        ))
    }

    /// "Rollback listens on"; "In every wait it fits only where rollback is on."
    fn rollback(&self) -> Step {
        match self.wait {
            Wait::AckTurn(rx, _) | Wait::Change(Left::Receiving(rx), Next::Off) => {
                accepted(self.settings, Wait::Listening(rx), Action::Listen, None)
            }
            _ => Err(5),
        }
    }
}
