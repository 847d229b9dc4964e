//! The model of the documents that the host's tests hold the library against, in the place of the proved driver: as it is, or with one
//! rule loosened. Nothing of the model is altered for that: `loose` decides what the model is told.
use crate::driver::BUFFERS;
use crate::loose::Loose;
use crossing::{instant, model_start, request, start, wait};
use documents::calls as model;
use documents::line::Line;
use documents::settings::BUFFER;
use engine::State;
use std::ptr::NonNull;
use widosha::*;

pub use documents::{calls, engine, settings};

// What the tests make of a wait, a request and a time is made of them here too.
#[allow(dead_code)]
#[path = "../../tests/common/crossing.rs"]
mod crossing;
#[path = "../../tests/model/mod.rs"]
pub mod documents;

pub struct Model {
    pub state: State,
    line: Line,
    pool: Vec<u8>,
    loose: Loose,
}

impl Model {
    pub fn start(of: Settings, loose: Loose) -> (Model, Reply) {
        let settings = settings::Settings {
            count: BUFFERS as u8,
            headroom: of.headroom,
            tailroom: of.tailroom,
            fcs: of.fcs_length.bytes(),
            hardware: of.hardware_addr.to_be_bytes(),
            pan: of.pan_id,
            implicit: of.implicit_broadcast,
            ack: of.ack_buffer,
            spare: of.spare_buffer,
        };
        let (mut line, mut pool) = (Line::default(), vec![0; settings.pool_length()]);
        let (state, said) = engine::start(settings, &mut line, &mut pool).expect("the settings are in range");
        let model = Model {
            state,
            line,
            pool,
            loose,
        };
        (model, reply_of(&said))
    }

    fn frame_at(&self, buffer: u8) -> usize {
        self.state.settings.frame(buffer)
    }

    /// The model's step on a pool of its own in which this stands in a buffer's frame; of that pool nothing but the ACK's frame can be
    /// altered.
    fn step_as_if(&mut self, call: &model::Call, seen: Option<(u8, [u8; 3])>) -> engine::Step {
        let mut pool = self.pool.clone();
        if let Some((buffer, bytes)) = seen {
            let frame = self.frame_at(buffer);
            pool[frame..frame + 3].copy_from_slice(&bytes);
        }
        let step = engine::step(&self.state, &mut self.line, call, &mut pool);
        let ack = self.frame_at(self.state.settings.ack);
        self.pool[ack..ack + 3].copy_from_slice(&pool[ack..ack + 3]);
        step
    }
}

impl Service for Model {
    fn step(&mut self, call: Call) -> Result<Reply, Error> {
        let call = call_of(&call);
        let (call, seen) = self.loose.told(&self.state, &call, &self.pool);
        let (state, mut said) = self.step_as_if(&call, seen).map_err(refusal_of)?;
        self.loose.says(&self.state, &call, &self.pool, &mut said);
        self.state = state;
        Ok(reply_of(&said))
    }

    fn wait(&self) -> Option<Wait> {
        Some(wait(&self.state.wait))
    }

    fn waiting(&self) -> [Option<Request>; LINE_CAPACITY] {
        let mut waiting = self.line.0.iter().map(request);
        [(); LINE_CAPACITY].map(|()| waiting.next())
    }

    fn is_held(&self, buffer: u8) -> bool {
        let settings = &self.state.settings;
        let mut open = self.state.wait.open().into_iter().flatten();
        buffer == settings.ack || buffer == settings.spare || open.any(|open| open.1 == buffer) || self.line.holds(buffer)
    }
}

/// Nothing here writes by itself, so the pointer, which is that of a shared reference, is to be read alone; and the ACK buffer, which
/// `DriverService` gives nobody to write, is given.
impl Buffers for Model {
    fn frame(&self, buffer: u8) -> Option<&[u8; FRAME_LENGTH]> {
        self.pool.get(self.frame_at(buffer)..)?.first_chunk()
    }

    fn frame_mut(&mut self, buffer: u8) -> Option<&mut [u8; FRAME_LENGTH]> {
        let frame = self.frame_at(buffer);
        self.pool.get_mut(frame..)?.first_chunk_mut()
    }

    fn put_frame(&mut self, buffer: u8, bytes: &[u8]) -> Option<u16> {
        self.frame_mut(buffer)?.get_mut(..bytes.len())?.copy_from_slice(bytes);
        Some(bytes.len() as u16)
    }

    fn buffer(&self, buffer: u8) -> Option<&[u8; BUFFER]> {
        self.pool.get(BUFFER * usize::from(buffer)..)?.first_chunk()
    }

    fn buffer_mut(&mut self, buffer: u8) -> Option<&mut [u8; BUFFER]> {
        self.pool.get_mut(BUFFER * usize::from(buffer)..)?.first_chunk_mut()
    }

    fn buffer_ptr(&self, buffer: u8) -> Option<NonNull<[u8; BUFFER]>> {
        self.buffer(buffer).map(NonNull::from)
    }

    fn received(&self, answer: &Answer) -> Option<Received<'_>> {
        let Response::Received(RxResult::Frame { length, .. }) = answer.response else {
            return None;
        };
        let frame = self.frame(answer.buffer)?.get(..usize::from(length))?;
        let info = PreliminaryFrameInfo::of(frame);
        Some(Received { frame, info })
    }
}

// ---- The crate's calls as the model's

fn arrival_of(request: &Request) -> model::Request {
    let Request {
        token, buffer, start, ..
    } = *request;
    let start = model_start(start);
    match request.task {
        Task::Tx { length, cca: check } => model::Request::Tx {
            token,
            start,
            buffer,
            length,
            check,
        },
        Task::Rx => model::Request::Rx { token, start, buffer },
    }
}

fn received_of(result: RxResult) -> model::Received {
    match result {
        RxResult::Frame { length, time, quality } => model::Received::Frame {
            length,
            time: time.as_nanos(),
            quality,
        },
        RxResult::RxWindowEnded => model::Received::WindowEnded,
        RxResult::CrcError { time, quality } => model::Received::CrcError {
            time: time.as_nanos(),
            quality,
        },
    }
}

fn outcome_of(result: TaskResult) -> model::Outcome {
    match result {
        TaskResult::Off => model::Outcome::Off,
        TaskResult::Sent { time } => model::Outcome::Sent(time.as_nanos()),
        TaskResult::Rx(result) => model::Outcome::Received(received_of(result)),
    }
}

fn cause_of(cause: Cause) -> model::Cause {
    match cause {
        Cause::Scheduling(Timestamp::BestEffort) => model::Cause::Scheduling,
        Cause::Scheduling(Timestamp::Scheduled(time)) => model::Cause::SchedulingAt(time.as_nanos()),
        Cause::Task => model::Cause::Task,
    }
}

fn call_of(call: &Call) -> model::Call {
    match *call {
        Call::Arrive(request) => model::Call::Arrive(arrival_of(&request)),
        Call::Withdraw { token } => model::Call::Withdraw(token),
        Call::Request => model::Call::Request,
        Call::None => model::Call::None,
        Call::FrameStart => model::Call::FrameStart,
        Call::OutboundSeen { start, cca } => model::Call::OutboundSeen(model_start(start), cca),
        Call::Stopped(StopResult::FrameStarted) => model::Call::Stopped(model::Stop::FrameStarted),
        Call::Stopped(StopResult::RxWindowEnded(result)) => model::Call::Stopped(model::Stop::WindowEnded(received_of(result))),
        Call::Stopped(StopResult::Failed) => model::Call::Stopped(model::Stop::Failed),
        Call::Header { arrived, length } => model::Call::Header { arrived, length },
        Call::Entered { result, entry } => model::Call::Entered(outcome_of(result), entry.as_nanos()),
        Call::Fallback { result, cause } => model::Call::Fallback(outcome_of(result), cause_of(cause)),
        Call::Rollback => model::Call::Rollback,
        _ => panic!("the model has eleven calls"),
    }
}

// ---- What the model says, as the crate's

fn spacing_of(spacing: Option<settings::Spacing>) -> Spacing {
    match spacing {
        None => Spacing::None,
        Some(settings::Spacing::Ack) => Spacing::After(Ifs::Aifs),
        Some(settings::Spacing::Short) => Spacing::After(Ifs::Sifs),
        Some(settings::Spacing::Long) => Spacing::After(Ifs::Lifs),
    }
}

fn action_of(action: &model::Action) -> Action {
    match *action {
        model::Action::Nothing => Action::Nothing,
        model::Action::WaitForRequest => Action::ReceiveRequest,
        model::Action::Ask => Action::TryReceiveRequest(TaskDirection::Any),
        model::Action::AskOutbound => Action::TryReceiveRequest(TaskDirection::Outbound),
        model::Action::Listen => Action::Listen,
        model::Action::Stop => Action::Stop(StopListening::Now),
        model::Action::StopAt(time) => Action::Stop(StopListening::At(instant(time))),
        model::Action::StopBefore(time, cca) => Action::Stop(StopListening::Before {
            start: instant(time),
            cca,
        }),
        model::Action::ReadHeader => Action::ReadHeader,
        model::Action::Tx {
            task,
            length,
            check: cca,
        } => Action::Tx {
            buffer: task.buffer,
            length: length as u8,
            cca,
            start: start(task.start),
            spacing: spacing_of(task.spacing),
            rollback: task.rollback,
        },
        model::Action::Rx(task) => Action::Rx {
            buffer: task.buffer,
            start: start(task.start),
            spacing: spacing_of(task.spacing),
            rollback: task.rollback,
        },
        model::Action::Off { rollback } => Action::Off { rollback },
    }
}

fn answer_of(answer: model::Answer) -> Answer {
    let response = match answer.came_to {
        model::CameTo::Sent(time) => Response::Sent { time: instant(time) },
        model::CameTo::Nack(time) => Response::Nack { time: instant(time) },
        model::CameTo::Error(model::Cause::Scheduling) => Response::Error(Cause::Scheduling(Timestamp::BestEffort)),
        model::CameTo::Error(model::Cause::SchedulingAt(time)) => {
            Response::Error(Cause::Scheduling(Timestamp::Scheduled(instant(time))))
        }
        model::CameTo::Error(model::Cause::Task) => Response::Error(Cause::Task),
        model::CameTo::Received(model::Received::Frame { length, time, quality }) => {
            let time = instant(time);
            Response::Received(RxResult::Frame { length, time, quality })
        }
        model::CameTo::Received(model::Received::WindowEnded) => Response::Received(RxResult::RxWindowEnded),
        model::CameTo::Received(model::Received::CrcError { time, quality }) => {
            let time = instant(time);
            Response::Received(RxResult::CrcError { time, quality })
        }
    };
    Answer::new(answer.token, answer.buffer, response)
}

fn reply_of(said: &model::Reply) -> Reply {
    let answers = match (said.first.map(answer_of), said.second.map(answer_of)) {
        (None, _) => Answers::None,
        (Some(first), None) => Answers::One(first),
        (Some(first), Some(second)) => Answers::Two(first, second),
    };
    let action = action_of(&said.action);
    Reply { action, answers }
}

/// The refusals that the loop can meet; any other ends the program.
fn refusal_of(number: u8) -> Error {
    Error::Refused(match number {
        5 => Refusal::Unfit,
        9 => Refusal::NotAllowed,
        12 => Refusal::LineFull,
        13 => Refusal::TokenWaits,
        _ => panic!("the model refuses by {number}"),
    })
}
