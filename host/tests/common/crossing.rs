//! The crate's types as the model's and the other way round. Numbers and bytes are the model's affair (model/calls.rs, model/bytes.rs):
//! what the crate makes of them is seen by what comes out.
use crate::model::calls::{self as model, CameTo};
use crate::model::engine::{self, Wait as ModelWait};
use crate::model::settings::Spacing as ModelSpacing;
use widosha::*;

pub fn instant(time: u64) -> LocalClockInstant {
    LocalClockInstant::from_nanos(time)
}

pub fn start(start: model::Start) -> Timestamp {
    match start {
        model::Start::BestEffort => Timestamp::BestEffort,
        model::Start::At(time) => Timestamp::Scheduled(instant(time)),
    }
}

fn received(received: model::Received) -> RxResult {
    match received {
        model::Received::Frame { length, time, quality } => RxResult::Frame {
            length,
            time: instant(time),
            quality,
        },
        model::Received::WindowEnded => RxResult::RxWindowEnded,
        model::Received::CrcError { time, quality } => RxResult::CrcError {
            time: instant(time),
            quality,
        },
    }
}

fn result(outcome: model::Outcome) -> TaskResult {
    match outcome {
        model::Outcome::Off => TaskResult::Off,
        model::Outcome::Sent(time) => TaskResult::Sent { time: instant(time) },
        model::Outcome::Received(result) => TaskResult::Rx(received(result)),
    }
}

fn stop(outcome: model::Stop) -> StopResult {
    match outcome {
        model::Stop::FrameStarted => StopResult::FrameStarted,
        model::Stop::WindowEnded(result) => StopResult::RxWindowEnded(received(result)),
        model::Stop::Failed => StopResult::Failed,
    }
}

fn cause(cause: model::Cause) -> Cause {
    match cause {
        model::Cause::Scheduling => Cause::Scheduling(Timestamp::BestEffort),
        model::Cause::SchedulingAt(time) => Cause::Scheduling(Timestamp::Scheduled(instant(time))),
        model::Cause::Task => Cause::Task,
    }
}

pub fn request(request: &model::Request) -> Request {
    Request {
        token: request.token(),
        start: start(request.start()),
        buffer: request.buffer(),
        task: match *request {
            model::Request::Tx { length, check, .. } => Task::Tx { length, cca: check },
            model::Request::Rx { .. } => Task::Rx,
        },
    }
}

pub fn call(call: model::Call) -> Call {
    match call {
        model::Call::Arrive(arriving) => Call::Arrive(request(&arriving)),
        model::Call::Withdraw(token) => Call::Withdraw { token },
        model::Call::Request => Call::Request,
        model::Call::None => Call::None,
        model::Call::FrameStart => Call::FrameStart,
        model::Call::OutboundSeen(seen, cca) => Call::OutboundSeen { start: start(seen), cca },
        model::Call::Stopped(outcome) => Call::Stopped(stop(outcome)),
        model::Call::Header { arrived, length } => Call::Header { arrived, length },
        model::Call::Entered(outcome, entry) => Call::Entered {
            result: result(outcome),
            entry: instant(entry),
        },
        model::Call::Fallback(outcome, why) => Call::Fallback {
            result: result(outcome),
            cause: cause(why),
        },
        model::Call::Rollback => Call::Rollback,
    }
}

/// What the service waits for, without what the state has of the requests.
pub fn wait(wait: &ModelWait) -> Wait {
    match wait {
        ModelWait::Idle => Wait::Asking(Asked::Idle),
        ModelWait::AfterWindow(_) => Wait::Asking(Asked::AfterWindow),
        ModelWait::AfterAckWindow(..) => Wait::Asking(Asked::AfterAckWindow),
        ModelWait::Receiving(..) => Wait::Asking(Asked::Receiving),
        ModelWait::Sending(_) => Wait::Asking(Asked::Sending),
        ModelWait::SendingAck(_) => Wait::Asking(Asked::SendingAck),
        ModelWait::ReceivingAck(_) => Wait::Asking(Asked::ReceivingAck),
        ModelWait::Change(left, next) => Wait::Entering(Transition::Request(left_of(left), next_of(next))),
        ModelWait::Rearm(_) => Wait::Entering(Transition::Rearm),
        ModelWait::AckTurn(..) => Wait::Entering(Transition::AckTurn),
        ModelWait::TurnToAck(..) => Wait::Entering(Transition::AckWait),
        ModelWait::Listening(_) => Wait::Listening,
        ModelWait::StopForFrame(_) => Wait::Stopping(Stop::Frame),
        ModelWait::StopForOutbound(_) => Wait::Stopping(Stop::Outbound),
        ModelWait::StopForAck(_) => Wait::Stopping(Stop::Ack),
        ModelWait::StopForAckAgain(_) => Wait::Stopping(Stop::AckAgain),
        ModelWait::ReadingHeader(_) => Wait::Reading,
    }
}

fn left_of(left: &engine::Left) -> Left {
    match left {
        engine::Left::Off => Left::Off,
        engine::Left::Receiving(_) => Left::Receiving,
        engine::Left::Sending(_) => Left::Sending,
        engine::Left::SendingAck => Left::SendingAck,
        engine::Left::ReceivingAck(_) => Left::ReceivingAck,
    }
}

fn next_of(next: &engine::Next) -> Next {
    match next {
        engine::Next::Off => Next::Off,
        engine::Next::Tx(_, None) => Next::Tx,
        engine::Next::Tx(_, Some(_)) => Next::TxWithAck,
        engine::Next::Rx(_) => Next::Rx,
    }
}

pub fn model_start(start: Timestamp) -> model::Start {
    match start {
        Timestamp::BestEffort => model::Start::BestEffort,
        Timestamp::Scheduled(time) => model::Start::At(time.as_nanos()),
    }
}

fn model_task(buffer: u8, start: Timestamp, spacing: Spacing, rollback: bool) -> model::Task {
    model::Task {
        buffer,
        start: model_start(start),
        spacing: match spacing {
            Spacing::None => None,
            Spacing::After(Ifs::Aifs) => Some(ModelSpacing::Ack),
            Spacing::After(Ifs::Sifs) => Some(ModelSpacing::Short),
            Spacing::After(Ifs::Lifs) => Some(ModelSpacing::Long),
        },
        rollback,
    }
}

fn model_action(action: Action) -> model::Action {
    match action {
        Action::Nothing => model::Action::Nothing,
        Action::ReceiveRequest => model::Action::WaitForRequest,
        Action::TryReceiveRequest(TaskDirection::Any) => model::Action::Ask,
        Action::TryReceiveRequest(TaskDirection::Outbound) => model::Action::AskOutbound,
        Action::Listen => model::Action::Listen,
        Action::Stop(StopListening::Now) => model::Action::Stop,
        Action::Stop(StopListening::At(time)) => model::Action::StopAt(time.as_nanos()),
        Action::Stop(StopListening::Before { start, cca }) => model::Action::StopBefore(start.as_nanos(), cca),
        Action::ReadHeader => model::Action::ReadHeader,
        Action::Tx {
            buffer,
            length,
            cca,
            start,
            spacing,
            rollback,
        } => model::Action::Tx {
            task: model_task(buffer, start, spacing, rollback),
            length: length.into(),
            check: cca,
        },
        Action::Rx {
            buffer,
            start,
            spacing,
            rollback,
        } => model::Action::Rx(model_task(buffer, start, spacing, rollback)),
        Action::Off { rollback } => model::Action::Off { rollback },
    }
}

fn came_to(response: Response) -> CameTo {
    match response {
        Response::Sent { time } => CameTo::Sent(time.as_nanos()),
        Response::Nack { time } => CameTo::Nack(time.as_nanos()),
        Response::Error(Cause::Scheduling(Timestamp::BestEffort)) => CameTo::Error(model::Cause::Scheduling),
        Response::Error(Cause::Scheduling(Timestamp::Scheduled(time))) => {
            CameTo::Error(model::Cause::SchedulingAt(time.as_nanos()))
        }
        Response::Error(Cause::Task) => CameTo::Error(model::Cause::Task),
        Response::Received(RxResult::Frame { length, time, quality }) => CameTo::Received(model::Received::Frame {
            length,
            time: time.as_nanos(),
            quality,
        }),
        Response::Received(RxResult::RxWindowEnded) => CameTo::Received(model::Received::WindowEnded),
        Response::Received(RxResult::CrcError { time, quality }) => CameTo::Received(model::Received::CrcError {
            time: time.as_nanos(),
            quality,
        }),
    }
}

/// The reply, its answers in the order in which they are given out.
pub fn model_reply(reply: &Reply) -> model::Reply {
    let mut answers = reply.answers.into_iter().map(|answer| model::Answer {
        token: answer.token,
        buffer: answer.buffer,
        came_to: came_to(answer.response),
    });
    let (first, second) = (answers.next(), answers.next());
    assert!(answers.next().is_none(), "a reply has two answers at most");
    model::Reply {
        action: model_action(reply.action),
        first,
        second,
    }
}
