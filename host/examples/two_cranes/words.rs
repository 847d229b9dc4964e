//! Calls, actions, waits and senders in words.
use crate::station::{Made, Sender, Wanted};
use widosha::*;

pub fn hex(bytes: &[u8]) -> String {
    let words: Vec<String> = bytes.iter().map(|byte| format!("{byte:02x}")).collect();
    words.join(" ")
}

pub fn tonnes(kilograms: u32) -> String {
    format!("{}.{}", kilograms / 1000, kilograms % 1000 / 100)
}

/// A time of day: hours, minutes, seconds and tenths.
pub fn clock(tenths: u32) -> String {
    let seconds = tenths / 10;
    let (hours, minutes) = (seconds / 3600, seconds / 60 % 60);
    format!("{hours:02}:{minutes:02}:{:02}.{}", seconds % 60, tenths % 10)
}

/// What the planners are to take for weak. The driver knows no such limit.
pub fn is_weak(quality: u8) -> bool {
    quality < 100
}

pub fn quality(quality: u8) -> String {
    format!("link quality {quality}{}", if is_weak(quality) { ": weak" } else { "" })
}

pub fn sender(sender: &Sender) -> String {
    match sender.address {
        Address::Short(short) => format!("{short:04x} of PAN {:04x}", sender.pan),
        Address::Extended(extended) => format!("{extended:016x} of PAN {:04x}", sender.pan),
        Address::Absent => format!("someone of PAN {:04x}", sender.pan),
    }
}

/// A call, the action it gave (or, on the line, how many wait; or its refusal), and the wait that the service is then in.
pub fn made(made: &Made, since: u64) -> String {
    let what = match made.result {
        Ok(reply) if reply.action == Action::Nothing => match made.line.len() {
            1 => "1 waits".into(),
            number => format!("{number} wait"),
        },
        Ok(reply) => action(&reply.action, since),
        Err(Error::Refused(Refusal::LineFull)) => "refused by 12: four wait".into(),
        Err(error) => error.to_string(),
    };
    format!("{:<26} -> {what:<34} [{}]", call(made, since), wait(made.wait))
}

pub fn call(made: &Made, since: u64) -> String {
    let request = made.concerns.map_or("nothing".into(), |wanted| wanted_by(&wanted, since));
    match &made.call {
        Call::Arrive(_) => format!("Arrive: {request}"),
        Call::Withdraw { .. } => format!("Withdraw: {request}"),
        Call::Request => format!("Request: {request}"),
        Call::None if made.line.is_empty() => "None: no request waits".into(),
        Call::None => "None: none may go now".into(),
        Call::FrameStart => "FrameStart".into(),
        Call::OutboundSeen { .. } => "OutboundSeen".into(),
        Call::Stopped(StopResult::FrameStarted) => "Stopped: a frame started".into(),
        Call::Stopped(_) => "Stopped: window ended".into(),
        Call::Header { arrived, .. } => format!("Header: {arrived} bytes arrived"),
        Call::Entered { result, .. } => format!("Entered: {}", left(result)),
        Call::Fallback { .. } => "Fallback: channel busy".into(),
        Call::Rollback => "Rollback".into(),
        _ => "another call".into(),
    }
}

/// What a host wants, in the fewest words.
pub fn wanted_by(wanted: &Wanted, since: u64) -> String {
    match wanted {
        Wanted::Send(weighing) => format!("box {}", weighing.container),
        Wanted::SendAt(weighing, time) => format!("box {} at {}", weighing.container, (time - since) / 1000),
        Wanted::Report(..) => "report".into(),
        Wanted::Receive => "receive".into(),
    }
}

fn left(result: &TaskResult) -> String {
    match result {
        TaskResult::Off => "was off".into(),
        TaskResult::Sent { .. } => "frame is sent".into(),
        TaskResult::Rx(RxResult::Frame { length, .. }) => format!("received {length} bytes"),
        TaskResult::Rx(RxResult::CrcError { .. }) => "received, damaged".into(),
        TaskResult::Rx(RxResult::RxWindowEnded) => "received nothing".into(),
    }
}

pub fn action(action: &Action, since: u64) -> String {
    match action {
        Action::Nothing => "nothing".into(),
        Action::ReceiveRequest => "wait for a request".into(),
        Action::TryReceiveRequest(TaskDirection::Any) => "ask the line".into(),
        Action::TryReceiveRequest(TaskDirection::Outbound) => "ask for the outbound one".into(),
        Action::Listen => "listen".into(),
        Action::Stop(StopListening::At(time)) => format!("stop listening at {}", (time.as_nanos() - since) / 1000),
        Action::Stop(_) => "stop listening now".into(),
        Action::ReadHeader => "read the header".into(),
        Action::Tx { buffer, spacing, .. } => format!("send buffer {buffer}{}", after(spacing)),
        Action::Rx { buffer, spacing, .. } => format!("receive in buffer {buffer}{}", after(spacing)),
        Action::Off { .. } => "switch off".into(),
    }
}

fn after(spacing: &Spacing) -> &'static str {
    match spacing {
        Spacing::None => "",
        Spacing::After(Ifs::Aifs) => ", ACK spacing",
        Spacing::After(Ifs::Sifs) => ", short spacing",
        Spacing::After(Ifs::Lifs) => ", long spacing",
    }
}

pub fn wait(wait: Option<Wait>) -> &'static str {
    match wait {
        Some(Wait::Asking(Asked::Idle)) => "idle",
        Some(Wait::Asking(Asked::AfterAckWindow)) => "its ACK's window has ended",
        Some(Wait::Asking(Asked::ReceivingAck)) => "receiving what may be its ACK",
        Some(Wait::Asking(_)) => "asking for a request",
        Some(Wait::Entering(Transition::Request(Left::ReceivingAck, _))) => "receiving what may be its ACK",
        Some(Wait::Entering(Transition::Request(_, Next::Off))) => "going off",
        Some(Wait::Entering(Transition::Request(_, Next::Rx))) => "going to listen",
        Some(Wait::Entering(Transition::Request(..))) => "going to send",
        Some(Wait::Entering(Transition::Rearm)) => "not for us: going to the spare buffer",
        Some(Wait::Entering(Transition::AckTurn)) => "going to send an ACK",
        Some(Wait::Entering(Transition::AckWait)) => "sending, then to its ACK's wait",
        Some(Wait::Listening) => "listening",
        Some(Wait::Stopping(Stop::Ack | Stop::AckAgain)) => "waiting for its ACK to start",
        Some(Wait::Stopping(_)) => "stopping",
        Some(Wait::Reading) => "reading the header",
        None => "unknown",
    }
}
