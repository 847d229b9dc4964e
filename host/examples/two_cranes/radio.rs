//! A simulated radio: what it does, and the task that it was given. What takes time is the world's affair, which has the clock and
//! the air.
use widosha::*;

/// What the radio does.
#[derive(Clone, Copy, Debug, PartialEq, Eq)]
pub enum Phase {
    Off,
    Listening,
    /// The frame with this place in the air's list.
    Receiving(usize),
    Sending {
        begin: u64,
        end: u64,
    },
}

pub struct SimulatedRadio {
    pub phase: Phase,
    /// The buffer that it receives in.
    pub listens_in: u8,
    /// The last task that it was given.
    pub task: Option<RadioTask>,
    /// The same, until the world has settled when it is due.
    begun: Option<RadioTask>,
}

impl Radio for SimulatedRadio {
    /// A stop that has no time is done at once.
    fn begin(&mut self, task: RadioTask, _: &mut dyn Buffers) -> Option<RadioEvent> {
        self.task = Some(task);
        match task {
            RadioTask::Stop(StopListening::Now | StopListening::Before { .. }) => Some(self.stop()),
            _ => {
                self.begun = Some(task);
                None
            }
        }
    }
}

impl SimulatedRadio {
    pub fn new() -> Self {
        SimulatedRadio {
            phase: Phase::Off,
            listens_in: 1,
            task: None,
            begun: None,
        }
    }

    /// What it was given and the world has not seen yet.
    pub fn take_begun(&mut self) -> Option<RadioTask> {
        self.begun.take()
    }

    /// It stops listening, unless a frame has started.
    pub fn stop(&mut self) -> RadioEvent {
        if matches!(self.phase, Phase::Receiving(_)) {
            return RadioEvent::Stopped(StopResult::FrameStarted);
        }
        self.phase = Phase::Off;
        RadioEvent::Stopped(StopResult::RxWindowEnded(RxResult::RxWindowEnded))
    }
}
