//! What the host and the radio tell the service: requests and outcomes, with the numbers that the library takes for them.
use crate::ffi;
use crate::time::LocalClockInstant;

/// When a task is to start.
#[derive(Clone, Copy, Debug, PartialEq, Eq)]
pub enum Timestamp {
    /// As soon as it can.
    BestEffort,
    /// At this time.
    Scheduled(LocalClockInstant),
}

/// What a request asks for.
#[derive(Clone, Copy, Debug, PartialEq, Eq)]
pub enum Task {
    /// To send the frame that stands in the request's buffer.
    Tx {
        /// The frame's length without checksum: 3 to 127 less the checksum, else the request is refused.
        length: u16,
        /// Whether the channel is checked before.
        cca: bool,
    },
    /// To receive a frame into the request's buffer.
    Rx,
}

/// A request of the host. It arrives in the waiting line, and its buffer is lent to the service from then on, until the answer
/// returns one or the request is withdrawn.
#[derive(Clone, Copy, Debug, PartialEq, Eq)]
pub struct Request {
    /// Comes back with the answer. Two unanswered requests cannot have one token, whether they wait or have left the line.
    pub token: u32,
    /// When it is to start.
    pub start: Timestamp,
    /// The buffer of the frame.
    pub buffer: u8,
    /// What is asked for.
    pub task: Task,
}

/// What a receive task came to.
#[derive(Clone, Copy, Debug, PartialEq, Eq)]
pub enum RxResult {
    /// A frame was received.
    Frame {
        /// Its length without checksum: 1 to 127 less the checksum. Another is refused by 10, and nothing has been told then: the
        /// radio tells such a frame, as one of nothing but a checksum, as a CRC error.
        length: u16,
        /// When it was received.
        time: LocalClockInstant,
        /// The standard's link quality (LQI) of the received frame, 0 the lowest to 255 the highest. In an answer it is exactly
        /// what the radio told in the call that gave the answer.
        quality: u8,
    },
    /// Nothing was received.
    RxWindowEnded,
    /// A frame with a wrong checksum was received.
    CrcError {
        /// When it was received.
        time: LocalClockInstant,
        /// Its link quality, as of a frame.
        quality: u8,
    },
}

/// What the radio's previous task came to.
#[derive(Clone, Copy, Debug, PartialEq, Eq)]
pub enum TaskResult {
    /// The radio was off.
    Off,
    /// The frame was sent.
    Sent {
        /// When it was sent.
        time: LocalClockInstant,
    },
    /// What receiving came to.
    Rx(RxResult),
}

/// What stopping a listening radio came to.
#[derive(Clone, Copy, Debug, PartialEq, Eq)]
pub enum StopResult {
    /// A frame had started and is being received.
    FrameStarted,
    /// The radio stopped listening. The result, its link quality included, comes in no answer.
    RxWindowEnded(RxResult),
    /// The radio could not stop and listens on. (A stop that has come too late has not failed: `RadioTask::Stop`.)
    Failed,
}

/// Why the radio could not enter a task.
#[derive(Clone, Copy, Debug, PartialEq, Eq)]
pub enum Cause {
    /// Its start could not be kept. The time, if there is one, is the one that was asked for.
    Scheduling(Timestamp),
    /// The task itself failed, for instance its channel check.
    Task,
}

/// The eleven calls. Request E7 of document 02 adds two: to hold a place of the line for a token, and to fill it.
#[derive(Clone, Copy, Debug, PartialEq, Eq)]
#[non_exhaustive]
pub enum Call {
    /// This request arrives in the waiting line. It fits every wait.
    Arrive(Request),
    /// The waiting request with this token leaves the line and is not answered. It fits every wait.
    Withdraw {
        /// The token of the request.
        token: u32,
    },
    /// Where a request is waited or asked for: the earliest arrival that the wait allows is taken from the line.
    Request,
    /// No request waits that the wait allows.
    None,
    /// A frame starts while the radio listens.
    FrameStart,
    /// The earliest outbound request of the line is seen while the radio listens.
    OutboundSeen {
        /// Its start.
        start: Timestamp,
        /// Its channel-check flag.
        cca: bool,
    },
    /// What the stop came to.
    Stopped(StopResult),
    /// The beginning of the frame that is being received has arrived.
    Header {
        /// How many of its bytes have arrived, without those of the checksum: above 127 less the checksum this is refused by 10.
        arrived: u16,
        /// The frame's length with checksum.
        length: u16,
    },
    /// The radio has entered the task that the last action named.
    Entered {
        /// What the previous task came to.
        result: TaskResult,
        /// The measured time of entry.
        entry: LocalClockInstant,
    },
    /// The radio could not enter it.
    Fallback {
        /// What the previous task came to.
        result: TaskResult,
        /// Why.
        cause: Cause,
    },
    /// The radio went back to listening, as the action allowed.
    Rollback,
}

impl Timestamp {
    /// The numbers `start` and `time`.
    pub(crate) fn numbers(self) -> (u8, u64) {
        match self {
            Timestamp::BestEffort => (ffi::START_BEST_EFFORT, 0),
            Timestamp::Scheduled(time) => (ffi::START_AT, time.as_nanos()),
        }
    }
}

impl Task {
    /// The numbers `direction`, `length` and `cca`.
    pub(crate) fn numbers(self) -> (u8, u16, u8) {
        match self {
            Task::Tx { length, cca } => (ffi::DIRECTION_TX, length, u8::from(cca)),
            Task::Rx => (ffi::DIRECTION_RX, 0, 0),
        }
    }
}

impl RxResult {
    /// The link quality of what was received. None if nothing was.
    pub const fn quality(self) -> Option<u8> {
        match self {
            RxResult::Frame { quality, .. } | RxResult::CrcError { quality, .. } => Some(quality),
            RxResult::RxWindowEnded => None,
        }
    }

    /// The numbers `length`, `time` and `quality`.
    fn numbers(self) -> (u16, u64, u8) {
        match self {
            RxResult::Frame { length, time, quality } => (length, time.as_nanos(), quality),
            RxResult::RxWindowEnded => (0, 0, 0),
            RxResult::CrcError { time, quality } => (0, time.as_nanos(), quality),
        }
    }
}

impl TaskResult {
    /// The numbers `result`, `length`, `time` and `quality`.
    pub(crate) fn numbers(self) -> (u8, u16, u64, u8) {
        match self {
            TaskResult::Off => (ffi::RESULT_OFF, 0, 0, 0),
            TaskResult::Sent { time } => (ffi::RESULT_SENT, 0, time.as_nanos(), 0),
            TaskResult::Rx(received) => {
                let result = match received {
                    RxResult::Frame { .. } => ffi::RESULT_FRAME,
                    RxResult::RxWindowEnded => ffi::RESULT_WINDOW_ENDED,
                    RxResult::CrcError { .. } => ffi::RESULT_CRC_ERROR,
                };
                let (length, time, quality) = received.numbers();
                (result, length, time, quality)
            }
        }
    }
}

impl StopResult {
    /// The numbers `outcome`, `length`, `time` and `quality`.
    pub(crate) fn numbers(self) -> (u8, u16, u64, u8) {
        match self {
            StopResult::FrameStarted => (ffi::OUTCOME_FRAME_STARTED, 0, 0, 0),
            StopResult::Failed => (ffi::OUTCOME_FAILED, 0, 0, 0),
            StopResult::RxWindowEnded(received) => {
                let outcome = match received {
                    RxResult::Frame { .. } => ffi::OUTCOME_FRAME,
                    RxResult::RxWindowEnded => ffi::OUTCOME_WINDOW_ENDED,
                    RxResult::CrcError { .. } => ffi::OUTCOME_CRC_ERROR,
                };
                let (length, time, quality) = received.numbers();
                (outcome, length, time, quality)
            }
        }
    }
}

impl Cause {
    /// The numbers `cause` and `cause_time`.
    pub(crate) fn numbers(self) -> (u8, u64) {
        match self {
            Cause::Scheduling(Timestamp::BestEffort) => (ffi::CAUSE_SCHEDULING, 0),
            Cause::Scheduling(Timestamp::Scheduled(time)) => (ffi::CAUSE_SCHEDULING_AT, time.as_nanos()),
            Cause::Task => (ffi::CAUSE_TASK, 0),
        }
    }
}

#[cfg(test)]
mod tests {
    use super::*;

    #[test]
    fn codes_are_those_of_the_layouts() {
        let (length, time, quality) = (3, LocalClockInstant::from_nanos(9), 200);
        let frame = RxResult::Frame { length, time, quality };
        let crc = RxResult::CrcError { time, quality };
        assert_eq!(Timestamp::BestEffort.numbers(), (0, 0));
        assert_eq!(Timestamp::Scheduled(time).numbers(), (1, 9));
        assert_eq!(Task::Tx { length: 12, cca: true }.numbers(), (0, 12, 1));
        assert_eq!(Task::Rx.numbers(), (1, 0, 0));
        assert_eq!(TaskResult::Off.numbers(), (0, 0, 0, 0));
        assert_eq!(TaskResult::Sent { time }.numbers(), (1, 0, 9, 0));
        assert_eq!(TaskResult::Rx(frame).numbers(), (2, 3, 9, 200));
        assert_eq!(TaskResult::Rx(RxResult::RxWindowEnded).numbers(), (3, 0, 0, 0));
        assert_eq!(TaskResult::Rx(crc).numbers(), (4, 0, 9, 200));
        assert_eq!(StopResult::FrameStarted.numbers(), (0, 0, 0, 0));
        assert_eq!(StopResult::Failed.numbers(), (1, 0, 0, 0));
        assert_eq!(StopResult::RxWindowEnded(frame).numbers(), (2, 3, 9, 200));
        assert_eq!(StopResult::RxWindowEnded(RxResult::RxWindowEnded).numbers(), (3, 0, 0, 0));
        assert_eq!(StopResult::RxWindowEnded(crc).numbers(), (4, 0, 9, 200));
        assert_eq!(Cause::Scheduling(Timestamp::BestEffort).numbers(), (0, 0));
        assert_eq!(Cause::Scheduling(Timestamp::Scheduled(time)).numbers(), (1, 9));
        assert_eq!(Cause::Task.numbers(), (2, 0));
    }

    #[test]
    fn what_was_received_has_its_quality() {
        let (length, time) = (3, LocalClockInstant::from_nanos(9));
        for quality in 0..=255 {
            assert_eq!(RxResult::Frame { length, time, quality }.quality(), Some(quality));
            assert_eq!(RxResult::CrcError { time, quality }.quality(), Some(quality));
        }
        assert_eq!(RxResult::RxWindowEnded.quality(), None);
    }
}
