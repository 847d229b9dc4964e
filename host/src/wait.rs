//! What the service waits for, as its state tells. Nothing depends on it but a reader of logs: the action says what to do next.

/// A wait for a request or for None, by what the radio does meanwhile.
#[derive(Clone, Copy, Debug, PartialEq, Eq)]
pub enum Asked {
    /// Nothing; the radio is off.
    Idle,
    /// It is off after a listening window.
    AfterWindow,
    /// It is off after an ACK's window.
    AfterAckWindow,
    /// It receives a frame for us.
    Receiving,
    /// It sends a frame that wants no ACK.
    Sending,
    /// It sends an ACK.
    SendingAck,
    /// It receives what started in the ACK's window.
    ReceivingAck,
}

/// What the radio leaves for a request.
#[derive(Clone, Copy, Debug, PartialEq, Eq)]
pub enum Left {
    /// Being off.
    Off,
    /// Receiving a frame for us.
    Receiving,
    /// Sending a frame that wants no ACK.
    Sending,
    /// Sending an ACK.
    SendingAck,
    /// Receiving what started in the ACK's window.
    ReceivingAck,
}

/// What the radio enters for a request, or for none.
#[derive(Clone, Copy, Debug, PartialEq, Eq)]
pub enum Next {
    /// It is to go off.
    Off,
    /// It is to send a frame that wants no ACK.
    Tx,
    /// It is to send a frame that wants an ACK.
    TxWithAck,
    /// It is to receive.
    Rx,
}

/// A wait for Entered, Fallback or Rollback.
#[derive(Clone, Copy, Debug, PartialEq, Eq)]
pub enum Transition {
    /// The radio goes over to the next request's task.
    Request(Left, Next),
    /// It goes on receiving in the spare buffer, as the frame was not for us.
    Rearm,
    /// It turns to send an ACK.
    AckTurn,
    /// It sends a frame and then turns to listen for its ACK.
    AckWait,
}

/// A wait for Stopped.
#[derive(Clone, Copy, Debug, PartialEq, Eq)]
pub enum Stop {
    /// After FrameStart.
    Frame,
    /// After OutboundSeen.
    Outbound,
    /// For an awaited ACK.
    Ack,
    /// For it once more, after a failure.
    AckAgain,
}

/// The waits, by the calls that fit them.
#[derive(Clone, Copy, Debug, PartialEq, Eq)]
pub enum Wait {
    /// Request and None.
    Asking(Asked),
    /// Entered, Fallback and Rollback.
    Entering(Transition),
    /// FrameStart and OutboundSeen.
    Listening,
    /// Stopped.
    Stopping(Stop),
    /// Header.
    Reading,
}

impl Wait {
    /// The state's bytes 17, 18 and 19; none if they do not name a wait.
    pub(crate) fn of(kind: u8, case: u8, entered: u8) -> Option<Self> {
        Some(match (kind, case) {
            (0, 0) => Wait::Asking(Asked::Idle),
            (0, 1) => Wait::Asking(Asked::AfterWindow),
            (0, 2) => Wait::Asking(Asked::AfterAckWindow),
            (0, 3) => Wait::Asking(Asked::Receiving),
            (0, 4) => Wait::Asking(Asked::Sending),
            (0, 5) => Wait::Asking(Asked::SendingAck),
            (0, 6) => Wait::Asking(Asked::ReceivingAck),
            (1, left) => Wait::Entering(Transition::Request(left_of(left)?, next_of(entered)?)),
            (2, 0) => Wait::Entering(Transition::Rearm),
            (2, 1) => Wait::Entering(Transition::AckTurn),
            (2, 2) => Wait::Entering(Transition::AckWait),
            (3, 0) => Wait::Listening,
            (4, 0) => Wait::Stopping(Stop::Frame),
            (4, 1) => Wait::Stopping(Stop::Outbound),
            (4, 2) => Wait::Stopping(Stop::Ack),
            (4, 3) => Wait::Stopping(Stop::AckAgain),
            (5, 0) => Wait::Reading,
            _ => return None,
        })
    }
}

fn left_of(case: u8) -> Option<Left> {
    Some(match case {
        0 => Left::Off,
        1 => Left::Receiving,
        2 => Left::Sending,
        3 => Left::SendingAck,
        4 => Left::ReceivingAck,
        _ => return None,
    })
}

fn next_of(entered: u8) -> Option<Next> {
    Some(match entered {
        0 => Next::Off,
        1 => Next::Tx,
        2 => Next::TxWithAck,
        3 => Next::Rx,
        _ => return None,
    })
}

#[cfg(test)]
mod tests {
    use super::*;

    #[test]
    fn waits_are_those_of_the_layouts() {
        // How many cases each kind has; every one is another wait.
        let cases = [7, 5, 3, 1, 4, 1];
        let mut seen = std::vec::Vec::new();
        for kind in 0..=255 {
            for case in 0..=255 {
                let known = cases.get(usize::from(kind)).is_some_and(|number| case < *number);
                let wait = Wait::of(kind, case, 0);
                assert_eq!(wait.is_some(), known, "kind {kind}, case {case}");
                seen.extend(wait.filter(|wait| !seen.contains(wait)));
            }
        }
        assert_eq!(seen.len(), 21);
        assert_eq!(
            Wait::of(1, 4, 3),
            Some(Wait::Entering(Transition::Request(Left::ReceivingAck, Next::Rx)))
        );
        assert_eq!(
            Wait::of(1, 1, 2),
            Some(Wait::Entering(Transition::Request(Left::Receiving, Next::TxWithAck)))
        );
        assert_eq!(Wait::of(1, 0, 4), None);
        assert_eq!(Wait::of(4, 2, 0), Some(Wait::Stopping(Stop::Ack)));
        assert_eq!(Wait::of(0, 6, 0), Some(Wait::Asking(Asked::ReceivingAck)));
    }
}
