//! Document 02, E1: the waiting line.
use super::calls::Request;

/// "`DRIVER_CHANNEL_CAPACITY` is 4, so it is a lent run of four request records."
pub const CAPACITY: usize = 4;

/// The requests that wait, in the order of their arrival. "Start empties it."
#[derive(Clone, Debug, Default, PartialEq, Eq)]
pub struct Line(pub Vec<Request>);

impl Line {
    /// "the earliest arrival whose .." passes the test: its place.
    pub fn earliest(&self, passes: impl Fn(&Request) -> bool) -> Option<usize> {
        self.0.iter().position(passes)
    }

    /// "OutboundSeen fits only with the start and flag of its earliest Tx."
    pub fn earliest_tx(&self) -> Option<&Request> {
        self.0.iter().find(|request| request.transmits())
    }

    /// Where the request with this token waits.
    pub fn place_of(&self, token: u32) -> Option<usize> {
        self.earliest(|request| request.token() == token)
    }

    /// "A waiting request's buffer is held from arrival".
    pub fn holds(&self, buffer: u8) -> bool {
        self.0.iter().any(|request| request.buffer() == buffer)
    }

    /// "12 for an arrival when four wait".
    pub fn is_full(&self) -> bool {
        self.0.len() == CAPACITY
    }
}
