//! Stand-in for the module list of dot15d4-frame's mpdu.

mod ack;
mod frame;

pub use ack::*;
pub use frame::*;
