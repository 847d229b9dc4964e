//! Stand-in for the module list of dot15d4-frame's repr.

mod mpdu;
mod seq_nr;

pub use mpdu::*;
pub use seq_nr::*;
