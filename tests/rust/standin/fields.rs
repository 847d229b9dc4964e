//! Stand-in for the module list of dot15d4-frame's fields.

mod field_ranges;
mod mpdu;

pub use mpdu::*;
