//! The functions of driver_c in their order, without what all names begin with.

pub const NAMES: [&str; 12] = [
    "start",
    "arrive",
    "withdraw",
    "request",
    "none",
    "frame_start",
    "outbound_seen",
    "stopped",
    "header",
    "entered",
    "fallback",
    "rollback",
];
