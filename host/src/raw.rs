//! The exported functions on slices. With `lent` and, as declarations, `ffi` this is all unsafe code of the crate.
#![allow(unsafe_code)]
use crate::ffi::{self, INFO_LENGTH, LINE_LENGTH, REPLY_LENGTH, STATE_LENGTH};
use crate::lent::PoolBytes;

/// The four slices of a call. Exclusive borrows do not overlap, which is all that the library asks of them. That of the pool is
/// one of its pointer: no reference to the bytes is made, which a radio may be writing.
pub(crate) struct Slices<'a> {
    pub(crate) state: &'a mut [u8; STATE_LENGTH],
    pub(crate) line: &'a mut [u8; LINE_LENGTH],
    pub(crate) reply: &'a mut [u8; REPLY_LENGTH],
    pub(crate) pool: PoolBytes<'a>,
}

macro_rules! on_slices {
    ($($name:ident($($number:ident: $type:ty),*) = $function:ident;)*) => {$(
        #[allow(clippy::too_many_arguments)]
        pub(crate) fn $name($($number: $type,)* slices: Slices<'_>) -> u8 {
            let Slices { state, line, reply, pool } = slices;
            // SAFETY: each pointer comes from an exclusive borrow of as many bytes as the length beside it says, that of the pool
            // from the one that the service is lent; the four borrows live until the function returns, and it keeps no pointer.
            // Every number is answered.
            unsafe {
                ffi::$function(
                    $($number,)*
                    state.as_mut_ptr(), state.len(), line.as_mut_ptr(), line.len(),
                    reply.as_mut_ptr(), reply.len(), pool.as_mut_ptr(), pool.len(),
                )
            }
        }
    )*};
}

on_slices! {
    start(
        count: u8, headroom: u8, tailroom: u8, fcs_length: u8, hardware_addr: u64, pan_id: u16, implicit_broadcast: u8,
        ack_buffer: u8, spare_buffer: u8
    ) = widosha_start;
    arrive(token: u32, direction: u8, start: u8, time: u64, buffer: u8, length: u16, cca: u8) = widosha_arrive;
    withdraw(token: u32) = widosha_withdraw;
    request() = widosha_request;
    none() = widosha_none;
    frame_start() = widosha_frame_start;
    outbound_seen(start: u8, time: u64, cca: u8) = widosha_outbound_seen;
    stopped(outcome: u8, length: u16, time: u64, quality: u8) = widosha_stopped;
    header(arrived: u16, length: u16) = widosha_header;
    entered(result: u8, length: u16, time: u64, entry: u64, quality: u8) = widosha_entered;
    fallback(result: u8, length: u16, time: u64, cause: u8, cause_time: u64, quality: u8) = widosha_fallback;
    rollback() = widosha_rollback;
}

/// The versions of the two libraries, that of the driver service first.
pub(crate) fn abi_versions() -> [u32; 2] {
    // SAFETY: the functions take nothing and touch no memory.
    unsafe { [ffi::widosha_abi_version(), ffi::widosha_frame_abi_version()] }
}

pub(crate) fn preliminary_frame_info(frame: &[u8], info: &mut [u8; INFO_LENGTH]) -> u8 {
    // SAFETY: the frame's pointer comes from a shared borrow and is only read, that of the facts from an exclusive one, each of as
    // many bytes as the length beside it says; both borrows live until the function returns, and it keeps no pointer.
    unsafe { ffi::widosha_preliminary_frame_info(frame.as_ptr(), frame.len(), info.as_mut_ptr(), info.len()) }
}

pub(crate) fn fcs(bytes: &[u8]) -> u16 {
    // SAFETY: the pointer comes from a shared borrow of as many bytes as the length says, which are only read; the borrow lives
    // until the function returns, and it keeps no pointer.
    unsafe { ffi::widosha_fcs(bytes.as_ptr(), bytes.len()) }
}

pub(crate) fn check_fcs(frame: &[u8]) -> u8 {
    // SAFETY: as of `fcs`.
    unsafe { ffi::widosha_check_fcs(frame.as_ptr(), frame.len()) }
}
