//! The library's functions on their slices, each slice between guard bytes.
use crate::model::calls::{Raw, RawStart};
use widosha::ffi;

/// A slice with guard bytes before and after it; with WIDOSHA_ROUNDS_DIVISOR set, a piece of memory of its own and no guard bytes.
#[derive(Clone, Debug)]
pub struct Guarded {
    bytes: Vec<u8>,
    guard: usize,
}

fn pattern(at: usize) -> u8 {
    (at as u8).wrapping_mul(37) ^ 0x5a
}

impl Guarded {
    pub fn new(content: &[u8]) -> Guarded {
        let guard = if super::divisor().is_some() { 0 } else { 32 };
        let mut bytes: Vec<u8> = Vec::with_capacity(content.len() + 2 * guard);
        bytes.extend((0..guard).map(pattern));
        bytes.extend_from_slice(content);
        bytes.extend((0..guard).map(pattern));
        Guarded { bytes, guard }
    }

    pub fn len(&self) -> usize {
        self.bytes.len() - 2 * self.guard
    }

    pub fn get(&self) -> &[u8] {
        &self.bytes[self.guard..self.bytes.len() - self.guard]
    }

    pub fn get_mut(&mut self) -> &mut [u8] {
        let end = self.bytes.len() - self.guard;
        &mut self.bytes[self.guard..end]
    }

    pub fn intact(&self) -> bool {
        let (before, after) = (&self.bytes[..self.guard], &self.bytes[self.bytes.len() - self.guard..]);
        let is_pattern = |guard: &[u8]| guard.iter().enumerate().all(|(at, byte)| *byte == pattern(at));
        is_pattern(before) && is_pattern(after)
    }
}

/// State, line, reply and pool.
#[derive(Clone, Debug)]
pub struct Slices {
    pub state: Guarded,
    pub line: Guarded,
    pub reply: Guarded,
    pub pool: Guarded,
    /// Whether a slice of length 0 is passed as a null pointer.
    pub null_if_empty: bool,
}

impl Slices {
    pub fn new(state: &[u8], line: &[u8], reply: &[u8], pool: &[u8]) -> Slices {
        Slices {
            state: Guarded::new(state),
            line: Guarded::new(line),
            reply: Guarded::new(reply),
            pool: Guarded::new(pool),
            null_if_empty: false,
        }
    }

    pub fn intact(&self) -> bool {
        [&self.state, &self.line, &self.reply, &self.pool]
            .iter()
            .all(|slice| slice.intact())
    }

    /// The four pointers, each with its length.
    pub fn parts(&mut self) -> [(*mut u8, usize); 4] {
        let null_if_empty = self.null_if_empty;
        [&mut self.state, &mut self.line, &mut self.reply, &mut self.pool].map(|slice| {
            let slice = slice.get_mut();
            if null_if_empty && slice.is_empty() {
                (std::ptr::null_mut(), 0)
            } else {
                (slice.as_mut_ptr(), slice.len())
            }
        })
    }

    pub fn start(&mut self, raw: &RawStart) -> u8 {
        let pool = self.parts()[3];
        // SAFETY: the pointer comes from a vector of its own, with its length, or is null with length 0.
        unsafe { self.start_on(raw, pool) }
    }

    /// Start on another pool, which stands where the pointer says.
    ///
    /// # Safety
    ///
    /// The pointer is valid for reads and writes of as many bytes as the length says, and they are nobody else's.
    pub unsafe fn start_on(&mut self, raw: &RawStart, (p, pl): (*mut u8, usize)) -> u8 {
        let [(s, sl), (l, ll), (r, rl), _] = self.parts();
        let RawStart {
            count,
            headroom,
            tailroom,
            fcs_length,
            hardware_addr,
            ..
        } = *raw;
        let RawStart {
            pan_id,
            implicit_broadcast,
            ack_buffer,
            spare_buffer,
            ..
        } = *raw;
        // SAFETY: three pointers come from separate vectors, with their lengths, or are null with length 0; the pool is the caller's.
        unsafe {
            ffi::widosha_start(
                count,
                headroom,
                tailroom,
                fcs_length,
                hardware_addr,
                pan_id,
                implicit_broadcast,
                ack_buffer,
                spare_buffer,
                s,
                sl,
                l,
                ll,
                r,
                rl,
                p,
                pl,
            )
        }
    }

    pub fn call(&mut self, raw: &Raw) -> u8 {
        // SAFETY: the pointers come from four separate vectors, with their lengths, or are null with length 0.
        unsafe { call_on(self.parts(), raw) }
    }
}

/// The call on four slices, each a pointer with its length.
///
/// # Safety
///
/// As of the functions themselves.
pub unsafe fn call_on(slices: [(*mut u8, usize); 4], raw: &Raw) -> u8 {
    let [(s, sl), (l, ll), (r, rl), (p, pl)] = slices;
    // SAFETY: what the caller owes.
    unsafe {
        match *raw {
            Raw::Arrive {
                token,
                direction,
                start,
                time,
                buffer,
                length,
                cca,
            } => ffi::widosha_arrive(token, direction, start, time, buffer, length, cca, s, sl, l, ll, r, rl, p, pl),
            Raw::Withdraw { token } => ffi::widosha_withdraw(token, s, sl, l, ll, r, rl, p, pl),
            Raw::Request => ffi::widosha_request(s, sl, l, ll, r, rl, p, pl),
            Raw::None => ffi::widosha_none(s, sl, l, ll, r, rl, p, pl),
            Raw::FrameStart => ffi::widosha_frame_start(s, sl, l, ll, r, rl, p, pl),
            Raw::OutboundSeen { start, time, cca } => ffi::widosha_outbound_seen(start, time, cca, s, sl, l, ll, r, rl, p, pl),
            Raw::Stopped {
                outcome,
                length,
                time,
                quality,
            } => ffi::widosha_stopped(outcome, length, time, quality, s, sl, l, ll, r, rl, p, pl),
            Raw::Header { arrived, length } => ffi::widosha_header(arrived, length, s, sl, l, ll, r, rl, p, pl),
            Raw::Entered {
                result,
                length,
                time,
                entry,
                quality,
            } => ffi::widosha_entered(result, length, time, entry, quality, s, sl, l, ll, r, rl, p, pl),
            Raw::Fallback {
                result,
                length,
                time,
                cause,
                cause_time,
                quality,
            } => ffi::widosha_fallback(result, length, time, cause, cause_time, quality, s, sl, l, ll, r, rl, p, pl),
            Raw::Rollback => ffi::widosha_rollback(s, sl, l, ll, r, rl, p, pl),
        }
    }
}

/// Frame and facts: the slices of the header reader.
#[derive(Clone, Debug)]
pub struct FrameSlices {
    pub frame: Guarded,
    pub info: Guarded,
    /// Whether a slice of length 0 is passed as a null pointer.
    pub null_if_empty: bool,
}

impl FrameSlices {
    pub fn new(frame: &[u8], info: &[u8]) -> FrameSlices {
        FrameSlices {
            frame: Guarded::new(frame),
            info: Guarded::new(info),
            null_if_empty: false,
        }
    }

    pub fn intact(&self) -> bool {
        self.frame.intact() && self.info.intact()
    }

    pub fn read(&mut self) -> u8 {
        let (mut frame, mut info) = (self.frame.get().as_ptr(), self.info.get_mut().as_mut_ptr());
        if self.null_if_empty && self.frame.len() == 0 {
            frame = std::ptr::null();
        }
        if self.null_if_empty && self.info.len() == 0 {
            info = std::ptr::null_mut();
        }
        // SAFETY: the pointers come from two separate vectors, with their lengths, or are null with length 0.
        unsafe { ffi::widosha_preliminary_frame_info(frame, self.frame.len(), info, self.info.len()) }
    }
}
