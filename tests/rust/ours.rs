//! The exported functions of crates/leaf_exports, and the header reader of crates/frame_c: numbers pass as themselves, a byte slice
//! as its pointer and its length.

use std::ops::Range;

unsafe extern "C" {
    safe fn widosha_is_valid(control: u16) -> u8;
    safe fn widosha_addressing_fields_lengths(control: u16) -> u32;
    fn widosha_is_frame_valid_and_for_us(
        frame: *const u8,
        frame_length: usize,
        hardware: u64,
        pan: u16,
        implicit: u8,
    ) -> u8;
    fn widosha_ack_seq_num(frame: *const u8, frame_length: usize) -> u16;
    fn widosha_is_ack_for(frame: *const u8, frame_length: usize, length: u16, number: u8) -> u8;
    safe fn widosha_from_mpdu_length(length: u16) -> u8;
    fn widosha_preliminary_frame_info(
        frame: *const u8,
        frame_length: usize,
        info: *mut u8,
        info_length: usize,
    ) -> u8;
}

pub fn is_valid(control: u16) -> u8 {
    widosha_is_valid(control)
}

pub fn lengths(control: u16) -> u32 {
    widosha_addressing_fields_lengths(control)
}

#[inline]
pub fn for_us(frame: &[u8], hardware: u64, pan: u16, implicit: bool) -> u8 {
    // Safety: The pointer and the length of a slice.
    unsafe { widosha_is_frame_valid_and_for_us(frame.as_ptr(), frame.len(), hardware, pan, implicit as u8) }
}

pub fn ack_seq_num(frame: &[u8]) -> u16 {
    // Safety: As above.
    unsafe { widosha_ack_seq_num(frame.as_ptr(), frame.len()) }
}

pub fn is_ack_for(frame: &[u8], length: u16, number: u8) -> u8 {
    // Safety: As above.
    unsafe { widosha_is_ack_for(frame.as_ptr(), frame.len(), length, number) }
}

pub fn from_mpdu_length(length: u16) -> u8 {
    widosha_from_mpdu_length(length)
}

/// A fact that is missing.
pub const MISSING: u64 = u64::MAX;
/// The destination PAN where control omits it.
pub const OMITTED: u64 = 0x10000;
/// Bytes that stand for nothing (docs/LAYOUTS.md).
const BROKEN: u64 = u64::MAX - 1;

/// The facts of a header in their 32 bytes, each as a number (docs/VECTORS.md).
pub struct Facts([u8; 32]);

pub fn facts(frame: &[u8]) -> Facts {
    // What is not written shows.
    let mut info = [0x5A; 32];
    // Safety: As above; the slices do not overlap.
    let refused =
        unsafe { widosha_preliminary_frame_info(frame.as_ptr(), frame.len(), info.as_mut_ptr(), info.len()) };
    assert_eq!(refused, 0);
    Facts(info)
}

impl Facts {
    /// The number in some bytes, low byte first, where another byte says that it is there.
    fn number(&self, there: usize, bytes: Range<usize>) -> u64 {
        let number = bytes.rev().fold(0, |sum, at| sum << 8 | self.0[at] as u64);
        match self.0[there] {
            0 if number == 0 => MISSING,
            1 => number,
            _ => BROKEN,
        }
    }

    fn length(&self, there: usize, mode: usize) -> u64 {
        match self.number(there, mode..mode + 1) {
            3 => 8,
            length @ (0 | 2 | MISSING) => length,
            _ => BROKEN,
        }
    }

    pub fn control(&self) -> u64 {
        self.number(0, 1..3)
    }

    pub fn seq_nr(&self) -> u64 {
        self.number(3, 4..5)
    }

    pub fn dst_pan_id(&self) -> u64 {
        match (self.number(5, 6..7), self.number(6, 7..9)) {
            (MISSING, MISSING) => MISSING,
            (0, MISSING) => OMITTED,
            (1, id) => id,
            _ => BROKEN,
        }
    }

    pub fn dst_length(&self) -> u64 {
        self.length(5, 9)
    }

    pub fn dst_address(&self) -> u64 {
        self.number(5, 10..18)
    }

    pub fn src_pan_id(&self) -> u64 {
        self.number(18, 19..21)
    }

    pub fn src_length(&self) -> u64 {
        self.length(21, 22)
    }

    pub fn src_address(&self) -> u64 {
        self.number(21, 23..31)
    }

    pub fn end(&self) -> u64 {
        match self.0[31] {
            0 => MISSING,
            end @ 2..=23 => end as u64,
            _ => BROKEN,
        }
    }
}
