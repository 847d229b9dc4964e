//! Asks the library for the checksum and the check of each frame on standard input, and writes three bytes for each: the checksum,
//! low byte first, and what the check says. A frame is given as its length in four bytes, low byte first, and its bytes.

use std::io::{self, Read, Write};
use std::ptr;

unsafe extern "C" {
    fn widosha_fcs(bytes: *const u8, bytes_len: usize) -> u16;
    fn widosha_check_fcs(frame: *const u8, frame_len: usize) -> u8;
}

fn answers(frame: &[u8]) -> (u16, u8) {
    // Safety: The pointer and the length of a slice.
    unsafe {
        (
            widosha_fcs(frame.as_ptr(), frame.len()),
            widosha_check_fcs(frame.as_ptr(), frame.len()),
        )
    }
}

fn answers_of_null() -> (u16, u8) {
    // Safety: A null pointer with length 0 may be passed.
    unsafe { (widosha_fcs(ptr::null(), 0), widosha_check_fcs(ptr::null(), 0)) }
}

fn main() -> io::Result<()> {
    let mut input = Vec::new();
    io::stdin().read_to_end(&mut input)?;
    let mut rest = input.as_slice();
    let mut output = Vec::new();
    while let Some((length, after)) = rest.split_first_chunk() {
        let (frame, after) = after.split_at(u32::from_le_bytes(*length) as usize);
        // A copy of its own length, so that a tool that watches memory sees a read behind the frame.
        let frame = frame.to_vec();
        let (checksum, verdict) = answers(&frame);
        if frame.is_empty() {
            assert_eq!((checksum, verdict), answers_of_null(), "a null pointer is no bytes");
        }
        output.extend(checksum.to_le_bytes());
        output.push(verdict);
        rest = after;
    }
    assert!(rest.is_empty(), "the input ends inside a length");
    io::stdout().write_all(&output)
}
