//! What a frame's header says, as far as its bytes have arrived: decoded from the 32 bytes that the header reader writes.
use crate::ffi::{self, INFO_LENGTH};
use crate::raw;

/// An address in a header.
#[derive(Clone, Copy, Debug, PartialEq, Eq)]
pub enum Address {
    /// The header has none.
    Absent,
    /// Two bytes.
    Short(u16),
    /// The number whose eight bytes, highest first, are the address, as the hardware address in `Settings`.
    Extended(u64),
}

/// Where a frame goes to. One fact, there when every byte to the end of the address fields has arrived, the source's too.
#[derive(Clone, Copy, Debug, PartialEq, Eq)]
pub struct AddressingFields {
    /// The destination PAN. None if the header omits it.
    pub dst_pan_id: Option<u16>,
    /// The destination.
    pub dst_address: Address,
}

/// The facts of a frame's header. Each is missing by itself, until its own bytes have arrived; frame control that is not well
/// formed is the last one, and then all others are missing, however many bytes there are.
///
/// ```
/// use widosha::PreliminaryFrameInfo;
///
/// // Control 8841: data, one PAN for two short addresses. Number 7, PAN, hub, and the cell's first byte.
/// let info = PreliminaryFrameInfo::of(&[0x41, 0x88, 7, 0x34, 0x12, 0x00, 0x00, 0x01]);
/// assert_eq!((info.frame_control, info.seq_nr, info.src_pan_id), (Some(0x8841), Some(7), Some(0x1234)));
/// assert_eq!((info.src_address, info.addressing_fields, info.addressing_end), (None, None, None));
/// ```
#[derive(Clone, Copy, Debug, Default, PartialEq, Eq)]
pub struct PreliminaryFrameInfo {
    /// Frame control.
    pub frame_control: Option<u16>,
    /// The sequence number; missing also where it is suppressed.
    pub seq_nr: Option<u8>,
    /// Where the frame goes to.
    pub addressing_fields: Option<AddressingFields>,
    /// The source PAN: the frame's own or, where control leaves that out, the destination's. Missing also if that is left out too,
    /// and of a frame without a source.
    pub src_pan_id: Option<u16>,
    /// The source. `Some(Address::Absent)` says that the header has none, None that its bytes have not all arrived.
    pub src_address: Option<Address>,
    /// Where the address fields end, counted from the frame's first byte: 2 to 23.
    pub addressing_end: Option<u8>,
}

impl PreliminaryFrameInfo {
    /// The facts of a frame of which these bytes, without checksum, have arrived: any bytes and any number of them. (A library that
    /// does not belong to this crate would show as no fact at all.)
    pub fn of(frame: &[u8]) -> Self {
        let mut info = [0; INFO_LENGTH];
        match raw::preliminary_frame_info(frame, &mut info) {
            0 => Self::decode(&info).unwrap_or_default(),
            _ => Self::default(),
        }
    }

    /// None if the bytes are not those of facts.
    fn decode(info: &[u8; INFO_LENGTH]) -> Option<Self> {
        let [control, c0, c1, numbered, number, addressed, dst_pan, d0, d1, rest @ ..] = *info;
        let [dst_mode, b0, b1, b2, b3, b4, b5, b6, b7, rest @ ..] = rest;
        let [src_pan, p0, p1, sourced, src_mode, s0, s1, s2, s3, s4, s5, s6, s7, end] = rest;
        let destination = AddressingFields {
            dst_pan_id: there(dst_pan)?.then_some(u16::from_le_bytes([d0, d1])),
            dst_address: Address::decode(dst_mode, [b0, b1, b2, b3, b4, b5, b6, b7])?,
        };
        let source = Address::decode(src_mode, [s0, s1, s2, s3, s4, s5, s6, s7])?;
        Some(Self {
            frame_control: there(control)?.then_some(u16::from_le_bytes([c0, c1])),
            seq_nr: there(numbered)?.then_some(number),
            addressing_fields: there(addressed)?.then_some(destination),
            src_pan_id: there(src_pan)?.then_some(u16::from_le_bytes([p0, p1])),
            src_address: there(sourced)?.then_some(source),
            addressing_end: match end {
                0 => None,
                2..=23 => Some(end),
                _ => return None,
            },
        })
    }
}

impl Address {
    fn decode(mode: u8, bytes: [u8; 8]) -> Option<Self> {
        let number = u64::from_le_bytes(bytes);
        Some(match mode {
            ffi::ADDRESS_ABSENT => Address::Absent,
            ffi::ADDRESS_SHORT => Address::Short(u16::try_from(number).ok()?),
            ffi::ADDRESS_EXTENDED => Address::Extended(number),
            _ => return None,
        })
    }
}

fn there(code: u8) -> Option<bool> {
    match code {
        0 => Some(false),
        1 => Some(true),
        _ => None,
    }
}

/// A frame that was received.
#[derive(Clone, Copy, Debug, PartialEq, Eq)]
pub struct Received<'a> {
    /// Its bytes, without checksum.
    pub frame: &'a [u8],
    /// What its header says.
    pub info: PreliminaryFrameInfo,
}

impl<'a> Received<'a> {
    pub(crate) fn of(frame: &'a [u8]) -> Self {
        let info = PreliminaryFrameInfo::of(frame);
        Self { frame, info }
    }

    /// The bytes after the address fields: the payload, where control names neither security nor elements before it. None if the
    /// frame ends inside the address fields or its control is not well formed.
    pub fn after_addressing(&self) -> Option<&'a [u8]> {
        self.frame.get(usize::from(self.info.addressing_end?)..)
    }
}

#[cfg(test)]
mod tests {
    use super::*;

    fn with(parts: &[(usize, &[u8])]) -> [u8; INFO_LENGTH] {
        let mut info = [0; INFO_LENGTH];
        for (at, bytes) in parts {
            info[*at..*at + bytes.len()].copy_from_slice(bytes);
        }
        info
    }

    fn decoded(parts: &[(usize, &[u8])]) -> Option<PreliminaryFrameInfo> {
        PreliminaryFrameInfo::decode(&with(parts))
    }

    const NOTHING: PreliminaryFrameInfo = PreliminaryFrameInfo {
        frame_control: None,
        seq_nr: None,
        addressing_fields: None,
        src_pan_id: None,
        src_address: None,
        addressing_end: None,
    };

    #[test]
    fn each_fact_has_its_bytes() {
        assert_eq!(decoded(&[]), Some(NOTHING));
        let frame_control = Some(0x8841);
        let expected = PreliminaryFrameInfo {
            frame_control,
            ..NOTHING
        };
        assert_eq!(decoded(&[(0, &[1, 0x41, 0x88])]), Some(expected));
        let seq_nr = Some(0xa7);
        assert_eq!(decoded(&[(3, &[1, 0xa7])]), Some(PreliminaryFrameInfo { seq_nr, ..NOTHING }));
        let src_pan_id = Some(0x1234);
        let expected = PreliminaryFrameInfo { src_pan_id, ..NOTHING };
        assert_eq!(decoded(&[(18, &[1, 0x34, 0x12])]), Some(expected));
        for end in 2..=23 {
            let addressing_end = Some(end);
            let expected = PreliminaryFrameInfo {
                addressing_end,
                ..NOTHING
            };
            assert_eq!(decoded(&[(31, &[end])]), Some(expected));
        }
    }

    #[test]
    fn addresses_are_those_of_the_layouts() {
        let extended: &[u8] = &[8, 7, 6, 5, 4, 3, 2, 1];
        let rows: [(u8, &[u8], Address); 3] = [
            (0, &[], Address::Absent),
            (2, &[0x06, 0xa0], Address::Short(0xa006)),
            (3, extended, Address::Extended(0x0102_0304_0506_0708)),
        ];
        for (mode, bytes, address) in rows {
            let src_address = Some(address);
            let expected = PreliminaryFrameInfo { src_address, ..NOTHING };
            assert_eq!(decoded(&[(21, &[1, mode]), (23, bytes)]), Some(expected));
            for (pan, dst_pan_id) in [([0, 0, 0], None), ([1, 0xcd, 0xab], Some(0xabcd))] {
                let addressing_fields = Some(AddressingFields {
                    dst_pan_id,
                    dst_address: address,
                });
                let expected = PreliminaryFrameInfo {
                    addressing_fields,
                    ..NOTHING
                };
                assert_eq!(decoded(&[(5, &[1]), (6, &pan), (9, &[mode]), (10, bytes)]), Some(expected));
            }
        }
    }

    // Every byte stands for itself: with all facts there, each other value of one byte says something else or nothing.
    #[test]
    fn every_byte_counts() {
        let whole = with(&[
            (0, &[1, 0x01, 0xdc, 1, 0xa7, 1, 1, 0x34, 0x12, 3]),
            (10, &[1, 2, 3, 4, 5, 6, 7, 8, 1, 0x78, 0x56, 1, 3]),
            (23, &[0x11, 0x12, 0x13, 0x14, 0x15, 0x16, 0x17, 0x18, 23]),
        ]);
        let info = PreliminaryFrameInfo::decode(&whole);
        assert!(info.is_some_and(|info| info.addressing_end == Some(23)));
        for at in 0..INFO_LENGTH {
            for value in (0..=255).filter(|value| *value != whole[at]) {
                let mut other = whole;
                other[at] = value;
                assert_ne!(PreliminaryFrameInfo::decode(&other), info, "byte {at} is {value}");
            }
        }
    }

    #[test]
    fn codes_that_the_layouts_do_not_have_are_none() {
        for place in [0, 3, 5, 6, 18, 21] {
            for code in 2..=255 {
                assert_eq!(decoded(&[(place, &[code])]), None, "byte {place} is {code}");
            }
        }
        for place in [9, 22] {
            for mode in (1..=255).filter(|mode| ![2, 3].contains(mode)) {
                assert_eq!(decoded(&[(place, &[mode])]), None, "byte {place} is {mode}");
            }
            assert_eq!(decoded(&[(place, &[2, 0, 0, 1])]), None, "a short address of three bytes");
        }
        for end in (1..=255).filter(|end| !(2..=23).contains(end)) {
            assert_eq!(decoded(&[(31, &[end])]), None, "the end is {end}");
        }
    }

    #[test]
    fn what_follows_the_address_fields() {
        let frame: &[u8] = &[0x41, 0x88, 7, 0x34, 0x12, 0, 0, 1, 0, 0xc0, 0x5d];
        assert_eq!(Received::of(frame).after_addressing(), Some(&frame[9..]));
        assert_eq!(Received::of(&frame[..9]).after_addressing(), Some(&[][..]));
        assert_eq!(Received::of(&frame[..8]).after_addressing(), None, "the source is cut off");
        assert_eq!(
            Received::of(&[0x04; 30]).after_addressing(),
            None,
            "control is not well formed"
        );
        // The fields are public, so an end of another frame can stand there.
        let info = PreliminaryFrameInfo {
            addressing_end: Some(12),
            ..NOTHING
        };
        assert_eq!(Received { frame, info }.after_addressing(), None);
    }
}
