//! The checksum at the end of a frame (FCS), worked out and checked by the library.
use crate::error::{Error, Refusal};
use crate::ffi::{FCS_NO, FCS_REFUSED, FCS_YES};
use crate::raw;

/// The 16-bit FCS of IEEE 802.15.4 of these bytes, as its two bytes are sent after them. Any bytes, also none: those have 00 00.
///
/// ```
/// // The acknowledgement of number 6A.
/// assert_eq!(widosha::fcs(&[0x02, 0x00, 0x6a]), [0xe4, 0x79]);
/// ```
pub fn fcs(bytes: &[u8]) -> [u8; 2] {
    raw::fcs(bytes).to_le_bytes()
}

/// Whether the last two bytes of this frame are the FCS of the bytes before them. Only the length is tested before: a frame of
/// under 3 or over 127 bytes, checksum included, is refused (`Refusal::FrameLength`).
///
/// ```
/// use widosha::{check_fcs, Error, Refusal};
///
/// assert_eq!(check_fcs(&[0x02, 0x00, 0x6a, 0xe4, 0x79]), Ok(true));
/// assert_eq!(check_fcs(&[0x02, 0x00, 0x6b, 0xe4, 0x79]), Ok(false));
/// assert_eq!(check_fcs(&[0xe4, 0x79]), Err(Error::Refused(Refusal::FrameLength)));
/// ```
pub fn check_fcs(frame: &[u8]) -> Result<bool, Error> {
    answer(raw::check_fcs(frame))
}

/// What the number says that the library's check returned.
const fn answer(number: u8) -> Result<bool, Error> {
    match number {
        FCS_YES => Ok(true),
        FCS_NO => Ok(false),
        FCS_REFUSED => Err(Error::Refused(Refusal::FrameLength)),
        returned => Err(Error::Undecodable { returned }),
    }
}

#[cfg(test)]
mod tests {
    use super::*;

    #[test]
    fn every_number_of_the_check_has_its_meaning() {
        for number in 0..=255 {
            let expected = match number {
                0 => Ok(true),
                255 => Ok(false),
                14 => Err(Error::Refused(Refusal::FrameLength)),
                returned => Err(Error::Undecodable { returned }),
            };
            assert_eq!(answer(number), expected);
        }
    }

    #[test]
    fn the_low_byte_comes_first() {
        assert_eq!(raw::fcs(&[0x02, 0x00, 0x6a]), 0x79e4);
        assert_eq!(fcs(&[0x02, 0x00, 0x6a]), [0xe4, 0x79]);
    }
}
