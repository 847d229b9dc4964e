//! Why a call gives no reply: it was refused, or library and crate do not belong together.
use crate::ffi;
use core::fmt;

/// Why a call was refused, by the numbers of docs/LAYOUTS.md. A refused call changes nothing.
///
/// Document 02 has more to come: 15 (request E7), 16 (E8), 17 (E12) and 18 (E14).
#[derive(Clone, Copy, Debug, PartialEq, Eq)]
#[non_exhaustive]
pub enum Refusal {
    /// 1: the bytes of the state or the line are not such as start and accepted calls leave. Does not occur here.
    State,
    /// 2: the count or the pool's length. Does not occur here.
    Count,
    /// 3: headroom or tailroom is above 8.
    Rooms,
    /// 4: the two own buffers are equal, or one is not there.
    OwnBuffers,
    /// 5: the call or its outcome does not fit the wait, or the requests that wait.
    Unfit,
    /// 6: an unanswered request that has left the line has this token.
    TokenHeld,
    /// 7: the buffer is not there or is held, be it by a request that waits.
    BufferHeld,
    /// 8: the Tx length is below 3, or above 127 less the checksum.
    TxLength,
    /// 9: no request waits whose direction and start are allowed in this wait.
    NotAllowed,
    /// 10: the received length is 0, or it or the arrived bytes are above 127 less the checksum.
    ReceivedLength,
    /// 11: the latest start of the ACK exceeds 64 bits.
    EntryTooLate,
    /// 12: four requests wait.
    LineFull,
    /// 13: of an arrival, the token waits; of a withdrawal, it does not, or it is that of the Tx that OutboundSeen named, whose stop
    /// or ask is still open.
    TokenWaits,
    /// 14: the frame whose checksum is to be checked has, with its checksum, under 3 or over 127 bytes. From `check_fcs` alone.
    FrameLength,
}

impl Refusal {
    /// The number that the library returned.
    pub const fn number(self) -> u8 {
        match self {
            Refusal::State => ffi::REFUSAL_STATE,
            Refusal::Count => ffi::REFUSAL_COUNT,
            Refusal::Rooms => ffi::REFUSAL_ROOMS,
            Refusal::OwnBuffers => ffi::REFUSAL_OWN_BUFFERS,
            Refusal::Unfit => ffi::REFUSAL_UNFIT,
            Refusal::TokenHeld => ffi::REFUSAL_TOKEN_HELD,
            Refusal::BufferHeld => ffi::REFUSAL_BUFFER_HELD,
            Refusal::TxLength => ffi::REFUSAL_TX_LENGTH,
            Refusal::NotAllowed => ffi::REFUSAL_NOT_ALLOWED,
            Refusal::ReceivedLength => ffi::REFUSAL_RECEIVED_LENGTH,
            Refusal::EntryTooLate => ffi::REFUSAL_ENTRY_TOO_LATE,
            Refusal::LineFull => ffi::REFUSAL_LINE_FULL,
            Refusal::TokenWaits => ffi::REFUSAL_TOKEN_WAITS,
            Refusal::FrameLength => ffi::REFUSAL_FRAME_LENGTH,
        }
    }

    /// None for 0, which is "accepted", and for a number that no refusal has.
    pub(crate) const fn of(number: u8) -> Option<Self> {
        Some(match number {
            ffi::REFUSAL_STATE => Refusal::State,
            ffi::REFUSAL_COUNT => Refusal::Count,
            ffi::REFUSAL_ROOMS => Refusal::Rooms,
            ffi::REFUSAL_OWN_BUFFERS => Refusal::OwnBuffers,
            ffi::REFUSAL_UNFIT => Refusal::Unfit,
            ffi::REFUSAL_TOKEN_HELD => Refusal::TokenHeld,
            ffi::REFUSAL_BUFFER_HELD => Refusal::BufferHeld,
            ffi::REFUSAL_TX_LENGTH => Refusal::TxLength,
            ffi::REFUSAL_NOT_ALLOWED => Refusal::NotAllowed,
            ffi::REFUSAL_RECEIVED_LENGTH => Refusal::ReceivedLength,
            ffi::REFUSAL_ENTRY_TOO_LATE => Refusal::EntryTooLate,
            ffi::REFUSAL_LINE_FULL => Refusal::LineFull,
            ffi::REFUSAL_TOKEN_WAITS => Refusal::TokenWaits,
            ffi::REFUSAL_FRAME_LENGTH => Refusal::FrameLength,
            _ => return None,
        })
    }

    /// What holds, in the words of the table of refusals in docs/LAYOUTS.md.
    const fn sentence(self) -> &'static str {
        match self {
            Refusal::State => "a slice has the wrong length, or its bytes are no state, or no line that fits the state",
            Refusal::Count => "the count of buffers is not 3 to 32, or the pool is not 144 bytes for each of them",
            Refusal::Rooms => {
                "headroom or tailroom is over 8, the checksum length is neither 2 nor 4, or implicit_broadcast is over 1"
            }
            Refusal::OwnBuffers => "the two own buffers are equal, or one of them is not below the count",
            Refusal::Unfit => "the call or its outcome does not fit the wait or what waits, or a code stands for nothing",
            Refusal::TokenHeld => "an unanswered request that has left the line has the token",
            Refusal::BufferHeld => "the buffer is not below the count, or it is held",
            Refusal::TxLength => "the length of the frame to send is under 3, or over 127 less the checksum length",
            Refusal::NotAllowed => "no request waits whose direction and start the wait allows",
            Refusal::ReceivedLength => "a received length is 0, or it or the arrived bytes are over 127 less the checksum length",
            Refusal::EntryTooLate => "the entry that begins a wait for an acknowledgement plus 10,000 exceeds 64 bits",
            Refusal::LineFull => "four requests wait",
            Refusal::TokenWaits => {
                "a request with the token waits; or none does to withdraw, or OutboundSeen has named it and its stop or ask is open"
            }
            Refusal::FrameLength => "a frame with its checksum has under 3 or over 127 bytes",
        }
    }
}

impl fmt::Display for Refusal {
    fn fmt(&self, f: &mut fmt::Formatter<'_>) -> fmt::Result {
        write!(f, "{} (refusal {})", self.sentence(), self.number())
    }
}

impl core::error::Error for Refusal {}

/// Why a call has no reply. Of the three only a refusal is to be met with a library that belongs to this crate.
///
/// The refusal of request E12 has the number of a line with it, and so will be a case of its own.
#[derive(Clone, Copy, Debug, PartialEq, Eq)]
#[non_exhaustive]
pub enum Error {
    /// The call was refused and has changed nothing.
    Refused(Refusal),
    /// The library returned a number that docs/LAYOUTS.md does not have for this call, or with 0 a reply that it does not have.
    Undecodable {
        /// What the library returned.
        returned: u8,
    },
    /// A library has another version of the interface than this crate, so start was not called.
    AbiVersion {
        /// The library's version.
        library: u32,
    },
}

impl Error {
    /// The refusal; none of the other two.
    pub const fn refusal(self) -> Option<Refusal> {
        match self {
            Error::Refused(refusal) => Some(refusal),
            Error::Undecodable { .. } | Error::AbiVersion { .. } => None,
        }
    }

    /// What is wrong if the libraries have these versions: the first that is not this crate's.
    pub(crate) fn of_versions(libraries: [u32; 2]) -> Option<Self> {
        let other = libraries.into_iter().find(|library| *library != ffi::ABI_VERSION);
        other.map(|library| Error::AbiVersion { library })
    }

    /// Of what start or a call returned, if there is no reply to read. 14 is a number of `check_fcs` alone.
    pub(crate) const fn of_call(returned: u8) -> Self {
        match Refusal::of(returned) {
            Some(Refusal::FrameLength) | None => Error::Undecodable { returned },
            Some(refusal) => Error::Refused(refusal),
        }
    }
}

impl From<Refusal> for Error {
    fn from(refusal: Refusal) -> Self {
        Error::Refused(refusal)
    }
}

impl fmt::Display for Error {
    fn fmt(&self, f: &mut fmt::Formatter<'_>) -> fmt::Result {
        match self {
            Error::Refused(refusal) => refusal.fmt(f),
            Error::Undecodable { returned: 0 } => {
                f.write_str("the library gave a reply that this crate cannot read, so the two do not belong together")
            }
            Error::Undecodable { returned } => write!(
                f,
                "the library returned {returned}, which this crate does not know, so the two do not belong together"
            ),
            Error::AbiVersion { library } => write!(
                f,
                "the library has version {library} of the interface, and this crate is made for version {}",
                ffi::ABI_VERSION
            ),
        }
    }
}

impl core::error::Error for Error {}

#[cfg(test)]
mod tests {
    use super::*;
    use std::collections::BTreeSet;
    use std::format;
    use std::string::{String, ToString};
    use std::vec::Vec;

    #[test]
    fn every_refusal_number_comes_back() {
        for number in 0..=255 {
            let refusal = Refusal::of(number);
            assert_eq!(refusal.is_some(), (1..=14).contains(&number));
            assert!(refusal.is_none_or(|refusal| refusal.number() == number));
            let of_call = refusal.filter(|refusal| *refusal != Refusal::FrameLength);
            let expected = of_call.map_or(Error::Undecodable { returned: number }, Error::from);
            assert_eq!(Error::of_call(number), expected);
            assert_eq!(expected.refusal(), of_call);
        }
        assert_eq!(Refusal::of(1), Some(Refusal::State));
        assert_eq!(Refusal::of(5), Some(Refusal::Unfit));
        assert_eq!(Refusal::of(9), Some(Refusal::NotAllowed));
        assert_eq!(Refusal::of(12), Some(Refusal::LineFull));
        assert_eq!(Refusal::of(13), Some(Refusal::TokenWaits));
        assert_eq!(Refusal::of(14), Some(Refusal::FrameLength));
    }

    #[test]
    fn both_libraries_have_the_version_of_the_crate() {
        assert_eq!(Error::of_versions(crate::raw::abi_versions()), None);
        assert_eq!(Error::of_versions([1, 1]), None);
        for [driver, frame, told] in [[2, 1, 2], [1, 0, 0], [3, 2, 3]] {
            assert_eq!(Error::of_versions([driver, frame]), Some(Error::AbiVersion { library: told }));
        }
    }

    // Each case has words of its own: a sentence that can stand after "error: ", with the number of a refusal behind it.
    #[test]
    fn errors_are_sentences() {
        let refusals = (1..=14).filter_map(Refusal::of).map(|refusal| refusal.to_string());
        let others = [
            Error::Undecodable { returned: 0 },
            Error::Undecodable { returned: 77 },
            Error::AbiVersion { library: 2 },
        ];
        let sentences: BTreeSet<String> = refusals.chain(others.map(|error| error.to_string())).collect();
        assert_eq!(sentences.len(), 17);
        for sentence in &sentences {
            assert!(sentence.split(' ').count() >= 5, "{sentence}");
            assert!(
                !sentence.ends_with('.') && !sentence.contains("  ") && !sentence.contains('\n'),
                "{sentence}"
            );
        }
        for refusal in (1..=14).filter_map(Refusal::of) {
            assert_eq!(Error::from(refusal).to_string(), refusal.to_string());
        }
        let version = "the library has version 2 of the interface, and this crate is made for version 1";
        assert!(sentences.contains(version));
    }

    // docs/LAYOUTS.md has a row for each: its number, the sentence, and who refuses so.
    #[test]
    fn the_sentences_are_those_of_the_layouts() {
        let table = include_str!("../../docs/LAYOUTS.md");
        let mut rows = 0;
        for line in table.lines().filter(|line| line.contains("| `WIDOSHA_REFUSAL_")) {
            let cells: Vec<&str> = line.split('|').map(str::trim).collect();
            let number: u8 = cells[1].parse().expect("a number");
            let (first, rest) = cells[2].trim_end_matches('.').split_at(1);
            let expected = format!("{}{rest} (refusal {number})", first.to_lowercase());
            assert_eq!(Refusal::of(number).map(|refusal| refusal.to_string()), Some(expected));
            rows += 1;
        }
        assert_eq!(rows, 14);
    }
}
