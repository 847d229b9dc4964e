//! The frames of a capture, one after another, over the slice of the file's bytes. Nothing is allocated and nothing can panic: a
//! length that stands in the file only splits what is left of it, so no byte is in two frames.

pub mod damage;
mod hex;
mod input;
mod pcap;
mod pcapng;

use damage::{Damage, Wrong};

/// The one link type that is read: LINKTYPE_IEEE802_15_4_WITHFCS, frames that end in their checksum.
pub const IEEE802_15_4_WITHFCS: u16 = 195;

/// A frame as the capture has it.
#[derive(Clone, Copy, Debug)]
pub struct Frame<'a> {
    /// The offset in the file at which its data begins.
    pub offset: usize,
    /// In hexadecimal text, its line.
    pub line: Option<usize>,
    /// How many bytes it had on the air, if the capture says so. It may have kept fewer, never more.
    pub original: Option<u32>,
    pub data: Data<'a>,
}

/// A frame's data as it stands in the file; as an iterator, the frame's bytes.
#[derive(Clone, Copy, Debug)]
pub enum Data<'a> {
    Bytes(&'a [u8]),
    /// Hexadecimal pairs and blanks, and nothing else.
    Pairs(&'a [u8]),
}

impl Iterator for Data<'_> {
    type Item = u8;

    fn next(&mut self) -> Option<u8> {
        match self {
            Data::Bytes(bytes) => {
                let (first, after) = bytes.split_first()?;
                *bytes = after;
                Some(*first)
            }
            Data::Pairs(pairs) => hex::next_byte(pairs),
        }
    }
}

/// A capture that is being read. As an iterator its frames; damage is the last thing that it gives.
pub enum Reader<'a> {
    Pcap(pcap::Pcap<'a>),
    Pcapng(pcapng::Pcapng<'a>),
    Hex(hex::Hex<'a>),
    Unreadable(Damage),
    Ended,
}

impl<'a> Reader<'a> {
    /// The first four bytes tell the form.
    pub fn new(file: &'a [u8]) -> Self {
        if file.is_empty() {
            return Reader::Unreadable(Damage::at_byte(0, Wrong::Empty));
        }
        let magic = file.first_chunk::<4>().copied().unwrap_or_default();
        match pcap::byte_order(magic) {
            Some(order) => pcap::Pcap::new(file, order).map_or_else(Reader::Unreadable, Reader::Pcap),
            None if magic == pcapng::MAGIC => Reader::Pcapng(pcapng::Pcapng::new(file)),
            None => Reader::Hex(hex::Hex::new(file)),
        }
    }
}

impl<'a> Iterator for Reader<'a> {
    type Item = Result<Frame<'a>, Damage>;

    fn next(&mut self) -> Option<Self::Item> {
        let next = match self {
            Reader::Pcap(pcap) => pcap.next_frame(),
            Reader::Pcapng(pcapng) => pcapng.next_frame(),
            Reader::Hex(hex) => hex.next_frame(),
            Reader::Unreadable(damage) => Err(*damage),
            Reader::Ended => Ok(None),
        };
        if next.is_err() {
            *self = Reader::Ended;
        }
        next.transpose()
    }
}
