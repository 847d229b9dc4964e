//! Why a capture could not be read to its end, and the words for it.
use super::IEEE802_15_4_WITHFCS;
use core::fmt;

/// Where something stands in a file.
#[derive(Clone, Copy, Debug, PartialEq, Eq)]
pub enum Place {
    /// The offset of a byte, the first being 0. Damage is told at the first byte of the header, record or block that has it.
    Byte(usize),
    /// A column of a line of text, both counted from 1.
    Column { line: usize, column: usize },
}

/// What is not as it should be.
#[derive(Clone, Copy, Debug, PartialEq, Eq)]
pub enum Wrong {
    Empty,
    UnknownForm,
    NotAPair,
    HeaderCut { there: usize },
    PcapVersion { major: u16, minor: u16 },
    PcapngVersion { major: u16, minor: u16 },
    LinkType(u16),
    RecordCut { there: usize },
    FrameCut { captured: u32, there: usize },
    ByteOrderMagic,
    BlockStartCut { there: usize },
    BlockCut { length: u32, there: usize },
    BlockLength { length: u32, least: u32 },
    BlockLengths { length: u32, again: u32 },
    Interface { interface: u32, described: u32 },
    CapturedLength { captured: u32, room: usize },
    AboveOriginal { captured: u32, original: u32 },
}

/// The frames before it were read; nothing after it was.
#[derive(Clone, Copy, Debug, PartialEq, Eq)]
pub struct Damage {
    pub place: Place,
    pub wrong: Wrong,
}

impl Damage {
    pub fn at_byte(offset: usize, wrong: Wrong) -> Self {
        let place = Place::Byte(offset);
        Self { place, wrong }
    }
}

impl fmt::Display for Damage {
    fn fmt(&self, f: &mut fmt::Formatter<'_>) -> fmt::Result {
        match self.place {
            Place::Byte(offset) => write!(f, "byte {offset}: {}", self.wrong),
            Place::Column { line, column } => write!(f, "line {line}, column {column}: {}", self.wrong),
        }
    }
}

impl fmt::Display for Wrong {
    fn fmt(&self, f: &mut fmt::Formatter<'_>) -> fmt::Result {
        match *self {
            Wrong::Empty => write!(f, "the capture is empty"),
            Wrong::UnknownForm => write!(f, "this is neither pcap, pcapng nor hexadecimal pairs"),
            Wrong::NotAPair => write!(f, "neither a hexadecimal pair nor a blank"),
            Wrong::HeaderCut { there } => write!(f, "the pcap header is cut off: {there} of 24 bytes are there"),
            Wrong::PcapVersion { major, minor } => write!(f, "pcap version {major}.{minor}; only 2.4 and later 2.x are read"),
            Wrong::PcapngVersion { major, minor } => write!(f, "pcapng version {major}.{minor}; only 1.x is read"),
            Wrong::LinkType(number) => {
                let (name, only) = (link_type_name(number), IEEE802_15_4_WITHFCS);
                write!(f, "link type {number}{name}; only {only} (IEEE 802.15.4 with FCS) is read")
            }
            Wrong::RecordCut { there } => write!(f, "the record's header is cut off: {there} of 16 bytes are there"),
            Wrong::FrameCut { captured, there } => write!(f, "the record has {captured} captured bytes, but only {there} follow"),
            Wrong::ByteOrderMagic => write!(f, "the section header has no byte-order magic"),
            Wrong::BlockStartCut { there } => write!(f, "a block is cut off: {there} of its at least 12 bytes are there"),
            Wrong::BlockCut { length, there } => write!(f, "the block is cut off: {there} of {length} bytes are there"),
            Wrong::BlockLength { length, least } => {
                write!(f, "the block's length {length} is not a multiple of 4 of at least {least}")
            }
            Wrong::BlockLengths { length, again } => write!(f, "the block's length is {length} at its start, {again} at its end"),
            Wrong::Interface { interface, described } => {
                write!(
                    f,
                    "the packet is of interface {interface}, but the section has described {described} before it"
                )
            }
            Wrong::CapturedLength { captured, room } => {
                write!(
                    f,
                    "the packet has {captured} captured bytes, but its block has room for {room}"
                )
            }
            Wrong::AboveOriginal { captured, original } => {
                write!(f, "{captured} bytes are captured of a frame that had {original}")
            }
        }
    }
}

/// The name in brackets of a link type that a reader may meet.
fn link_type_name(number: u16) -> &'static str {
    match number {
        0 => " (BSD loopback)",
        1 => " (Ethernet)",
        101 => " (raw IP)",
        105 => " (IEEE 802.11)",
        113 => " (Linux cooked capture)",
        127 => " (IEEE 802.11 with radiotap)",
        191 => " (IEEE 802.15.4, padded by Linux)",
        215 => " (IEEE 802.15.4 with PHY bytes)",
        230 => " (IEEE 802.15.4 without FCS)",
        251 => " (Bluetooth Low Energy)",
        283 => " (IEEE 802.15.4 TAP)",
        _ => "",
    }
}
