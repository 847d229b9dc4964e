//! pcapng: blocks, each with its kind, its length, a body and its length again. A section header block says in which order the
//! bytes of a number stand until the next one, and interfaces are counted from it.
use super::damage::{Damage, Wrong};
use super::input::{ByteOrder, Input};
use super::{Data, Frame, IEEE802_15_4_WITHFCS};

/// The kind of the first block, the same in both orders.
pub const MAGIC: [u8; 4] = SECTION_HEADER.to_be_bytes();

const SECTION_HEADER: u32 = 0x0a0d_0d0a;
const INTERFACE_DESCRIPTION: u32 = 1;
/// The obsolete one.
const PACKET: u32 = 2;
const SIMPLE_PACKET: u32 = 3;
const ENHANCED_PACKET: u32 = 6;

pub struct Pcapng<'a> {
    input: Input<'a>,
    order: ByteOrder,
    /// How many interfaces the section has described so far. Each is of the one link type: another ends the reading.
    interfaces: u32,
    /// How many bytes interface 0 captures of a frame at most; 0 is no limit. Simple packets, which are its, hang on it.
    snap_length: u32,
}

/// The least length of a block: 12 bytes around the body, and the part of the body that is always there.
fn least_length(kind: u32) -> u32 {
    match kind {
        SECTION_HEADER => 28,
        INTERFACE_DESCRIPTION => 20,
        SIMPLE_PACKET => 16,
        ENHANCED_PACKET | PACKET => 32,
        _ => 12,
    }
}

/// A block's body and where it begins.
type Body<'a> = Input<'a>;

impl<'a> Pcapng<'a> {
    /// For a file that begins with a section header block, which sets the order.
    pub fn new(file: &'a [u8]) -> Self {
        Self {
            input: Input::new(file),
            order: ByteOrder::LowFirst,
            interfaces: 0,
            snap_length: 0,
        }
    }

    /// The next packet's frame; None at the file's end.
    pub fn next_frame(&mut self) -> Result<Option<Frame<'a>>, Damage> {
        while !self.input.rest.is_empty() {
            let start = self.input.at;
            let frame = self.next_block().and_then(|(kind, body)| self.read_block(kind, body));
            if let Some(frame) = frame.map_err(|wrong| Damage::at_byte(start, wrong))? {
                return Ok(Some(frame));
            }
        }
        Ok(None)
    }

    /// Takes a whole block, at least 12 bytes.
    fn next_block(&mut self) -> Result<(u32, Body<'a>), Wrong> {
        let (start, there) = (self.input.at, self.input.rest.len());
        let first = self.input.rest.first_chunk::<12>().ok_or(Wrong::BlockStartCut { there })?;
        let [t0, t1, t2, t3, l0, l1, l2, l3, magic @ ..] = *first;
        if [t0, t1, t2, t3] == MAGIC {
            self.order = section_order(magic)?;
        }
        let (kind, length) = (self.order.u32([t0, t1, t2, t3]), self.order.u32([l0, l1, l2, l3]));
        let least = least_length(kind);
        if length < least || length % 4 != 0 {
            return Err(Wrong::BlockLength { length, least });
        }
        let block = self.input.take_claimed(length).ok_or(Wrong::BlockCut { length, there })?;
        let Some(([_, _, _, _, _, _, _, _, body @ ..], again)) = block.split_last_chunk::<4>() else {
            return Err(Wrong::BlockLength { length, least });
        };
        let again = self.order.u32(*again);
        if again != length {
            return Err(Wrong::BlockLengths { length, again });
        }
        let at = start.saturating_add(8);
        Ok((kind, Body { at, rest: body }))
    }

    /// The packet's frame, if the block is one.
    fn read_block(&mut self, kind: u32, mut body: Body<'a>) -> Result<Option<Frame<'a>>, Wrong> {
        // The length of the block was tested, so the fixed part of its body is there.
        match kind {
            SECTION_HEADER => self.begin_section(body.take_fixed().unwrap_or_default())?,
            INTERFACE_DESCRIPTION => self.add_interface(body.take_fixed().unwrap_or_default())?,
            SIMPLE_PACKET => return self.simple_packet(body).map(Some),
            ENHANCED_PACKET => {
                let interface = self.order.u32(body.take_fixed().unwrap_or_default());
                return self.packet(interface, body).map(Some);
            }
            PACKET => {
                // The interface has two bytes here, and two more count frames that were dropped.
                let [i0, i1, _, _] = body.take_fixed().unwrap_or_default();
                return self.packet(u32::from(self.order.u16([i0, i1])), body).map(Some);
            }
            _ => {}
        }
        Ok(None)
    }

    /// Byte-order magic and version; the section's length, which follows, is not needed to read its blocks.
    fn begin_section(&mut self, [_, _, _, _, m0, m1, n0, n1]: [u8; 8]) -> Result<(), Wrong> {
        let (major, minor) = (self.order.u16([m0, m1]), self.order.u16([n0, n1]));
        if major != 1 {
            return Err(Wrong::PcapngVersion { major, minor });
        }
        self.interfaces = 0;
        Ok(())
    }

    /// Link type, two bytes that are not used, and the snap length.
    fn add_interface(&mut self, [l0, l1, _, _, s0, s1, s2, s3]: [u8; 8]) -> Result<(), Wrong> {
        let link_type = self.order.u16([l0, l1]);
        if link_type != IEEE802_15_4_WITHFCS {
            return Err(Wrong::LinkType(link_type));
        }
        if self.interfaces == 0 {
            self.snap_length = self.order.u32([s0, s1, s2, s3]);
        }
        self.interfaces = self.interfaces.saturating_add(1);
        Ok(())
    }

    /// After the interface: two numbers of the time, captured and original length, the frame, filling and options.
    fn packet(&self, interface: u32, mut body: Body<'a>) -> Result<Frame<'a>, Wrong> {
        let [_, _, _, _, _, _, _, _, c0, c1, c2, c3, o0, o1, o2, o3] = body.take_fixed().unwrap_or_default();
        let (captured, original) = (self.order.u32([c0, c1, c2, c3]), self.order.u32([o0, o1, o2, o3]));
        self.frame(interface, captured, original, body)
    }

    /// The original length, then the frame of interface 0 and filling.
    fn simple_packet(&self, mut body: Body<'a>) -> Result<Frame<'a>, Wrong> {
        let original = self.order.u32(body.take_fixed().unwrap_or_default());
        let captured = match self.snap_length {
            0 => original,
            limit => original.min(limit),
        };
        self.frame(0, captured, original, body)
    }

    fn frame(&self, interface: u32, captured: u32, original: u32, mut body: Body<'a>) -> Result<Frame<'a>, Wrong> {
        let described = self.interfaces;
        if interface >= described {
            return Err(Wrong::Interface { interface, described });
        }
        let (offset, room) = (body.at, body.rest.len());
        let data = body.take_claimed(captured).ok_or(Wrong::CapturedLength { captured, room })?;
        if captured > original {
            return Err(Wrong::AboveOriginal { captured, original });
        }
        Ok(Frame {
            offset,
            line: None,
            original: Some(original),
            data: Data::Bytes(data),
        })
    }
}

/// The order in which the byte-order magic 1A2B3C4D stands.
fn section_order(magic: [u8; 4]) -> Result<ByteOrder, Wrong> {
    match magic {
        [0x1a, 0x2b, 0x3c, 0x4d] => Ok(ByteOrder::HighFirst),
        [0x4d, 0x3c, 0x2b, 0x1a] => Ok(ByteOrder::LowFirst),
        _ => Err(Wrong::ByteOrderMagic),
    }
}
