//! pcap: a header of 24 bytes, then records of 16 bytes and the captured bytes.
use super::damage::{Damage, Wrong};
use super::input::{ByteOrder, Input};
use super::{Data, Frame, IEEE802_15_4_WITHFCS};

pub struct Pcap<'a> {
    input: Input<'a>,
    order: ByteOrder,
}

/// The order of the bytes, by the file's first four. Times may be in microseconds or nanoseconds; they are not looked at.
pub fn byte_order(magic: [u8; 4]) -> Option<ByteOrder> {
    match magic {
        [0xa1, 0xb2, 0xc3, 0xd4] | [0xa1, 0xb2, 0x3c, 0x4d] => Some(ByteOrder::HighFirst),
        [0xd4, 0xc3, 0xb2, 0xa1] | [0x4d, 0x3c, 0xb2, 0xa1] => Some(ByteOrder::LowFirst),
        _ => None,
    }
}

impl<'a> Pcap<'a> {
    pub fn new(file: &'a [u8], order: ByteOrder) -> Result<Self, Damage> {
        let mut input = Input::new(file);
        let there = file.len();
        let header = input
            .take_fixed::<24>()
            .ok_or(Damage::at_byte(0, Wrong::HeaderCut { there }))?;
        // Magic, version, time zone and accuracy (both unused), longest capture, and the link type in the low half of the last
        // four.
        let [_, _, _, _, m0, m1, n0, n1, .., l0, l1, l2, l3] = header;
        let (major, minor) = (order.u16([m0, m1]), order.u16([n0, n1]));
        // Before 2.4 the two lengths of a record may stand the other way round.
        if major != 2 || minor < 4 {
            return Err(Damage::at_byte(0, Wrong::PcapVersion { major, minor }));
        }
        let link_type = (order.u32([l0, l1, l2, l3]) & 0xffff) as u16;
        if link_type != IEEE802_15_4_WITHFCS {
            return Err(Damage::at_byte(0, Wrong::LinkType(link_type)));
        }
        Ok(Self { input, order })
    }

    /// The next record's frame; None at the file's end.
    pub fn next_frame(&mut self) -> Result<Option<Frame<'a>>, Damage> {
        let (start, there) = (self.input.at, self.input.rest.len());
        if there == 0 {
            return Ok(None);
        }
        let header = self.input.take_fixed::<16>();
        let header = header.ok_or(Damage::at_byte(start, Wrong::RecordCut { there }))?;
        // Seconds and their fraction, captured length, original length.
        let [.., c0, c1, c2, c3, o0, o1, o2, o3] = header;
        let (captured, original) = (self.order.u32([c0, c1, c2, c3]), self.order.u32([o0, o1, o2, o3]));
        let (offset, there) = (self.input.at, self.input.rest.len());
        let data = self.input.take_claimed(captured);
        let data = data.ok_or(Damage::at_byte(start, Wrong::FrameCut { captured, there }))?;
        // One of the two is wrong, and if it is the first, so is where the next record begins.
        if captured > original {
            return Err(Damage::at_byte(start, Wrong::AboveOriginal { captured, original }));
        }
        Ok(Some(Frame {
            offset,
            line: None,
            original: Some(original),
            data: Data::Bytes(data),
        }))
    }
}
