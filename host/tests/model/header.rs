//! Document 01, "Header facts", and document 02, E2 and E4: what the bytes of a frame's header say, whether the frame is for us, and
//! whether it is a broadcast.
use super::settings::Settings;
use std::ops::Range;

/// "Frame control is two bytes, low byte first."
#[derive(Clone, Copy, Debug, PartialEq, Eq)]
pub struct Control(pub u16);

impl Control {
    fn bits(self, from: u32, width: u32) -> u16 {
        (self.0 >> from) & ((1 << width) - 1)
    }

    /// "Bits 0-2 type"
    pub fn kind(self) -> u16 {
        self.bits(0, 3)
    }

    /// "5 acknowledgement request"
    pub fn wants_ack(self) -> bool {
        self.bits(5, 1) == 1
    }

    /// "6 PAN compression"
    pub fn compressed(self) -> bool {
        self.bits(6, 1) == 1
    }

    /// "8 sequence number suppressed (version 2 only)"
    pub fn suppressed(self) -> bool {
        self.version() == 2 && self.bits(8, 1) == 1
    }

    /// "10-11 destination mode"
    pub fn destination_mode(self) -> u16 {
        self.bits(10, 2)
    }

    /// "12-13 version"
    pub fn version(self) -> u16 {
        self.bits(12, 2)
    }

    /// "14-15 source mode"
    pub fn source_mode(self) -> u16 {
        self.bits(14, 2)
    }

    /// "It is well formed if type is 0 to 3, version 0 to 2 and neither mode is 1"
    pub fn well_formed(self) -> bool {
        self.kind() <= 3 && self.version() <= 2 && self.destination_mode() != 1 && self.source_mode() != 1
    }

    /// Which PANs stand in the header: the destination's and the source's.
    pub fn pans(self) -> (bool, bool) {
        let destination = self.destination_mode() != 0;
        let source = self.source_mode() != 0;
        let clear = !self.compressed();
        if self.version() < 2 {
            // "Versions 0 and 1: a PAN before each address present; with both present and bit 6 set, no source PAN."
            return (destination, source && (clear || !destination));
        }
        match (destination, source) {
            // "Version 2, no addresses: destination PAN only if bit 6 is set."
            (false, false) => (!clear, false),
            // "One address: its PAN only if bit 6 is clear."
            (true, false) => (clear, false),
            (false, true) => (false, clear),
            // "Both extended: destination PAN only, and only if bit 6 is clear."
            (true, true) if self.destination_mode() == 3 && self.source_mode() == 3 => (clear, false),
            // "Both present otherwise: destination PAN always, source PAN only if bit 6 is clear."
            (true, true) => (true, clear),
        }
    }

    /// "After the sequence number stand destination PAN, destination, source PAN, source"
    pub fn fields(self) -> Fields {
        let width = |mode: u16| [0, 0, 2, 8][usize::from(mode)];
        let pans = self.pans();
        let mut end = 2;
        let mut next = |width: usize| {
            end += width;
            end - width..end
        };
        Fields {
            number: next(usize::from(!self.suppressed())),
            destination_pan: next(2 * usize::from(pans.0)),
            destination: next(width(self.destination_mode())),
            source_pan: next(2 * usize::from(pans.1)),
            source: next(width(self.source_mode())),
        }
    }

    /// Header bytes "to the end of the addresses".
    pub fn header_length(self) -> usize {
        self.fields().source.end
    }
}

/// Which bytes of the frame, counted from 0, each field has. One that control leaves out has none.
#[derive(Clone, Debug, PartialEq, Eq)]
pub struct Fields {
    pub number: Range<usize>,
    pub destination_pan: Range<usize>,
    pub destination: Range<usize>,
    pub source_pan: Range<usize>,
    pub source: Range<usize>,
}

/// "Mode 0 none, 1 reserved, 2 short (2 bytes), 3 extended (8 bytes)."
#[derive(Clone, Copy, Debug, PartialEq, Eq)]
pub enum Address {
    Absent,
    Short(u16),
    Extended(u64),
}

/// "addressing is one fact"
#[derive(Clone, Copy, Debug, PartialEq, Eq)]
pub struct Addressing {
    pub destination_pan: Option<u16>,
    pub destination: Address,
}

/// "A fact whose bytes have not all arrived is missing". E2: "The header reader shall also give source PAN, source address and the
/// place where the address fields end, each missing when its bytes have not all arrived."
#[derive(Clone, Copy, Debug, Default, PartialEq, Eq)]
pub struct Facts {
    pub control: Option<u16>,
    pub number: Option<u8>,
    pub addressing: Option<Addressing>,
    pub source_pan: Option<u16>,
    pub source: Option<Address>,
    /// Counted from the frame's first byte.
    pub end: Option<usize>,
}

/// The bytes that have arrived.
struct Arrived<'a>(&'a [u8]);

impl Arrived<'_> {
    /// The bytes of a field as a number, "each low byte first". None if control leaves it out or its bytes have not all arrived.
    fn number(&self, field: &Range<usize>) -> Option<u64> {
        let bytes = self.0.get(field.clone()).filter(|bytes| !bytes.is_empty())?;
        Some(bytes.iter().rev().fold(0, |sum, byte| (sum << 8) | u64::from(*byte)))
    }

    fn pan(&self, field: &Range<usize>) -> Option<u16> {
        self.number(field).map(|pan| pan as u16)
    }

    /// An absent address has no bytes that could be awaited.
    fn address(&self, field: &Range<usize>) -> Option<Address> {
        match field.len() {
            0 => Some(Address::Absent),
            2 => self.number(field).map(|short| Address::Short(short as u16)),
            _ => self.number(field).map(Address::Extended),
        }
    }

    /// "there when the sequence number, unless suppressed, and every PAN and address byte that control names have arrived"
    fn addressing(&self, fields: &Fields) -> Option<Addressing> {
        self.end(fields)?;
        Some(Addressing {
            destination_pan: self.pan(&fields.destination_pan),
            destination: self.address(&fields.destination)?,
        })
    }

    /// "A source without its own PAN has the destination PAN, missing if that is left out too." No source, no PAN.
    fn source_pan(&self, fields: &Fields) -> Option<u16> {
        let has = |field: &Range<usize>| !field.is_empty();
        match (has(&fields.source), has(&fields.source_pan)) {
            (false, _) => None,
            (true, true) => self.pan(&fields.source_pan),
            (true, false) => self.pan(&fields.destination_pan),
        }
    }

    /// "the place where the address fields end": its bytes are all before it.
    fn end(&self, fields: &Fields) -> Option<usize> {
        Some(fields.source.end).filter(|end| *end <= self.0.len())
    }
}

/// "Header reading that stops early answers with the facts before the gap."
pub fn read(bytes: &[u8]) -> Facts {
    let mut facts = Facts::default();
    let arrived = Arrived(bytes);
    let Some(control) = arrived.number(&(0..2)) else {
        return facts;
    };
    facts.control = Some(control as u16);
    let control = Control(control as u16);
    // "Control that is not well formed is the last fact given."
    if !control.well_formed() {
        return facts;
    }
    let fields = control.fields();
    facts.number = arrived.number(&fields.number).map(|number| number as u8);
    facts.addressing = arrived.addressing(&fields);
    facts.source_pan = arrived.source_pan(&fields);
    facts.source = arrived.address(&fields.source);
    facts.end = arrived.end(&fields);
    facts
}

/// "For us: frame control and addressing are there and well formed; the destination PAN is omitted by the rules above, ours or FFFF
/// (hexadecimal); and the destination is short FFFF, or absent with implicit broadcast on, or short equal to hardware bytes 6 and 7
/// (counted from 0) read as one number high byte first, or extended equal to the hardware address."
pub fn for_us(settings: &Settings, facts: &Facts) -> bool {
    let (Some(control), Some(addressing)) = (facts.control, facts.addressing) else {
        return false;
    };
    if !Control(control).well_formed() {
        return false;
    }
    let pan = match addressing.destination_pan {
        None => true,
        Some(pan) => pan == settings.pan || pan == 0xffff,
    };
    let hardware = &settings.hardware;
    let destination = match addressing.destination {
        Address::Absent => settings.implicit,
        Address::Short(short) => short == 0xffff || short == u16::from(hardware[6]) * 256 + u16::from(hardware[7]),
        Address::Extended(extended) => extended == u64::from_be_bytes(*hardware),
    };
    pan && destination
}

/// Of a frame that is for us. E4: "whose destination is short FFFF, or which passed by implicit broadcast". The address decides, not
/// the PAN; short FFFF is for everyone, whatever our hardware address is; an absent destination passes by implicit broadcast alone.
pub fn is_broadcast(settings: &Settings, facts: &Facts) -> bool {
    let destination = facts.addressing.map(|addressing| addressing.destination);
    destination == Some(Address::Short(0xffff)) || settings.implicit && destination == Some(Address::Absent)
}
