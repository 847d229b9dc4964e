//! Compares the proved libraries with the unchanged Rust.
//!
//!     compare NAME DIFFERENCES.md     NAME: is_valid, lengths, filter, ack_seq_num, from_mpdu_length, source, mpdu
//!     compare sample                  prints the lines R and X of crates/leaf_vectors/stdin
//!
//! A difference has to belong to a class, and the classes that occur, with the number of their differences, have to be those
//! that DIFFERENCES.md lists for this comparison, each in a line "Class `NAME/CLASS`: COUNT differences".

use std::{
    collections::BTreeMap,
    fmt::Write,
    num::NonZero,
    panic::{catch_unwind, set_hook, AssertUnwindSafe},
    process::exit,
};

use dot15d4_frame::mpdu::{imm_ack_frame, MpduFrame};
use dot15d4_util::allocator::{BufferToken, IntoBuffer};
use driver_off::{
    radio::{
        frame::{
            Address, AddressingFields, AddressingMode, AddressingRepr, FrameControl, PanId, RadioFrame,
            RadioFrameRepr, RadioFrameSized,
        },
        phy::{Ifs, OQpsk250KBit, Phy},
        tasks::PreliminaryFrameInfo,
    },
    reader, Config,
};

#[allow(dead_code)]
mod ours;

use ours::{MISSING, OMITTED};

/// What the Rust does.
#[derive(Clone, Copy, Debug, PartialEq, Eq)]
enum Rust {
    Answers(u64),
    Fails,
    Panics,
}

mod rust {
    use super::*;

    fn control_of(control: u16) -> FrameControl<[u8; 2]> {
        FrameControl::new_unchecked(control.to_le_bytes())
    }

    pub fn is_valid(control: u16) -> Rust {
        Rust::Answers(control_of(control).is_valid() as u64)
    }

    /// Every field of control, put back to its place; the unknown mode is 1.
    pub fn fields(control: u16) -> Rust {
        let control = control_of(control);
        let mode = |mode| match mode {
            AddressingMode::Absent => 0,
            AddressingMode::Unknown => 1,
            AddressingMode::Short => 2,
            AddressingMode::Extended => 3,
        };
        let kind = control.clone().into_inner()[0] & 7;
        Rust::Answers(
            kind as u64
                + ((control.security_enabled() as u64) << 3)
                + ((control.frame_pending() as u64) << 4)
                + ((control.ack_request() as u64) << 5)
                + ((control.pan_id_compression() as u64) << 6)
                + ((control.sequence_number_suppression() as u64) << 8)
                + ((control.information_elements_present() as u64) << 9)
                + (mode(control.dst_addressing_mode()) << 10)
                + ((control.frame_version() as u64) << 12)
                + (mode(control.src_addressing_mode()) << 14),
        )
    }

    pub fn four_lengths(control: u16) -> Result<Result<[u8; 4], ()>, ()> {
        catch_unwind(|| {
            AddressingRepr::try_from_frame_control(control_of(control))
                .and_then(|repr| repr.try_addressing_fields_lengths())
                .map_err(|_| ())
        })
        .map_err(|_| ())
    }

    pub fn lengths(control: u16) -> Rust {
        match four_lengths(control) {
            Ok(Ok(lengths)) => Rust::Answers(u32::from_le_bytes(lengths) as u64),
            Ok(Err(())) => Rust::Fails,
            Err(()) => Rust::Panics,
        }
    }

    /// The header reader of the stand-ins and the unchanged filter.
    pub fn for_us(frame: &[u8], hardware: u64, pan: u16, implicit: bool) -> Rust {
        let hardware = hardware.to_be_bytes();
        let answer = catch_unwind(|| {
            if implicit {
                driver_on::radio::const_config::MAC_PAN_ID.set(pan);
                let info = driver_on::reader::preliminary_frame_info(frame);
                driver_on::radio::frame::is_frame_valid_and_for_us(&hardware, &info)
            } else {
                driver_off::radio::const_config::MAC_PAN_ID.set(pan);
                let info = driver_off::reader::preliminary_frame_info(frame);
                driver_off::radio::frame::is_frame_valid_and_for_us(&hardware, &info)
            }
        });
        match answer {
            Ok(answer) => Rust::Answers(answer as u64),
            Err(_) => Rust::Panics,
        }
    }

    /// The facts of a header by a reader of the Rust.
    fn facts<'frame>(read: impl FnOnce() -> PreliminaryFrameInfo<'frame>) -> [Rust; FACTS.len()] {
        let facts = catch_unwind(AssertUnwindSafe(|| {
            let info = read();
            FACTS.map(|fact| (fact.rust)(&info).unwrap_or(MISSING))
        }));
        facts.map_or([Rust::Panics; FACTS.len()], |facts| facts.map(Rust::Answers))
    }

    /// The header reader of the stand-ins: `AddressingFields::try_new` takes all bytes of the addressing fields or none.
    pub fn preliminary(frame: &[u8]) -> [Rust; FACTS.len()] {
        facts(|| reader::preliminary_frame_info(frame))
    }

    /// One fact of the addressing fields over as many of their bytes as have arrived. A reader takes its field out of the bytes
    /// by an index and panics where they end before it: then the fact is missing.
    pub fn arrived(function: char, frame: &[u8]) -> u64 {
        let fact = FACTS[place(function)];
        let control = u16::from_le_bytes([frame[0], frame[1]]);
        let fields = frame.get(2 + has_number(control) as usize..).unwrap_or(&[]);
        let fact = catch_unwind(|| {
            let repr = AddressingRepr::try_from_frame_control(control_of(control)).ok()?;
            // Safety: It wants all bytes, but only keeps them and the places of the fields; the readers index.
            let fields = unsafe { AddressingFields::new_unchecked(fields, repr) };
            (fact.rust)(&PreliminaryFrameInfo {
                mpdu_length: 0,
                frame_control: None,
                seq_nr: None,
                addressing_fields: Some(fields),
            })
        });
        fact.ok().flatten().unwrap_or(MISSING)
    }

    /// The frame reader of fields/mpdu.rs, for a frame that begins eight bytes into a longer buffer; BEHIND is behind it.
    pub fn mpdu(buffer: BufferToken, frame: &[u8]) -> ([Rust; FACTS.len()], BufferToken) {
        let mut buffer = buffer;
        buffer[8..].fill(BEHIND);
        buffer[8..8 + frame.len()].copy_from_slice(frame);
        let length = NonZero::new(frame.len() as u16).unwrap();
        // Safety: The buffer is as long as the longest frame and more.
        let mpdu = unsafe { MpduFrame::new(buffer, 8, length) };
        let facts = facts(|| {
            let control = mpdu.frame_control().into_inner().try_into().unwrap();
            let addressed = mpdu.reader().parse_addressing();
            PreliminaryFrameInfo {
                mpdu_length: length.get(),
                frame_control: Some(FrameControl::new_unchecked(control)),
                seq_nr: mpdu.sequence_number(),
                addressing_fields: addressed
                    .and_then(|reader| reader.try_into_addressing_fields())
                    .ok(),
            }
        });
        (facts, mpdu.into_buffer())
    }

    /// 256 is none. The bytes of the frame stand behind a headroom of H bytes.
    pub fn ack_seq_num<const H: u8>(buffer: BufferToken, frame: &[u8]) -> (Rust, BufferToken) {
        let mut buffer = buffer;
        let begin = H as usize;
        buffer[begin..begin + frame.len()].copy_from_slice(frame);
        let length = NonZero::new(frame.len() as u16).unwrap();
        let frame = RadioFrame::new::<Config<H, 8, u16>>(buffer).with_size(length);
        let number = frame.ack_seq_num().map_or(256, |number| number as u64);
        (Rust::Answers(number), frame.into_buffer())
    }

    pub fn from_mpdu_length(length: u16) -> Rust {
        Rust::Answers(match Ifs::<Phy<OQpsk250KBit>>::from_mpdu_length(length) {
            Ifs::Aifs(_) => 0,
            Ifs::Sifs(_) => 1,
            Ifs::Lifs(_) => 2,
        })
    }

    /// Eight bytes after the acknowledgement with a number was written H bytes into them.
    pub fn ack_written<const H: u8>(bytes: [u8; 8], number: u8) -> Rust {
        let buffer = BufferToken::new(Box::leak(Box::new(bytes)));
        let buffer = imm_ack_frame::<Config<H, 0, ()>>(number, buffer).into_buffer();
        Rust::Answers(u64::from_le_bytes((*buffer).try_into().unwrap()))
    }

    /// The lengths of headroom, frame, checksum and tailroom, 16 bits each, the first one highest.
    pub fn ranges<const H: u8, const T: u8, F: Copy + std::fmt::Debug>(length: u16) -> Rust {
        let length = NonZero::new(length).unwrap();
        let repr = RadioFrameRepr::<Config<H, T, F>, RadioFrameSized>::new(length);
        let ranges = [
            repr.headroom_range(),
            repr.sdu_range_wo_fcs(),
            repr.fcs_range().unwrap(),
            repr.tailroom_range(),
        ];
        let mut begin = 0;
        let mut sum = 0;
        for range in ranges {
            assert_eq!(range.start, begin);
            begin = range.end;
            sum = (sum << 16) + range.len() as u64;
        }
        Rust::Answers(sum)
    }
}

// --------------------------------------------------------------------- facts

/// A fact of a header: how the vectors ask for it (docs/VECTORS.md), and its number. The Rust has none where it is missing.
#[derive(Clone, Copy)]
struct Fact {
    function: char,
    name: &'static str,
    ours: fn(&ours::Facts) -> u64,
    rust: fn(&PreliminaryFrameInfo) -> Option<u64>,
}

const fn fact(
    function: char,
    name: &'static str,
    ours: fn(&ours::Facts) -> u64,
    rust: fn(&PreliminaryFrameInfo) -> Option<u64>,
) -> Fact {
    Fact {
        function,
        name,
        ours,
        rust,
    }
}

const FACTS: [Fact; 9] = [
    fact('c', "control", ours::Facts::control, |info| {
        Some(u16::from_le_bytes(info.frame_control.clone()?.into_inner()) as u64)
    }),
    fact('s', "number", ours::Facts::seq_nr, |info| {
        info.seq_nr.map(u64::from)
    }),
    fact('p', "destination PAN", ours::Facts::dst_pan_id, |info| {
        Some(pan_id(fields(info)?.try_dst_pan_id()).unwrap_or(OMITTED))
    }),
    fact('m', "destination mode", ours::Facts::dst_length, |info| {
        length(fields(info)?.try_dst_address())
    }),
    fact('d', "destination", ours::Facts::dst_address, |info| {
        address(fields(info)?.try_dst_address())
    }),
    fact('q', "source PAN", ours::Facts::src_pan_id, |info| {
        pan_id(fields(info)?.try_src_pan_id())
    }),
    fact('n', "source mode", ours::Facts::src_length, |info| {
        length(fields(info)?.try_src_address())
    }),
    fact('o', "source", ours::Facts::src_address, |info| {
        address(fields(info)?.try_src_address())
    }),
    fact('e', "end", ours::Facts::end, |info| {
        Some(2 + info.seq_nr.is_some() as u64 + fields(info)?.length() as u64)
    }),
];

fn place(function: char) -> usize {
    FACTS.iter().position(|fact| fact.function == function).unwrap()
}

fn fields<'info, 'frame>(
    info: &'info PreliminaryFrameInfo<'frame>,
) -> Option<&'info AddressingFields<&'frame [u8]>> {
    info.addressing_fields.as_ref()
}

fn pan_id(id: Option<PanId<&[u8]>>) -> Option<u64> {
    Some(id?.into_u16() as u64)
}

fn length(address: Option<Address<&[u8]>>) -> Option<u64> {
    Some(address?.length() as u64)
}

fn address(address: Option<Address<&[u8]>>) -> Option<u64> {
    let address = address?;
    let bytes = address.as_le_bytes().iter().rev();
    Some(bytes.fold(0, |sum, byte| sum << 8 | *byte as u64))
}

/// What stands in the buffer behind a frame.
const BEHIND: u8 = 0xEE;

/// The byte at each place of a frame: no two are the same, so that a field that was read at a wrong place shows.
const CONTENTS: [fn(u8) -> u8; 2] = [|at| 0x10 + at, |at| 0xFF - at];

fn counting(control: u16, length: usize, content: fn(u8) -> u8) -> Vec<u8> {
    let mut frame: Vec<u8> = (0..length as u8).map(content).collect();
    frame[..2].copy_from_slice(&control.to_le_bytes());
    frame
}

/// Every control, of 0 bytes to two more than the longest header has.
fn compare_cut(mut each: impl FnMut(&[u8])) {
    for control in 0..=u16::MAX {
        for content in CONTENTS {
            let frame = counting(control, 25, content);
            for arrived in 0..=frame.len() {
                each(&frame[..arrived]);
            }
        }
    }
}

// ------------------------------------------------------------------- classes

fn kind(control: u16) -> u16 {
    control & 7
}

fn version(control: u16) -> u16 {
    control >> 12 & 3
}

fn modes(control: u16) -> (u16, u16) {
    (control >> 10 & 3, control >> 14 & 3)
}

fn has_reserved_mode(control: u16) -> bool {
    modes(control).0 == 1 || modes(control).1 == 1
}

fn is_well_formed(control: u16) -> bool {
    kind(control) < 4 && version(control) < 3 && !has_reserved_mode(control)
}

/// Bit 8 suppresses the number in version 2 only.
fn has_number(control: u16) -> bool {
    version(control) != 2 || control >> 8 & 1 == 0
}

fn class_of_is_valid(control: u16, rust: Rust, ours: u64) -> Option<&'static str> {
    if rust != Rust::Answers(1) || ours != 0 || version(control) == 3 {
        return None;
    }
    match kind(control) {
        5..=7 => Some("is_valid/type"),
        0..=3 if has_reserved_mode(control) => Some("is_valid/mode"),
        _ => None,
    }
}

fn class_of_lengths(control: u16, rust: Rust, ours: u64) -> Option<&'static str> {
    // The control with no reserved mode and no reserved version: mode 1 counts as 0, version 3 as 2.
    let mut known = control;
    for bit in [10, 14] {
        if control >> bit & 3 == 1 {
            known &= !(3 << bit);
        }
    }
    if version(control) == 3 {
        known &= !0x1000;
    }
    if ours != ours::lengths(known) as u64 {
        return None;
    }
    match rust {
        Rust::Fails if version(control) == 3 => Some("lengths/version"),
        Rust::Panics if version(control) < 3 && has_reserved_mode(control) => Some("lengths/mode"),
        Rust::Fails if version(control) < 2 && modes(control) == (0, 0) && ours == 0 => {
            Some("lengths/no-address")
        }
        _ => None,
    }
}

fn class_of_filter(frame: &[u8], implicit: bool, rust: Rust, ours: u64) -> Option<&'static str> {
    let control = u16::from_le_bytes([*frame.first()?, *frame.get(1)?]);
    match (rust, ours) {
        (Rust::Answers(1), 0) if (5..=7).contains(&kind(control)) => Some("filter/type"),
        (Rust::Panics, 0) if version(control) < 3 && has_reserved_mode(control) => Some("filter/mode"),
        (Rust::Answers(0), 1)
            if implicit
                && kind(control) < 4
                && version(control) < 2
                && modes(control) == (0, 0)
                && frame.len() > 2 =>
        {
            Some("filter/no-address")
        }
        _ => None,
    }
}

fn class_of_ack_seq_num(frame: &[u8], rust: Rust, ours: u64) -> Option<&'static str> {
    let control = u16::from_le_bytes([frame[0], frame[1]]);
    let wants = control >> 5 & 1 == 1 && control >> 8 & 1 == 1 && version(control) != 2;
    (wants && rust == Rust::Answers(256) && ours == frame[2] as u64).then_some("ack_seq_num/suppressed")
}

fn class_of_mpdu(at: usize, frame: &[u8], rust: Rust, ours: u64) -> Option<&'static str> {
    // The comparison `source` has the reasons for ours.
    if due(at, frame) != Some(ours) {
        return None;
    }
    let [low, high, ..] = *frame else {
        return Some("mpdu/short");
    };
    let control = u16::from_le_bytes([low, high]);
    if !is_well_formed(control) {
        return Some("mpdu/not-well-formed");
    }
    if version(control) < 2 && control >> 8 & 1 == 1 {
        return Some("mpdu/suppressed");
    }
    let completed = [frame, &[BEHIND; 23]].concat();
    match rust::four_lengths(control) {
        Ok(Ok([0, 0, 0, 0]) | Err(())) if rust == Rust::Answers(MISSING) => Some("mpdu/no-address"),
        Ok(Ok([_, _, 0, 2 | 8])) if FACTS[at].function == 'q' && rust == Rust::Answers(MISSING) => {
            Some("mpdu/pan-elided")
        }
        _ if ours == MISSING && rust == rust::preliminary(&completed)[at] => Some("mpdu/short"),
        _ => None,
    }
}

/// A class that has an input: what ours is there, and what the Rust says where it differs, if that is always the same.
#[derive(Clone, Copy)]
struct Listed {
    class: &'static str,
    rust: Option<Rust>,
    ours: u64,
}

fn listed_source(at: usize, frame: &[u8]) -> Option<Listed> {
    const NO_FACT: Option<Rust> = Some(Rust::Answers(MISSING));
    let listed = |class, rust, ours| Some(Listed { class, rust, ours });
    let function = FACTS[at].function;
    let control = u16::from_le_bytes([*frame.first()?, *frame.get(1)?]);
    if kind(control) == 4 || version(control) == 3 {
        return None;
    }
    let last = if function == 'c' { control as u64 } else { MISSING };
    if has_reserved_mode(control) {
        return listed("source/mode", Some(Rust::Panics), last);
    }
    if kind(control) > 4 {
        return listed("source/type", None, last);
    }
    match (function, modes(control)) {
        ('c' | 's', _) => None,
        (_, (0, 0)) if version(control) < 2 => {
            // Version 2 has this header too, and there the Rust reads it.
            let same = (control & !0x3140 | 0x2000).to_le_bytes();
            listed(
                "source/no-address",
                NO_FACT,
                due(at, &[&same, &frame[2..]].concat())?,
            )
        }
        ('p' | 'm' | 'd' | 'e', _) | ('q', (_, 0)) => None,
        ('q', _) if matches!(rust::four_lengths(control), Ok(Ok([_, _, 0, _]))) => {
            let ours = match rust::arrived('p', frame) {
                OMITTED => MISSING,
                id => id,
            };
            listed("source/pan-elided", NO_FACT, ours)
        }
        ('n' | 'o', (_, 0)) => listed("source/absent", NO_FACT, 0),
        _ => listed("source/cut", NO_FACT, rust::arrived(function, frame)),
    }
}

/// What a fact has to be: as listed, or else as the Rust has it.
fn due(at: usize, frame: &[u8]) -> Option<u64> {
    if let Some(listed) = listed_source(at, frame) {
        return Some(listed.ours);
    }
    match rust::preliminary(frame)[at] {
        Rust::Answers(due) => Some(due),
        _ => None,
    }
}

#[derive(Default)]
struct Seen {
    compared: u64,
    classes: BTreeMap<&'static str, u64>,
    /// The shortest input of each class, the first of them, and its length.
    smallest: BTreeMap<&'static str, (usize, String)>,
    unlisted: u64,
}

impl Seen {
    fn compare(
        &mut self,
        rust: Rust,
        ours: u64,
        class: impl Fn() -> Option<&'static str>,
        length: usize,
        show: impl Fn() -> String,
    ) {
        self.compared += 1;
        if rust != Rust::Answers(ours) {
            self.differ(rust, ours, class(), length, show);
        }
    }

    /// Compares where the class of an input says what ours is: anything else is a difference in no class, also if the Rust says
    /// the same.
    fn compare_listed(
        &mut self,
        rust: Rust,
        ours: u64,
        listed: Option<Listed>,
        length: usize,
        show: impl Fn() -> String,
    ) {
        self.compared += 1;
        if rust != Rust::Answers(listed.map_or(ours, |listed| listed.ours)) || rust != Rust::Answers(ours) {
            let listed = listed.filter(|listed| listed.ours == ours);
            let listed = listed.filter(|listed| listed.rust.is_none_or(|says| says == rust));
            self.differ(rust, ours, listed.map(|listed| listed.class), length, show);
        }
    }

    fn differ(
        &mut self,
        rust: Rust,
        ours: u64,
        class: Option<&'static str>,
        length: usize,
        show: impl Fn() -> String,
    ) {
        match class {
            Some(class) => {
                *self.classes.entry(class).or_default() += 1;
                if self.smallest.get(class).is_none_or(|(known, _)| length < *known) {
                    self.smallest.insert(
                        class,
                        (length, format!("{}: the Rust {rust:?}, ours {ours}", show())),
                    );
                }
            }
            None => {
                if self.unlisted < 10 {
                    println!("in no class: {}: the Rust {rust:?}, ours {ours}", show());
                }
                self.unlisted += 1;
            }
        }
    }

    /// Whether the classes seen are those listed, with their counts.
    fn is_as_listed(&self, name: &str, differences: &str) -> bool {
        let listed: BTreeMap<&str, u64> = differences
            .lines()
            .filter_map(|line| {
                let (class, rest) = line.strip_prefix("Class `")?.split_once("`: ")?;
                let count = rest.split(' ').next()?.replace(',', "").parse().ok()?;
                (class.split('/').next() == Some(name)).then_some((class, count))
            })
            .collect();
        let differences: u64 = self.classes.values().sum();
        println!(
            "{name}: {} compared, {differences} differences in {} classes, {} in no class",
            self.compared,
            self.classes.len(),
            self.unlisted
        );
        for (class, count) in &self.classes {
            println!("  {class}: {count}, listed: {:?}", listed.get(class));
            println!("    smallest: {}", self.smallest[class].1);
        }
        for class in listed.keys() {
            if !self.classes.contains_key(class) {
                println!("  {class} is listed and does not occur");
            }
        }
        self.unlisted == 0 && self.classes.iter().map(|(k, v)| (*k, *v)).eq(listed)
    }
}

// ------------------------------------------------------------------- filter

/// Hardware addresses and PANs: an ordinary one, all zero, all one, short address and PAN just below broadcast, bytes that
/// read the same both ways.
const SETTINGS: [(u64, u16); 5] = [
    (0xACDE_4800_0000_0102, 0x4321),
    (0x0000_0000_0000_0000, 0x0000),
    (0xFFFF_FFFF_FFFF_FFFF, 0xFFFF),
    (0x0011_2233_4455_FFFE, 0xFFFE),
    (0x8001_7F00_00FF_7F7F, 0x0101),
];

/// Numbers around one of 16 bits.
fn around_u16(number: u16, turn: usize) -> [u16; 8] {
    [
        number,
        number.wrapping_add(1),
        number.wrapping_sub(1),
        0xFFFF,
        0xFFFE,
        number.swap_bytes(),
        number ^ 1 << (turn % 16),
        0,
    ]
}

/// Numbers around one of 64 bits.
fn around_u64(number: u64, turn: usize) -> [u64; 8] {
    [
        number,
        number.wrapping_add(1),
        number.wrapping_sub(1),
        u64::MAX,
        0xFFFF,
        number.swap_bytes(),
        number ^ 1 << (turn % 64),
        number & 0xFFFF,
    ]
}

/// A header of a control with the given destination, by the Rust's lengths; where it has none, by those of two short
/// addresses.
fn header(control: u16, lengths: [u8; 4], pan: u16, short: u16, extended: u64) -> Vec<u8> {
    let mut bytes = control.to_le_bytes().to_vec();
    if has_number(control) {
        bytes.push(0x84);
    }
    bytes.extend(&pan.to_le_bytes()[..lengths[0] as usize]);
    match lengths[1] {
        8 => bytes.extend(extended.to_le_bytes()),
        length => bytes.extend(&short.to_le_bytes()[..length as usize]),
    }
    bytes.extend((1..=lengths[2] + lengths[3]).map(|byte| 0xA0 + byte));
    bytes
}

fn compare_headers(mut each: impl FnMut(&[u8], u64, u16, bool)) {
    for control in 0..=u16::MAX {
        let known = rust::four_lengths(control).ok().and_then(|lengths| lengths.ok());
        let lengths = known.unwrap_or([2, 2, 2, 2]);
        for (at, (hardware, pan)) in SETTINGS.into_iter().enumerate() {
            let turn = control as usize + at;
            let pans = around_u16(pan, turn);
            let shorts = around_u16(hardware as u16, turn);
            let extendeds = around_u64(hardware, turn);
            // A field that is not there has one value; so has everything where the Rust has no lengths.
            let pan_count = if known.is_some() && lengths[0] > 0 { 8 } else { 1 };
            let address_count = if known.is_some() && lengths[1] > 0 { 8 } else { 1 };
            for pan_at in 0..pan_count {
                for address_at in 0..address_count {
                    let frame = header(
                        control,
                        lengths,
                        pans[pan_at],
                        shorts[address_at],
                        extendeds[address_at],
                    );
                    each(&frame, hardware, pan, false);
                    each(&frame, hardware, pan, true);
                }
            }
        }
        // A frame for us, of which 0 bytes to one more than the header have arrived.
        let (hardware, pan) = SETTINGS[0];
        let mut frame = header(control, lengths, pan, hardware as u16, hardware);
        frame.push(0x5A);
        for arrived in 0..=frame.len() {
            each(&frame[..arrived], hardware, pan, false);
            each(&frame[..arrived], hardware, pan, true);
        }
    }
}

// ------------------------------------------------------------------- sample

/// The lines of a sample: each with its section, R or X, and the Rust's answer.
#[derive(Default)]
struct Sample {
    text: String,
}

struct Line<'line> {
    function: char,
    frame: &'line [u8],
    a: u64,
    b: u16,
    c: u8,
}

impl Sample {
    /// `ours` is the answer of the proved library where a listed difference is expected.
    fn line(&mut self, line: Line, rust: Rust, ours: Option<u64>) {
        let frame: String = line.frame.iter().fold(String::new(), |mut text, byte| {
            write!(text, "{byte:02x}").unwrap();
            text
        });
        let (section, expected, remark) = match (rust, ours) {
            (Rust::Answers(answer), None) => ('R', answer, String::new()),
            (Rust::Answers(MISSING), Some(ours)) => ('X', ours, "the Rust: missing".into()),
            (Rust::Answers(answer), Some(ours)) => ('X', ours, format!("the Rust: {answer}")),
            (Rust::Fails, Some(ours)) => ('X', ours, "the Rust: error".into()),
            (Rust::Panics, Some(ours)) => ('X', ours, "the Rust: panic".into()),
            (rust, None) => panic!("{rust:?} is no answer to replay"),
        };
        let text = format!(
            "{section} {} {:02x} {frame:52} {:016x} {:04x} {:02x} {expected:016x} {remark:25}",
            line.function,
            line.frame.len(),
            line.a,
            line.b,
            line.c
        );
        assert_eq!(text.len(), 127);
        self.text.push_str(&text);
        self.text.push('\n');
    }
}

/// Every pair of modes in every version with bit 6 clear and set, for some types and other bits; and single bits.
fn sample_controls() -> Vec<u16> {
    let mut controls = vec![];
    for version in 0..=3u16 {
        for dst in 0..=3u16 {
            for src in 0..=3u16 {
                for compressed in 0..=1u16 {
                    // Type and the bits 3, 4, 5, 8, 9 vary with the rest.
                    let turn = version + 3 * dst + 5 * src + 7 * compressed;
                    let kind = if turn % 5 == 0 { turn % 8 } else { turn % 4 };
                    let other = (turn * 0x9D) & 0x0338;
                    controls.push(kind | other | compressed << 6 | dst << 10 | version << 12 | src << 14);
                }
            }
        }
    }
    controls.extend((0..16).map(|bit| 1 << bit));
    controls.extend([0x0000, 0xFFFF, 0x8861, 0xEC01, 0xEC41, 0xDC01]);
    controls
}

fn sample() -> String {
    let mut sample = Sample::default();
    let (hardware, pan) = SETTINGS[0];
    for control in sample_controls() {
        let frame = control.to_le_bytes();
        let ask = |function| Line {
            function,
            frame: &frame,
            a: 0,
            b: 0,
            c: 0,
        };

        let rust = rust::is_valid(control);
        let differs = class_of_is_valid(control, rust, 0).map(|_| 0);
        sample.line(ask('v'), rust, differs);

        // Bit 8 is a field of version 2 only.
        let rust = rust::fields(control);
        let suppressed = control >> 8 & 1 == 1 && version(control) != 2;
        let Rust::Answers(fields) = rust else {
            unreachable!()
        };
        sample.line(ask('c'), rust, suppressed.then_some(fields & !0x0100));

        let rust = rust::lengths(control);
        match rust {
            Rust::Answers(_) => sample.line(ask('l'), rust, None),
            _ if version(control) < 2 && modes(control) == (0, 0) => {
                sample.line(ask('l'), rust, Some(0));
            }
            // Nobody asks for the lengths of a control that is not well formed.
            _ => {}
        }

        let lengths = match rust::four_lengths(control) {
            Ok(Ok(lengths)) => lengths,
            _ => [0; 4],
        };
        let turn = control as usize;
        let frames = [
            header(control, lengths, pan, hardware as u16, hardware),
            header(control, lengths, 0xFFFF, 0xFFFF, hardware ^ 1 << (turn % 64)),
            header(
                control,
                lengths,
                pan ^ 1 << (turn % 16),
                hardware as u16,
                hardware,
            ),
        ];
        // One of them, in turn; a frame without a destination with implicit broadcast on and off.
        let frame_at = [0, 1, 0, 2][turn / 64 % 4];
        for implicit in [false, true] {
            if lengths[1] > 0 && implicit != (turn % 2 == 1) {
                continue;
            }
            let frame = &frames[frame_at];
            let rust = rust::for_us(frame, hardware, pan, implicit);
            let differs = [0, 1]
                .into_iter()
                .find(|ours| class_of_filter(frame, implicit, rust, *ours).is_some());
            let line = Line {
                function: 'f',
                frame,
                a: hardware,
                b: pan,
                c: implicit as u8,
            };
            sample.line(line, rust, differs);
        }

        let frame = [frame[0], frame[1], 0x84];
        let buffer = BufferToken::new(vec![0; 127 + 8].leak());
        let (rust, _) = rust::ack_seq_num::<0>(buffer, &frame);
        let differs = class_of_ack_seq_num(&frame, rust, 0x84).map(|_| 0x84);
        sample.line(
            Line {
                function: 'a',
                frame: &frame,
                a: 0,
                b: 0,
                c: 0,
            },
            rust,
            differs,
        );
    }

    // The facts of request E2, for every pair of modes in versions 0 to 2.
    for (turn, control) in sample_controls().into_iter().take(96).enumerate() {
        let lengths = rust::four_lengths(control).unwrap_or(Err(())).unwrap_or_default();
        let end = 2 + has_number(control) as usize + lengths.iter().sum::<u8>() as usize;
        let header = counting(control, end, CONTENTS[0]);
        let mut asked = vec![(&header[..], 'e')];
        if is_well_formed(control) {
            // Cut off within the source, before it, or within what stands before it.
            let source = lengths[3] as usize;
            let part = &header[..end - [1, source.max(1), source + 1][turn % 3]];
            asked.extend([(&header[..], 'q'), (&header[..], 'o')]);
            asked.extend([(part, 'q'), (part, ['n', 'o', 'e'][turn / 3 % 3])]);
        }
        for (frame, function) in asked {
            let at = place(function);
            let rust = rust::preliminary(frame)[at];
            let differs = listed_source(at, frame).map(|listed| listed.ours);
            let line = Line {
                function,
                frame,
                a: 0,
                b: 0,
                c: 0,
            };
            sample.line(line, rust, differs.filter(|ours| rust != Rust::Answers(*ours)));
        }
    }

    for length in [
        0, 1, 3, 5, 17, 18, 19, 20, 126, 127, 128, 255, 256, 274, 32767, 65535,
    ] {
        let line = Line {
            function: 'i',
            frame: &[],
            a: 0,
            b: length,
            c: 0,
        };
        sample.line(line, rust::from_mpdu_length(length), None);
    }

    let bytes = [0xA0, 0xA1, 0xA2, 0xA3, 0xA4, 0xA5, 0xA6, 0xA7];
    let written = [
        rust::ack_written::<0>(bytes, 0),
        rust::ack_written::<1>(bytes, 1),
        rust::ack_written::<2>(bytes, 7),
        rust::ack_written::<3>(bytes, 0x84),
        rust::ack_written::<4>(bytes, 254),
        rust::ack_written::<5>(bytes, 255),
    ];
    for (begin, (rust, number)) in written.into_iter().zip([0, 1, 7, 0x84, 254, 255]).enumerate() {
        let line = Line {
            function: 'w',
            frame: &bytes,
            a: 0,
            b: begin as u16,
            c: number,
        };
        sample.line(line, rust, None);
    }

    macro_rules! ranges {
        ($($h:literal $t:literal $f:ty, $size:literal;)*) => {$(
            for length in [1, 3, 64, 127 - $size] {
                let a = $h + ($t << 8) + ($size << 16);
                let line = Line { function: 'r', frame: &[], a, b: length, c: 0 };
                sample.line(line, rust::ranges::<$h, $t, $f>(length), None);
            }
        )*};
    }
    ranges! {
        0 0 u16, 2; 0 0 u32, 4; 8 8 u16, 2; 8 8 u32, 4; 1 0 u16, 2; 0 1 u32, 4; 3 5 u16, 2; 5 3 u32, 4;
    }
    sample.text
}

// --------------------------------------------------------------------- main

fn compare(name: &str) -> Option<Seen> {
    let mut seen = Seen::default();
    match name {
        "is_valid" => {
            for control in 0..=u16::MAX {
                let (rust, ours) = (rust::is_valid(control), ours::is_valid(control) as u64);
                let class = || class_of_is_valid(control, rust, ours);
                seen.compare(rust, ours, class, 2, || format!("{control:04x}"));
            }
        }
        "lengths" => {
            for control in 0..=u16::MAX {
                let (rust, ours) = (rust::lengths(control), ours::lengths(control) as u64);
                let class = || class_of_lengths(control, rust, ours);
                seen.compare(rust, ours, class, 2, || format!("{control:04x}"));
            }
        }
        "filter" => compare_headers(|frame, hardware, pan, implicit| {
            let rust = rust::for_us(frame, hardware, pan, implicit);
            let ours = ours::for_us(frame, hardware, pan, implicit) as u64;
            let class = || class_of_filter(frame, implicit, rust, ours);
            seen.compare(rust, ours, class, frame.len(), || {
                format!("{frame:02x?} {hardware:016x} {pan:04x} {implicit}")
            });
        }),
        "ack_seq_num" => {
            let mut buffer = BufferToken::new(vec![0; 127 + 8].leak());
            for control in 0..=u16::MAX {
                for number in [0, 7, 255] {
                    let [low, high] = control.to_le_bytes();
                    // Three bytes, and a frame with one more.
                    for frame in [&[low, high, number][..], &[low, high, number, 0x5A]] {
                        let ours = ours::ack_seq_num(frame) as u64;
                        for far in [false, true] {
                            let (rust, token) = if far {
                                rust::ack_seq_num::<8>(buffer, frame)
                            } else {
                                rust::ack_seq_num::<0>(buffer, frame)
                            };
                            buffer = token;
                            let class = || class_of_ack_seq_num(frame, rust, ours);
                            seen.compare(rust, ours, class, frame.len(), || format!("{frame:02x?}"));
                        }
                    }
                }
            }
        }
        "from_mpdu_length" => {
            for length in 0..=u16::MAX {
                let rust = rust::from_mpdu_length(length);
                let ours = ours::from_mpdu_length(length) as u64;
                seen.compare(rust, ours, || None, 2, || format!("{length}"));
            }
        }
        "source" => compare_cut(|frame| {
            let (rust, facts) = (rust::preliminary(frame), ours::facts(frame));
            for (at, fact) in FACTS.iter().enumerate() {
                let (ours, listed) = ((fact.ours)(&facts), listed_source(at, frame));
                seen.compare_listed(rust[at], ours, listed, frame.len(), || {
                    format!("{} of {frame:02x?}", fact.name)
                });
            }
        }),
        "mpdu" => {
            let mut buffer = Some(BufferToken::new(vec![0; 8 + 127 + 8].leak()));
            compare_cut(|frame| {
                if frame.is_empty() {
                    return;
                }
                let (rust, token) = rust::mpdu(buffer.take().unwrap(), frame);
                buffer = Some(token);
                let facts = ours::facts(frame);
                for (at, fact) in FACTS.iter().enumerate() {
                    let ours = (fact.ours)(&facts);
                    let class = || class_of_mpdu(at, frame, rust[at], ours);
                    seen.compare(rust[at], ours, class, frame.len(), || {
                        format!("{} of {frame:02x?}", fact.name)
                    });
                }
            });
        }
        _ => return None,
    }
    Some(seen)
}

fn main() {
    let arguments: Vec<String> = std::env::args().collect();
    let words: Vec<&str> = arguments.iter().map(String::as_str).collect();
    // A panic of the Rust is an answer here.
    set_hook(Box::new(|panic| {
        if panic
            .location()
            .is_some_and(|at| at.file().ends_with("compare.rs"))
        {
            eprintln!("{panic}");
        }
    }));
    match words[1..] {
        ["sample"] => print!("{}", sample()),
        [name, differences] => {
            let differences = std::fs::read_to_string(differences).expect("DIFFERENCES.md");
            let Some(seen) = compare(name) else {
                eprintln!("no comparison {name}");
                exit(2);
            };
            if !seen.is_as_listed(name, &differences) {
                println!("{name}: not as listed");
                exit(1);
            }
        }
        _ => {
            eprintln!("usage: compare NAME DIFFERENCES.md | compare sample");
            exit(2);
        }
    }
}
