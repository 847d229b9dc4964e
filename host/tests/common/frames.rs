//! Random bytes of frames: headers that are often for us, acknowledgements that are often the awaited one, and near misses.
use super::random::Rng;
use crate::model::header::{self, Address, Control};
use crate::model::settings::Settings;

/// Flips one bit now and then.
fn near(rng: &mut Rng, bytes: &mut [u8], percent: usize) {
    if rng.chance(percent) {
        let bit = rng.below(8 * bytes.len());
        bytes[bit / 8] ^= 1 << (bit % 8);
    }
}

fn control(rng: &mut Rng) -> u16 {
    let kind = if rng.chance(92) { rng.below(4) } else { rng.below(8) } as u16;
    let version = if rng.chance(92) { rng.below(3) } else { 3 } as u16;
    let mut mode = || if rng.chance(95) { rng.pick(&[0, 2, 2, 3]) } else { 1u16 };
    let (destination, source) = (mode(), mode());
    let others = (rng.number() as u16) & 0x02f8;
    let suppressed = u16::from(rng.chance(25)) << 8;
    kind | others | suppressed | destination << 10 | version << 12 | source << 14
}

fn pan(rng: &mut Rng, settings: &Settings) -> [u8; 2] {
    let ours = settings.pan;
    match rng.below(20) {
        0..=12 => ours.to_le_bytes(),
        13..=15 => [0xff, 0xff],
        16 => ours.to_be_bytes(),
        17 | 18 => (ours ^ (1 << rng.below(16))).to_le_bytes(),
        _ => (rng.number() as u16).to_le_bytes(),
    }
}

fn address(rng: &mut Rng, settings: &Settings, mode: u16) -> Vec<u8> {
    let hardware = &settings.hardware;
    let mut ours: Vec<u8> = match mode {
        2 => vec![hardware[7], hardware[6]],
        3 => hardware.iter().rev().copied().collect(),
        _ => return Vec::new(),
    };
    match rng.below(20) {
        0..=10 => {}
        11..=13 => ours.fill(0xff),
        14 => ours.reverse(),
        15..=17 => near(rng, &mut ours, 100),
        18 => {
            let first: Vec<u8> = hardware.iter().take(ours.len()).copied().collect();
            ours.copy_from_slice(&first);
        }
        _ => rng.fill(&mut ours),
    }
    ours
}

/// The header bytes of a frame, to the end of the addresses and a little further.
pub fn header(rng: &mut Rng, settings: &Settings) -> Vec<u8> {
    let number = control(rng);
    let control = Control(number);
    let mut bytes = number.to_le_bytes().to_vec();
    if !control.suppressed() {
        bytes.push(rng.byte());
    }
    let pans = control.pans();
    for (present, mode) in [(pans.0, control.destination_mode()), (pans.1, control.source_mode())] {
        if present {
            bytes.extend(pan(rng, settings));
        }
        bytes.extend(address(rng, settings, mode));
    }
    near(rng, &mut bytes, 10);
    bytes.extend([rng.byte(), rng.byte()]);
    bytes
}

/// Whom a frame for us is for, with the field that says so.
#[derive(Clone, Copy, Debug, PartialEq, Eq, PartialOrd, Ord)]
pub enum For {
    Everyone(&'static str),
    Us(&'static str),
}

/// All that `requested` gives, in order.
pub const EVERY_FOR: [For; 10] = [
    For::Everyone("absent, version 0"),
    For::Everyone("absent, version 1"),
    For::Everyone("absent, version 2"),
    For::Everyone("short FFFF"),
    For::Everyone("short FFFF, our own too"),
    For::Us("eight FF"),
    For::Us("extended"),
    For::Us("extended in PAN FFFF"),
    For::Us("short"),
    For::Us("short in PAN FFFF"),
];

/// Whom a frame is for that is for us, requests an ACK and has a number. The PAN is named where it is not ours.
pub fn requested(settings: &Settings, arrived: &[u8]) -> Option<For> {
    let facts = header::read(arrived);
    let control = Control(facts.control?);
    facts.number?;
    let addressing = facts.addressing?;
    if !control.wants_ack() || !header::for_us(settings, &facts) {
        return None;
    }
    let any_pan = settings.pan != 0xffff && addressing.destination_pan == Some(0xffff);
    Some(match addressing.destination {
        Address::Absent => EVERY_FOR[usize::from(control.version())],
        Address::Short(0xffff) if settings.hardware.ends_with(&[0xff, 0xff]) => For::Everyone("short FFFF, our own too"),
        Address::Short(0xffff) => For::Everyone("short FFFF"),
        Address::Short(_) if any_pan => For::Us("short in PAN FFFF"),
        Address::Short(_) => For::Us("short"),
        Address::Extended(u64::MAX) => For::Us("eight FF"),
        Address::Extended(_) if any_pan => For::Us("extended in PAN FFFF"),
        Address::Extended(_) => For::Us("extended"),
    })
}

/// An acknowledgement of the number, or nearly one.
pub fn acknowledgement(rng: &mut Rng, number: u8) -> Vec<u8> {
    let mut bytes = vec![0x02, rng.pick(&[0x00, 0x10]), number];
    near(rng, &mut bytes, 45);
    if rng.chance(5) {
        rng.fill(&mut bytes);
    }
    bytes.push(rng.byte());
    bytes
}

/// The first three bytes of a frame to be sent: control and number.
pub fn outbound(rng: &mut Rng) -> Vec<u8> {
    let mut bytes = control(rng).to_le_bytes().to_vec();
    if rng.chance(50) {
        bytes[0] |= 0x20;
    }
    bytes.push(rng.pick(&[0, 7, 255, 8, 128, 3]));
    bytes
}
