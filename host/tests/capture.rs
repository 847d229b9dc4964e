//! The reader of captures (examples/check_capture): on captures that are written here, cut off anywhere, and damaged.
mod common;
mod model;
#[allow(dead_code)]
#[path = "../examples/check_capture/reader.rs"]
mod reader;

use common::random::Rng;
use common::{divisor, rounds, seed, stride};
use reader::damage::{Damage, Place, Wrong};
use reader::{Data, Reader};
use std::collections::BTreeMap;

const SMALL: [&[u8]; 3] = [
    include_bytes!("../examples/check_capture/small.pcap"),
    include_bytes!("../examples/check_capture/small.pcapng"),
    include_bytes!("../examples/check_capture/small.txt"),
];

/// A frame as it was written, or as it was read.
#[derive(Clone, Debug, PartialEq, Eq)]
struct Seen {
    offset: usize,
    line: Option<usize>,
    original: Option<u32>,
    bytes: Vec<u8>,
}

/// A capture that was written here: its frames, and where a header, a record or a block ends.
#[derive(Clone, Default)]
struct Capture {
    file: Vec<u8>,
    frames: Vec<Seen>,
    ends: Vec<usize>,
    high_first: bool,
}

impl Capture {
    fn ordered<const N: usize>(&self, mut low_first: [u8; N]) -> [u8; N] {
        if self.high_first {
            low_first.reverse();
        }
        low_first
    }

    fn u16(&mut self, number: u16) {
        self.file.extend(self.ordered(number.to_le_bytes()));
    }

    fn u32(&mut self, number: u32) {
        self.file.extend(self.ordered(number.to_le_bytes()));
    }

    fn zeros(&mut self, count: usize) {
        self.file.resize(self.file.len() + count, 0);
    }

    /// A frame's bytes here and now.
    fn frame(&mut self, bytes: &[u8], original: u32) {
        self.frames.push(Seen {
            offset: self.file.len(),
            line: None,
            original: Some(original),
            bytes: bytes.to_vec(),
        });
        self.file.extend(bytes);
    }

    fn pcap_header(high_first: bool, magic: u32, major: u16, link_type: u32) -> Capture {
        let mut capture = Capture {
            high_first,
            ..Capture::default()
        };
        capture.u32(magic);
        capture.u16(major);
        capture.u16(4);
        capture.zeros(8);
        capture.u32(65_535);
        capture.u32(link_type);
        capture.ends.push(24);
        capture
    }

    fn record(&mut self, bytes: &[u8], original: u32) {
        self.u32(1_700_000_000);
        self.u32(999_999);
        self.u32(bytes.len() as u32);
        self.u32(original);
        self.frame(bytes, original);
        self.ends.push(self.file.len());
    }

    /// A block around the body that is written; filled up to a multiple of four.
    fn block(&mut self, kind: u32, body: impl FnOnce(&mut Capture)) {
        let start = self.file.len();
        self.u32(kind);
        self.u32(0);
        body(self);
        self.zeros((4 - self.file.len() % 4) % 4);
        let length = (self.file.len() + 4 - start) as u32;
        self.u32(length);
        self.set_u32(start + 4, length);
        self.ends.push(self.file.len());
    }

    fn set_u32(&mut self, at: usize, number: u32) {
        let bytes = self.ordered(number.to_le_bytes());
        self.file[at..at + 4].copy_from_slice(&bytes);
    }

    fn section(&mut self, high_first: bool) {
        self.high_first = high_first;
        self.block(0x0a0d0d0a, |body| {
            body.u32(0x1a2b3c4d);
            body.u16(1);
            body.u16(0);
            body.file.extend([0xff; 8]);
        });
    }

    fn interface(&mut self, link_type: u16, snap_length: u32) {
        self.block(1, |body| {
            body.u16(link_type);
            body.u16(0);
            body.u32(snap_length);
            // An option: the interface's name.
            body.u16(2);
            body.u16(5);
            body.file.extend(b"wpan0\0\0\0");
            body.u32(0);
        });
    }

    fn enhanced(&mut self, interface: u32, bytes: &[u8], original: u32, comment: bool) {
        self.block(6, |body| {
            body.u32(interface);
            body.zeros(8);
            body.u32(bytes.len() as u32);
            body.u32(original);
            body.frame(bytes, original);
            if comment {
                body.zeros((4 - body.file.len() % 4) % 4);
                body.u16(1);
                body.u16(5);
                body.file.extend(b"heard");
                body.zeros(3);
                body.u32(0);
            }
        });
    }

    fn simple(&mut self, bytes: &[u8], original: u32) {
        self.block(3, |body| {
            body.u32(original);
            body.frame(bytes, original);
        });
    }

    fn obsolete(&mut self, interface: u16, bytes: &[u8], original: u32) {
        self.block(2, |body| {
            body.u16(interface);
            body.u16(9);
            body.zeros(8);
            body.u32(bytes.len() as u32);
            body.u32(original);
            body.frame(bytes, original);
        });
    }
}

/// Everything that the reader gives of a file. Whatever the file is: frames stand inside it, each after the one before, and hold
/// the bytes that stand there; damage is told at a place inside, and nothing follows it.
fn read(file: &[u8]) -> (Vec<Seen>, Option<Damage>) {
    let (mut frames, mut damage, mut taken) = (Vec::new(), None, 0);
    let mut reader = Reader::new(file);
    for next in reader.by_ref() {
        assert!(damage.is_none(), "damage is the last thing");
        let frame = match next {
            Ok(frame) => frame,
            Err(found) => {
                assert_inside(file, &found);
                damage = Some(found);
                continue;
            }
        };
        let (Data::Bytes(there) | Data::Pairs(there)) = frame.data;
        assert!(frame.offset >= taken, "a byte was taken twice");
        taken = frame.offset + there.len();
        let inside = file.get(frame.offset..taken).expect("the frame stands in the file");
        assert_eq!(inside.as_ptr(), there.as_ptr(), "its bytes are those of its place");
        let bytes: Vec<u8> = frame.data.collect();
        if let Data::Bytes(there) = frame.data {
            assert_eq!(bytes, there);
        }
        frames.push(Seen {
            offset: frame.offset,
            line: frame.line,
            original: frame.original,
            bytes,
        });
        // A record has 16 bytes before its data, and a line has a digit at least.
        assert!(frames.len() <= file.len(), "more frames than bytes");
    }
    assert!(reader.next().is_none(), "the end is the end");
    (frames, damage)
}

fn assert_inside(file: &[u8], damage: &Damage) {
    match damage.place {
        Place::Byte(offset) => assert!(offset < file.len() || damage.wrong == Wrong::Empty, "{damage}"),
        Place::Column { line, column } => {
            let text = file.split(|byte| *byte == b'\n').nth(line - 1).expect("the line is there");
            assert!((1..=text.len()).contains(&column), "{damage}");
        }
    }
}

fn assert_whole(capture: &Capture) {
    assert_eq!(read(&capture.file), (capture.frames.clone(), None));
}

fn random_bytes(rng: &mut Rng, length: usize) -> Vec<u8> {
    let mut bytes = vec![0; length];
    rng.fill(&mut bytes);
    bytes
}

/// Mostly whole, sometimes cut, of any length.
fn random_frame(rng: &mut Rng) -> (Vec<u8>, u32) {
    let length = match rng.below(4) {
        0 => rng.below(6),
        1 => 125 + rng.below(6),
        2 => rng.below(2000),
        _ => rng.below(40),
    };
    let more = if rng.chance(20) { rng.below(300) as u32 } else { 0 };
    (random_bytes(rng, length), length as u32 + more)
}

/// Microseconds and nanoseconds, each in both orders.
fn pcaps(rng: &mut Rng, frames: usize) -> Vec<Capture> {
    let mut all = Vec::new();
    for magic in [0xa1b2c3d4, 0xa1b23c4d] {
        for high_first in [false, true] {
            // The upper half of the last field may say how long checksums are; the link type is the lower half.
            let upper = rng.pick(&[0, 0x2400_0000, 0xfc00_0000]);
            let mut capture = Capture::pcap_header(high_first, magic, 2, upper | 195);
            for _ in 0..frames {
                let (bytes, original) = random_frame(rng);
                capture.record(&bytes, original);
            }
            all.push(capture);
        }
    }
    all
}

/// Sections of both orders, each with interfaces of its own, all kinds of packets, and blocks that are skipped.
fn pcapng(rng: &mut Rng, sections: usize, blocks: usize) -> Capture {
    let mut capture = Capture::default();
    for _ in 0..sections {
        capture.section(rng.chance(50));
        let snap_length = rng.pick(&[0, 1, 20, 127, 65_535, u32::MAX]);
        let mut interfaces = 0;
        for _ in 0..blocks {
            let (bytes, original) = random_frame(rng);
            match rng.below(6) {
                0 => {
                    let kind = rng.pick(&[0, 4, 5, 7, 10, 0x0bad, 0x8000_0001, u32::MAX]);
                    capture.block(kind, |body| body.file.extend(&bytes));
                }
                1 if interfaces < 3 => {
                    capture.interface(195, if interfaces == 0 { snap_length } else { 3 });
                    interfaces += 1;
                }
                _ if interfaces == 0 => {}
                2 => {
                    let limit = if snap_length == 0 { u32::MAX } else { snap_length };
                    let captured = bytes.len().min(limit as usize);
                    capture.simple(&bytes[..captured], bytes.len() as u32);
                }
                3 => capture.obsolete(rng.below(interfaces) as u16, &bytes, original),
                _ => capture.enhanced(rng.below(interfaces) as u32, &bytes, original, rng.chance(30)),
            }
        }
    }
    capture
}

/// Lines of pairs in every spelling that is allowed.
fn text(rng: &mut Rng, lines: usize) -> Capture {
    let mut capture = Capture::default();
    for line in 1..=lines {
        let blanks = |rng: &mut Rng| " \t".repeat(rng.below(2)) + &" ".repeat(rng.below(2));
        let bytes = if rng.chance(20) { Vec::new() } else { random_frame(rng).0 };
        capture.file.extend(blanks(rng).bytes());
        let offset = capture.file.len();
        for byte in &bytes {
            let pair = [format!("{byte:02x}"), format!("{byte:02X}")][rng.below(2)].clone() + &blanks(rng);
            capture.file.extend(pair.bytes());
        }
        if !bytes.is_empty() {
            let (line, original) = (Some(line), None);
            capture.frames.push(Seen {
                offset,
                line,
                original,
                bytes,
            });
        }
        if line < lines || rng.chance(50) {
            let end: &[u8] = if rng.chance(50) { b"\n" } else { b"\r\n" };
            capture.file.extend(end);
        }
    }
    capture
}

#[test]
fn what_was_written_is_read() {
    let mut rng = Rng::new(seed(50));
    let (mut captures, mut frames) = (0, 0);
    for _ in 0..rounds(300) {
        let mut all = pcaps(&mut rng, 12);
        all.push(pcapng(&mut rng, 3, 12));
        all.push(text(&mut rng, 12));
        for capture in all.iter().filter(|capture| !capture.file.is_empty()) {
            assert_whole(capture);
            captures += 1;
            frames += capture.frames.len();
        }
    }
    println!("capture: {captures} captures of {frames} frames, written and read");
}

#[test]
fn small_captures_have_the_same_frames() {
    let [pcap, pcapng, text] = SMALL.map(|file| {
        let (frames, damage) = read(file);
        assert_eq!(damage, None);
        frames.into_iter().map(|frame| frame.bytes).collect::<Vec<_>>()
    });
    assert_eq!(pcap.len(), 8);
    assert_eq!(pcap[0], [0x02, 0x00, 0x6a, 0xe4, 0x79]);
    assert_eq!(pcap, pcapng);
    assert_eq!(pcap, text);
}

/// Of a capture that ends after so many bytes: the frames whose record or block is whole. It is damaged exactly if it ends inside a
/// header, record or block, and told where that begins.
fn assert_prefix(capture: &Capture, length: usize) {
    let (frames, damage) = read(&capture.file[..length]);
    let begun = capture.ends.iter().rev().find(|end| **end <= length).copied().unwrap_or(0);
    let whole = capture
        .frames
        .iter()
        .take_while(|frame| frame.offset + frame.bytes.len() <= begun);
    assert_eq!(frames, whole.cloned().collect::<Vec<_>>(), "{length} bytes");
    let place = (begun < length).then_some(Place::Byte(begun));
    assert_eq!(damage.map(|damage| damage.place), place, "{length} bytes");
}

#[test]
fn every_prefix() {
    let mut rng = Rng::new(seed(51));
    let mut all = pcaps(&mut rng, 6);
    all.extend((0..6).map(|_| pcapng(&mut rng, 2, 12)));
    let mut made = 0;
    for capture in &all {
        // With fewer than four bytes the form is not known: no byte of the magics is a digit.
        for length in (4..=capture.file.len()).step_by(stride()) {
            assert_prefix(capture, length);
            made += 1;
        }
    }
    for (magic, length) in [
        (0xa1b2c3d4u32, 1),
        (0xa1b2c3d4, 2),
        (0xa1b2c3d4, 3),
        (0x4d3cb2a1, 2),
        (0x4d3cb2a1, 3),
        (0x0a0d0d0a, 1),
        (0x0a0d0d0a, 2),
        (0x0a0d0d0a, 3),
    ] {
        let (frames, damage) = read(&magic.to_be_bytes()[..length]);
        assert_eq!(
            (frames.len(), damage.map(|damage| damage.wrong)),
            (0, Some(Wrong::UnknownForm))
        );
    }
    println!("capture: {made} prefixes of pcap and pcapng");
}

/// Of a text that ends after so many bytes: it is damaged exactly if it ends inside a pair, or between CR and LF, or has no pair yet.
/// Else the frames are those before, and the last one may be shorter.
#[test]
fn every_prefix_of_text() {
    let mut rng = Rng::new(seed(52));
    let mut made = 0;
    for _ in 0..8 {
        let capture = text(&mut rng, 12);
        for length in (1..=capture.file.len()).step_by(stride()) {
            let prefix = &capture.file[..length];
            let digits = prefix.iter().rev().take_while(|byte| byte.is_ascii_hexdigit()).count();
            let (frames, damage) = read(prefix);
            assert_eq!(
                damage.is_some(),
                digits % 2 == 1 || prefix.ends_with(b"\r") || !prefix.iter().any(u8::is_ascii_hexdigit),
                "{:?}",
                prefix.escape_ascii().to_string()
            );
            for (place, frame) in frames.iter().enumerate() {
                let whole = &capture.frames[place];
                assert_eq!((frame.offset, frame.line), (whole.offset, whole.line));
                assert!(whole.bytes.starts_with(&frame.bytes));
                assert!(frame == whole || place + 1 == frames.len());
            }
            let begun = capture.frames.iter().filter(|frame| frame.offset < length).count();
            assert!(
                frames.len() == begun || (damage.is_some() && frames.len() + 1 >= begun),
                "{length} bytes"
            );
            made += 1;
        }
    }
    println!("capture: {made} prefixes of text");
}

/// After these frames, this is wrong at this byte.
#[track_caller]
fn assert_damaged(file: &[u8], frames: usize, offset: usize, wrong: Wrong) {
    let (read, damage) = read(file);
    assert_eq!((read.len(), damage), (frames, Some(Damage::at_byte(offset, wrong))));
}

#[test]
fn damage_of_pcap() {
    for high_first in [false, true] {
        let header = |major, link_type| Capture::pcap_header(high_first, 0xa1b2c3d4, major, link_type).file;
        assert_damaged(&header(1, 195), 0, 0, Wrong::PcapVersion { major: 1, minor: 4 });
        assert_damaged(&header(0x0200, 195), 0, 0, Wrong::PcapVersion { major: 0x0200, minor: 4 });
        for minor in 0..8u16 {
            let mut file = header(2, 195);
            file[6..8].copy_from_slice(&if high_first {
                minor.to_be_bytes()
            } else {
                minor.to_le_bytes()
            });
            let old = Damage::at_byte(0, Wrong::PcapVersion { major: 2, minor });
            assert_eq!(read(&file), (Vec::new(), (minor < 4).then_some(old)));
        }
        for link_type in [0, 1, 105, 194, 196, 215, 230, 283, 0xc300] {
            assert_damaged(&header(2, link_type), 0, 0, Wrong::LinkType(link_type as u16));
        }
        assert_damaged(&header(2, 0x00c3_0000), 0, 0, Wrong::LinkType(0));
        for there in 4..24 {
            assert_damaged(&header(2, 195)[..there], 0, 0, Wrong::HeaderCut { there });
        }
        let mut capture = Capture::pcap_header(high_first, 0xa1b23c4d, 2, 195);
        capture.record(&[1, 2, 3], 3);
        for (captured, frames) in [
            (0, 1),
            (1, 0),
            (u32::MAX, 0),
            (0x7fff_ffff, 0),
            (0x8000_0000, 0),
            (0xffff_fff0, 0),
        ] {
            let mut next = capture.clone();
            next.record(&[], 5);
            next.set_u32(43 + 8, captured);
            match frames {
                0 => assert_damaged(&next.file, 1, 43, Wrong::FrameCut { captured, there: 0 }),
                _ => assert_whole(&next),
            }
        }
        // A captured length with the next record in it: that record is no frame, and nothing is told of it.
        for original in [0, 1, 2, 18] {
            let (mut next, captured) = (capture.clone(), 19);
            next.record(&[4, 5, 6], original);
            next.record(&[], 0);
            next.set_u32(43 + 8, captured);
            assert_damaged(&next.file, 1, 43, Wrong::AboveOriginal { captured, original });
            next.set_u32(43 + 12, captured);
            assert_eq!(read(&next.file).1, None);
        }
    }
}

/// Where the block after a section header (28 bytes) and an interface (36) begins.
const BLOCK: usize = 64;

/// A section with an interface, and then a block that is damaged.
fn assert_block_damaged(change: impl Fn(&mut Capture), wrong: Wrong) {
    for high_first in [false, true] {
        let mut capture = Capture::default();
        capture.section(high_first);
        capture.interface(195, 20);
        assert_eq!(capture.file.len(), BLOCK);
        change(&mut capture);
        assert_damaged(&capture.file, 0, BLOCK, wrong);
    }
}

#[test]
fn damage_of_blocks() {
    for (kind, least) in [(1, 20), (2, 32), (3, 16), (6, 32), (5, 12), (0x0a0d0d0a, 28)] {
        // Too short for what a block of this kind always has, no multiple of 4, or beyond the file.
        let lengths = (0..least).chain([least + 1, least + 2, least + 3, u32::MAX, u32::MAX - 1]);
        for length in lengths {
            let one = |capture: &mut Capture| {
                capture.block(kind, |body| {
                    body.u32(0x1a2b3c4d);
                    body.zeros(60);
                });
                capture.set_u32(BLOCK + 4, length);
            };
            assert_block_damaged(one, Wrong::BlockLength { length, least });
        }
        for length in [80, 0x7fff_fffc, 0xffff_fffc] {
            let one = |capture: &mut Capture| {
                capture.block(kind, |body| {
                    body.u32(0x1a2b3c4d);
                    body.zeros(60);
                });
                capture.set_u32(BLOCK + 4, length);
            };
            assert_block_damaged(one, Wrong::BlockCut { length, there: 76 });
        }
    }
    for there in 1..12 {
        assert_block_damaged(|capture| capture.zeros(there), Wrong::BlockStartCut { there });
    }
    for again in [0, 12, 20, 0x1000_0000] {
        let one = |capture: &mut Capture| {
            capture.block(5, |body| body.zeros(4));
            capture.set_u32(BLOCK + 12, again);
        };
        assert_block_damaged(one, Wrong::BlockLengths { length: 16, again });
    }
}

#[test]
fn damage_inside_blocks() {
    let magic = |capture: &mut Capture| {
        capture.section(true);
        capture.file[BLOCK + 8] = 0x1b;
    };
    assert_block_damaged(magic, Wrong::ByteOrderMagic);
    let version = |capture: &mut Capture| {
        capture.section(true);
        capture.file[BLOCK + 13] = 2;
    };
    assert_block_damaged(version, Wrong::PcapngVersion { major: 2, minor: 0 });
    for link_type in [1, 105, 215, 230, 283, 0xc300] {
        assert_block_damaged(|capture| capture.interface(link_type, 0), Wrong::LinkType(link_type));
    }
    let interface = |interface| Wrong::Interface { interface, described: 1 };
    assert_block_damaged(|capture| capture.enhanced(1, &[1, 2], 2, false), interface(1));
    assert_block_damaged(|capture| capture.enhanced(u32::MAX, &[1, 2], 2, false), interface(u32::MAX));
    assert_block_damaged(|capture| capture.obsolete(0xffff, &[1, 2], 2), interface(0xffff));
    // One byte more than the block has room for; of a simple packet up to the snap length of 20.
    let room = |captured, room| Wrong::CapturedLength { captured, room };
    for captured in [9, 0x8000_0000, u32::MAX] {
        let enhanced = |capture: &mut Capture| {
            capture.enhanced(0, &[0; 7], 7, false);
            capture.set_u32(BLOCK + 20, captured);
        };
        assert_block_damaged(enhanced, room(captured, 8));
        let obsolete = |capture: &mut Capture| {
            capture.obsolete(0, &[0; 7], 7);
            capture.set_u32(BLOCK + 20, captured);
        };
        assert_block_damaged(obsolete, room(captured, 8));
    }
    for original in [0, 6] {
        let above = Wrong::AboveOriginal { captured: 7, original };
        assert_block_damaged(|capture| capture.enhanced(0, &[0; 7], original, true), above);
        assert_block_damaged(|capture| capture.obsolete(0, &[0; 7], original), above);
    }
    assert_block_damaged(|capture| capture.simple(&[0; 16], 17), room(17, 16));
    assert_block_damaged(|capture| capture.simple(&[0; 16], u32::MAX), room(20, 16));
}

/// A packet before the first interface of its section, though the section before had one.
#[test]
fn interfaces_end_with_their_section() {
    for high_first in [false, true] {
        let mut before = Capture::default();
        before.section(high_first);
        before.interface(195, 0);
        before.simple(&[1, 2, 3], 3);
        before.section(!high_first);
        let at = before.file.len();
        let packets: [fn(&mut Capture); 3] = [
            |capture| capture.simple(&[1], 1),
            |capture| capture.enhanced(0, &[1], 1, false),
            |capture| capture.obsolete(0, &[1], 1),
        ];
        for packet in packets {
            let mut capture = before.clone();
            packet(&mut capture);
            let (interface, described) = (0, 0);
            assert_damaged(&capture.file, 1, at, Wrong::Interface { interface, described });
        }
    }
}

#[test]
fn damage_of_text() {
    let cases: [(&[u8], usize, usize, usize, Wrong); 18] = [
        (b"hello", 0, 1, 1, Wrong::UnknownForm),
        (b"\n\n  zz\n", 0, 3, 3, Wrong::UnknownForm),
        (b"\xef\xbb\xbf02 00", 0, 1, 1, Wrong::UnknownForm),
        (b"0", 0, 1, 1, Wrong::UnknownForm),
        (b"0 2", 0, 1, 1, Wrong::UnknownForm),
        (b"\r", 0, 1, 1, Wrong::UnknownForm),
        (b"\0\0\0\0", 0, 1, 1, Wrong::UnknownForm),
        (b"0x02", 0, 1, 1, Wrong::UnknownForm),
        (b"02 0", 0, 1, 4, Wrong::NotAPair),
        (b"02 0 6a", 0, 1, 4, Wrong::NotAPair),
        (b"020", 0, 1, 3, Wrong::NotAPair),
        (b"02,00", 0, 1, 3, Wrong::NotAPair),
        (b"02 0G", 0, 1, 4, Wrong::NotAPair),
        (b"02\r00\n", 0, 1, 3, Wrong::NotAPair),
        (b"02\r", 0, 1, 3, Wrong::NotAPair),
        (b"02\r\r\n", 0, 1, 3, Wrong::NotAPair),
        (b"02 00\n6a\x0b\n", 1, 2, 3, Wrong::NotAPair),
        (b"02\n\r\n\t6A\xa0\n", 1, 3, 4, Wrong::NotAPair),
    ];
    for (text, before, line, column, wrong) in cases {
        let (frames, damage) = read(text);
        let place = Place::Column { line, column };
        let shown = text.escape_ascii().to_string();
        assert_eq!((frames.len(), damage), (before, Some(Damage { place, wrong })), "{shown}");
    }
    assert_damaged(b"", 0, 0, Wrong::Empty);
    for without_pair in ["\n", "\r\n", " \t", "\n \n\t"] {
        assert_damaged(without_pair.as_bytes(), 0, 0, Wrong::UnknownForm);
    }
}

/// How often which damage was told, by its name.
#[derive(Default)]
struct Told {
    captures: u64,
    frames: u64,
    whole: u64,
    wrong: BTreeMap<String, u64>,
}

impl Told {
    fn read(&mut self, file: &[u8]) {
        let (frames, damage) = read(file);
        self.captures += 1;
        self.frames += frames.len() as u64;
        match damage {
            None => self.whole += 1,
            Some(damage) => {
                let name = format!("{:?}", damage.wrong);
                let name = name.split([' ', '(']).next().expect("a name");
                *self.wrong.entry(name.to_owned()).or_default() += 1;
                assert!(!damage.to_string().contains('\n'), "one line");
            }
        }
    }

    /// Every kind of damage was met, unless fewer rounds were made than there should be.
    fn print(&self, name: &str, kinds: usize) {
        let Told {
            captures,
            frames,
            whole,
            wrong,
        } = self;
        assert!(divisor().is_some() || wrong.len() >= kinds, "{wrong:?}");
        println!(
            "capture: {captures} {name}: {frames} frames, {whole} read to the end, {} kinds of damage",
            wrong.len()
        );
    }
}

#[test]
fn every_byte_to_every_value() {
    let mut told = Told::default();
    for small in SMALL {
        let mut file = small.to_vec();
        for place in (0..file.len()).step_by(stride()) {
            for value in 0..=255 {
                file[place] = value;
                told.read(&file);
            }
            file[place] = small[place];
        }
    }
    told.print("captures with one byte changed", 13);
}

/// FFFFFFFF and other numbers that could overflow, at each place, in both orders.
#[test]
fn great_lengths_everywhere() {
    let mut told = Told::default();
    for small in SMALL {
        for number in [
            u32::MAX,
            u32::MAX - 3,
            0x7fff_ffff,
            0x7fff_fffc,
            0x8000_0000,
            0xffff_0000,
            0xffff,
            0,
        ] {
            for bytes in [number.to_le_bytes(), number.to_be_bytes()] {
                for place in (0..small.len() - 3).step_by(stride()) {
                    let mut file = small.to_vec();
                    file[place..place + 4].copy_from_slice(&bytes);
                    told.read(&file);
                    // And in two places at once, as both lengths of a block are.
                    let other = (place * 7 + 13) % (file.len() - 3);
                    file[other..other + 4].copy_from_slice(&bytes);
                    told.read(&file);
                }
            }
        }
    }
    told.print("captures with great lengths", 13);
}

/// One of several changes: other bytes, bits, numbers, a part left out, repeated, or cut off.
fn mutate(rng: &mut Rng, file: &mut Vec<u8>) {
    if file.len() < 8 {
        return file.push(rng.byte());
    }
    let place = rng.below(file.len() - 4);
    let part = place..place + rng.below((file.len() - place).min(64));
    match rng.below(8) {
        0 => file[place] = rng.byte(),
        1 => file[place] ^= 1 << rng.below(8),
        2 => file[place] = rng.pick(b"0aF \t\r\n\x00\x01\x02\x03\x06\x0c\xff"),
        3 => {
            let number: u32 = rng.pick(&[0, 1, 2, 3, 6, 11, 12, 13, 16, 28, 32, 0x0a0d0d0a, 0x1a2b3c4d, u32::MAX]);
            file[place..place + 4].copy_from_slice(&number.to_le_bytes());
        }
        4 => drop(file.drain(part)),
        5 => {
            let again = file[part].to_vec();
            file.splice(place..place, again);
        }
        6 if rng.chance(20) => file.truncate(place),
        _ => {
            // A number of a block or record a little greater or less.
            let at = place & !3;
            file[at] = file[at].wrapping_add(rng.pick(&[1, 4, 0xff, 0xfc]));
        }
    }
}

#[test]
fn random_damage() {
    let mut rng = Rng::new(seed(53));
    let mut told = Told::default();
    let mut sources: Vec<Vec<u8>> = SMALL.iter().map(|small| small.to_vec()).collect();
    sources.extend(pcaps(&mut rng, 3).into_iter().map(|capture| capture.file));
    sources.extend((0..6).map(|_| pcapng(&mut rng, 3, 8).file));
    sources.push(text(&mut rng, 6).file);
    for round in 0..rounds(200_000) {
        let mut file = sources[round as usize % sources.len()].clone();
        for _ in 0..1 + rng.below(6) {
            mutate(&mut rng, &mut file);
        }
        if rng.chance(1) {
            file.truncate(rng.below(12));
        }
        told.read(&file);
    }
    told.print("captures with random damage", 17);
}

/// The words name the link type and the place.
#[test]
fn words_of_damage() {
    let ethernet = Capture::pcap_header(false, 0xa1b2c3d4, 2, 1).file;
    let words = read(&ethernet).1.map(|damage| damage.to_string());
    let expected = "byte 0: link type 1 (Ethernet); only 195 (IEEE 802.15.4 with FCS) is read";
    assert_eq!(words.as_deref(), Some(expected));
    let words = read(b"02 00\n6a e\n").1.map(|damage| damage.to_string());
    assert_eq!(
        words.as_deref(),
        Some("line 2, column 4: neither a hexadecimal pair nor a blank")
    );
    let mut above = Capture::pcap_header(false, 0xa1b2c3d4, 2, 195);
    above.record(&[1, 2, 3], 2);
    let words = read(&above.file).1.map(|damage| damage.to_string());
    assert_eq!(words.as_deref(), Some("byte 24: 3 bytes are captured of a frame that had 2"));
}
