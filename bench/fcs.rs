//! Checksums of frames and their check, the proved library beside a plain loop over a table in Rust, on the same frames in one
//! process.
//!
//!     fcs                  times of both, in turns
//!     fcs --lengths        the same for each length of a frame by itself; prints the ratios of some groups of lengths
//!     fcs --count KIND     each side of one kind once, for a counter of instructions, which bench/fcs.sh sets upon a function;
//!                          prints how many frames and bytes there are

use std::{hint::black_box, ops::RangeInclusive, time::Instant};

const FRAMES: usize = 4096;
const LONG: usize = 1 << 20;
const REPEATS: usize = 31;
/// Bytes that each run of a side is to go through, in as many rounds as it takes.
const BYTES_OF_RUN: usize = 1 << 22;
/// The same for one length among many.
const BYTES_OF_LENGTH: usize = 1 << 19;
const REFUSED: u8 = 14;
const NO: u8 = 255;

mod ours {
    unsafe extern "C" {
        fn widosha_fcs(bytes: *const u8, bytes_len: usize) -> u16;
        fn widosha_check_fcs(frame: *const u8, frame_len: usize) -> u8;
    }

    #[inline]
    pub fn fcs(bytes: &[u8]) -> u16 {
        // Safety: The pointer and the length of a slice.
        unsafe { widosha_fcs(bytes.as_ptr(), bytes.len()) }
    }

    #[inline]
    pub fn check_fcs(frame: &[u8]) -> u8 {
        // Safety: As above.
        unsafe { widosha_check_fcs(frame.as_ptr(), frame.len()) }
    }
}

static TABLE: [u16; 256] = table();

const fn table() -> [u16; 256] {
    let mut table = [0; 256];
    let mut place = 0;
    while place < 256 {
        let mut entry = place as u16;
        let mut bit = 0;
        while bit < 8 {
            entry = entry >> 1 ^ (entry & 1) * 0x8408;
            bit += 1;
        }
        table[place] = entry;
        place += 1;
    }
    table
}

#[inline(always)]
fn plain_loop(bytes: &[u8]) -> u16 {
    let mut crc = 0;
    for &byte in bytes {
        crc = (crc >> 8) ^ TABLE[((crc ^ u16::from(byte)) & 0xFF) as usize];
    }
    crc
}

#[inline(never)]
fn plain_fcs(bytes: &[u8]) -> u16 {
    plain_loop(bytes)
}

#[inline(never)]
fn plain_check_fcs(frame: &[u8]) -> u8 {
    if frame.len() < 3 || frame.len() > 127 {
        return REFUSED;
    }
    let (rest, last) = frame.split_at(frame.len() - 2);
    if plain_loop(rest).to_le_bytes() == last {
        0
    } else {
        NO
    }
}

#[inline(never)]
fn fcs_ours(frames: &[Vec<u8>]) -> u64 {
    frames.iter().map(|frame| u64::from(ours::fcs(frame))).sum()
}

#[inline(never)]
fn fcs_plain(frames: &[Vec<u8>]) -> u64 {
    frames.iter().map(|frame| u64::from(plain_fcs(frame))).sum()
}

#[inline(never)]
fn check_ours(frames: &[Vec<u8>]) -> u64 {
    frames.iter().map(|frame| u64::from(ours::check_fcs(frame))).sum()
}

#[inline(never)]
fn check_plain(frames: &[Vec<u8>]) -> u64 {
    frames.iter().map(|frame| u64::from(plain_check_fcs(frame))).sum()
}

/// One side over all frames, and the sum of its answers.
type Run = fn(&[Vec<u8>]) -> u64;

/// What is measured.
struct Kind {
    name: &'static str,
    frames: Vec<Vec<u8>>,
    ours: Run,
    plain: Run,
}

struct Random(u64);

impl Random {
    fn next(&mut self) -> u64 {
        self.0 ^= self.0 << 13;
        self.0 ^= self.0 >> 7;
        self.0 ^= self.0 << 17;
        self.0 >> 11
    }

    fn bytes(&mut self, length: usize) -> Vec<u8> {
        (0..length).map(|_| self.next() as u8).collect()
    }
}

/// Frames of so many bytes; every other one has its right checksum.
fn frames(random: &mut Random, least: usize, most: usize) -> Vec<Vec<u8>> {
    let frame = |number: usize| {
        let length = least + random.next() as usize % (most - least + 1);
        let mut frame = random.bytes(length);
        if number % 2 == 0 {
            let checksum = plain_fcs(&frame[..length - 2]).to_le_bytes();
            frame[length - 2..].copy_from_slice(&checksum);
        }
        frame
    };
    (0..FRAMES).map(frame).collect()
}

fn kinds() -> Vec<Kind> {
    let mut random = Random(0x9E37_79B9_7F4A_7C15);
    let all_lengths = frames(&mut random, 3, 127);
    let of_acks = frames(&mut random, 5, 5);
    let long = vec![random.bytes(LONG)];
    vec![
        kind("checksum", all_lengths.clone(), fcs_ours, fcs_plain),
        kind("check", all_lengths, check_ours, check_plain),
        kind("check-5", of_acks, check_ours, check_plain),
        kind("long", long, fcs_ours, fcs_plain),
    ]
}

fn kind(name: &'static str, frames: Vec<Vec<u8>>, ours: Run, plain: Run) -> Kind {
    Kind {
        name,
        frames,
        ours,
        plain,
    }
}

/// Both sides say the same of each frame.
fn compare(frames: &[Vec<u8>]) {
    for frame in frames {
        let ours = (ours::fcs(frame), ours::check_fcs(frame));
        let plain = (plain_fcs(frame), plain_check_fcs(frame));
        assert_eq!(ours, plain, "the two disagree about {frame:02x?}");
    }
}

/// Nanoseconds for all frames once.
fn timed(run: Run, frames: &[Vec<u8>], rounds: usize) -> f64 {
    let start = Instant::now();
    for _ in 0..rounds {
        black_box(run(black_box(frames)));
    }
    start.elapsed().as_nanos() as f64 / rounds as f64
}

/// Nanoseconds of the two sides for all frames once: the time that other programs on the machine disturbed least. The two take
/// turns, so that both see the same machine.
fn in_turns(ours: Run, plain: Run, frames: &[Vec<u8>], rounds: usize) -> (f64, f64) {
    let mut least = (f64::INFINITY, f64::INFINITY);
    for _ in 0..REPEATS {
        least.0 = least.0.min(timed(ours, frames, rounds));
        least.1 = least.1.min(timed(plain, frames, rounds));
    }
    least
}

fn measure(kind: &Kind) {
    let bytes: usize = kind.frames.iter().map(Vec::len).sum();
    let rounds = BYTES_OF_RUN.div_ceil(bytes);
    let (ours, plain) = in_turns(kind.ours, kind.plain, &kind.frames, rounds);
    let count = kind.frames.len();
    println!(
        "{}: {bytes} bytes, slices: {count}; the fastest of {REPEATS} runs of {rounds} rounds",
        kind.name
    );
    for (side, time) in [("proved library", ours), ("plain loop", plain)] {
        println!(
            "  {side:14} {:12.2} ns for a slice {:8.3} ns for a byte",
            time / count as f64,
            time / bytes as f64
        );
    }
    println!("  ratio {:.2}", ours / plain);
}

/// The least and the greatest ratio of the lengths in a group, of checksum and check.
fn measure_lengths(random: &mut Random, lengths: RangeInclusive<usize>) {
    let mut ratios = [(f64::INFINITY, 0.0f64); 2];
    for length in lengths.clone() {
        let frames = frames(random, length, length);
        compare(&frames);
        let rounds = BYTES_OF_LENGTH.div_ceil(FRAMES * length);
        let sides: [(Run, Run); 2] = [(fcs_ours, fcs_plain), (check_ours, check_plain)];
        for ((ours, plain), (least, greatest)) in sides.into_iter().zip(&mut ratios) {
            let (ours, plain) = in_turns(ours, plain, &frames, rounds);
            (*least, *greatest) = (least.min(ours / plain), greatest.max(ours / plain));
        }
    }
    let [checksum, check] = ratios.map(|(least, greatest)| format!("{least:.2} to {greatest:.2}"));
    println!(
        "{:3} to {:3} bytes: checksum {checksum}, check {check}",
        lengths.start(),
        lengths.end()
    );
}

fn main() {
    let arguments: Vec<String> = std::env::args().skip(1).collect();
    let kinds = kinds();
    for kind in &kinds {
        compare(&kind.frames);
    }
    match arguments.iter().map(String::as_str).collect::<Vec<_>>()[..] {
        [] => kinds.iter().for_each(measure),
        ["--lengths"] => {
            let mut random = Random(0x1234_5678_9ABC_DEF1);
            for lengths in [3..=3, 4..=4, 5..=5, 6..=9, 10..=19, 20..=95, 96..=97, 98..=111, 112..=127] {
                measure_lengths(&mut random, lengths);
            }
        }
        ["--count", name] => {
            let kind = kinds
                .iter()
                .find(|kind| kind.name == name)
                .expect("checksum, check, check-5 or long");
            let answers = [(kind.ours)(&kind.frames), (kind.plain)(&kind.frames)];
            assert_eq!(answers[0], answers[1], "the two disagree");
            println!("{} {}", kind.frames.len(), kind.frames.iter().map(Vec::len).sum::<usize>());
        }
        _ => panic!("usage: fcs [--lengths | --count KIND]"),
    }
}
