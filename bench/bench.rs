//! Header reading plus filter, the proved library against the unchanged Rust, on the same headers in the same process.
//!
//! The headers are mixed by a fixed generator: all frame types, versions 0 to 2, every pair of modes, half of them for us, some
//! cut off. Controls at which the two differ (docs/DIFFERENCES.md) are left out, so that both do the same work. The Rust side is
//! the stand-in header reader over the unchanged FrameControl, AddressingRepr and AddressingFields, and the unchanged
//! is_frame_valid_and_for_us; PAN and implicit broadcast are constants there, and parameters here.

use std::{hint::black_box, time::Instant};

#[allow(dead_code)]
#[path = "../tests/rust/ours.rs"]
mod ours;

const HARDWARE: u64 = 0xACDE_4800_0000_0102;
const PAN: u16 = 0x4321;
const HEADERS: usize = 4096;
const ROUNDS: usize = 200;
const REPEATS: usize = 31;
const COUNTED_ROUNDS: usize = 5;

struct Random(u64);

impl Random {
    fn below(&mut self, limit: u64) -> u64 {
        self.0 ^= self.0 << 13;
        self.0 ^= self.0 >> 7;
        self.0 ^= self.0 << 17;
        (self.0 >> 11) % limit
    }
}

fn headers() -> Vec<Vec<u8>> {
    let mut random = Random(0x9E37_79B9_7F4A_7C15);
    let mut headers = vec![];
    while headers.len() < HEADERS {
        let mode = |n| [0u16, 2, 3][n as usize];
        let (dst, src) = (mode(random.below(3)), mode(random.below(3)));
        let version = random.below(3) as u16;
        if version < 2 && (dst, src) == (0, 0) {
            continue;
        }
        let control = random.below(4) as u16
            | (random.below(16) as u16) << 3
            | (random.below(4) as u16) << 8
            | dst << 10
            | version << 12
            | src << 14;
        let lengths = ours::lengths(control).to_le_bytes();
        let mut frame = control.to_le_bytes().to_vec();
        if !(version == 2 && control >> 8 & 1 == 1) {
            frame.push(random.below(256) as u8);
        }
        let pan = [PAN, PAN, 0xFFFF, PAN ^ 0x0100][random.below(4) as usize];
        frame.extend(&pan.to_le_bytes()[..lengths[0] as usize]);
        let address = [HARDWARE, HARDWARE, HARDWARE ^ 1, 0xFFFF][random.below(4) as usize];
        frame.extend(&address.to_le_bytes()[..lengths[1] as usize]);
        frame.extend((0..lengths[2] + lengths[3]).map(|_| random.below(256) as u8));
        if random.below(8) == 0 {
            frame.truncate(random.below(frame.len() as u64) as usize);
        } else {
            frame.extend((0..random.below(20)).map(|_| random.below(256) as u8));
        }
        headers.push(frame);
    }
    headers
}

#[inline(never)]
fn run_ours(headers: &[Vec<u8>], hardware: u64, pan: u16) -> u64 {
    headers
        .iter()
        .map(|frame| ours::for_us(frame, hardware, pan, true) as u64)
        .sum()
}

#[inline(never)]
fn run_rust(headers: &[Vec<u8>], hardware: &[u8; 8]) -> u64 {
    headers
        .iter()
        .map(|frame| {
            let info = driver_on::reader::preliminary_frame_info(frame);
            driver_on::radio::frame::is_frame_valid_and_for_us(hardware, &info) as u64
        })
        .sum()
}

/// Nanoseconds for each header, and how many are for us.
fn timed(mut run: impl FnMut() -> u64) -> (f64, u64) {
    let start = Instant::now();
    let mut sum = 0;
    for _ in 0..ROUNDS {
        sum += run();
    }
    let nanoseconds = start.elapsed().as_nanos() as f64;
    (nanoseconds / (ROUNDS * HEADERS) as f64, sum / ROUNDS as u64)
}

/// The time that other programs on the machine disturbed least.
fn least(times: Vec<f64>) -> f64 {
    times.into_iter().fold(f64::INFINITY, f64::min)
}

/// Each side's rounds once, for a counter of instructions, which `bench/run` sets upon `run_ours` and `run_rust`.
fn count(headers: &[Vec<u8>]) {
    for _ in 0..COUNTED_ROUNDS {
        let ours = run_ours(black_box(headers), black_box(HARDWARE), black_box(PAN));
        let rust = run_rust(black_box(headers), black_box(&HARDWARE.to_be_bytes()));
        assert_eq!(ours, rust, "the two disagree");
    }
    println!("{}", COUNTED_ROUNDS * HEADERS);
}

fn main() {
    let headers = headers();
    if std::env::args().any(|argument| argument == "--count") {
        return count(&headers);
    }
    let (mut ours, mut rust) = (vec![], vec![]);
    let mut for_us = 0;
    // The two take turns, so that both see the same machine.
    for _ in 0..REPEATS {
        let (time, count) = timed(|| run_ours(black_box(&headers), black_box(HARDWARE), black_box(PAN)));
        ours.push(time);
        let (time, rust_count) = timed(|| run_rust(black_box(&headers), black_box(&HARDWARE.to_be_bytes())));
        rust.push(time);
        assert_eq!(count, rust_count, "the two disagree");
        for_us = count;
    }
    let (ours, rust) = (least(ours), least(rust));
    println!("{HEADERS} headers, {for_us} of them for us; the fastest of {REPEATS} runs of {ROUNDS} rounds");
    println!("proved library: {ours:.2} ns for a header");
    println!("unchanged Rust: {rust:.2} ns for a header");
    println!("ratio: {:.2}", ours / rust);
}
