//! Replays the vectors of crates/leaf_vectors/stdin that ask for an exported function, through the static libraries.
//!
//!     exports FILE

use std::process::exit;

#[allow(dead_code)]
mod ours;

fn number(line: &str, from: usize, digits: usize) -> u64 {
    u64::from_str_radix(&line[from..from + digits], 16).expect("a number")
}

fn main() {
    let path = std::env::args().nth(1).expect("usage: exports FILE");
    let text = std::fs::read_to_string(path).expect("the vectors");
    let (mut replayed, mut wrong) = (0, 0);
    for line in text.lines() {
        let length = number(line, 4, 2) as usize;
        let frame: Vec<u8> = (0..length).map(|at| number(line, 7 + 2 * at, 2) as u8).collect();
        let control = || u16::from_le_bytes([frame[0], frame[1]]);
        let (a, b, c) = (
            number(line, 60, 16),
            number(line, 77, 4) as u16,
            number(line, 82, 2) as u8,
        );
        let found = match &line[2..3] {
            "v" => ours::is_valid(control()) as u64,
            "l" => ours::lengths(control()) as u64,
            "f" => ours::for_us(&frame, a, b, c != 0) as u64,
            "a" => ours::ack_seq_num(&frame) as u64,
            "i" => ours::from_mpdu_length(b) as u64,
            "k" => ours::is_ack_for(&frame, b, c) as u64,
            "s" => ours::facts(&frame).seq_nr(),
            "p" => ours::facts(&frame).dst_pan_id(),
            "m" => ours::facts(&frame).dst_length(),
            "d" => ours::facts(&frame).dst_address(),
            "q" => ours::facts(&frame).src_pan_id(),
            "n" => ours::facts(&frame).src_length(),
            "o" => ours::facts(&frame).src_address(),
            "e" => ours::facts(&frame).end(),
            _ => continue,
        };
        replayed += 1;
        if found != number(line, 85, 16) {
            println!("found {found:016x} at\n{line}");
            wrong += 1;
        }
    }
    println!("{replayed} vectors replayed through C, {wrong} wrong");
    if replayed == 0 || wrong > 0 {
        exit(1);
    }
}
