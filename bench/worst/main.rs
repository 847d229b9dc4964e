//! The worst case of each exported function: the greatest number of instructions that a call of an aimed set takes, each counted
//! exactly. It is the greatest that was met and no bound. Every call is compared with the model of host/tests, its returned number and
//! all slices (that of the checksum's functions with the rule bit by bit).
//!
//!     worst FILE       counts them all, and prints for each function the greatest of the accepted and of the refused calls; into the
//!                      file it writes these calls instruction by instruction, for bench/split.py
//!     worst --check    makes every call of the set once without counting, and counts a few

#[path = "../../host/src/ffi.rs"]
mod ffi;
mod inputs;
mod library;
#[path = "../../host/tests/model/mod.rs"]
mod model;
#[path = "../names.rs"]
mod names;
#[path = "../steps.rs"]
mod steps;

use inputs::{frames, kinds, line, name, other_settings, settings, starts, waits, FRAMES, LINES};
use library::Memory;
use model::calls::Raw;
use model::engine::{State, Wait};
use model::header::Control;
use model::settings::Settings;
use names::NAMES;
use std::collections::BTreeMap;

/// The greatest that was met.
#[derive(Clone, Default)]
struct Greatest {
    steps: usize,
    /// Of these, the C library's.
    outside: usize,
    /// Instruction by instruction.
    words: String,
    what: String,
    memory: Option<(Memory, Raw)>,
}

/// Of one function.
#[derive(Default)]
struct Met {
    accepted: usize,
    refused: usize,
    /// Of accepted calls with 0 to 4 requests in the line; those of start, and of functions on frames, are the first.
    greatest: [Greatest; 5],
    greatest_refused: Greatest,
    stack: usize,
}

impl Met {
    fn with_fewest(&self) -> &Greatest {
        let mut met = self.greatest.iter().filter(|each| each.steps > 0);
        met.next().unwrap_or(&self.greatest[0])
    }

    fn greatest(&self) -> &Greatest {
        self.greatest.iter().max_by_key(|each| each.steps).expect("there are five")
    }
}

#[derive(Default)]
struct Search {
    met: BTreeMap<&'static str, Met>,
    made: usize,
    /// Calls are only made and compared, but for one in so many that is counted too.
    sparse: Option<usize>,
}

impl Search {
    fn counts(&mut self) -> bool {
        self.made += 1;
        self.sparse.is_none_or(|each| self.made % each == 0)
    }

    /// Takes note of a call, refused (None) or accepted with so many waiting. What is greater than all before it has yet to be
    /// described.
    fn take(&mut self, function: &'static str, waiting: Option<usize>, trace: &steps::Trace) -> Option<&mut Greatest> {
        let met = self.met.entry(function).or_default();
        met.stack = met.stack.max(trace.stack);
        let (counted, greatest) = match waiting {
            Some(waiting) => (&mut met.accepted, &mut met.greatest[waiting]),
            None => (&mut met.refused, &mut met.greatest_refused),
        };
        *counted += 1;
        if trace.len() <= greatest.steps {
            return None;
        }
        (greatest.steps, greatest.outside, greatest.words) = (trace.len(), trace.outside(), trace.words());
        Some(greatest)
    }

    /// Makes a call and gives its returned number, and how many instructions it took if it is counted.
    fn call(&mut self, memory: &Memory, raw: &Raw) -> (u8, usize) {
        if !self.counts() {
            return (memory.clone().same_as_model(raw, |made| made()), 0);
        }
        let mut trace = steps::Trace::default();
        let returned = memory.clone().same_as_model(raw, |made| {
            let (returned, made) = steps::trace(library::entry(raw), made);
            trace = made;
            returned
        });
        let waiting = memory.read().filter(|_| returned == 0).map(|(_, line)| line.0.len());
        if let Some(greatest) = self.take(NAMES[1 + raw.kind()], waiting, &trace) {
            greatest.what = describe(memory, raw, returned);
            greatest.memory = Some((memory.clone(), *raw));
        }
        (returned, trace.len())
    }
}

fn describe(memory: &Memory, raw: &Raw, returned: u8) -> String {
    let refused = if returned == 0 {
        String::new()
    } else {
        format!("refused by {returned}: ")
    };
    let Some((state, line)) = memory.read() else {
        return format!("{refused}{raw:?}");
    };
    let mut what = format!("{refused}wait {}, line '{}', {raw:?}", name(&state.wait), kinds(&line));
    if let (Wait::ReadingHeader(rx), Raw::Header { .. }) = (state.wait, raw) {
        let frame = memory.frame(rx.buffer);
        what += &format!(", frame {:02x?}", &frame[..frame.len().min(23)]);
    }
    what
}

fn start_calls(search: &mut Search) {
    for raw in starts() {
        let settings = Settings {
            count: raw.count,
            ..settings()
        };
        let wait = Wait::Idle;
        let memory = Memory::new(&State { settings, wait }, &line("tttt"), &[0; 3]);
        if !search.counts() {
            memory.clone().start_as_model(&raw, |made| made());
            continue;
        }
        let mut trace = steps::Trace::default();
        let returned = memory.clone().start_as_model(&raw, |made| {
            let (returned, made) = steps::trace(ffi::widosha_start as *const () as usize, made);
            trace = made;
            returned
        });
        if let Some(greatest) = search.take(NAMES[0], (returned == 0).then_some(0), &trace) {
            greatest.what = format!("returns {returned}: {raw:?}");
        }
    }
}

/// Every wait, line and call; of the calls that are refused those with an empty line and with two of the full ones.
fn every_call(search: &mut Search) {
    for wait in waits() {
        for kinds in LINES {
            let line = line(kinds);
            for (place, raw) in inputs::calls(&line).into_iter().enumerate() {
                let frame = FRAMES[place % FRAMES.len()];
                let memory = Memory::new(
                    &State {
                        settings: settings(),
                        wait,
                    },
                    &line,
                    &frame,
                );
                let refused = memory.clone().of_model(&raw) != 0;
                if !refused || matches!(kinds, "" | "tttt" | "TTTT") {
                    search.call(&memory, &raw);
                }
            }
            every_frame(search, wait, &line);
        }
    }
}

/// What a frame decides: whether a Tx that leaves wants an ACK, and whether a received frame is the awaited one.
fn every_frame(search: &mut Search, wait: Wait, line: &model::line::Line) {
    let left = matches!(wait, Wait::Change(model::engine::Left::ReceivingAck(_), _));
    for frame in FRAMES {
        let memory = Memory::new(
            &State {
                settings: settings(),
                wait,
            },
            line,
            &frame,
        );
        if memory.clone().of_model(&Raw::Request) == 0 {
            search.call(&memory, &Raw::Request);
        }
        if left && matches!(line.0.len(), 0 | 4) {
            search.call(&memory, &Raw::entered(2, 3, 1, 1, 1));
            search.call(&memory, &Raw::fallback(2, 3, 1, 1, 1, 1));
        }
    }
}

/// Headers, by frame; the frames that take longest then with every line.
fn headers(search: &mut Search) {
    let reading = waits()
        .into_iter()
        .find(|wait| matches!(wait, Wait::ReadingHeader(_)))
        .expect("it is there");
    let state = State {
        settings: settings(),
        wait: reading,
    };
    let mut longest = vec![];
    for frame in frames() {
        let whole = Control(u16::from_le_bytes([frame[0], frame[1]])).header_length() as u16;
        for arrived in [whole, 125] {
            let raw = Raw::header(arrived, 127);
            let (_, steps) = search.call(&Memory::new(&state, &line(""), &frame), &raw);
            longest.push((steps, frame.clone(), raw));
        }
    }
    longest.sort_by_key(|(steps, ..)| std::cmp::Reverse(*steps));
    for (_, frame, raw) in &longest[..12] {
        for kinds in LINES {
            search.call(&Memory::new(&state, &line(kinds), frame), raw);
        }
    }
}

/// The greatest accepted calls of each function, for each number that waits, with other settings.
fn every_setting(search: &mut Search) {
    for function in &NAMES[1..] {
        for waiting in 0..5 {
            let greatest = search.met.get(function).map(|met| met.greatest[waiting].clone());
            let Some((memory, raw)) = greatest.and_then(|greatest| greatest.memory) else {
                continue;
            };
            let (state, line) = memory.read().expect("an accepted call was made on it");
            for settings in other_settings() {
                let memory = Memory::new(&State { settings, ..state }, &line, &memory.frame(2)[..23]);
                if memory.clone().of_model(&raw) == 0 {
                    search.call(&memory, &raw);
                }
            }
        }
    }
}

/// From the greatest accepted call of each function on: bytes and numbers changed at random, kept where it is accepted and takes longer.
fn climb(search: &mut Search) {
    let mut random = library::Random(1);
    for function in &NAMES[1..] {
        for _ in 0..300 {
            let Some((memory, raw)) = search.met.get(function).and_then(|met| met.greatest().memory.clone()) else {
                break;
            };
            let (memory, raw) = random.changed(memory, raw);
            if memory.clone().of_model(&raw) == 0 {
                search.call(&memory, &raw);
            }
        }
    }
}

/// The functions of frame_c: every frame cut at every place that decides something, and every length.
fn of_frames(search: &mut Search) {
    let mut whole = vec![0x55; 127];
    for frame in frames() {
        whole[..frame.len()].copy_from_slice(&frame);
        for arrived in [0, 1, 2, frame.len() - 1, frame.len(), 127] {
            facts(search, &whole[..arrived]);
        }
    }
    for length in 0..=127 {
        checksum(search, &whole[..length]);
    }
}

fn facts(search: &mut Search, frame: &[u8]) {
    let function = ffi::widosha_preliminary_frame_info as *const () as usize;
    let (mut info, mut expected) = ([0; 32], [0; 32]);
    let returns = model::export::preliminary_frame_info(frame, &mut expected);
    // SAFETY: two slices that do not overlap.
    let mut read = || unsafe { ffi::widosha_preliminary_frame_info(frame.as_ptr(), frame.len(), info.as_mut_ptr(), 32) };
    let read = || u16::from(read());
    frame_call(search, "preliminary_frame_info", function, frame, u16::from(returns), read);
    assert_eq!(info, expected, "the model's facts of {frame:02x?}");
}

fn checksum(search: &mut Search, bytes: &[u8]) {
    let (fcs, check) = (ffi::widosha_fcs as *const (), ffi::widosha_check_fcs as *const ());
    // SAFETY: a slice that is only read.
    let work_out = || unsafe { ffi::widosha_fcs(bytes.as_ptr(), bytes.len()) };
    let look = || u16::from(unsafe { ffi::widosha_check_fcs(bytes.as_ptr(), bytes.len()) });
    frame_call(search, "fcs", fcs as usize, bytes, bit_rule(bytes), work_out);
    let returns = match bytes {
        [rest @ .., low, high] if !rest.is_empty() => match bit_rule(rest) == u16::from_le_bytes([*low, *high]) {
            true => u16::from(ffi::FCS_YES),
            false => u16::from(ffi::FCS_NO),
        },
        _ => u16::from(ffi::FCS_REFUSED),
    };
    frame_call(search, "check_fcs", check as usize, bytes, returns, look);
}

/// The checksum, bit by bit.
fn bit_rule(bytes: &[u8]) -> u16 {
    let bit = |rest: u16| if rest & 1 == 1 { rest >> 1 ^ 0x8408 } else { rest >> 1 };
    bytes
        .iter()
        .fold(0, |rest, byte| (0..8).fold(rest ^ u16::from(*byte), |rest, _| bit(rest)))
}

fn frame_call(
    search: &mut Search,
    name: &'static str,
    function: usize,
    bytes: &[u8],
    expected: u16,
    mut call: impl FnMut() -> u16,
) {
    if !search.counts() {
        assert_eq!(call(), expected, "{name} of {bytes:02x?}");
        return;
    }
    let (returned, trace) = steps::trace(function, call);
    assert_eq!(returned, expected, "{name} of {bytes:02x?}");
    let refused = name != "fcs" && matches!(returned, 1..=254);
    if let Some(greatest) = search.take(name, (!refused).then_some(0), &trace) {
        greatest.what = format!("{} bytes: {bytes:02x?}", bytes.len());
    }
}

fn print(search: &Search) {
    println!(
        "{} calls made, each as the model says; the greatest number of instructions",
        search.made
    );
    println!("of the accepted calls with 0 to 4 requests in the line, and of the refused ones; bytes of stack");
    let head = ["accepted", "0", "1", "2", "3", "4", "refused", "at most", "stack"];
    println!("{:<32}{}", "function", head.map(|word| format!("{word:>9}")).concat());
    for (name, met) in &search.met {
        let [a, b, c, d, e] = [0, 1, 2, 3, 4].map(|waiting| met.greatest[waiting].steps);
        let row = [
            met.accepted,
            a,
            b,
            c,
            d,
            e,
            met.refused,
            met.greatest_refused.steps,
            met.stack,
        ];
        println!("widosha_{name:<24}{}", row.map(|number| format!("{number:>9}")).concat());
    }
    for (name, met) in &search.met {
        for greatest in [met.greatest(), &met.greatest_refused] {
            let Greatest {
                steps, outside, what, ..
            } = greatest;
            if *steps > 0 {
                println!("widosha_{name} {steps}, {outside} of them in the C library: {what}");
            }
        }
    }
}

/// The greatest accepted calls with as few waiting as can be, with any, and the greatest refused ones, instruction by instruction.
fn traces(search: &Search) -> String {
    let mut text = String::new();
    let picks: [(&str, fn(&Met) -> &Greatest); 3] = [
        ("fewest", Met::with_fewest),
        ("any", Met::greatest),
        ("refused", |met| &met.greatest_refused),
    ];
    for (what, pick) in picks {
        for (name, met) in &search.met {
            let greatest = pick(met);
            if greatest.steps > 0 {
                text += &format!("{what}:{name} whole {}\n", greatest.words);
            }
        }
    }
    text
}

type Part = fn(&mut Search);
const PARTS: [(&str, Part); 6] = [
    ("start", start_calls),
    ("every wait, line and call", every_call),
    ("headers", headers),
    ("other settings", every_setting),
    ("climbing", climb),
    ("frames", of_frames),
];

fn main() {
    let argument = std::env::args().nth(1).expect("worst FILE | --check");
    steps::begin();
    let check = argument == "--check";
    let mut search = Search::default();
    search.sparse = check.then_some(211);
    for (what, part) in PARTS {
        part(&mut search);
        eprintln!("{what}: {} calls so far", search.made);
    }
    print(&search);
    if !check {
        std::fs::write(&argument, traces(&search)).expect("the file can be written");
    }
}
