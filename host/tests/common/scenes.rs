//! Settings and calls with which tests tell a run outright. Every call that has a link quality has one that is not 0, also where
//! its code leaves it unused.
use super::run::{Opening, Run, Step};
use crate::model::calls::{Raw, RawStart};

pub const HARDWARE: u64 = 0x1122_3344_5566_7788;
pub const PAN: u16 = 0xabcd;
pub const HEADROOM: u8 = 3;
pub const ACK: u8 = 1;
pub const SPARE: u8 = 4;

pub fn settings(fcs_length: u8) -> RawStart {
    RawStart {
        count: 6,
        headroom: HEADROOM,
        tailroom: 8,
        fcs_length,
        hardware_addr: HARDWARE,
        pan_id: PAN,
        implicit_broadcast: 0,
        ack_buffer: ACK,
        spare_buffer: SPARE,
    }
}

pub fn open(start: RawStart) -> Run {
    Run::open(Opening { start, fill: 42 }).unwrap_or_else(|wrong| panic!("{wrong}"))
}

/// Puts bytes at the beginning of a buffer's frame.
pub fn put(run: &mut Run, buffer: u8, bytes: &[u8]) {
    let at = 144 * usize::from(buffer) + usize::from(run.opening.start.headroom);
    run.step(Step::Poke((at, bytes.to_vec()))).expect("a poke");
}

pub fn call(run: &mut Run, raw: Raw) -> u8 {
    run.step(Step::Call(raw))
        .unwrap_or_else(|wrong| panic!("{wrong}\nafter {:?}", run.steps))
}

/// Calls that are all accepted; the last one's reply.
pub fn calls(run: &mut Run, raws: &[Raw]) -> Vec<u8> {
    for raw in raws {
        assert_eq!(call(run, *raw), 0, "{raw:?} after {:?}", run.steps);
    }
    run.pair.reply().to_vec()
}

/// A Tx request arrives, best effort and without channel check.
pub fn tx(token: u32, buffer: u8, length: u16) -> Raw {
    Raw::arrive(token, 0, 0, 0, buffer, length, 0)
}

/// An Rx request arrives, best effort.
pub fn rx(token: u32, buffer: u8) -> Raw {
    Raw::arrive(token, 1, 0, 0, buffer, 0, 0)
}

/// How an ask is met: by an arrival and the Request that takes it, or by None.
pub fn met_by(next: Raw) -> Vec<Raw> {
    match next {
        Raw::Arrive { .. } => vec![next, Raw::Request],
        _ => vec![next],
    }
}

pub fn entered_from_off() -> Raw {
    Raw::entered(0, 0, 0, 0, 201)
}

pub fn entered_after_sending(time: u64, entry: u64) -> Raw {
    Raw::entered(1, 0, time, entry, 202)
}

pub fn entered_after_frame(length: u16) -> Raw {
    Raw::entered(2, length, 55, 0, 203)
}

pub fn frame_started() -> Raw {
    Raw::stopped(0, 0, 0, 204)
}

/// A run in which a frame with number 7 that wants an ACK was sent and an ACK frame has started.
pub fn receiving_ack(fcs_length: u8, length: u16) -> Run {
    let mut run = open(settings(fcs_length));
    put(&mut run, 2, &[0x61, 0x88, 7]);
    calls(
        &mut run,
        &[
            tx(70, 2, length),
            Raw::Request,
            entered_from_off(),
            entered_after_sending(900, 1_000_000),
            frame_started(),
        ],
    );
    run
}

/// A run in which the radio listens with buffer 2 for token 9 and is to read a header.
pub fn reading_header(start: RawStart) -> Run {
    let mut run = open(start);
    let raws = [rx(9, 2), Raw::Request, entered_from_off(), Raw::FrameStart, frame_started()];
    calls(&mut run, &raws);
    run
}
