//! The exported form: numbers and slices in, 0 or the number of a refusal out. "A refusal leaves all slices byte for byte."
use super::bytes::{read_line, read_state, write_info, write_line, write_reply, write_state, INFO, LINE, REPLY, STATE};
use super::calls::{Raw, RawStart};
use super::engine::{self, Step};
use super::header;
use super::line::Line;
use super::settings::Settings;

/// The slices of start and of a call, in the order of the functions' parameters.
pub struct Slices<'a> {
    pub state: &'a mut [u8],
    pub line: &'a mut [u8],
    pub reply: &'a mut [u8],
    pub pool: &'a mut [u8],
}

impl Slices<'_> {
    /// "1. In the exported form, the state slice is not 64 bytes, the reply slice not 48"; E1: "in the exported form refusal 1 also tests
    /// its slice's length", the line's.
    fn lengths_fit(&self) -> bool {
        self.state.len() == STATE && self.line.len() == LINE && self.reply.len() == REPLY
    }

    fn finish(self, step: Step, line: &Line) -> u8 {
        match step {
            Ok((next, said)) => {
                self.state.copy_from_slice(&write_state(&next));
                self.line.copy_from_slice(&write_line(line));
                self.reply.copy_from_slice(&write_reply(&said));
                0
            }
            Err(number) => number,
        }
    }
}

/// `widosha_start`.
pub fn start(raw: &RawStart, slices: Slices) -> u8 {
    if !slices.lengths_fit() {
        return 1;
    }
    let settings = Settings {
        count: raw.count,
        headroom: raw.headroom,
        tailroom: raw.tailroom,
        fcs: raw.fcs_length,
        hardware: raw.hardware_addr.to_be_bytes(),
        pan: raw.pan_id,
        implicit: raw.implicit_broadcast == 1,
        ack: raw.ack_buffer,
        spare: raw.spare_buffer,
    };
    // "a code that stands for nothing (at start that is 3)": with the other 3, after 2 and before 4.
    if raw.implicit_broadcast > 1 && settings.refusal(slices.pool.len()) != Some(2) {
        return 3;
    }
    let mut line = Line::default();
    let step = engine::start(settings, &mut line, slices.pool);
    slices.finish(step, &line)
}

/// The eleven calls.
pub fn call(raw: &Raw, slices: Slices) -> u8 {
    if !slices.lengths_fit() {
        return 1;
    }
    // "(except at start) the state bytes are not what some state .. is written as"; E1: "also tests its slice's length .. and its bytes".
    let Some(state) = read_state(slices.state) else { return 1 };
    let Some(mut line) = read_line(slices.line, &state) else {
        return 1;
    };
    if let Some(number) = state.settings.refusal(slices.pool.len()) {
        return number;
    }
    // "in the exported form also a code that stands for nothing"
    let Some(call) = raw.call() else { return 5 };
    let step = engine::step(&state, &mut line, &call, slices.pool);
    slices.finish(step, &line)
}

/// `widosha_preliminary_frame_info`.
pub fn preliminary_frame_info(frame: &[u8], info: &mut [u8]) -> u8 {
    // "1 where the facts' slice is not 32 bytes, and then writes nothing"
    if info.len() != INFO {
        return 1;
    }
    info.copy_from_slice(&write_info(&header::read(frame)));
    0
}
