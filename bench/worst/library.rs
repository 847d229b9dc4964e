//! The exported functions on their slices, beside the model.
use crate::ffi::*;
use crate::model::bytes::{read_line, read_state, write_line, write_state};
use crate::model::calls::{Raw, RawStart};
use crate::model::engine::State;
use crate::model::export::{self, Slices};
use crate::model::line::Line;

#[derive(Clone, PartialEq, Eq)]
pub struct Memory {
    state: [u8; STATE_LENGTH],
    line: [u8; LINE_LENGTH],
    reply: [u8; REPLY_LENGTH],
    pool: Vec<u8>,
}

type Slice = (*mut u8, usize);

impl Memory {
    /// With the same bytes in the frame of every buffer.
    pub fn new(state: &State, line: &Line, frame: &[u8]) -> Memory {
        let mut pool = vec![0; state.settings.pool_length()];
        for buffer in 0..state.settings.count {
            let at = state.settings.frame(buffer);
            pool[at..at + frame.len()].copy_from_slice(frame);
        }
        Memory {
            state: write_state(state),
            line: write_line(line),
            reply: [0; REPLY_LENGTH],
            pool,
        }
    }

    pub fn read(&self) -> Option<(State, Line)> {
        let state = read_state(&self.state)?;
        let line = read_line(&self.line, &state)?;
        Some((state, line))
    }

    /// The bytes of a buffer's frame.
    pub fn frame(&self, buffer: u8) -> &[u8] {
        &self.pool[BUFFER_LENGTH * usize::from(buffer) + usize::from(self.state[1])..]
    }

    fn slices(&mut self) -> [Slice; 4] {
        let pool = (self.pool.as_mut_ptr(), self.pool.len());
        [
            (self.state.as_mut_ptr(), STATE_LENGTH),
            (self.line.as_mut_ptr(), LINE_LENGTH),
            (self.reply.as_mut_ptr(), REPLY_LENGTH),
            pool,
        ]
    }

    fn of_slices(&mut self) -> Slices<'_> {
        Slices {
            state: &mut self.state,
            line: &mut self.line,
            reply: &mut self.reply,
            pool: &mut self.pool,
        }
    }

    /// The number that the model returns; it changes the slices.
    pub fn of_model(&mut self, raw: &Raw) -> u8 {
        export::call(raw, self.of_slices())
    }

    /// Makes the call, through `make`, and gives the returned number, which is the model's, as are all bytes after it.
    pub fn same_as_model(&mut self, raw: &Raw, make: impl FnOnce(&mut dyn FnMut() -> u8) -> u8) -> u8 {
        let mut model = self.clone();
        let expected = model.of_model(raw);
        let slices = self.slices();
        // SAFETY: four variables that do not overlap, each with its length.
        let returned = make(&mut || unsafe { call(raw, slices) });
        assert!(
            returned == expected && *self == model,
            "{raw:?}: the model returns {expected}, the library {returned}"
        );
        returned
    }

    pub fn start_as_model(&mut self, raw: &RawStart, make: impl FnOnce(&mut dyn FnMut() -> u8) -> u8) -> u8 {
        let mut model = self.clone();
        let expected = export::start(raw, model.of_slices());
        let slices = self.slices();
        // SAFETY: as above.
        let returned = make(&mut || unsafe { start(raw, slices) });
        assert!(
            returned == expected && *self == model,
            "{raw:?}: the model returns {expected}, the library {returned}"
        );
        returned
    }
}

unsafe fn start(raw: &RawStart, [s, l, r, p]: [Slice; 4]) -> u8 {
    widosha_start(
        raw.count,
        raw.headroom,
        raw.tailroom,
        raw.fcs_length,
        raw.hardware_addr,
        raw.pan_id,
        raw.implicit_broadcast,
        raw.ack_buffer,
        raw.spare_buffer,
        s.0,
        s.1,
        l.0,
        l.1,
        r.0,
        r.1,
        p.0,
        p.1,
    )
}

#[rustfmt::skip]
unsafe fn call(raw: &Raw, [s, l, r, p]: [Slice; 4]) -> u8 {
    match *raw {
        Raw::Arrive { token, direction, start, time, buffer, length, cca } =>
            widosha_arrive(token, direction, start, time, buffer, length, cca, s.0, s.1, l.0, l.1, r.0, r.1, p.0, p.1),
        Raw::Withdraw { token } => widosha_withdraw(token, s.0, s.1, l.0, l.1, r.0, r.1, p.0, p.1),
        Raw::Request => widosha_request(s.0, s.1, l.0, l.1, r.0, r.1, p.0, p.1),
        Raw::None => widosha_none(s.0, s.1, l.0, l.1, r.0, r.1, p.0, p.1),
        Raw::FrameStart => widosha_frame_start(s.0, s.1, l.0, l.1, r.0, r.1, p.0, p.1),
        Raw::OutboundSeen { start, time, cca } =>
            widosha_outbound_seen(start, time, cca, s.0, s.1, l.0, l.1, r.0, r.1, p.0, p.1),
        Raw::Stopped { outcome, length, time, quality } =>
            widosha_stopped(outcome, length, time, quality, s.0, s.1, l.0, l.1, r.0, r.1, p.0, p.1),
        Raw::Header { arrived, length } => widosha_header(arrived, length, s.0, s.1, l.0, l.1, r.0, r.1, p.0, p.1),
        Raw::Entered { result, length, time, entry, quality } =>
            widosha_entered(result, length, time, entry, quality, s.0, s.1, l.0, l.1, r.0, r.1, p.0, p.1),
        Raw::Fallback { result, length, time, cause, cause_time, quality } =>
            widosha_fallback(result, length, time, cause, cause_time, quality, s.0, s.1, l.0, l.1, r.0, r.1, p.0, p.1),
        Raw::Rollback => widosha_rollback(s.0, s.1, l.0, l.1, r.0, r.1, p.0, p.1),
    }
}

/// The address of the call's function.
pub fn entry(raw: &Raw) -> usize {
    let function = match raw {
        Raw::Arrive { .. } => widosha_arrive as *const (),
        Raw::Withdraw { .. } => widosha_withdraw as *const (),
        Raw::Request => widosha_request as *const (),
        Raw::None => widosha_none as *const (),
        Raw::FrameStart => widosha_frame_start as *const (),
        Raw::OutboundSeen { .. } => widosha_outbound_seen as *const (),
        Raw::Stopped { .. } => widosha_stopped as *const (),
        Raw::Header { .. } => widosha_header as *const (),
        Raw::Entered { .. } => widosha_entered as *const (),
        Raw::Fallback { .. } => widosha_fallback as *const (),
        Raw::Rollback => widosha_rollback as *const (),
    };
    function as usize
}

/// A small generator of random numbers.
pub struct Random(pub u64);

impl Random {
    fn below(&mut self, limit: usize) -> usize {
        self.0 = self.0.wrapping_mul(0x5851_f42d_4c95_7f2d).wrapping_add(0x1405_7b7e_f767_814f);
        ((self.0 >> 33) % limit as u64) as usize
    }

    /// One byte of state, line or frames, or one number of the call, is another.
    pub fn changed(&mut self, mut memory: Memory, mut raw: Raw) -> (Memory, Raw) {
        let value = self.below(256) as u8;
        match self.below(4) {
            0 => memory.state[self.below(STATE_LENGTH)] = value,
            1 => memory.line[self.below(LINE_LENGTH)] = value,
            2 => {
                let at = BUFFER_LENGTH * self.below(4) + self.below(40);
                memory.pool[at] = value;
            }
            _ => raw = self.other(raw),
        }
        (memory, raw)
    }

    fn other(&mut self, raw: Raw) -> Raw {
        let (number, time) = (self.below(128) as u16, self.below(usize::MAX) as u64);
        match raw {
            Raw::Header { arrived, .. } if number & 1 == 0 => Raw::header(arrived, number),
            Raw::Header { length, .. } => Raw::header(number, length),
            Raw::Stopped { outcome, quality, .. } => Raw::stopped(outcome, number, time, quality),
            Raw::Entered { result, quality, .. } => Raw::entered(result, number, time, time, quality),
            Raw::Fallback {
                result, cause, quality, ..
            } => Raw::fallback(result, number, time, cause, time, quality),
            Raw::Arrive {
                token,
                direction,
                start,
                buffer,
                cca,
                ..
            } => Raw::arrive(token, direction, start, time, buffer, number, cca),
            other => other,
        }
    }
}
