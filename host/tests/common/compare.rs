//! The library's slices beside the model's: each call is made on both, and everything is compared.
use super::library::{FrameSlices, Slices};
use crate::model::calls::{Raw, RawStart};
use crate::model::export;

#[derive(Clone, Debug)]
pub struct Pair {
    library: Slices,
    state: Vec<u8>,
    line: Vec<u8>,
    reply: Vec<u8>,
    pool: Vec<u8>,
}

/// What the reply slice holds before each call, so that every byte which a call writes or leaves is seen.
pub fn before(at: usize) -> u8 {
    (at as u8).wrapping_mul(29) ^ 0xc3
}

fn difference(name: &str, library: &[u8], model: &[u8]) -> Option<String> {
    if library == model {
        return None;
    }
    let at = (0..model.len()).find(|at| library[*at] != model[*at])?;
    let count = (0..model.len()).filter(|at| library[*at] != model[*at]).count();
    let bytes = if model.len() <= 96 {
        format!("\n  library {library:02x?}\n  model   {model:02x?}")
    } else {
        String::new()
    };
    let (left, right) = (library[at], model[at]);
    Some(format!(
        "{name}: {count} bytes differ, first byte {at}: library {left:02x}, model {right:02x}{bytes}"
    ))
}

/// What was returned, if the numbers are the same and no slice differs.
fn agreed<const N: usize>(library: u8, model: u8, slices: [Option<String>; N]) -> Result<u8, String> {
    let number = (library != model).then(|| format!("returned: library {library}, model {model}"));
    let different: Vec<String> = number.into_iter().chain(slices.into_iter().flatten()).collect();
    if different.is_empty() {
        Ok(library)
    } else {
        Err(different.join("\n"))
    }
}

/// The header reader on these slices, and in the model; a difference, also in the frame's bytes, ends the test. What it returned.
pub fn must_read(slices: &mut FrameSlices) -> u8 {
    let (frame, mut info) = (slices.frame.get().to_vec(), slices.info.get().to_vec());
    let library = slices.read();
    let model = export::preliminary_frame_info(&frame, &mut info);
    assert!(
        slices.intact(),
        "a byte outside the two slices was written\nframe {frame:02x?}"
    );
    let different = [
        difference("frame", slices.frame.get(), &frame),
        difference("facts", slices.info.get(), &info),
    ];
    agreed(library, model, different).unwrap_or_else(|different| panic!("{different}\nframe {frame:02x?}"))
}

impl Pair {
    pub fn new(state: &[u8], line: &[u8], reply: &[u8], pool: &[u8]) -> Pair {
        Pair {
            library: Slices::new(state, line, reply, pool),
            state: state.to_vec(),
            line: line.to_vec(),
            reply: reply.to_vec(),
            pool: pool.to_vec(),
        }
    }

    /// With a reply slice of the right length, filled with something.
    pub fn on(state: &[u8], line: &[u8], pool: &[u8]) -> Pair {
        let reply: Vec<u8> = (0..48).map(before).collect();
        Pair::new(state, line, &reply, pool)
    }

    /// The library gets a null pointer for each slice of length 0.
    pub fn null_if_empty(mut self) -> Pair {
        self.library.null_if_empty = true;
        self
    }

    /// The state slice as the library left it.
    pub fn state(&self) -> &[u8] {
        self.library.state.get()
    }

    pub fn line(&self) -> &[u8] {
        self.library.line.get()
    }

    pub fn reply(&self) -> &[u8] {
        self.library.reply.get()
    }

    pub fn pool(&self) -> &[u8] {
        self.library.pool.get()
    }

    /// Host or radio put bytes into the pool.
    pub fn poke(&mut self, at: usize, bytes: &[u8]) {
        self.library.pool.get_mut()[at..at + bytes.len()].copy_from_slice(bytes);
        self.pool[at..at + bytes.len()].copy_from_slice(bytes);
    }

    /// Other bytes in state slice and line slice.
    pub fn set(&mut self, state: &[u8], line: &[u8]) {
        self.library.state.get_mut().copy_from_slice(state);
        self.state.copy_from_slice(state);
        self.library.line.get_mut().copy_from_slice(line);
        self.line.copy_from_slice(line);
    }

    fn refill_reply(&mut self) {
        for (at, byte) in self.library.reply.get_mut().iter_mut().enumerate() {
            *byte = before(at);
        }
        for (at, byte) in self.reply.iter_mut().enumerate() {
            *byte = before(at);
        }
    }

    /// The model's slices.
    fn of_model(&mut self) -> export::Slices<'_> {
        export::Slices {
            state: &mut self.state,
            line: &mut self.line,
            reply: &mut self.reply,
            pool: &mut self.pool,
        }
    }

    pub fn start(&mut self, raw: &RawStart) -> Result<u8, String> {
        self.refill_reply();
        let library = self.library.start(raw);
        let model = export::start(raw, self.of_model());
        self.compare(library, model)
    }

    /// The call on both. What it returned if everything is equal, else what differs.
    pub fn call(&mut self, raw: &Raw) -> Result<u8, String> {
        self.refill_reply();
        let library = self.library.call(raw);
        let model = export::call(raw, self.of_model());
        self.compare(library, model)
    }

    fn compare(&self, library: u8, model: u8) -> Result<u8, String> {
        if !self.library.intact() {
            return Err("a byte outside the four slices was written".to_string());
        }
        let slices = [
            difference("state", self.state(), &self.state),
            difference("line", self.line(), &self.line),
            difference("reply", self.reply(), &self.reply),
            difference("pool", self.pool(), &self.pool),
        ];
        agreed(library, model, slices)
    }

    /// What the library alone returns for a call that writes no byte of the pool; state, line and reply are put back after it.
    pub fn tries(&mut self, raw: &Raw) -> u8 {
        let before = [self.state(), self.line(), self.reply()].concat();
        let returned = self.library.call(raw);
        let mut before = before.as_slice();
        for slice in [&mut self.library.state, &mut self.library.line, &mut self.library.reply] {
            let (bytes, rest) = before.split_at(slice.len());
            slice.get_mut().copy_from_slice(bytes);
            before = rest;
        }
        returned
    }

    /// As `call`, where a difference ends the test.
    pub fn must(&mut self, raw: &Raw) -> u8 {
        let (state, line) = (self.state.clone(), self.line.clone());
        let found: Vec<u8> = self.pool.clone();
        self.call(raw).unwrap_or_else(|different| {
            panic!(
                "{different}\ncall {raw:?}\nbefore it:\n  state {state:02x?}\n  line {line:02x?}\n  pool, {} bytes, {found:02x?}",
                found.len()
            )
        })
    }
}
