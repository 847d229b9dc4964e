//! A list of calls after a start, recorded so that it can be run again and made smaller.
use super::choose::{self, Now, Poke};
use super::compare::Pair;
use super::random::Rng;
use super::safe::{After, Safe};
use crate::model::book::Book;
use crate::model::bytes::{codes, read_line, read_state, LINE, REPLY, STATE};
use crate::model::calls::{Raw, RawStart};
use crate::model::engine::State;
use crate::model::line::Line;

/// How a run begins: the settings, and what the pool is filled with.
#[derive(Clone, Debug)]
pub struct Opening {
    pub start: RawStart,
    pub fill: u64,
}

/// One step of a run. The last two are made on copies of the slices and must be refused, or read as another state or line.
#[derive(Clone, Debug)]
pub enum Step {
    Poke(Poke),
    Call(Raw),
    /// With slices of these lengths: state, line, reply, pool.
    Cut(Raw, [usize; 4]),
    /// With this byte of the state, or after it of the line, set to this value.
    Damaged(Raw, usize, u8),
}

#[derive(Clone)]
pub struct Run {
    pub opening: Opening,
    pub pair: Pair,
    pub book: Book,
    pub steps: Vec<Step>,
    /// State and line as the model reads them from the library's slices.
    pub read: (State, Line),
    pub beside: Beside,
}

/// The safe types beside the C functions. They are lent a pool, so a copy of a run goes on without them.
#[derive(Default)]
pub struct Beside(pub Option<Safe>);

impl Clone for Beside {
    fn clone(&self) -> Beside {
        Beside(None)
    }
}

/// The buffers that are held, as state and line have them, sorted.
pub fn held(state: &State, line: &Line) -> Vec<u8> {
    let mut held: Vec<u8> = state.wait.open().iter().flatten().map(|open| open.1).collect();
    held.extend([state.settings.ack, state.settings.spare]);
    held.extend(line.0.iter().map(|request| request.buffer()));
    held.sort_unstable();
    held
}

/// State and line as the model reads them.
fn read(pair: &Pair) -> Result<(State, Line), String> {
    let state = read_state(pair.state()).ok_or("the state is not valid")?;
    let line = read_line(pair.line(), &state).ok_or("the line is not valid")?;
    Ok((state, line))
}

fn resized(bytes: &[u8], length: usize) -> Vec<u8> {
    let mut resized = bytes.to_vec();
    resized.resize(length, 0x77);
    resized
}

impl Run {
    /// Starts on slices full of other bytes.
    pub fn open(opening: Opening) -> Result<Run, String> {
        let mut rng = Rng::new(opening.fill);
        let slices = [STATE, LINE, 144 * usize::from(opening.start.count)].map(|length| {
            let mut bytes = vec![0; length];
            rng.fill(&mut bytes);
            bytes
        });
        let mut pair = Pair::on(&slices[0], &slices[1], &slices[2]);
        let returned = pair.start(&opening.start)?;
        let book = Book::new(&opening.start);
        let beside = Beside(Safe::start(&opening.start, &slices[2], returned, pair.reply())?);
        match returned {
            0 => Ok(Run {
                opening,
                read: read(&pair)?,
                pair,
                book,
                steps: Vec::new(),
                beside,
            }),
            number => Err(format!("start was refused: {number}")),
        }
    }

    /// State, line and pool, for choosing a call.
    pub fn now(&self) -> Now<'_> {
        Now {
            state: &self.read.0,
            line: &self.read.1,
            pool: self.pair.pool(),
        }
    }

    /// Kind, case and what is entered: bytes 17 to 19 of the state slice.
    pub fn codes(&self) -> [u8; 3] {
        let bytes = self.pair.state();
        [bytes[17], bytes[18], bytes[19]]
    }

    /// Makes and records a step: what it returned (0 for a poke), or what is wrong.
    pub fn step(&mut self, step: Step) -> Result<u8, String> {
        self.steps.push(step.clone());
        match step {
            Step::Poke((at, bytes)) => {
                self.pair.poke(at, &bytes);
                if let Some(safe) = &mut self.beside.0 {
                    safe.poke(at, &bytes);
                }
                Ok(0)
            }
            Step::Call(raw) => self.call(&raw),
            Step::Cut(raw, lengths) => {
                let slices = [self.pair.state(), self.pair.line(), self.pair.reply(), self.pair.pool()];
                let [state, line, reply, pool] = [0, 1, 2, 3].map(|slice| resized(slices[slice], lengths[slice]));
                Pair::new(&state, &line, &reply, &pool).call(&raw)
            }
            Step::Damaged(raw, at, value) => {
                let mut bytes = [self.pair.state(), self.pair.line()].concat();
                bytes[at] = value;
                Pair::on(&bytes[..STATE], &bytes[STATE..], self.pair.pool()).call(&raw)
            }
        }
    }

    fn call(&mut self, raw: &Raw) -> Result<u8, String> {
        let found = (*raw == Raw::Request).then(|| self.pair.pool().to_vec());
        let returned = self.pair.call(raw)?;
        self.book.check_refusal(raw, returned)?;
        if returned == 0 {
            let pool = found.as_deref().unwrap_or(&[]);
            self.book.accept(raw, pool, self.pair.reply())?;
            self.read = read(&self.pair)?;
            self.same_as_book()?;
        }
        self.same_by_safe_types(raw, returned)?;
        if returned == 0 {
            self.goes_on()?;
        }
        Ok(returned)
    }

    /// The same call by the safe types, if they can say it, gives and leaves the same.
    fn same_by_safe_types(&mut self, raw: &Raw, returned: u8) -> Result<(), String> {
        let Some(safe) = &mut self.beside.0 else { return Ok(()) };
        let after = After {
            returned,
            state: self.pair.state(),
            line: self.pair.line(),
            reply: self.pair.reply(),
            pool: self.pair.pool(),
            read: &self.read,
            held: &self.book.says().2,
        };
        safe.call(raw, &after)
    }

    /// No dead end: the call that the book names is accepted. A refused call changes nothing, so it is accepted after that too.
    fn goes_on(&mut self) -> Result<(), String> {
        let raw = self.book.way_on();
        match self.pair.tries(&raw) {
            0 => Ok(()),
            number => Err(format!("{raw:?}, by which the run should go on, is refused: {number}")),
        }
    }

    /// What waits, unanswered requests and held buffers, as state and line have them, are the book's.
    fn same_as_book(&self) -> Result<(), String> {
        let (state, line) = &self.read;
        debug_assert_eq!(codes(&state.wait), self.codes());
        let open = state.wait.open();
        let mut tokens: Vec<u32> = open.iter().flatten().map(|open| open.0).collect();
        tokens.sort_unstable();
        let held = held(state, line);
        let (waiting, unanswered, book_held) = self.book.says();
        match (&line.0, &tokens, &held) == (&waiting, &unanswered, &book_held) {
            true => Ok(()),
            false => Err(format!(
                "state and line have {:?}, {tokens:?} and {held:?}, the book says {waiting:?}, {unanswered:?} and {book_held:?}",
                line.0
            )),
        }
    }

    /// A random step: mostly a call that fits, often with pool bytes before it.
    pub fn random_step(&mut self, rng: &mut Rng) -> Result<(u8, Option<Raw>), String> {
        if rng.chance(60) {
            let poke = choose::poke(rng, self.now());
            self.step(Step::Poke(poke))?;
        }
        let raw = if rng.chance(85) {
            choose::fitting(rng, self.now())
        } else {
            choose::any(rng, self.now())
        };
        let step = match rng.below(200) {
            0 => Step::Cut(raw, self.cut(rng)),
            1 => Step::Damaged(raw, rng.below(STATE + LINE), rng.byte()),
            _ => return Ok((self.step(Step::Call(raw))?, Some(raw))),
        };
        Ok((self.step(step)?, None))
    }

    /// Lengths of which at least one is wrong.
    fn cut(&self, rng: &mut Rng) -> [usize; 4] {
        let mut lengths = [STATE, LINE, REPLY, self.pair.pool().len()];
        let which = rng.below(4);
        let length = lengths[which];
        lengths[which] = rng.pick(&[0, 1, length - 1, length + 1, length + 144, length - 8]);
        lengths
    }
}

/// What goes wrong when the steps are made after the opening, if anything does.
fn replay(opening: &Opening, steps: &[Step]) -> Option<String> {
    let mut run = match Run::open(opening.clone()) {
        Ok(run) => run,
        Err(wrong) => return Some(wrong),
    };
    steps.iter().find_map(|step| run.step(step.clone()).err())
}

/// Leaves out pieces of so many steps as long as something still goes wrong without them.
fn leave_out(opening: &Opening, steps: &mut Vec<Step>, piece: usize, stride: usize) -> bool {
    let (mut at, mut smaller) = (0, false);
    while at + piece <= steps.len() {
        let mut fewer = steps.clone();
        fewer.drain(at..at + piece);
        if replay(opening, &fewer).is_some() {
            *steps = fewer;
            smaller = true;
        } else {
            at += stride;
        }
    }
    smaller
}

/// First large pieces, then every small piece at every place, until none can be left out any more.
fn shrink(opening: &Opening, mut steps: Vec<Step>) -> Vec<Step> {
    let mut piece = steps.len().div_ceil(2);
    while piece > 0 {
        leave_out(opening, &mut steps, piece, piece);
        piece /= 2;
    }
    while steps.len() < 400 && (1..40).rev().any(|piece| leave_out(opening, &mut steps, piece, 1)) {}
    steps
}

/// Ends the test with the seed, what is wrong, and the smallest script found that shows it.
pub fn fail(seed: u64, run: &Run, wrong: &str) -> ! {
    let steps = shrink(&run.opening, run.steps.clone());
    let smallest = replay(&run.opening, &steps).unwrap_or_else(|| "nothing when run again".to_string());
    let mut script = format!("  {:?}\n", run.opening);
    for step in &steps {
        script.push_str(&format!("  {step:02x?}\n"));
    }
    panic!(
        "seed {seed}, after {} steps:\n{wrong}\nsmallest script (numbers hexadecimal):\n{script}gives: {smallest}",
        run.steps.len()
    );
}
