//! Bytes of state and line damaged: they are either another valid state and line, and the call does on them what the model does, or
//! they are refused with 1.
mod common;
mod model;

use common::choose::{self, Now};
use common::compare::Pair;
use common::random::Rng;
use common::reached::{collect, Reached};
use common::run::{fail, Opening, Run};
use common::{divisor, rounds, seed, stride};
use model::bytes::{read_line, read_state, write_line, LINE, RECORD, STATE};
use model::calls::{Raw, Request, Start};
use model::engine::State;
use model::line::Line;
use std::collections::BTreeMap;

#[derive(Default)]
struct Counts {
    calls: u64,
    unread: u64,
    accepted: u64,
}

/// State and line as the model reads them, if it does.
fn read(state: &[u8], line: &[u8]) -> Option<(State, Line)> {
    let state = read_state(state)?;
    let line = read_line(line, &state)?;
    Some((state, line))
}

/// The slices of one reached state, to be damaged again and again.
struct Bench {
    from: Reached,
    sound: (State, Line),
    pair: Pair,
}

impl Bench {
    fn new(from: &Reached) -> Bench {
        Bench {
            from: from.clone(),
            sound: from.read(),
            pair: Pair::on(&from.state, &from.line, &from.pool),
        }
    }

    /// State and line, one after the other.
    fn bytes(&self) -> Vec<u8> {
        [&self.from.state[..], &self.from.line].concat()
    }

    /// A call that mostly fits state and line if there are any, else any call.
    fn choose(&self, rng: &mut Rng, read: &Option<(State, Line)>, pool: &[u8]) -> Raw {
        let percent = if read.is_some() { 85 } else { 50 };
        let (state, line) = read.as_ref().unwrap_or(&self.sound);
        let now = Now { state, line, pool };
        if rng.chance(percent) {
            choose::fitting(rng, now)
        } else {
            choose::any(rng, now)
        }
    }

    /// A call on these bytes of state and line.
    fn call(&mut self, rng: &mut Rng, damaged: &[u8], counts: &mut Counts) {
        let (state, line) = damaged.split_at(STATE);
        let read = read(state, line);
        let count = |read: &(State, Line)| read.0.settings.count;
        if read.as_ref().is_some_and(|read| count(read) != count(&self.sound)) {
            return self.call_on_other_pool(rng, damaged, read, counts);
        }
        let raw = self.choose(rng, &read, &self.from.pool);
        if rng.chance(2) {
            self.call_on_wrong_pool(rng, damaged, read.is_some(), &raw);
        }
        let returned = self.make(&raw, damaged);
        counts.add(read.is_some(), returned);
    }

    /// The call on these bytes and on the pool, which is as it was after it.
    fn make(&mut self, raw: &Raw, damaged: &[u8]) -> u8 {
        let (state, line) = damaged.split_at(STATE);
        self.pair.set(state, line);
        let returned = self.pair.must(raw);
        if returned == 0 {
            self.pair.poke(0, &self.from.pool);
        }
        returned
    }

    /// A pool of a wrong length is 2, unless state or line are refused with 1 first.
    fn call_on_wrong_pool(&self, rng: &mut Rng, damaged: &[u8], valid: bool, raw: &Raw) {
        let right = self.from.pool.len();
        let pool = vec![0x3c; rng.pick(&[0, 1, 144, right - 1, right + 1, right + 144])];
        assert_eq!(
            Pair::on(&damaged[..STATE], &damaged[STATE..], &pool).must(raw),
            if valid { 2 } else { 1 },
            "pool of {}",
            pool.len()
        );
    }

    /// The damage was to the count: with the old pool that is 2, with a pool of its own size the call is made on it.
    fn call_on_other_pool(&mut self, rng: &mut Rng, damaged: &[u8], read: Option<(State, Line)>, counts: &mut Counts) {
        let length = read.as_ref().map_or(0, |read| read.0.settings.pool_length());
        let mut pool = vec![0; length];
        rng.fill(&mut pool);
        let raw = self.choose(rng, &read, &pool);
        let (state, line) = damaged.split_at(STATE);
        assert_eq!(Pair::on(state, line, &self.from.pool).must(&raw), 2);
        let returned = Pair::on(state, line, &pool).must(&raw);
        counts.add(true, returned);
    }
}

impl Counts {
    fn add(&mut self, read: bool, returned: u8) {
        self.calls += 1;
        self.unread += u64::from(!read);
        self.accepted += u64::from(returned == 0);
        assert_eq!(
            read,
            returned != 1,
            "1 exactly if the bytes are not what a valid state and a line that fits it are written as"
        );
    }

    fn print(&self, name: &str) {
        println!(
            "damaged: {name}: {} calls, {} refused with 1, {} accepted",
            self.calls, self.unread, self.accepted
        );
    }
}

/// Each of these bytes to each value, in each of these states.
fn each_to_each_value(rng: &mut Rng, reached: &[Reached], bytes: std::ops::Range<usize>) -> Counts {
    let mut counts = Counts::default();
    let count = bytes.len() * 256;
    let mut at = 0;
    for from in reached {
        let mut bench = Bench::new(from);
        let sound = bench.bytes();
        while at < count {
            let mut damaged = sound.clone();
            damaged[bytes.start + at / 256] = at as u8;
            bench.call(rng, &damaged, &mut counts);
            at += stride();
        }
        at -= count;
    }
    counts
}

#[test]
fn each_byte_to_each_value() {
    let mut rng = Rng::new(seed(5));
    let reached = collect(seed(6), 5);
    assert!(reached.len() >= 200, "only {} states", reached.len());
    let counts = each_to_each_value(&mut rng, &reached, 0..STATE);
    counts.print("one byte");
    assert!(divisor().is_some() || (counts.accepted > 10_000 && counts.unread > 1_000_000));
}

#[test]
fn each_byte_of_the_line_to_each_value() {
    let mut rng = Rng::new(seed(14));
    let reached = collect(seed(15), 2);
    let mut lengths = [0; 5];
    for from in &reached {
        lengths[from.read().1 .0.len()] += 1;
    }
    assert!(
        lengths.iter().all(|count| *count > 0),
        "0 to 4 wait in {lengths:?} of the states"
    );
    let counts = each_to_each_value(&mut rng, &reached, STATE..STATE + LINE);
    counts.print("one byte of the line");
    assert!(divisor().is_some() || (counts.accepted > 10_000 && counts.unread > 1_000_000));
}

/// Of state, of line, or one of each.
#[test]
fn pairs_of_bytes() {
    let mut rng = Rng::new(seed(7));
    let mut benches: Vec<Bench> = collect(seed(8), 3).iter().map(Bench::new).collect();
    let mut counts = Counts::default();
    for _ in 0..rounds(3_000_000) {
        let which = rng.below(benches.len());
        let bench = &mut benches[which];
        let mut damaged = bench.bytes();
        for _ in 0..2 {
            let at = rng.below(damaged.len());
            damaged[at] = match rng.below(3) {
                0 => rng.byte(),
                1 => rng.below(6) as u8,
                _ => damaged[at] ^ (1 << rng.below(8)),
            };
        }
        bench.call(&mut rng, &damaged, &mut counts);
    }
    counts.print("two bytes");
}

/// Not damaged but replaced: random bytes, and the waits' codes in all combinations over another wait's bytes.
#[test]
fn codes_of_other_waits() {
    let mut rng = Rng::new(seed(9));
    let mut counts = Counts::default();
    for from in collect(seed(10), 3).iter().step_by(stride().min(20)) {
        let mut bench = Bench::new(from);
        for codes in 0..8 * 8 * 6 {
            let mut damaged = bench.bytes();
            damaged[17..20].copy_from_slice(&[codes % 8, codes / 8 % 8, codes / 64].map(|code: u16| code as u8));
            bench.call(&mut rng, &damaged, &mut counts);
            // The same with the bytes that only some waits use set to 0, so that more of them are valid.
            damaged[27..STATE].fill(0);
            bench.call(&mut rng, &damaged, &mut counts);
            rng.fill(&mut damaged[20..24]);
            bench.call(&mut rng, &damaged, &mut counts);
        }
    }
    counts.print("codes");
}

/// A line changed in one way, and what it is then: E1, "its bytes: Tx lengths pass 8, buffers are in range and, like tokens, all
/// different over state and line".
struct Changed {
    why: &'static str,
    bytes: [u8; LINE],
    is: Option<Line>,
}

/// All that can be changed of one line beside one state.
struct Changes<'a> {
    state: &'a State,
    line: &'a Line,
    all: Vec<Changed>,
}

impl Changes<'_> {
    /// No line: these bytes, low byte first, from this place of a record on.
    fn no_line(&mut self, why: &'static str, record: usize, at: usize, bytes: &[u8]) {
        let mut changed = write_line(self.line);
        changed[RECORD * record + at..][..bytes.len()].copy_from_slice(bytes);
        self.all.push(Changed {
            why,
            bytes: changed,
            is: None,
        });
    }

    /// Another line, which fits.
    fn other_line(&mut self, why: &'static str, requests: Vec<Request>) {
        let line = Line(requests);
        self.all.push(Changed {
            why,
            bytes: write_line(&line),
            is: Some(line),
        });
    }

    /// This request in place of that one.
    fn other_request(&mut self, why: &'static str, at: usize, request: Request) {
        let mut requests = self.line.0.clone();
        requests[at] = request;
        self.other_line(why, requests);
    }

    fn of_free_records(&mut self) {
        for record in self.line.0.len()..4 {
            for at in 1..RECORD {
                self.no_line("a byte of a free record", record, at, &[1]);
            }
            self.no_line("a Tx of length 0 in a free record", record, 0, &[1]);
        }
    }

    fn of_places(&mut self) {
        let requests = self.line.0.clone();
        for at in 0..requests.len() {
            let without = || {
                requests
                    .iter()
                    .enumerate()
                    .filter(move |(other, _)| *other != at)
                    .map(|(_, r)| *r)
            };
            self.other_line("one fewer", without().collect());
            if at + 1 == requests.len() {
                continue;
            }
            // The others stay where they are.
            self.no_line("a gap", at, 0, &[0; RECORD]);
            self.no_line("a gap with bytes in it", at, 0, &[0]);
            let mut exchanged = requests.clone();
            exchanged.swap(at, at + 1);
            self.other_line("two exchanged", exchanged);
        }
    }

    /// What has to be different, over the line and over state and line.
    fn of_pairs(&mut self) {
        let requests = self.line.0.clone();
        for (at, own) in requests.iter().enumerate() {
            for (other, request) in requests.iter().enumerate().filter(|(other, _)| *other != at) {
                self.no_line("a token twice in the line", other, 4, &own.token().to_le_bytes());
                self.no_line("a buffer twice in the line", other, 3, &[own.buffer()]);
                let (mut tokens, mut buffers) = (requests.clone(), requests.clone());
                (tokens[at], tokens[other]) = (
                    with(own, request.token(), own.buffer()),
                    with(request, own.token(), request.buffer()),
                );
                self.other_line("two tokens exchanged", tokens);
                (buffers[at], buffers[other]) = (
                    with(own, own.token(), request.buffer()),
                    with(request, request.token(), own.buffer()),
                );
                self.other_line("two buffers exchanged", buffers);
            }
            for (token, buffer) in self.state.wait.open().into_iter().flatten() {
                self.no_line("a token of the state", at, 4, &token.to_le_bytes());
                self.no_line("a buffer of the state", at, 3, &[buffer]);
            }
            self.no_line("the ACK buffer", at, 3, &[self.state.settings.ack]);
            self.no_line("the spare buffer", at, 3, &[self.state.settings.spare]);
        }
    }

    fn of_one(&mut self, at: usize, request: Request) {
        let (token, buffer, start) = (request.token(), request.buffer(), request.start());
        for kind in [3, 4, 255] {
            self.no_line("a kind that stands for nothing", at, 0, &[kind]);
        }
        for code in [2, 3, 255] {
            self.no_line("a start that stands for nothing", at, 1, &[code]);
            self.no_line("a flag that stands for nothing", at, 2, &[code]);
        }
        let count = self.state.settings.count;
        for outside in [count, count + 1, 255] {
            self.no_line("a buffer out of range", at, 3, &[outside]);
        }
        for byte in 18..RECORD {
            self.no_line("a byte after the fields", at, byte, &[128]);
        }
        let timed = Start::At(u64::from(token) << 7 | 1);
        let (mut best_effort, mut at_a_time) = (request, request);
        let (Request::Tx { start: of, .. } | Request::Rx { start: of, .. }) = &mut best_effort;
        *of = Start::BestEffort;
        let (Request::Tx { start: of, .. } | Request::Rx { start: of, .. }) = &mut at_a_time;
        *of = timed;
        self.other_request("best effort", at, best_effort);
        self.other_request("at a time", at, at_a_time);
        if start == Start::BestEffort {
            self.no_line("a time of best effort", at, 8, &[0, 0, 0, 0, 0, 0, 0, 1]);
        }
        match request {
            Request::Tx { check, length, .. } => self.of_tx(at, (token, start, buffer), length, check),
            Request::Rx { .. } => {
                self.no_line("a flag of an Rx", at, 2, &[1]);
                self.no_line("a length of an Rx", at, 16, &[9, 0]);
                self.no_line("a Tx without a length", at, 0, &[1]);
            }
        }
    }

    fn of_tx(&mut self, at: usize, (token, start, buffer): (u32, Start, u8), own: u16, check: bool) {
        self.no_line("an Rx with a length", at, 0, &[2]);
        let tx = |length, check| Request::Tx {
            token,
            start,
            buffer,
            length,
            check,
        };
        let longest = self.state.settings.longest();
        for length in [0, 1, 2, longest + 1, 127, 255, 256, 256 + own, 65535] {
            self.no_line("a Tx length out of range", at, 16, &length.to_le_bytes());
        }
        for length in [3, longest] {
            self.other_request("a Tx length in range", at, tx(length, check));
        }
        self.other_request("the other flag", at, tx(own, !check));
        self.other_request("an Rx in its place", at, Request::Rx { token, start, buffer });
    }
}

/// The request with another token and another buffer.
fn with(request: &Request, token: u32, buffer: u8) -> Request {
    let mut request = *request;
    let (Request::Tx {
        token: own_token,
        buffer: own_buffer,
        ..
    }
    | Request::Rx {
        token: own_token,
        buffer: own_buffer,
        ..
    }) = &mut request;
    (*own_token, *own_buffer) = (token, buffer);
    request
}

fn changes(state: &State, line: &Line) -> Vec<Changed> {
    let mut changes = Changes {
        state,
        line,
        all: Vec::new(),
    };
    changes.other_line("empty", Vec::new());
    changes.of_free_records();
    changes.of_places();
    changes.of_pairs();
    for (at, request) in line.0.iter().enumerate() {
        changes.of_one(at, *request);
    }
    changes.all
}

/// What is asked of a line: its requests taken, withdrawn and seen, and one more arrival.
fn calls_on(line: &Line) -> Vec<Raw> {
    let mut raws = vec![Raw::Request, Raw::None, Raw::arrive(0x7654_3210, 1, 0, 0, 200, 0, 0)];
    raws.extend(line.0.iter().map(|request| Raw::withdraw(request.token())));
    if let Some(Request::Tx { start, check, .. }) = line.earliest_tx() {
        let (code, time) = match *start {
            Start::BestEffort => (0, 0),
            Start::At(time) => (1, time),
        };
        raws.push(Raw::outbound_seen(code, time, u8::from(*check)));
    }
    raws
}

/// Each change is refused with 1, or is the line that it is said to be: by the model, and by what the library does with it.
#[test]
fn lines_changed_in_one_way() {
    let mut rng = Rng::new(seed(16));
    let mut counts = Counts::default();
    let mut kinds: BTreeMap<&str, u64> = BTreeMap::new();
    for from in collect(seed(17), 8) {
        let mut bench = Bench::new(&from);
        let (state, line) = from.read();
        for Changed { why, bytes, is } in changes(&state, &line).into_iter().step_by(stride()) {
            *kinds.entry(why).or_default() += 1;
            assert_eq!(read_line(&bytes, &state), is, "{why}: {bytes:02x?}");
            let damaged = [&from.state[..], &bytes].concat();
            bench.call(&mut rng, &damaged, &mut counts);
            for raw in calls_on(is.as_ref().unwrap_or(&line)) {
                let returned = bench.make(&raw, &damaged);
                counts.add(is.is_some(), returned);
            }
        }
    }
    counts.print("lines changed in one way");
    println!("damaged: changes of lines: {kinds:?}");
    assert!(
        divisor().is_some() || (kinds.len() == 31 && kinds.values().all(|count| *count >= 200)),
        "{kinds:?}"
    );
}

/// Any two fields of the same width exchanged, within one record, from one to another, or between state and line.
#[test]
fn fields_exchanged() {
    let mut rng = Rng::new(seed(19));
    let mut benches: Vec<Bench> = collect(seed(27), 5).iter().map(Bench::new).collect();
    let mut counts = Counts::default();
    while counts.calls < rounds(500_000) {
        let which = rng.below(benches.len());
        let bench = &mut benches[which];
        let mut damaged = bench.bytes();
        let width = rng.pick(&[1, 1, 2, 4, 8, RECORD]);
        let one = STATE + rng.below(LINE - width + 1);
        let other = match rng.below(4) {
            0 => rng.below(damaged.len() - width + 1),
            // The same field of another record.
            1 | 2 if width < RECORD => STATE + (one - STATE + RECORD * (1 + rng.below(3))) % LINE,
            _ => STATE + rng.below(LINE - width + 1),
        };
        if other + width > damaged.len() || one.abs_diff(other) < width {
            continue;
        }
        for at in 0..width {
            damaged.swap(one + at, other + at);
        }
        bench.call(&mut rng, &damaged, &mut counts);
    }
    counts.print("fields exchanged");
    assert!(divisor().is_some() || (counts.accepted > 10_000 && counts.unread > 10_000));
}

/// State and line of different moments of one run: a line that shares a token or a buffer with the state is refused, another is taken
/// as it stands.
#[test]
fn lines_of_other_moments() {
    let mut seeds = Rng::new(seed(18));
    let mut counts = Counts::default();
    while counts.calls < rounds(200_000) {
        let seed = seeds.number();
        let mut rng = Rng::new(seed);
        let opening = Opening {
            start: choose::settings(&mut rng),
            fill: rng.number(),
        };
        let mut run = Run::open(opening).unwrap_or_else(|wrong| panic!("seed {seed}: {wrong}"));
        let mut moments = Vec::new();
        for _ in 0..100 {
            if let Err(wrong) = run.random_step(&mut rng) {
                fail(seed, &run, &wrong);
            }
            moments.push((run.pair.state().to_vec(), run.pair.line().to_vec()));
        }
        let mut bench = Bench::new(&Reached::of(&run));
        for _ in 0..200 {
            let (one, other) = (rng.below(100), rng.below(100));
            let damaged = [&moments[one].0[..], &moments[other].1].concat();
            bench.call(&mut rng, &damaged, &mut counts);
        }
    }
    counts.print("lines of other moments");
    assert!(divisor().is_some() || (counts.accepted > 10_000 && counts.unread > 10_000));
}
