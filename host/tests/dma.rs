//! Which bytes of the pool a call reads and writes, by the table in the crate's documentation ("The pool and the radio"): the others may
//! be a radio's meanwhile. The pool stands in pages of its own. A call that is to touch no byte is made with all of them barred; of
//! a call that touches bytes the pages after the last one, or those before the first one, are barred, and where it only reads, the
//! rest is barred for writing. A byte that is touched all the same ends the process (signal 11).
#[cfg(not(target_os = "linux"))]
#[test]
fn left_out() {
    println!("dma: left out, pages are barred on Linux only");
}

#[cfg(target_os = "linux")]
mod common;
#[cfg(target_os = "linux")]
mod model;

#[cfg(target_os = "linux")]
mod linux {
    use crate::common::library::{call_on, Slices};
    use crate::common::pages::{Pages, Rights};
    use crate::common::random::Rng;
    use crate::common::run::{fail, held, Opening, Run, Step};
    use crate::common::safe;
    use crate::common::{choose, crossing, divisor, reached::every_wait, rounds, seed};
    use crate::model::bytes::write_reply;
    use crate::model::calls::{Raw, RawStart, CALL_NAMES};
    use crate::model::engine::{Left, Next, State, Wait};
    use std::collections::{BTreeMap, BTreeSet};
    use std::ops::Range;
    use widosha::{DriverService, Pool, Refusal};

    /// The bytes of the pool that a call touches, as the table has them.
    #[derive(Clone, Debug, Default, PartialEq, Eq)]
    struct Touched {
        reads: Option<Range<usize>>,
        writes: Option<Range<usize>>,
    }

    impl Touched {
        /// From the first byte to the last one. A call that touches none has none.
        fn hull(&self) -> Option<Range<usize>> {
            let mut both = self.reads.iter().chain(&self.writes);
            let first = both.next()?.clone();
            let hull = both.fold(first, |hull, next| hull.start.min(next.start)..hull.end.max(next.end));
            (!hull.is_empty()).then_some(hull)
        }

        /// What may be done with the pages that have these bytes.
        fn rights(&self) -> Rights {
            match self.writes {
                None => Rights::Read,
                Some(_) => Rights::All,
            }
        }

        fn name(&self) -> &'static str {
            match (&self.reads, &self.writes) {
                (None, None) => "nothing",
                (Some(_), None) => "reads",
                (None, Some(_)) => "writes",
                (Some(_), Some(_)) => "reads and writes",
            }
        }
    }

    /// The longest header, to the end of the address fields: control, number, two PANs, two extended addresses.
    const LONGEST_HEADER: usize = 2 + 1 + 2 + 8 + 2 + 8;

    /// What the table says of a call that was made on this state and left this reply; a refused one touches nothing.
    fn touched(state: &State, raw: &Raw, returned: u8, reply: &[u8]) -> Touched {
        let settings = &state.settings;
        let head = |buffer: u8| settings.frame(buffer)..settings.frame(buffer) + 3;
        let mut touched = Touched::default();
        if returned != 0 {
            return touched;
        }
        match (raw, &state.wait) {
            // The first three bytes of the buffer of what leaves the line: of a Tx, does it want an ACK, under which number. Those of
            // an Rx are read and not looked at.
            (Raw::Request, _) => touched.reads = Some(head(reply[1])),
            // The arrived bytes of the listening buffer's frame, but none after the longest header. An ACK turn writes the number.
            (Raw::Header { arrived, .. }, Wait::ReadingHeader(rx)) => {
                let begin = settings.frame(rx.buffer);
                touched.reads = Some(begin..begin + usize::from(*arrived).min(LONGEST_HEADER));
                let number = settings.frame(settings.ack) + 2;
                touched.writes = (reply[0] == 9).then_some(number..number + 1);
            }
            // A frame where an ACK was awaited: the first three bytes of the buffer in which it was.
            (Raw::Entered { result: 2, .. } | Raw::Fallback { result: 2, .. }, Wait::Change(Left::ReceivingAck(_), _)) => {
                touched.reads = Some(head(settings.spare));
            }
            _ => {}
        }
        touched
    }

    /// Whether what the call gives depends on the third byte of those that it reads, so that it is wrong if it does not read it: the
    /// number that is noted, acknowledged or awaited.
    fn needs_the_third(touched: &Touched, raw: &Raw, reply: &[u8], after: &State) -> bool {
        match (raw, &after.wait) {
            (Raw::Request, Wait::Change(_, Next::Tx(_, number))) => number.is_some(),
            // The bytes that are written stand before those that are read, so that both can be barred by themselves.
            (Raw::Header { .. }, Wait::AckTurn(..)) => {
                touched.hull().map(|hull| hull.end) == touched.reads.as_ref().map(|reads| reads.end)
            }
            (Raw::Entered { .. } | Raw::Fallback { .. }, _) => reply[12] == 1,
            _ => false,
        }
    }

    /// The slices of a call that is made: state, line and pool before it, and what it returned and left.
    struct Made<'a> {
        raw: Raw,
        state: &'a [u8],
        line: &'a [u8],
        pool: &'a [u8],
        returned: u8,
        after: &'a Run,
    }

    /// How the pages stand.
    #[derive(Clone, Debug)]
    enum Barred {
        /// All of them.
        All,
        /// Those from this byte of the pool on, or up to it; the others have these rights.
        From(usize, Rights),
        UpTo(usize, Rights),
    }

    impl Made<'_> {
        /// The call with the pool in these pages, barred like this, gives and leaves the same.
        fn again(&self, pages: &mut Pages, barred: &Barred) {
            let mut slices = Slices::new(self.state, self.line, &[0x3c; 48], &[]);
            let pool = place(pages, self.pool, barred);
            let [state, line, reply, _] = slices.parts();
            // SAFETY: three slices of vectors of their own, and the pool in its pages, of which the call touches those it may.
            let returned = unsafe { call_on([state, line, reply, (pool, self.pool.len())], &self.raw) };
            pages.bar(0..pages.length(), Rights::All);
            let pair = &self.after.pair;
            assert_eq!(returned, self.returned, "{:?}", self.raw);
            assert_eq!((slices.state.get(), slices.line.get()), (pair.state(), pair.line()));
            assert!(returned != 0 || slices.reply.get() == pair.reply());
            assert!(slices.intact() && pages.bytes(pool, self.pool.len()) == pair.pool());
        }

        /// The call touches no other bytes.
        fn may_touch(&self, pages: &mut Pages, touched: &Touched) {
            match touched.hull() {
                None => self.again(pages, &Barred::All),
                Some(hull) => {
                    self.again(pages, &Barred::From(hull.end, touched.rights()));
                    self.again(pages, &Barred::UpTo(hull.start, touched.rights()));
                }
            }
        }

        /// Without the third byte that it reads, or the byte that it writes, its process ends: what is barred is seen.
        fn must_touch(&self, pages: &mut Pages, touched: &Touched) {
            let (hull, reads) = (
                touched.hull().expect("it touches some"),
                touched.reads.clone().expect("it reads some"),
            );
            assert!(!self.ends(pages, &Barred::From(hull.end, touched.rights())), "{:?}", self.raw);
            assert!(
                self.ends(pages, &Barred::From(reads.start + 2, Rights::All)),
                "{:?}",
                self.raw
            );
            if touched.writes.is_some() {
                assert!(self.ends(pages, &Barred::From(hull.end, Rights::Read)), "{:?}", self.raw);
            }
        }

        /// Whether the process of the call ends by a touched byte.
        fn ends(&self, pages: &mut Pages, barred: &Barred) -> bool {
            let mut slices = Slices::new(self.state, self.line, &[0x3c; 48], &[]);
            let pool = place(pages, self.pool, barred);
            let [state, line, reply, _] = slices.parts();
            let parts = [state, line, reply, (pool, self.pool.len())];
            // SAFETY: as above; a byte that may not be touched ends the child.
            let ended = Pages::ends_child(|| unsafe {
                call_on(parts, &self.raw);
            });
            pages.bar(0..pages.length(), Rights::All);
            ended
        }
    }

    /// Writes the pool's bytes into the pages, at such a place that a page begins where others are barred, and bars them.
    fn place(pages: &mut Pages, bytes: &[u8], barred: &Barred) -> *mut u8 {
        let (begins, at) = match barred {
            Barred::All => (bytes.len() / 2, None),
            Barred::From(at, rights) | Barred::UpTo(at, rights) => (*at, Some(rights)),
        };
        let pool = pages.put(bytes, begins);
        let (half, whole) = (pages.length() / 2, pages.length());
        match (barred, at) {
            (Barred::From(..), Some(rights)) => {
                pages.bar(half..whole, Rights::None);
                pages.bar(0..half, *rights);
            }
            (Barred::UpTo(..), Some(rights)) => {
                pages.bar(0..half, Rights::None);
                pages.bar(half..whole, *rights);
            }
            _ => pages.bar(0..whole, Rights::None),
        }
        pool
    }

    /// How often which call has been made with what barred, in which waits.
    #[derive(Default)]
    struct Counts {
        calls: u64,
        touched: BTreeMap<(&'static str, &'static str), u64>,
        waits: BTreeMap<usize, BTreeSet<[u8; 3]>>,
        faults: BTreeMap<(&'static str, &'static str), u64>,
    }

    impl Counts {
        fn check(&self) {
            let touching: Vec<_> = self.touched.keys().copied().filter(|(_, what)| *what != "nothing").collect();
            let table = [
                ("Entered", "reads"),
                ("Fallback", "reads"),
                ("Header", "reads"),
                ("Header", "reads and writes"),
                ("Request", "reads"),
            ];
            assert_eq!(touching, table, "not exactly the calls of the table");
            assert!(self.touched.values().all(|count| *count >= 100), "{:?}", self.touched);
            let mut waits = every_wait();
            waits.sort_unstable();
            let found: BTreeSet<_> = self.waits.values().flatten().copied().collect();
            assert!(found.into_iter().eq(waits), "not in every wait");
            assert!(self.waits.keys().copied().eq(0..11), "not every call was accepted");
            assert!(self.waits[&0].len() >= 30 && self.waits[&1].len() >= 30);
            for fault in [
                ("Entered", "reads"),
                ("Fallback", "reads"),
                ("Header", "reads and writes"),
                ("Request", "reads"),
            ] {
                assert!(self.faults.get(&fault).is_some_and(|count| *count >= 5), "{fault:?}");
            }
        }
    }

    /// A step that is chosen as in the random runs, without slices cut or damaged.
    fn choose(run: &mut Run, rng: &mut Rng) -> Result<Raw, String> {
        if rng.chance(60) {
            let poke = choose::poke(rng, run.now());
            run.step(Step::Poke(poke))?;
        }
        Ok(if rng.chance(90) {
            choose::fitting(rng, run.now())
        } else {
            choose::any(rng, run.now())
        })
    }

    /// One call of the run, and again with the pages barred.
    fn step(run: &mut Run, rng: &mut Rng, pages: &mut Pages, counts: &mut Counts) -> Result<(), String> {
        let raw = choose(run, rng)?;
        let before = run.read.0;
        let (state, line) = (run.pair.state().to_vec(), run.pair.line().to_vec());
        let pool = run.pair.pool().to_vec();
        let codes = run.codes();
        let returned = run.step(Step::Call(raw))?;
        let touched = touched(&before, &raw, returned, run.pair.reply());
        let made = Made {
            raw,
            state: &state,
            line: &line,
            pool: &pool,
            returned,
            after: run,
        };
        let name = CALL_NAMES[raw.kind()];
        counts.calls += 1;
        *counts.touched.entry((name, touched.name())).or_default() += 1;
        if returned == 0 {
            counts.waits.entry(raw.kind()).or_default().insert(codes);
        }
        let known = counts.faults.get(&(name, touched.name())).copied().unwrap_or_default();
        if known < 20 && touched.reads.is_some() && needs_the_third(&touched, &raw, run.pair.reply(), &run.read.0) {
            made.must_touch(pages, &touched);
            counts.faults.insert((name, touched.name()), known + 1);
        }
        made.may_touch(pages, &touched);
        Ok(())
    }

    #[test]
    fn calls_touch_the_bytes_of_the_table() {
        let mut rng = Rng::new(seed(51));
        let (mut pages, mut counts) = (Pages::new(), Counts::default());
        while counts.calls < rounds(200_000) {
            let opening = Opening {
                start: choose::settings(&mut rng),
                fill: rng.number(),
            };
            start_writes_three_bytes(&mut pages, &opening.start);
            let mut run = Run::open(opening).unwrap_or_else(|wrong| panic!("{wrong}"));
            for _ in 0..200 {
                if let Err(wrong) = step(&mut run, &mut rng, &mut pages, &mut counts) {
                    fail(seed(51), &run, &wrong);
                }
            }
        }
        println!("dma: {} calls with pages barred: {:?}", counts.calls, counts.touched);
        println!("dma: faults that were to be, by call: {:?}", counts.faults);
        if divisor().is_none() {
            counts.check();
        }
    }

    /// Start writes the three bytes of its ACK frame and touches no other.
    fn start_writes_three_bytes(pages: &mut Pages, raw: &RawStart) {
        let bytes = vec![0x5e; 144 * usize::from(raw.count)];
        let begin = 144 * usize::from(raw.ack_buffer) + usize::from(raw.headroom);
        for barred in [Barred::From(begin + 3, Rights::All), Barred::UpTo(begin, Rights::All)] {
            let mut slices = Slices::new(&[0; 64], &[0; 96], &[0; 48], &[]);
            let pool = place(pages, &bytes, &barred);
            // SAFETY: the pool in its pages, of which start touches those it may.
            let returned = unsafe { slices.start_on(raw, (pool, bytes.len())) };
            pages.bar(0..pages.length(), Rights::All);
            assert_eq!(returned, 0);
            let mut expected = bytes.clone();
            expected[begin..begin + 3].copy_from_slice(&[0x02, 0x10, 0x00]);
            assert_eq!(pages.bytes(pool, bytes.len()), expected);
        }
    }

    const BUFFERS: usize = 8;

    /// A run on eight buffers, and a service that is started as it is, on the pool that stands in the pages.
    fn beside(rng: &mut Rng, pages: &mut Pages) -> (Run, DriverService<'static, BUFFERS>) {
        let mut start = choose::settings(rng);
        start.count = BUFFERS as u8;
        (start.ack_buffer, start.spare_buffer) = rng.pick(&[(0, 1), (7, 0), (3, 4)]);
        let opening = Opening {
            start,
            fill: rng.number(),
        };
        let run = Run::open(opening).unwrap_or_else(|wrong| panic!("{wrong}"));
        let pool = pages.put(run.pair.pool(), 0).cast::<Pool<BUFFERS>>();
        let settings = safe::settings(&start).expect("they can be said");
        // SAFETY: so many bytes stand there, and the service is gone before the pages are.
        let (service, _) = DriverService::start(settings, unsafe { &mut *pool }).expect("accepted");
        (run, service)
    }

    /// What the service says of itself, with the whole pool barred.
    fn says_the_same(service: &DriverService<BUFFERS>, run: &Run) {
        let (state, line) = (service.state().as_slice(), service.line().as_slice());
        assert_eq!((state, line), (run.pair.state(), run.pair.line()));
        assert_eq!(service.wait(), Some(crossing::wait(&run.read.0.wait)));
        assert_eq!(service.waiting().count(), run.read.1 .0.len());
        assert!((0..=255)
            .filter(|buffer| service.is_held(*buffer))
            .eq(held(&run.read.0, &run.read.1)));
        assert!(service.buffer_ptr(7).is_some() && service.settings().headroom == run.opening.start.headroom);
        assert!(format!("{service:?}").contains("buffers: 8"));
    }

    /// A call of the run, and by the service: with the whole pool barred if it touches no byte. Whether it was made so.
    fn step_beside(
        run: &mut Run,
        service: &mut DriverService<BUFFERS>,
        rng: &mut Rng,
        pages: &mut Pages,
    ) -> Result<Option<bool>, String> {
        let raw = choose(run, rng)?;
        let Some(call) = raw.call() else { return Ok(None) };
        // What was put into the pool is put in by its pages, as a radio does, and not by the service.
        pages.put(run.pair.pool(), 0);
        let before = run.read.0;
        let returned = run.step(Step::Call(raw))?;
        let nothing = touched(&before, &raw, returned, run.pair.reply()) == Touched::default();
        let whole = 0..pages.length();
        if nothing {
            pages.bar(whole.clone(), Rights::None);
        }
        let told = service.step(crossing::call(call));
        pages.bar(whole.clone(), Rights::None);
        says_the_same(service, run);
        pages.bar(whole, Rights::All);
        match told {
            Ok(told) => assert_eq!(write_reply(&crossing::model_reply(&told)).as_slice(), run.pair.reply()),
            Err(error) => assert_eq!(error.refusal().map(Refusal::number), Some(returned), "{raw:?}"),
        }
        assert_eq!(service.pool().bytes(), run.pair.pool(), "{raw:?}");
        Ok(Some(nothing))
    }

    /// The same through the crate: between the calls, and in those that touch no byte, it touches none either, and what is put into
    /// the pool without it is there for the call that reads it.
    #[test]
    fn the_crate_touches_no_other_byte() {
        let mut rng = Rng::new(seed(52));
        let mut pages = Pages::new();
        let (mut calls, mut barred) = (0, 0);
        while calls < rounds(100_000) {
            let (mut run, mut service) = beside(&mut rng, &mut pages);
            for _ in 0..200 {
                let made = step_beside(&mut run, &mut service, &mut rng, &mut pages).unwrap_or_else(|wrong| panic!("{wrong}"));
                calls += u64::from(made.is_some());
                barred += u64::from(made == Some(true));
            }
        }
        println!("dma: {calls} calls through the crate, {barred} of them with the whole pool barred");
        assert!(divisor().is_some() || barred >= 50_000);
    }
}
