//! The loop of `Station`, with a random radio that does what it is told and a random host. Every call that the loop makes is accepted,
//! but a Request that is refused by 9 and followed by None; a second service, on which each call is repeated as it is made known, says
//! the same to each; the radio is told each task once, and only what it can do; every request is answered, waits or was withdrawn; the
//! host reaches the buffers that are free and no other; and whenever the loop comes to rest, nothing is left for it to do.

mod common;
mod model;

use common::random::Rng;
use common::{divisor, rounds, seed};
use std::cell::{Cell, RefCell};
use std::collections::{BTreeMap, VecDeque};
use std::fmt::Debug;
use std::future::{poll_fn, Future};
use std::pin::pin;
use std::rc::Rc;
use std::sync::Arc;
use std::task::{Context, Poll, Wake, Waker};
use widosha::*;

/// How many runs, each of so many steps.
const RUNS: u64 = 500;
const STEPS: usize = 400;
const BUFFERS: usize = 10;
const ACK: u8 = 0;
const SPARE: u8 = 1;
const PAN: u16 = 0xA00A;
const OURS: u16 = 0x0A01;

const SETTINGS: Settings = Settings {
    headroom: 2,
    tailroom: 3,
    fcs_length: FcsLength::Two,
    hardware_addr: 0x0200_0000_0000_0000 | OURS as u64,
    pan_id: PAN,
    implicit_broadcast: false,
    ack_buffer: ACK,
    spare_buffer: SPARE,
};

/// What both the radio and the host have to do with, and what was met.
#[derive(Default)]
struct Common {
    /// What the host has put into the buffers that it lent, by buffer.
    lent: BTreeMap<u8, Vec<u8>>,
    /// What the radio and the host have written into buffers since the last call.
    written: Vec<(u8, Vec<u8>)>,
    /// The buffers that the radio works on: that of what it does, and that of the task it is to enter.
    works_on: [Option<u8>; 2],
    /// What the radio has received whole last.
    received: Vec<u8>,
    /// Number of the last frame that was sent.
    number: u8,
    /// How many requests the host wants to hand in.
    wants: usize,
    /// Whether the next call is an event that does not fit.
    unfit: bool,
    /// The last action, and whether the radio has begun its part.
    action: Option<Action>,
    begun: bool,
    met: BTreeMap<String, u64>,
}

type Shared = Rc<RefCell<Common>>;

impl Common {
    fn meet(&mut self, kind: &str, what: &dyn Debug) {
        *self.met.entry(format!("{kind} {}", word(what))).or_default() += 1;
    }
}

/// The name of what is met, with that of the case in it, and without its fields.
fn word(what: &dyn Debug) -> String {
    let text = format!("{what:?}");
    let names = text.split(' ').next().unwrap_or_default();
    names.split('(').take(2).collect::<Vec<_>>().join("(")
}

// ---- The radio

#[derive(Clone, Debug, PartialEq, Eq)]
enum Doing {
    Off,
    Listening,
    /// This frame; whether it is damaged, and whether its header was read.
    Receiving(Vec<u8>, bool, bool),
    Sending,
}

struct TestRadio {
    rng: Rng,
    common: Shared,
    doing: Doing,
    listens_in: u8,
    /// What it was told and has no outcome yet.
    task: Option<RadioTask>,
    /// Whether the last stop failed; it does not fail twice.
    failed: bool,
    /// In so many of a hundred cases it has the outcome at once, and one that does not fit.
    at_once: usize,
    unfit_at_once: usize,
    now: u64,
}

/// The buffer that a task names.
fn buffer_of(task: RadioTask) -> Option<u8> {
    match task {
        RadioTask::Tx { buffer, .. } | RadioTask::Rx { buffer, .. } => Some(buffer),
        _ => None,
    }
}

impl Radio for TestRadio {
    fn begin(&mut self, task: RadioTask, buffers: &mut dyn Buffers) -> Option<RadioEvent> {
        let follows = match self.task {
            None => true,
            Some(present) => present == RadioTask::Listen && matches!(task, RadioTask::Stop(_)),
        };
        assert!(follows, "{task:?} is begun while {:?} has no outcome", self.task);
        self.check(task, buffers);
        self.task = Some(task);
        self.common.borrow_mut().works_on[1] = buffer_of(task);
        self.common.borrow_mut().meet("task", &task);
        self.common.borrow_mut().begun = true;
        if self.rng.chance(self.unfit_at_once) {
            self.common.borrow_mut().meet("unfit at once:", &task);
            return Some(self.unfit());
        }
        if !self.rng.chance(self.at_once) {
            return None;
        }
        self.common.borrow_mut().meet("at once:", &task);
        Some(self.outcome(buffers))
    }
}

impl TestRadio {
    /// Whether a radio that does what this one does can do that.
    fn check(&self, task: RadioTask, buffers: &dyn Buffers) {
        let can = match task {
            RadioTask::Listen => self.doing == Doing::Listening,
            RadioTask::Stop(_) => matches!(self.doing, Doing::Listening | Doing::Receiving(_, _, false)),
            RadioTask::ReadHeader => matches!(self.doing, Doing::Receiving(_, _, false)),
            RadioTask::Tx { .. } | RadioTask::Rx { .. } | RadioTask::Off { .. } => self.doing != Doing::Listening,
        };
        assert!(can, "{task:?} while it is {:?}", self.doing);
        let mut common = self.common.borrow_mut();
        match task {
            RadioTask::Stop(_) if self.task.is_some() && self.doing != Doing::Listening => common.meet("untold:", &task),
            RadioTask::Tx { buffer, length, .. } => {
                let frame = buffers.frame(buffer).expect("the buffer is there");
                let ack = vec![0x02, 0x10, frame[2]];
                let lent = if buffer == ACK { Some(&ack) } else { common.lent.get(&buffer) };
                assert_eq!(lent.map(|bytes| &bytes[..]), Some(&frame[..usize::from(length)]));
                let whole = buffers.buffer(buffer).expect("the buffer is there");
                assert_eq!(whole[2..129], frame[..]);
            }
            RadioTask::Rx { buffer, .. } => {
                let pointer = buffers.buffer_ptr(buffer).expect("the buffer is there").as_ptr();
                assert_eq!(
                    pointer.cast_const(),
                    std::ptr::from_ref(buffers.buffer(buffer).expect("so it is"))
                );
                assert_ne!(buffer, ACK);
            }
            _ => {}
        }
    }

    /// Some outcome of the present task.
    fn outcome(&mut self, buffers: &mut dyn Buffers) -> RadioEvent {
        self.now += 1 + self.rng.below(1_000_000) as u64;
        let task = self.task.take().expect("there is one");
        match task {
            RadioTask::Listen => {
                self.frame_starts_untold();
                RadioEvent::FrameStart
            }
            RadioTask::Stop(_) => RadioEvent::Stopped(self.stop()),
            RadioTask::ReadHeader => self.header(buffers),
            RadioTask::Tx { rollback, .. } | RadioTask::Rx { rollback, .. } | RadioTask::Off { rollback } => {
                let damaged = matches!(self.doing, Doing::Receiving(_, true, _));
                if rollback && damaged {
                    self.doing = Doing::Listening;
                    self.common.borrow_mut().works_on[1] = None;
                    return RadioEvent::Rollback;
                }
                self.enter(task, buffers)
            }
        }
    }

    /// An event that is no outcome of the present task, whatever that is.
    fn unfit(&mut self) -> RadioEvent {
        self.common.borrow_mut().unfit = true;
        let entered = RadioEvent::Entered {
            result: TaskResult::Off,
            entry: LocalClockInstant::from_nanos(self.now),
        };
        let events = match self.task {
            Some(RadioTask::Tx { .. } | RadioTask::Rx { .. } | RadioTask::Off { .. }) => [
                RadioEvent::FrameStart,
                RadioEvent::Stopped(StopResult::FrameStarted),
                RadioEvent::Header { arrived: 9, length: 17 },
            ],
            Some(RadioTask::Stop(_)) => [RadioEvent::FrameStart, RadioEvent::Rollback, entered],
            Some(RadioTask::ReadHeader) => [RadioEvent::Stopped(StopResult::Failed), RadioEvent::FrameStart, entered],
            Some(RadioTask::Listen) | None => [
                RadioEvent::Stopped(StopResult::FrameStarted),
                RadioEvent::Header { arrived: 9, length: 17 },
                entered,
            ],
        };
        self.rng.pick(&events)
    }

    /// A frame may have started before that is told; if a Stop is begun meanwhile, it never is.
    fn frame_starts_untold(&mut self) {
        if self.doing == Doing::Listening {
            self.frame_starts();
        }
    }

    fn frame_starts(&mut self) {
        let damaged = self.rng.chance(25);
        self.doing = Doing::Receiving(self.frame(), damaged, false);
    }

    /// An acknowledgement, a frame for us that wants one or does not, one for everyone, or one for somebody else.
    fn frame(&mut self) -> Vec<u8> {
        let number = self.common.borrow().number;
        let ours = OURS.to_le_bytes();
        let (control, to) = match self.rng.below(8) {
            0..=2 => return vec![0x02, 0x00, number],
            3 => return vec![0x02, 0x00, number ^ 1],
            4 => (0x8861u16, ours),
            5 => (0x8841, ours),
            6 => (0x8861, [0xff, 0xff]),
            _ => (0x8861, [0x77, 0x77]),
        };
        let mut bytes = control.to_le_bytes().to_vec();
        bytes.push(self.rng.byte());
        bytes.extend(PAN.to_le_bytes());
        bytes.extend(to);
        bytes.extend([0x00, 0x0B]);
        (0..self.rng.below(40)).for_each(|_| bytes.push(self.rng.byte()));
        bytes
    }

    fn stop(&mut self) -> StopResult {
        if self.doing == Doing::Listening {
            match self.rng.below(4) {
                0 if !self.failed => {
                    self.failed = true;
                    return StopResult::Failed;
                }
                0 | 1 => {
                    self.doing = Doing::Off;
                    self.common.borrow_mut().works_on[0] = None;
                    self.failed = false;
                    return StopResult::RxWindowEnded(RxResult::RxWindowEnded);
                }
                _ => self.frame_starts(),
            }
        }
        self.failed = false;
        StopResult::FrameStarted
    }

    fn header(&mut self, buffers: &mut dyn Buffers) -> RadioEvent {
        let Doing::Receiving(bytes, _, read) = &mut self.doing else {
            panic!("a header is read while a frame is received");
        };
        *read = true;
        let arrived = bytes.len().min(9);
        let put = buffers.put_frame(self.listens_in, &bytes[..arrived]);
        let mut common = self.common.borrow_mut();
        common.written.push((self.listens_in, bytes[..arrived].to_vec()));
        let length = bytes.len() as u16 + 2;
        assert_eq!(put, Some(arrived as u16));
        RadioEvent::Header {
            arrived: arrived as u16,
            length,
        }
    }

    fn enter(&mut self, task: RadioTask, buffers: &mut dyn Buffers) -> RadioEvent {
        let (result, entry) = (self.leave(buffers), LocalClockInstant::from_nanos(self.now));
        self.common.borrow_mut().works_on = [buffer_of(task), None];
        match task {
            RadioTask::Tx { buffer, .. } if buffer != ACK && self.rng.chance(10) => {
                self.doing = Doing::Off;
                self.common.borrow_mut().works_on[0] = None;
                let cause = self.rng.pick(&[Cause::Task, Cause::Scheduling(Timestamp::BestEffort)]);
                return RadioEvent::Fallback { result, cause };
            }
            RadioTask::Tx { buffer, .. } => {
                self.common.borrow_mut().number = buffers.frame(buffer).expect("the buffer is there")[2];
                self.doing = Doing::Sending;
            }
            RadioTask::Rx { buffer, .. } => {
                self.listens_in = buffer;
                self.doing = Doing::Listening;
            }
            _ => self.doing = Doing::Off,
        }
        RadioEvent::Entered { result, entry }
    }

    fn leave(&mut self, buffers: &mut dyn Buffers) -> TaskResult {
        let (time, quality) = (LocalClockInstant::from_nanos(self.now), self.rng.byte());
        match &self.doing {
            Doing::Sending => TaskResult::Sent { time },
            Doing::Receiving(_, true, _) => TaskResult::Rx(RxResult::CrcError { time, quality }),
            Doing::Receiving(_, false, true) if self.rng.chance(5) => TaskResult::Rx(RxResult::RxWindowEnded),
            Doing::Receiving(bytes, false, _) => {
                let length = bytes.len() as u16;
                assert_eq!(buffers.put_frame(self.listens_in, bytes), Some(length));
                let mut common = self.common.borrow_mut();
                common.received.clone_from(bytes);
                common.written.push((self.listens_in, bytes.clone()));
                TaskResult::Rx(RxResult::Frame { length, time, quality })
            }
            _ => TaskResult::Off,
        }
    }
}

// ---- The host

struct TestHost {
    rng: Rng,
    common: Shared,
    /// Whether it said that it has none, and has one since.
    late: bool,
    free: Vec<u8>,
    tokens: u32,
    /// What has arrived and is neither answered nor withdrawn.
    open: BTreeMap<u32, Request>,
    /// What the next refusal of a request is to be.
    wrong: Option<Refusal>,
    /// A service that every call is made on once more.
    second: DriverService<'static, BUFFERS>,
    /// The last call that was made, where it was refused by 9.
    not_allowed: bool,
    /// The answers of the last call that are not given yet.
    due: VecDeque<Answer>,
}

impl Host for TestHost {
    fn next_request(&mut self, view: &mut HostView) -> Option<Request> {
        reaches(view, &self.free, &self.common.borrow());
        writes(view, &self.free);
        let Common { action, begun, .. } = *self.common.borrow();
        let of_host = action.is_none_or(|action| HostTask::of(action).is_some());
        assert!(of_host || begun, "the radio's part of {action:?} can be begun first");
        let wants = self.common.borrow().wants;
        self.late = wants > 0 && self.rng.chance(5);
        if wants == 0 || self.late || self.free.is_empty() {
            return None;
        }
        self.common.borrow_mut().wants -= 1;
        Some(self.request(view))
    }

    fn answered(&mut self, answer: Answer, view: &HostView) {
        assert_eq!(self.due.pop_front(), Some(answer), "each answer of the reply, in its order");
        let request = self.open.remove(&answer.token).expect("what is answered has arrived");
        let received = matches!(answer.response, Response::Received(_));
        assert_eq!(received, request.task == Task::Rx);
        if let Response::Received(RxResult::Frame { .. }) = answer.response {
            let frame = view.received(&answer).expect("it was received").frame;
            assert_eq!(frame, self.common.borrow().received);
        }
        self.common.borrow_mut().meet("answer", &answer.response);
        self.returned(answer.buffer);
        let due = self.due.iter().map(|answer| answer.buffer);
        let free: Vec<u8> = self.free.iter().copied().chain(due).collect();
        reaches(view, &free, &self.common.borrow());
    }

    fn refused(&mut self, request: Request, refusal: Refusal) {
        assert_eq!(self.wrong.take(), Some(refusal), "{request:?}");
    }

    fn made(&mut self, call: &Call, result: &Result<Reply, Error>, view: &HostView) {
        assert!(self.due.is_empty(), "an answer of the last call was not given");
        self.repeat(call, result, view);
        if std::mem::take(&mut self.not_allowed) {
            assert_eq!(*call, Call::None, "after a Request that is refused by 9");
        }
        let mut common = self.common.borrow_mut();
        let of_radio = !matches!(
            call,
            Call::Arrive(_) | Call::Withdraw { .. } | Call::Request | Call::None | Call::OutboundSeen { .. }
        );
        let unfit = of_radio && std::mem::take(&mut common.unfit);
        match result {
            Ok(reply) => {
                assert!(!unfit, "{call:?} does not fit");
                common.meet("call", call);
                common.meet("action", &reply.action);
                common.meet("answers", &reply.answers);
                if reply.action != Action::Nothing {
                    (common.action, common.begun) = (Some(reply.action), false);
                }
                self.due.extend(reply.answers);
            }
            Err(Error::Refused(refusal)) => {
                common.meet("refusal", &refusal.number());
                self.not_allowed = *refusal == Refusal::NotAllowed && *call == Call::Request;
                let expected = self.not_allowed || unfit && *refusal == Refusal::Unfit || self.wrong == Some(*refusal);
                assert!(expected, "{call:?}: {refusal}");
            }
            Err(error) => panic!("{call:?}: {error}"),
        }
        drop(common);
        if let (Call::Arrive(request), Ok(_)) = (call, result) {
            assert_eq!(self.wrong, None, "{request:?} was wrong");
            self.open.insert(request.token, *request);
            self.free.retain(|buffer| *buffer != request.buffer);
        }
        let mut free = self.free.clone();
        free.extend(self.due.iter().map(|answer| answer.buffer));
        if let (Call::Withdraw { token }, Ok(_)) = (call, result) {
            free.push(self.open[token].buffer);
        }
        reaches(view, &free, &self.common.borrow());
    }
}

const FIVE_BYTES: RxResult = RxResult::Frame {
    length: 5,
    time: LocalClockInstant::from_nanos(1),
    quality: 0,
};

/// The host reaches these buffers, whole, by their frames and by an answer that names them, and no other, and none that the radio works
/// on.
fn reaches(view: &HostView, free: &[u8], common: &Common) {
    for buffer in 0..=BUFFERS as u8 {
        let is_free = free.contains(&buffer);
        assert_eq!(view.is_held(buffer), !is_free && usize::from(buffer) < BUFFERS, "{buffer}");
        assert!(!is_free || !common.works_on.contains(&Some(buffer)), "{buffer}");
        let (frame, whole) = (view.frame(buffer), view.buffer(buffer));
        assert_eq!(frame.is_some(), is_free, "{buffer}");
        assert_eq!(frame, whole.and_then(|whole| whole[2..].first_chunk()), "{buffer}");
        let received = view.received(&Answer::new(1, buffer, Response::Received(FIVE_BYTES)));
        assert_eq!(
            received.map(|received| received.frame),
            frame.map(|frame| &frame[..5]),
            "{buffer}"
        );
    }
}

/// The same of what it can write.
fn writes(view: &mut HostView, free: &[u8]) {
    for buffer in 0..=BUFFERS as u8 {
        let is_free = free.contains(&buffer);
        assert_eq!(view.frame_mut(buffer).is_some(), is_free, "{buffer}");
        assert_eq!(view.buffer_mut(buffer).is_some(), is_free, "{buffer}");
        assert!(is_free || view.put_frame(buffer, &[0xee]).is_none(), "{buffer}");
    }
}

impl TestHost {
    /// The same call on the second service, with the same bytes in the buffers: what it says, waits for and has in its line.
    fn repeat(&mut self, call: &Call, result: &Result<Reply, Error>, view: &HostView) {
        for (buffer, bytes) in std::mem::take(&mut self.common.borrow_mut().written) {
            self.second.put_frame(buffer, &bytes).expect("the buffer is there");
        }
        assert_eq!(self.second.step(*call), *result, "{call:?}");
        assert_eq!(self.second.wait(), view.wait());
        assert!(self
            .second
            .waiting()
            .map(Some)
            .eq(view.waiting().into_iter().filter(Option::is_some)));
    }

    /// A buffer that was lent or exchanged for one that was.
    fn returned(&mut self, buffer: u8) {
        assert!(!self.free.contains(&buffer) && buffer != ACK);
        self.free.push(buffer);
    }

    /// A request with a free buffer, at times wrong in one place.
    fn request(&mut self, view: &mut HostView) -> Request {
        let start = match self.rng.below(3) {
            0 => Timestamp::Scheduled(LocalClockInstant::from_nanos(self.rng.number() >> 8)),
            _ => Timestamp::BestEffort,
        };
        let buffer = self.rng.pick(&self.free);
        self.tokens += 1;
        let task = if self.rng.chance(55) {
            self.tx(buffer, view)
        } else {
            Task::Rx
        };
        let mut request = Request {
            token: self.tokens,
            start,
            buffer,
            task,
        };
        if self.rng.chance(8) {
            self.spoil(&mut request);
        }
        request
    }

    fn tx(&mut self, buffer: u8, view: &mut HostView) -> Task {
        let mut bytes = vec![self.rng.pick(&[0x61, 0x41]), 0x88];
        (0..1 + self.rng.below(30)).for_each(|_| bytes.push(self.rng.byte()));
        let length = view.put_frame(buffer, &bytes).expect("a free buffer can be written");
        self.common.borrow_mut().written.push((buffer, bytes.clone()));
        self.common.borrow_mut().lent.insert(buffer, bytes);
        let cca = self.rng.chance(50);
        Task::Tx { length, cca }
    }

    /// Makes a request wrong in one place, where there is such a place.
    fn spoil(&mut self, request: &mut Request) {
        let waiting: Vec<u32> = self.second.waiting().map(|request| request.token).collect();
        let left = self.open.keys().copied().find(|token| !waiting.contains(token));
        let held = self
            .open
            .values()
            .map(|request| request.buffer)
            .find(|buffer| waiting.iter().any(|token| self.open[token].buffer == *buffer));
        self.wrong = match (self.rng.below(4), left, waiting.first(), held) {
            (0, Some(token), ..) => {
                request.token = token;
                Some(Refusal::TokenHeld)
            }
            (1, _, Some(token), _) => {
                request.token = *token;
                Some(Refusal::TokenWaits)
            }
            (2, _, _, Some(buffer)) => {
                request.buffer = buffer;
                Some(Refusal::BufferHeld)
            }
            (3, ..) => {
                request.task = Task::Tx { length: 2, cca: false };
                Some(Refusal::TxLength)
            }
            _ => None,
        };
    }
}

// ---- Runs

type Tested = Station<DriverService<'static, BUFFERS>, TestRadio, TestHost>;

fn service() -> (DriverService<'static, BUFFERS>, Reply) {
    let pool = Box::leak(Box::new(Pool::new()));
    DriverService::start(SETTINGS, pool).expect("the settings are in range")
}

fn parts(seed: u64, common: Shared) -> (TestRadio, TestHost) {
    let mut rng = Rng::new(seed);
    let met = common.take().met;
    common.replace(Common {
        met,
        ..Common::default()
    });
    let radio = TestRadio {
        rng: Rng::new(rng.number()),
        common: common.clone(),
        doing: Doing::Off,
        listens_in: SPARE,
        task: None,
        failed: false,
        at_once: rng.pick(&[0, 30, 90]),
        unfit_at_once: 1,
        now: 0,
    };
    let host = TestHost {
        rng: Rng::new(rng.number()),
        common,
        late: false,
        free: (2..BUFFERS as u8).collect(),
        tokens: 0,
        open: BTreeMap::new(),
        wrong: None,
        second: service().0,
        not_allowed: false,
        due: VecDeque::new(),
    };
    (radio, host)
}

fn station(seed: u64, common: Shared) -> Tested {
    let (radio, host) = parts(seed, common);
    let (service, first) = service();
    Station::new(service, first.action, radio, host)
}

/// What holds whenever the loop has come to rest.
fn check_rest(station: &Tested) {
    let (service, radio, host) = (station.service(), station.radio(), station.host());
    assert_eq!(service.state(), host.second.state(), "a call was not made known");
    assert_eq!(service.line(), host.second.line(), "a call was not made known");
    assert_eq!(
        service.pool().bytes(),
        host.second.pool().bytes(),
        "somebody wrote another byte"
    );
    assert!(!host.not_allowed && host.due.is_empty() && host.wrong.is_none());
    let waits = service.waiting().count();
    let has_more = host.common.borrow().wants > 0 && !host.late && !host.free.is_empty();
    assert!(!has_more || waits == LINE_CAPACITY, "a request was not asked for");
    assert_eq!(host.free.len() + host.open.len(), BUFFERS - 2, "a request is lost");
    assert_eq!(
        radio.task,
        RadioTask::of(station.action()),
        "what the radio does is the last action"
    );
    match service.wait() {
        Some(Wait::Asking(Asked::Idle)) => assert_eq!((radio.task, waits), (None, 0), "it waits, and a request does"),
        Some(Wait::Asking(asked)) => panic!("{asked:?} was not seen to"),
        Some(Wait::Listening) => assert!(
            service.waiting().all(|request| request.task == Task::Rx),
            "an outbound one was not seen"
        ),
        _ => assert!(radio.task.is_some()),
    }
}

/// The error of an event that the radio had at once and that does not fit; then it has no outcome of its task yet.
fn seen_to(result: Result<(), Error>) {
    assert!(matches!(result, Ok(()) | Err(Error::Refused(Refusal::Unfit))), "{result:?}");
}

fn radio_tells(station: &mut Tested) {
    let (radio, buffers) = station.radio_mut();
    if radio.task.is_none() {
        return;
    }
    let event = radio.outcome(buffers);
    seen_to(station.told(event));
}

fn tells_wrong(station: &mut Tested) {
    let event = station.radio_mut().0.unfit();
    let before = (station.action(), station.radio().task, *station.service().state());
    assert_eq!(station.told(event), Err(Error::Refused(Refusal::Unfit)), "{event:?}");
    assert_eq!(before, (station.action(), station.radio().task, *station.service().state()));
}

/// At times a frame starts just before, which the radio has not told yet.
fn host_wants(station: &mut Tested, rng: &mut Rng) {
    if station.radio().task == Some(RadioTask::Listen) && rng.chance(30) {
        station.radio_mut().0.frame_starts_untold();
    }
    station.host().common.borrow_mut().wants += 1 + rng.below(4);
    seen_to(station.host_has_more());
}

fn arrives_unasked(station: &mut Tested) {
    let (host, mut view) = station.host_mut();
    if host.free.is_empty() {
        return;
    }
    let request = host.request(&mut view);
    let full = host.second.waiting().count() == LINE_CAPACITY;
    // 6 to 8 come before 12, and 12 before 13.
    if full && matches!(host.wrong, None | Some(Refusal::TokenWaits)) {
        host.wrong = Some(Refusal::LineFull);
    }
    let wrong = host.wrong;
    let arrived = station.arrive(request);
    match wrong {
        Some(refusal) => assert_eq!(arrived, Err(Error::Refused(refusal))),
        None => seen_to(arrived),
    }
    station.host_mut().0.wrong = None;
}

fn withdraws(station: &mut Tested, rng: &mut Rng) {
    let waiting: Vec<Request> = station.service().waiting().collect();
    let host = station.host_mut().0;
    if waiting.is_empty() {
        return;
    }
    let request = rng.pick(&waiting);
    let named = waiting.iter().find(|request| request.task != Task::Rx) == Some(&request)
        && host.second.wait() == Some(Wait::Stopping(Stop::Outbound));
    host.wrong = named.then_some(Refusal::TokenWaits);
    let withdrawn = station.withdraw(request.token);
    let host = station.host_mut().0;
    match host.wrong.take() {
        Some(refusal) => assert_eq!(withdrawn, Err(Error::Refused(refusal))),
        None => {
            assert_eq!(withdrawn, Ok(request));
            assert_eq!(host.open.remove(&request.token), Some(request));
            host.returned(request.buffer);
        }
    }
    seen_to(station.host_has_more());
}

/// Taken apart and put together again while the radio has nothing to do.
fn anew(station: Tested) -> Tested {
    if station.radio().task.is_some() {
        return station;
    }
    let action = station.action();
    let (service, radio, host) = station.into_parts();
    Station::new(service, action, radio, host)
}

fn run(seed: u64, common: Shared) {
    let mut station = station(seed, common);
    let mut rng = Rng::new(!seed);
    for _ in 0..STEPS {
        match rng.below(20) {
            0..=12 => radio_tells(&mut station),
            13..=15 => host_wants(&mut station, &mut rng),
            16 => arrives_unasked(&mut station),
            17 => tells_wrong(&mut station),
            _ => withdraws(&mut station, &mut rng),
        }
        check_rest(&station);
        station = anew(station);
    }
}

/// All that the runs can meet.
const EVERY: [(&str, &[&str]); 8] = [
    (
        "action",
        &[
            "Nothing",
            "ReceiveRequest",
            "TryReceiveRequest(Any)",
            "TryReceiveRequest(Outbound)",
            "Listen",
            "Stop(Now)",
            "Stop(At",
            "Stop(Before",
            "ReadHeader",
            "Tx",
            "Rx",
            "Off",
        ],
    ),
    ("task", &TASKS),
    ("at once:", &TASKS),
    ("unfit at once:", &TASKS),
    ("untold:", &["Stop(Now)", "Stop(Before"]),
    (
        "call",
        &[
            "Arrive(Request",
            "Withdraw",
            "Request",
            "None",
            "FrameStart",
            "OutboundSeen",
            "Stopped(FrameStarted)",
            "Stopped(RxWindowEnded",
            "Stopped(Failed)",
            "Header",
            "Entered",
            "Fallback",
            "Rollback",
        ],
    ),
    (
        "answer",
        &[
            "Sent",
            "Nack",
            "Error(Scheduling",
            "Error(Task)",
            "Received(Frame",
            "Received(RxWindowEnded)",
            "Received(CrcError",
        ],
    ),
    ("refusal", &["5", "6", "7", "8", "9", "12", "13"]),
];

const TASKS: [&str; 8] = [
    "Listen",
    "Stop(Now)",
    "Stop(At",
    "Stop(Before",
    "ReadHeader",
    "Tx",
    "Rx",
    "Off",
];

#[test]
fn random_runs() {
    let common = Shared::default();
    let mut seeds = Rng::new(seed(15));
    for _ in 0..rounds(RUNS) {
        run(seeds.number(), common.clone());
    }
    let met = &common.borrow().met;
    for (kind, names) in EVERY {
        for name in names {
            let times = met.get(&format!("{kind} {name}"));
            let often = times.is_some_and(|times| *times >= 20);
            assert!(often || divisor().is_some(), "{kind} {name}: {times:?}");
        }
    }
    assert!(met.contains_key("answers Two(Answer") || divisor().is_some());
    let of = |kind: &str| -> u64 {
        met.iter()
            .filter(|(name, _)| name.starts_with(kind))
            .map(|(_, times)| times)
            .sum()
    };
    let (calls, refused, answers) = (of("call "), of("refusal "), of("answer "));
    println!("station: {calls} calls accepted, {refused} refused, {answers} answers");
}

// ---- A host that is always wrong

/// A radio that never has an outcome.
struct Silent;

impl Radio for Silent {
    fn begin(&mut self, _: RadioTask, _: &mut dyn Buffers) -> Option<RadioEvent> {
        None
    }
}

/// So many requests for the ACK buffer, each with a token of its own, and then right ones.
struct Wrong {
    asked: u32,
    wrong: u32,
}

impl Host for Wrong {
    fn next_request(&mut self, _: &mut HostView) -> Option<Request> {
        self.asked += 1;
        assert!(self.asked < 1000, "it is asked without end");
        Some(Request {
            token: self.asked,
            start: Timestamp::BestEffort,
            buffer: if self.asked <= self.wrong { ACK } else { 2 },
            task: Task::Rx,
        })
    }

    fn answered(&mut self, answer: Answer, _: &HostView) {
        panic!("{answer:?} of nothing");
    }

    fn refused(&mut self, request: Request, refusal: Refusal) {
        assert_eq!((refusal, request.token), (Refusal::BufferHeld, self.asked));
    }
}

// It is asked so often in one turn and no more, and in the next turn again. With 31 wrong requests, one for each other buffer that a
// pool can have, the right one behind them arrives in the same turn, and the radio begins it.
#[test]
fn a_host_that_is_always_wrong_is_left() {
    let start = |wrong| {
        Station::start(
            SETTINGS,
            Box::leak(Box::<Pool<BUFFERS>>::default()),
            Silent,
            Wrong { asked: 0, wrong },
        )
    };
    let mut station = start(u32::MAX).expect("the settings are in range");
    for turns in 1..=3 {
        assert_eq!(station.host_has_more(), Ok(()));
        assert_eq!((station.host().asked, station.action()), (32 * turns, Action::ReceiveRequest));
    }
    let mut station = start(31).expect("the settings are in range");
    assert_eq!(station.host_has_more(), Ok(()));
    assert!(matches!(station.action(), Action::Rx { buffer: 2, .. }));
}

// ---- Parts that are lent, taken back and lent again

type Notes = Rc<RefCell<Vec<&'static str>>>;

/// A radio and a host that note which of their methods are called.
struct Noting(Notes);

impl Radio for Noting {
    fn begin(&mut self, _: RadioTask, _: &mut dyn Buffers) -> Option<RadioEvent> {
        self.0.borrow_mut().push("begin");
        None
    }
}

struct NotingHost(Notes, Vec<Request>);

impl Host for NotingHost {
    fn next_request(&mut self, _: &mut HostView) -> Option<Request> {
        self.0.borrow_mut().push("next_request");
        self.1.pop()
    }

    fn answered(&mut self, _: Answer, _: &HostView) {
        self.0.borrow_mut().push("answered");
    }

    fn refused(&mut self, _: Request, _: Refusal) {
        self.0.borrow_mut().push("refused");
    }

    fn made(&mut self, _: &Call, _: &Result<Reply, Error>, _: &HostView) {
        self.0.borrow_mut().push("made");
    }
}

/// A request for the ACK buffer, one for another, and a radio that cannot send: on this pool, which is given back.
fn noted<R: Radio, H: Host>(pool: &'static mut Pool<BUFFERS>, radio: R, host: H) -> &'static mut Pool<BUFFERS> {
    let mut station = Station::start(SETTINGS, pool, radio, host).expect("the settings are in range");
    assert_eq!(station.host_has_more(), Ok(()));
    let (result, cause) = (TaskResult::Off, Cause::Task);
    assert_eq!(station.told(RadioEvent::Fallback { result, cause }), Ok(()));
    assert_eq!(station.action(), Action::ReceiveRequest);
    station.into_parts().0.into_pool()
}

// What a station calls of a lent radio and host, by their types or as trait objects, are their own methods, each as often as those of
// parts that it owns.
#[test]
fn lent_parts_are_called_themselves() {
    let notes = Notes::default();
    let request = |buffer| Request {
        token: 1,
        start: Timestamp::BestEffort,
        buffer,
        task: Task::Tx { length: 3, cca: false },
    };
    let requests = || vec![request(2), request(ACK)];
    let (mut radio, mut host) = (Noting(notes.clone()), NotingHost(notes.clone(), requests()));
    let mut pool = Box::leak(Box::<Pool<BUFFERS>>::default());
    let expected = [
        "next_request",
        "made",
        "refused",
        "next_request",
        "made",
        "next_request",
        "made",
        "begin",
        "next_request",
        "made",
        "answered",
        "next_request",
    ];
    pool = noted(pool, &mut radio, &mut host);
    assert_eq!(notes.take(), expected);
    host.1 = requests();
    pool = noted(pool, &mut radio as &mut dyn Radio, &mut host as &mut dyn Host);
    assert_eq!(notes.take(), expected);
    host.1 = requests();
    noted(pool, radio, host);
    assert_eq!(notes.take(), expected);
}

// ---- Async code

type Mailbox = Rc<Cell<Option<RadioEvent>>>;

/// The same radio, whose outcomes come by a mailbox with one place.
struct Posting {
    radio: TestRadio,
    mailbox: Mailbox,
}

impl Radio for Posting {
    fn begin(&mut self, task: RadioTask, buffers: &mut dyn Buffers) -> Option<RadioEvent> {
        let untold = self.mailbox.take();
        let dropped = untold == Some(RadioEvent::FrameStart) && matches!(task, RadioTask::Stop(_));
        assert!(untold.is_none() || dropped, "{untold:?} was not told before {task:?}");
        if dropped {
            self.radio.common.borrow_mut().meet("dropped", &RadioEvent::FrameStart);
        }
        let at_once = self.radio.begin(task, buffers);
        self.mailbox.set(at_once.or_else(|| Some(self.radio.outcome(buffers))));
        None
    }
}

enum Woken {
    Event(RadioEvent),
    HostHasMore,
    Over,
}

/// As the documentation of `Station` has it, with the host's queue.
async fn follow<W: Future<Output = Woken>>(
    station: &mut Station<DriverService<'static, BUFFERS>, Posting, TestHost>,
    mut woken: impl FnMut() -> W,
) -> Result<(), Error> {
    loop {
        match woken().await {
            Woken::Event(event) => station.told(event)?,
            Woken::HostHasMore => station.host_has_more()?,
            Woken::Over => return Ok(()),
        }
    }
}

struct Nobody;

impl Wake for Nobody {
    fn wake(self: Arc<Self>) {}
}

/// What `follow` is woken by: the radio's mailbox, or its host, which has so many times something new. Pending while there is neither.
fn wake(rng: &mut Rng, left: &mut u32, mailbox: &Mailbox, common: &Shared) -> Poll<Woken> {
    if *left > 0 && rng.chance(30) {
        *left -= 1;
        common.borrow_mut().wants += rng.below(3);
        return Poll::Ready(Woken::HostHasMore);
    }
    match mailbox.take() {
        Some(event) => Poll::Ready(Woken::Event(event)),
        None if *left > 0 => Poll::Pending,
        None if common.borrow().wants > 0 => Poll::Ready(Woken::HostHasMore),
        None => Poll::Ready(Woken::Over),
    }
}

fn async_run(seed: u64, common: &Shared) {
    let mailbox = Mailbox::default();
    let (radio, host) = parts(seed, common.clone());
    let radio = Posting {
        radio: TestRadio {
            unfit_at_once: 0,
            ..radio
        },
        mailbox: mailbox.clone(),
    };
    let (service, first) = service();
    let mut station = Station::new(service, first.action, radio, host);
    let next = RefCell::new((Rng::new(!seed), 200));
    let mut times = 0..100_000;
    let woken = || {
        assert!(times.next().is_some(), "it does not come to its end");
        poll_fn(|_| {
            let (rng, left) = &mut *next.borrow_mut();
            wake(rng, left, &mailbox, common)
        })
    };
    assert_eq!(polled(follow(&mut station, woken)), Ok(()));
    assert_eq!(station.service().wait(), Some(Wait::Asking(Asked::Idle)));
    assert!(station.service().waiting().next().is_none() && station.host().open.is_empty());
    assert_eq!(station.host().free.len(), BUFFERS - 2);
}

/// What the future gives, polled until it is ready.
fn polled<T>(future: impl Future<Output = T>) -> T {
    let (mut future, waker) = (pin!(future), Waker::from(Arc::new(Nobody)));
    for _ in 0..100_000 {
        if let Poll::Ready(output) = future.as_mut().poll(&mut Context::from_waker(&waker)) {
            return output;
        }
    }
    panic!("it does not come to its end");
}

// Whatever comes first is told; in the end nothing is left to tell, and every request is answered.
#[test]
fn async_runs() {
    let common = Shared::default();
    let mut seeds = Rng::new(seed(28));
    for _ in 0..rounds(200) {
        async_run(seeds.number(), &common);
    }
    let met = &common.borrow().met;
    let of = |what: &str| met.get(what).copied().unwrap_or(0);
    assert!(of("dropped FrameStart") >= 20 || divisor().is_some());
    println!(
        "station: {} requests arrived in async code, {} frames were received",
        of("call Arrive(Request"),
        of("answer Received(Frame")
    );
}
