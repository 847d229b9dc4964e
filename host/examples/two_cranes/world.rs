//! Time, the stations and what happens to them: when the radios have done what they were told, and what came of it.
use crate::air::{Air, Flying, Who, BEFORE_BYTES, BYTE, MICROSECOND};
use crate::output::line;
use crate::radio::Phase;
use crate::station::{Entry, Link, Made, Plan, Sender, Station, Told, Wanted, Weighed, Weighing};
use crate::words;
use std::collections::BTreeMap;
use widosha::*;

/// Turning a radio from off to sending or receiving, and 12 symbols of spacing.
pub const TURNAROUND: u64 = 192 * MICROSECOND;
/// A host sends again after this time.
const BACK_OFF: u64 = 4_000 * MICROSECOND;
/// Control, number, PAN and two short addresses: the header of a weighing.
const HEADER: u16 = 9;

pub enum Event {
    /// A host wants something.
    Want(Who, Wanted),
    /// A host takes back what waits.
    Withdraw(Who, Wanted),
    /// A device of another make sends.
    Send(Who, Vec<u8>),
    /// A frame begins to be heard.
    Begins(usize),
    /// The radio has done what it was told, unless it was told something else since.
    Due(usize, RadioTask),
}

/// Which calls are printed, until a weighing is sent again.
#[derive(Clone, Copy, PartialEq, Eq)]
pub enum Show {
    Nothing,
    AllCallsOf(Who),
    CallsOfAckWait(Who),
}

/// What of a world is printed.
#[derive(Clone, Copy, PartialEq, Eq)]
pub enum Tells {
    Nothing,
    /// Frames, answers and what the hosts make of them.
    Story,
    /// The calls that a scene shows, too.
    StoryAndCalls,
}

pub struct World {
    now: u64,
    since: u64,
    order: u64,
    events: BTreeMap<(u64, u64), Event>,
    pub air: Air,
    pub stations: Vec<Station>,
    pub plan: Plan,
    pub answers: Vec<(Who, &'static str, Response)>,
    pub told: Vec<Told>,
    pub links: Vec<Link>,
    /// What the hubs know of batteries.
    pub charges: Vec<(Sender, u8)>,
    /// Every call that was made, with its station.
    pub calls: Vec<(Who, Made)>,
    pub show: Show,
    pub tells: Tells,
}

impl World {
    pub fn new(stations: Vec<Station>, tells: Tells) -> Self {
        World {
            now: 0,
            since: 0,
            order: 0,
            events: BTreeMap::new(),
            air: Air::default(),
            stations,
            plan: Plan::new(),
            answers: Vec::new(),
            told: Vec::new(),
            links: Vec::new(),
            charges: Vec::new(),
            calls: Vec::new(),
            show: Show::Nothing,
            tells,
        }
    }

    /// Begins the scene of this number, at the second of this number; its times are counted from there.
    pub fn scene(&mut self, number: u64, show: Show) {
        self.since = number * 1_000_000_000;
        assert!(self.now <= self.since, "the scene before has ended");
        self.now = self.since;
        self.show = show;
    }

    /// Something is to happen so many microseconds into the scene.
    pub fn plan_event(&mut self, microseconds: u64, event: Event) {
        self.put(self.at(microseconds), event);
    }

    /// The time so many microseconds into the scene.
    pub fn at(&self, microseconds: u64) -> u64 {
        self.since + microseconds * MICROSECOND
    }

    fn put(&mut self, time: u64, event: Event) {
        self.order += 1;
        self.events.insert((time, self.order), event);
    }

    pub fn run(&mut self) {
        while let Some(((time, _), event)) = self.events.pop_first() {
            self.now = time;
            assert!(time - self.since < 100_000 * MICROSECOND, "a scene comes to its end");
            match event {
                Event::Want(who, wanted) => self.wanted(who, wanted),
                Event::Withdraw(who, wanted) => self.withdrawn(who, wanted),
                Event::Send(who, bytes) => {
                    self.transmit(who, bytes);
                }
                Event::Begins(id) => (0..self.stations.len()).for_each(|i| self.frame_begins(i, id)),
                Event::Due(i, task) => self.due(i, task),
            }
        }
    }

    pub fn say(&self, who: &str, text: &str) {
        if self.tells != Tells::Nothing {
            line!("{:>6}  {who:<9} {text}", (self.now - self.since) / MICROSECOND);
        }
    }

    fn station(&self, who: Who) -> usize {
        let mut stations = self.stations.iter();
        stations
            .position(|station| station.who == who)
            .expect("only stations have a host")
    }

    fn wanted(&mut self, who: Who, wanted: Wanted) {
        let i = self.station(who);
        if matches!(wanted, Wanted::Send(weighing) if self.stations[i].host().unacknowledged == Some(weighing)) {
            self.show = Show::Nothing;
        }
        self.stations[i].want(wanted);
        self.settle(i);
    }

    fn withdrawn(&mut self, who: Who, wanted: Wanted) {
        let i = self.station(who);
        self.stations[i].withdraw(wanted);
        self.settle(i);
    }

    fn transmit(&mut self, from: Who, bytes: Vec<u8>) -> u64 {
        self.say(from.name(), &format!("=> {}", words::hex(&bytes)));
        let (id, left) = self.air.send(from, self.now, bytes);
        self.put(self.air.frames[id].begin, Event::Begins(id));
        left
    }

    // ---- The radios

    /// The radio tells something, which must fit. The loop makes all calls that follow from it.
    fn tell(&mut self, i: usize, event: RadioEvent) {
        self.stations[i].told(event);
        self.settle(i);
    }

    /// After the calls: what the host has to tell of them, and when the radio's new task is due.
    fn settle(&mut self, i: usize) {
        for entry in self.stations[i].take_journal() {
            match entry {
                Entry::Made(made) => self.made(i, made),
                Entry::Answered(wanted, answer, frame) => self.answered(i, wanted, answer, frame),
            }
        }
        if let Some(task) = self.stations[i].radio_mut().0.take_begun() {
            self.begin(i, task);
        }
    }

    /// Prints a call that is to be shown.
    fn made(&mut self, i: usize, made: Made) {
        let who = self.stations[i].who;
        let ack_wait = matches!(made.found, Some(Wait::Entering(Transition::AckWait) | Wait::Stopping(_)))
            || matches!(made.found, Some(Wait::Asking(Asked::ReceivingAck | Asked::AfterAckWindow)))
            || matches!(made.found, Some(Wait::Entering(Transition::Request(Left::ReceivingAck, _))));
        let shown = self.show == Show::AllCallsOf(who) || self.show == Show::CallsOfAckWait(who) && ack_wait;
        // None is then the call that is shown.
        if self.tells == Tells::StoryAndCalls && shown && made.result != Err(Error::Refused(Refusal::NotAllowed)) {
            self.say(who.name(), &words::made(&made, self.since));
        }
        self.calls.push((who, made));
    }

    /// When the radio's task is due.
    fn begin(&mut self, i: usize, task: RadioTask) {
        match task {
            RadioTask::Stop(StopListening::At(time)) => self.put(time.as_nanos(), Event::Due(i, task)),
            RadioTask::ReadHeader => {
                let (_, arrived, begin) = self.receiving(i);
                let time = begin + BEFORE_BYTES + BYTE * u64::from(arrived);
                self.put(time, Event::Due(i, task));
            }
            RadioTask::Tx { .. } | RadioTask::Rx { .. } | RadioTask::Off { .. } => self.schedule(i, task),
            // A frame has to come; other stops the radio does at once.
            RadioTask::Listen | RadioTask::Stop(_) => {}
        }
    }

    /// The frame that a station receives: its place, how much of it the radio lets arrive before it reports the header (to where the
    /// address fields end, or all of it), and when it began.
    fn receiving(&self, i: usize) -> (usize, u16, u64) {
        let Phase::Receiving(id) = self.stations[i].radio().phase else {
            panic!("a header is read only while a frame is received");
        };
        let frame = &self.air.frames[id];
        let end = PreliminaryFrameInfo::of(&frame.bytes).addressing_end;
        (id, end.map_or(frame.length(), u16::from), frame.begin)
    }

    /// The radio leaves its present task when that has ended, and enters the next one after the spacing, or at its time.
    fn schedule(&mut self, i: usize, task: RadioTask) {
        let (spacing, rollback) = match task {
            RadioTask::Tx { spacing, rollback, .. } | RadioTask::Rx { spacing, rollback, .. } => (spacing, rollback),
            _ => (Spacing::None, matches!(task, RadioTask::Off { rollback: true })),
        };
        let pause = match spacing {
            Spacing::None => 0,
            Spacing::After(Ifs::Aifs | Ifs::Sifs) => 192 * MICROSECOND,
            Spacing::After(Ifs::Lifs) => 640 * MICROSECOND,
        };
        let earliest = match self.stations[i].radio().phase {
            Phase::Off => self.now + TURNAROUND,
            Phase::Sending { end, .. } => end + pause,
            Phase::Receiving(id) if rollback && self.air.spoiled(id, self.stations[i].who) => self.air.frames[id].end,
            Phase::Receiving(id) => self.air.frames[id].end + pause,
            Phase::Listening => panic!("the driver stops listening before it goes on"),
        };
        let time = match task {
            RadioTask::Tx {
                start: Timestamp::Scheduled(time),
                ..
            }
            | RadioTask::Rx {
                start: Timestamp::Scheduled(time),
                ..
            } => time.as_nanos(),
            _ => earliest,
        };
        assert!(earliest <= time, "the times that the hub keeps free can be kept");
        self.put(time, Event::Due(i, task));
    }

    fn due(&mut self, i: usize, task: RadioTask) {
        if self.stations[i].radio().task != Some(task) {
            return;
        }
        match task {
            RadioTask::Stop(_) => self.stop(i),
            RadioTask::ReadHeader => {
                let (id, arrived, _) = self.receiving(i);
                let length = self.air.frames[id].length_with_checksum();
                self.write(i, id, arrived);
                self.tell(i, RadioEvent::Header { arrived, length });
                let rearm = self.stations[i].driver().wait() == Some(Wait::Entering(Transition::Rearm));
                if rearm && self.stations[i].who == Who::HubA && arrived == HEADER {
                    self.say("hub A", "hears crane B's frame: not for us, listens on");
                }
            }
            RadioTask::Tx { rollback, .. } | RadioTask::Rx { rollback, .. } | RadioTask::Off { rollback } => {
                self.enter(i, task, rollback);
            }
            RadioTask::Listen => panic!("nothing else is ever due"),
        }
    }

    fn stop(&mut self, i: usize) {
        let event = self.stations[i].radio_mut().0.stop();
        self.tell(i, event);
    }

    /// The radio writes the bytes that have arrived into the buffer it was given.
    fn write(&mut self, i: usize, id: usize, arrived: u16) {
        let bytes = &self.air.frames[id].bytes[..usize::from(arrived)];
        let (radio, buffers) = self.stations[i].radio_mut();
        let written = buffers.put_frame(radio.listens_in, bytes);
        assert_eq!(
            written,
            Some(arrived),
            "the driver gives the radio a buffer that it may write"
        );
    }

    fn enter(&mut self, i: usize, task: RadioTask, rollback: bool) {
        let result = self.leave(i);
        let who = self.stations[i].who;
        if rollback && matches!(result, TaskResult::Rx(RxResult::CrcError { .. })) {
            self.say(who.name(), "the frame is damaged: no ACK, Rollback, listens on");
            self.stations[i].radio_mut().0.phase = Phase::Listening;
            return self.tell(i, RadioEvent::Rollback);
        }
        let (radio, buffers) = self.stations[i].radio_mut();
        match task {
            RadioTask::Tx { buffer, length, cca, .. } => {
                // The channel is checked when the radio begins to turn to sending.
                if cca && self.air.is_busy(self.now - TURNAROUND, who) {
                    radio.phase = Phase::Off;
                    let cause = Cause::Task;
                    return self.tell(i, RadioEvent::Fallback { result, cause });
                }
                let frame = buffers.frame(buffer).expect("the driver names a buffer that is there");
                let bytes = frame[..usize::from(length)].to_vec();
                let end = self.transmit(who, bytes);
                let begin = self.now;
                self.stations[i].radio_mut().0.phase = Phase::Sending { begin, end };
            }
            RadioTask::Rx { buffer, .. } => {
                radio.listens_in = buffer;
                radio.phase = Phase::Listening;
            }
            _ => radio.phase = Phase::Off,
        }
        let entry = LocalClockInstant::from_nanos(self.now);
        self.tell(i, RadioEvent::Entered { result, entry });
    }

    /// What the present task came to; a received frame is then whole in its buffer.
    fn leave(&mut self, i: usize) -> TaskResult {
        match self.stations[i].radio().phase {
            Phase::Sending { begin, .. } => TaskResult::Sent {
                time: LocalClockInstant::from_nanos(begin),
            },
            Phase::Receiving(id) => {
                let time = LocalClockInstant::from_nanos(self.air.frames[id].end);
                let quality = self.air.quality(id, self.stations[i].who);
                if self.air.spoiled(id, self.stations[i].who) {
                    return TaskResult::Rx(RxResult::CrcError { time, quality });
                }
                let length = self.air.frames[id].length();
                self.write(i, id, length);
                self.stations[i].overhear(&self.air.frames[id].bytes, &self.plan);
                TaskResult::Rx(RxResult::Frame { length, time, quality })
            }
            _ => TaskResult::Off,
        }
    }

    fn frame_begins(&mut self, i: usize, id: usize) {
        let station = &mut self.stations[i];
        if station.radio().phase != Phase::Listening || station.who == self.air.frames[id].from {
            return;
        }
        station.radio_mut().0.phase = Phase::Receiving(id);
        match station.radio().task {
            Some(RadioTask::Listen) => self.tell(i, RadioEvent::FrameStart),
            Some(RadioTask::Stop(_)) => self.stop(i),
            _ => panic!("a radio listens only when it was told to listen or to stop"),
        }
    }

    // ---- The hosts

    /// A cell drops a weighing that was sent, and keeps every other. A hub hands the mass to the plan.
    fn answered(&mut self, i: usize, wanted: Wanted, answer: Answer, frame: Option<Vec<u8>>) {
        let who = self.stations[i].who;
        match wanted {
            Wanted::Send(weighing) | Wanted::SendAt(weighing, _) => self.cell_host(i, weighing, answer.response),
            Wanted::Report(..) => {
                assert!(matches!(answer.response, Response::Sent { .. }), "the report needs no ACK");
                self.say(who.name(), "ANSWER Sent: the report, for which no ACK is wanted.");
            }
            Wanted::Receive => {
                let Some(frame) = frame else { return };
                let (link, message) = self.message(i, &answer, &frame);
                self.links.push(link);
                match message {
                    Message::Weighing(container, weighed) => self.hand_to_plan(&link, container, weighed),
                    Message::Time(tenths, info) => self.tell_time(&link, tenths, info),
                    Message::Report(charge) => self.tell_charge(&link, charge),
                }
            }
        }
    }

    /// How well the frame of a receive answer was heard, and what it says. The answer has the link quality that the air had for
    /// this very frame: it is looked for by the answer's time and the bytes.
    fn message(&self, i: usize, answer: &Answer, frame: &[u8]) -> (Link, Message) {
        let Response::Received(RxResult::Frame { time, quality, .. }) = answer.response else {
            panic!("a frame comes with the answer of a received frame alone");
        };
        let to = self.stations[i].who;
        let is_this = |each: &Flying| each.end == time.as_nanos() && each.bytes == frame;
        let id = self.air.frames.iter().position(is_this).expect("it was on the air");
        assert_eq!(quality, self.air.quality(id, to), "the quality of this very frame");
        let info = PreliminaryFrameInfo::of(frame);
        let from = sender_of(&info);
        (Link { to, from, quality }, read_message(Received { frame, info }))
    }

    fn hand_to_plan(&mut self, link: &Link, container: String, weighed: Weighed) {
        let (mass, cell) = (words::tonnes(weighed.kilograms), words::sender(&weighed.by));
        let quality = words::quality(link.quality);
        let text = format!("to the plan: box {container} is {mass} t, weighed by cell {cell}, {quality}");
        self.say(link.to.name(), &text);
        self.plan.insert(container, weighed);
    }

    fn tell_time(&mut self, link: &Link, tenths: u32, info: PreliminaryFrameInfo) {
        let (time, sender, quality) = (words::clock(tenths), words::sender(&link.from), words::quality(link.quality));
        let text = format!("ANSWER received: it is {time}, says {sender} to everyone, {quality}");
        self.say(link.to.name(), &text);
        let arrived = self.now - self.since;
        self.told.push(Told {
            who: link.to,
            tenths,
            info,
            arrived,
        });
    }

    fn tell_charge(&mut self, link: &Link, charge: u8) {
        let (cell, quality) = (words::sender(&link.from), words::quality(link.quality));
        self.say(
            link.to.name(),
            &format!("the battery of cell {cell} has {charge} %, {quality}"),
        );
        self.charges.push((link.from, charge));
    }

    fn cell_host(&mut self, i: usize, weighing: Weighing, response: Response) {
        let who = self.stations[i].who;
        let container = weighing.container;
        self.answers.push((who, container, response));
        assert_eq!(response.quality(), None, "what was sent has no link quality, nor has its ACK");
        let last = self.stations[i].heard.last().filter(|heard| heard.weighing == weighing);
        let heard = last.map_or("nothing".into(), |heard| words::hex(&heard.bytes));
        let number = weighing.number;
        let words = match response {
            Response::Sent { .. } => format!("ANSWER Sent: {heard} acknowledges {number:x}. Box {container} is done."),
            Response::Nack { .. } => format!("ANSWER Nack: {heard} is no ACK for {number:x}. Box {container} will be sent again."),
            _ => format!("ANSWER error: channel busy. Box {container} will be sent again."),
        };
        self.say(who.name(), &words);
        if !matches!(response, Response::Sent { .. }) {
            self.put(self.now + BACK_OFF, Event::Want(who, Wanted::Send(weighing)));
        }
    }
}

pub fn sender_of(info: &PreliminaryFrameInfo) -> Sender {
    Sender {
        pan: info.src_pan_id.expect("every frame for us here has a PAN for its source"),
        address: info.src_address.expect("a whole frame has its source"),
    }
}

enum Message {
    Weighing(String, Weighed),
    Time(u32, PreliminaryFrameInfo),
    Report(u8),
}

/// What a host reads in a frame: sender and receiver from its header, and from where the address fields end the time, if it is for
/// everyone, the charge of a battery, if that is a single byte, else container and mass.
fn read_message(received: Received) -> Message {
    let payload = received.after_addressing().expect("a whole frame has its address fields");
    let to = received.info.addressing_fields.map(|fields| fields.dst_address);
    if to == Some(Address::Short(0xFFFF)) {
        let tenths = u32::from_le_bytes(payload.try_into().expect("four bytes"));
        return Message::Time(tenths, received.info);
    }
    if let [charge] = payload {
        return Message::Report(*charge);
    }
    let by = sender_of(&received.info);
    let container = String::from_utf8_lossy(&payload[..2]).into_owned();
    let kilograms = u32::from_le_bytes(payload[2..6].try_into().expect("four bytes"));
    Message::Weighing(container, Weighed { kilograms, by })
}
