//! A station: the proved driver service, a simulated radio that does what the driver says, and a small host. Between them is the
//! host crate's loop, `widosha::Station`.
use crate::air::Who;
use crate::driver::{Driver, BUFFERS};
use crate::model::Model;
use crate::radio::SimulatedRadio;
use std::collections::{BTreeMap, VecDeque};
use widosha::*;

/// One weighing. A repeated frame keeps its number.
#[derive(Clone, Copy, Debug, PartialEq, Eq)]
pub struct Weighing {
    pub container: &'static str,
    pub kilograms: u32,
    pub number: u8,
}

/// What the plan has of a container: its mass, and the cell that the hub says weighed it.
#[derive(Clone, Copy, Debug, PartialEq, Eq)]
pub struct Weighed {
    pub kilograms: u32,
    pub by: Sender,
}

/// Who sent a frame, as its header says: a PAN and an address.
#[derive(Clone, Copy, Debug, PartialEq, Eq)]
pub struct Sender {
    pub pan: u16,
    pub address: Address,
}

/// What a broadcast told a station: the time of day in tenths of a second. Beside it what the frame's header says, and when the
/// frame had arrived, counted from the scene's beginning.
#[derive(Clone, Copy, Debug, PartialEq, Eq)]
pub struct Told {
    pub who: Who,
    pub tenths: u32,
    pub info: PreliminaryFrameInfo,
    pub arrived: u64,
}

/// How well a received frame was heard: by whom, who had sent it, and its link quality.
#[derive(Clone, Copy, Debug, PartialEq, Eq)]
pub struct Link {
    pub to: Who,
    pub from: Sender,
    pub quality: u8,
}

/// By the container's name.
pub type Plan = BTreeMap<String, Weighed>;

/// What the host wants of the driver.
#[derive(Clone, Copy, Debug, PartialEq, Eq)]
pub enum Wanted {
    Send(Weighing),
    /// The same at this time, which the hub keeps free for it: no channel check.
    SendAt(Weighing, u64),
    /// To send this sequence number and this charge of the battery, in percent. No ACK is wanted.
    Report(u8, u8),
    Receive,
}

impl Wanted {
    /// What is to be sent and acknowledged.
    fn weighing(self) -> Option<Weighing> {
        match self {
            Wanted::Send(weighing) | Wanted::SendAt(weighing, _) => Some(weighing),
            Wanted::Report(..) | Wanted::Receive => None,
        }
    }
}

/// What a station heard while its last weighing was not acknowledged yet, for the second evaluation.
pub struct Heard {
    pub weighing: Weighing,
    /// Whether it came in that weighing's own ACK wait.
    pub in_ack_wait: bool,
    /// Whether the plan had the weighing by then.
    pub in_plan: bool,
    pub bytes: Vec<u8>,
}

/// One call that was made, for whoever tells the story.
pub struct Made {
    pub call: Call,
    /// What the request wants that arrives, leaves or is withdrawn.
    pub concerns: Option<Wanted>,
    /// The waits before and after it.
    pub found: Option<Wait>,
    pub wait: Option<Wait>,
    /// What waits after it, in the order of arrival.
    pub line: Vec<Wanted>,
    pub result: Result<Reply, Error>,
}

/// What a station's host has to tell of, in the order in which it happened.
pub enum Entry {
    Made(Made),
    /// What was wanted, its answer, and the frame that stood in the answer's buffer.
    Answered(Wanted, Answer, Option<Vec<u8>>),
}

pub struct Station {
    pub who: Who,
    station: widosha::Station<Driver, SimulatedRadio, CraneHost>,
    pub heard: Vec<Heard>,
}

impl Station {
    /// One with the proved driver service.
    pub fn new(who: Who, pan: u16, address: u16) -> Self {
        let pool = Box::leak(Box::default());
        let (service, first) = DriverService::start(settings(pan, address), pool).expect("the settings are in range");
        Self::with(who, pan, address, Driver::Proved(service), first)
    }

    /// One with this model in its place.
    pub fn of_model(who: Who, pan: u16, address: u16, model: impl FnOnce(Settings) -> (Model, Reply)) -> Self {
        let (model, first) = model(settings(pan, address));
        Self::with(who, pan, address, Driver::Model(Box::new(model)), first)
    }

    fn with(who: Who, pan: u16, address: u16, driver: Driver, first: Reply) -> Self {
        let (radio, host) = (SimulatedRadio::new(), CraneHost::new(who, pan, address));
        Station {
            who,
            station: widosha::Station::new(driver, first.action, radio, host),
            heard: Vec::new(),
        }
    }

    /// The station as its frames name it.
    pub fn as_sender(&self) -> Sender {
        let host = self.host();
        Sender {
            pan: host.pan,
            address: Address::Short(host.address),
        }
    }

    pub fn host(&self) -> &CraneHost {
        self.station.host()
    }

    pub fn driver(&self) -> &Driver {
        self.station.service()
    }

    pub fn radio(&self) -> &SimulatedRadio {
        self.station.radio()
    }

    pub fn radio_mut(&mut self) -> (&mut SimulatedRadio, &mut dyn Buffers) {
        self.station.radio_mut()
    }

    pub fn take_journal(&mut self) -> Vec<Entry> {
        std::mem::take(&mut self.station.host_mut().0.journal)
    }

    /// The radio tells something, which must fit.
    pub fn told(&mut self, event: RadioEvent) {
        self.station.told(event).expect("the radio tells nothing that does not fit");
    }

    /// The host wants something. It arrives in the line at once, or is kept back while four wait.
    pub fn want(&mut self, wanted: Wanted) {
        let (host, mut view) = self.station.host_mut();
        if !host.kept_back.is_empty() {
            return host.kept_back.push_back(wanted);
        }
        let request = host.request(wanted, &mut view);
        if let Err(error) = self.station.arrive(request) {
            assert_eq!(error, Error::Refused(Refusal::LineFull), "nothing else is wrong with it");
            let host = self.station.host_mut().0;
            host.close(request.token, request.buffer);
            host.kept_back.push_back(wanted);
        }
    }

    /// Takes back what waits in the line. It is not answered, its buffer is free again, and what was kept back has room.
    pub fn withdraw(&mut self, wanted: Wanted) {
        let place = self.host().open.iter().position(|(_, each)| *each == wanted);
        let (token, _) = self.host().open[place.expect("it has arrived")];
        let request = self.station.withdraw(token).expect("what waits can be withdrawn");
        self.station.host_mut().0.close(token, request.buffer);
        self.station
            .host_has_more()
            .expect("the loop makes no call that does not fit");
    }

    /// Notes what arrived whole, if a weighing is still without its ACK.
    pub fn overhear(&mut self, bytes: &[u8], plan: &Plan) {
        let in_ack_wait = matches!(
            self.driver().wait(),
            Some(Wait::Entering(Transition::Request(Left::ReceivingAck, _)))
        );
        if let Some(weighing) = self.host().unacknowledged {
            let bytes = bytes.to_vec();
            self.heard.push(Heard {
                weighing,
                in_ack_wait,
                in_plan: plan.contains_key(weighing.container),
                bytes,
            });
        }
    }
}

pub const ACK_BUFFER: u8 = 0;

fn settings(pan: u16, address: u16) -> Settings {
    Settings {
        headroom: 2,
        tailroom: 0,
        fcs_length: FcsLength::Two,
        hardware_addr: 0x0200_0000_0000_0000 | u64::from(address),
        pan_id: pan,
        implicit_broadcast: false,
        ack_buffer: ACK_BUFFER,
        spare_buffer: 1,
    }
}

/// The host of a cell or a hub. A hub receives always.
pub struct CraneHost {
    hub: bool,
    pan: u16,
    address: u16,
    /// What it wants that found no place in the line yet.
    kept_back: VecDeque<Wanted>,
    /// What has arrived and is neither answered nor withdrawn, by token.
    pub open: Vec<(u32, Wanted)>,
    free: Vec<u8>,
    tokens: u32,
    journal: Vec<Entry>,
    /// The wait and what waited after the last call.
    wait: Option<Wait>,
    line: Vec<u32>,
    /// The weighing that has left the line and is next on the air, and the last one that was, until it is acknowledged.
    next: Option<Weighing>,
    pub unacknowledged: Option<Weighing>,
}

impl Host for CraneHost {
    /// What was kept back arrives as soon as there is room.
    fn next_request(&mut self, view: &mut HostView) -> Option<Request> {
        let wanted = self.kept_back.pop_front()?;
        Some(self.request(wanted, view))
    }

    fn answered(&mut self, answer: Answer, view: &HostView) {
        let wanted = self.close(answer.token, answer.buffer);
        if matches!(answer.response, Response::Sent { .. }) {
            let sent = wanted.weighing();
            self.unacknowledged = self.unacknowledged.filter(|last| Some(*last) != sent);
        }
        let frame = view.received(&answer).map(|received| received.frame.to_vec());
        self.journal.push(Entry::Answered(wanted, answer, frame));
        if wanted == Wanted::Receive && self.hub {
            self.kept_back.push_back(Wanted::Receive);
        }
    }

    fn refused(&mut self, request: Request, refusal: Refusal) {
        panic!("nothing is wrong with {request:?}: {refusal}");
    }

    /// Notes the call and what came of it.
    fn made(&mut self, call: &Call, result: &Result<Reply, Error>, view: &HostView) {
        let waits: Vec<u32> = view.waiting().iter().flatten().map(|request| request.token).collect();
        let waited = std::mem::replace(&mut self.line, waits.clone());
        let token = match call {
            Call::Arrive(request) => Some(request.token),
            Call::Withdraw { token } => Some(*token),
            _ => waited.into_iter().find(|token| !waits.contains(token)),
        };
        let concerns = token.map(|token| self.wanted_of(token));
        match (call, concerns.and_then(|wanted| wanted.weighing())) {
            (Call::Request, Some(weighing)) => self.next = Some(weighing),
            (Call::Entered { .. } | Call::Fallback { .. }, _) => self.unacknowledged = self.next.take().or(self.unacknowledged),
            _ => {}
        }
        let wait = view.wait();
        self.journal.push(Entry::Made(Made {
            call: *call,
            concerns,
            found: std::mem::replace(&mut self.wait, wait),
            wait,
            line: waits.into_iter().map(|token| self.wanted_of(token)).collect(),
            result: *result,
        }));
    }
}

impl CraneHost {
    fn new(who: Who, pan: u16, address: u16) -> Self {
        CraneHost {
            hub: matches!(who, Who::HubA | Who::HubB),
            pan,
            address,
            kept_back: VecDeque::new(),
            open: Vec::new(),
            free: (2..BUFFERS as u8).rev().collect(),
            tokens: 0,
            journal: Vec::new(),
            wait: Some(Wait::Asking(Asked::Idle)),
            line: Vec::new(),
            next: None,
            unacknowledged: None,
        }
    }

    /// Data for the hub: control, number, PAN, hub, cell (one PAN, short addresses), and this content.
    fn frame_to_hub(&self, control: u16, number: u8, content: &[u8]) -> Vec<u8> {
        let mut frame = control.to_le_bytes().to_vec();
        frame.push(number);
        for part in [self.pan, self.address & 0xff00, self.address] {
            frame.extend(part.to_le_bytes());
        }
        frame.extend(content);
        frame
    }

    /// Control 8861 wants an ACK; the content is container and mass.
    fn frame_of(&self, weighing: &Weighing) -> Vec<u8> {
        let mut content = weighing.container.as_bytes().to_vec();
        content.extend(weighing.kilograms.to_le_bytes());
        self.frame_to_hub(0x8861, weighing.number, &content)
    }

    /// The request for what is wanted, with a free buffer, and with its frame in it if it is to be sent.
    fn request(&mut self, wanted: Wanted, view: &mut HostView) -> Request {
        let buffer = self
            .free
            .pop()
            .expect("there are enough buffers for all that wait or are worked on");
        let (start, task) = self.task_of(&wanted, buffer, view);
        self.tokens += 1;
        let token = self.tokens;
        self.open.push((token, wanted));
        Request {
            token,
            start,
            buffer,
            task,
        }
    }

    /// When it is to start and what is to be done. The frame of a Tx is written into the buffer.
    fn task_of(&self, wanted: &Wanted, buffer: u8, view: &mut HostView) -> (Timestamp, Task) {
        let (start, cca, frame) = match wanted {
            Wanted::Send(weighing) => (Timestamp::BestEffort, true, self.frame_of(weighing)),
            Wanted::SendAt(weighing, time) => (
                Timestamp::Scheduled(LocalClockInstant::from_nanos(*time)),
                false,
                self.frame_of(weighing),
            ),
            Wanted::Report(number, charge) => (Timestamp::BestEffort, true, self.frame_to_hub(0x8841, *number, &[*charge])),
            Wanted::Receive => return (Timestamp::BestEffort, Task::Rx),
        };
        let length = view.put_frame(buffer, &frame).expect("a free buffer holds the frame");
        (start, Task::Tx { length, cca })
    }

    /// Strikes out a request that is answered, withdrawn or found no room, and takes the buffer back that is free by that.
    fn close(&mut self, token: u32, buffer: u8) -> Wanted {
        let place = self.open.iter().position(|(each, _)| *each == token);
        self.free.push(buffer);
        self.open
            .remove(place.expect("each answer goes to a request that has arrived"))
            .1
    }

    fn wanted_of(&self, token: u32) -> Wanted {
        let mut open = self.open.iter();
        open.find(|(each, _)| *each == token).expect("no other token was given").1
    }
}
