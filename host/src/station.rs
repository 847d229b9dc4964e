//! The loop between a radio, the service and a host.
use crate::call::{Call, Cause, Request, StopResult, Task, TaskResult, Timestamp};
use crate::error::{Error, Refusal};
use crate::ffi::BUFFER_LENGTH;
use crate::info::Received;
use crate::line::LINE_CAPACITY;
use crate::reply::{Action, Answer, Reply, Spacing, StopListening, TaskDirection};
use crate::service::DriverService;
use crate::settings::{Pool, Settings, FRAME_LENGTH};
use crate::time::LocalClockInstant;
use crate::view::HostView;
use crate::wait::Wait;
use core::ptr::NonNull;

/// What the radio is to do: an action that is the radio's, with the action's fields. Each names the events that can be its outcome.
#[derive(Clone, Copy, Debug, PartialEq, Eq)]
pub enum RadioTask {
    /// To listen on, as it has done since the last Rx was entered: `FrameStart` once a frame starts. This is the one task that another
    /// can follow before it has an outcome: Stop, when the host has something to send. It may be left out altogether: where something
    /// to send waits already, the task after an Rx is Stop.
    Listen,
    /// To stop listening: `Stopped`. Where a frame has started, also before this task was begun, the outcome is that it has; a
    /// `FrameStart` that was not told yet is dropped. After `Failed` the radio listens on; where a Now follows an At that failed, it
    /// does not fit again.
    ///
    /// A stop whose time has passed is not `Failed`: an At has ended its window then, and after a Before it is the Tx that comes to
    /// `Fallback`. As the Tx waits still, a Before or a Now that has failed comes again at once, and again if it always fails.
    Stop(StopListening),
    /// To receive on until the header is there: `Header`, with how many of the frame's bytes stand in the listening buffer by then.
    ///
    /// It is told once, and a frame of which it is told too early is taken for one that is not for us. The header is there when
    /// `PreliminaryFrameInfo::of` the arrived bytes (copied, where the radio goes on writing behind them) has an `addressing_end`.
    /// Once 23 bytes have arrived, or all but the checksum, nothing more is to be waited for.
    ReadHeader,
    /// To send: `Entered` or `Fallback`, once the present task has ended. With `rollback` it is an ACK: `Entered` or `Rollback`. An
    /// ACK for which it has become too late takes `Rollback` too: its frame counts as not received.
    Tx {
        /// The buffer of the frame.
        buffer: u8,
        /// Its length without checksum.
        length: u8,
        /// Whether the channel is checked before.
        cca: bool,
        /// When.
        start: Timestamp,
        /// The spacing before it.
        spacing: Spacing,
        /// Whether the radio goes back to listening if the present frame turns out to be damaged.
        rollback: bool,
    },
    /// To receive: `Entered` once the present task has ended and the radio listens. There is no `Fallback`: where the start has passed,
    /// the radio listens late.
    Rx {
        /// The buffer for the frame.
        buffer: u8,
        /// When.
        start: Timestamp,
        /// The spacing before it.
        spacing: Spacing,
        /// As in Tx.
        rollback: bool,
    },
    /// To go off: `Entered` once the present task has ended; with `rollback` also `Rollback`.
    Off {
        /// As in Tx.
        rollback: bool,
    },
}

/// What an action asks of the host's side. `Station` does it.
#[derive(Clone, Copy, Debug, PartialEq, Eq)]
pub enum HostTask {
    /// `request`, as soon as a request waits in the line.
    WaitForRequest,
    /// `request`; for any direction `none` where that is refused by 9.
    Ask(TaskDirection),
    /// `outbound_seen`, with start and flag of the line's earliest Tx, as soon as one waits.
    LookForOutbound,
}

/// What the radio tells: the outcome of a task. Each is a call of the service, and is told once.
#[derive(Clone, Copy, Debug, PartialEq, Eq)]
pub enum RadioEvent {
    /// A frame starts while the radio listens.
    FrameStart,
    /// What the stop came to.
    Stopped(StopResult),
    /// The beginning of the frame that is being received stands in the listening buffer.
    Header {
        /// How many of its bytes, without those of the checksum.
        arrived: u16,
        /// The frame's length with checksum.
        length: u16,
    },
    /// The radio has entered its task. What it received before stands in the listening buffer.
    Entered {
        /// What the previous task came to.
        result: TaskResult,
        /// The measured time of entry.
        entry: LocalClockInstant,
    },
    /// The radio could not enter it.
    Fallback {
        /// What the previous task came to.
        result: TaskResult,
        /// Why.
        cause: Cause,
    },
    /// The radio went back to listening, as the task allowed.
    Rollback,
}

impl RadioTask {
    /// The radio's part of an action; none where the radio has none.
    pub const fn of(action: Action) -> Option<Self> {
        Some(match action {
            Action::Nothing | Action::ReceiveRequest | Action::TryReceiveRequest(_) => return None,
            Action::Listen => RadioTask::Listen,
            Action::Stop(stop) => RadioTask::Stop(stop),
            Action::ReadHeader => RadioTask::ReadHeader,
            Action::Tx {
                buffer,
                length,
                cca,
                start,
                spacing,
                rollback,
            } => RadioTask::Tx {
                buffer,
                length,
                cca,
                start,
                spacing,
                rollback,
            },
            Action::Rx {
                buffer,
                start,
                spacing,
                rollback,
            } => RadioTask::Rx {
                buffer,
                start,
                spacing,
                rollback,
            },
            Action::Off { rollback } => RadioTask::Off { rollback },
        })
    }
}

impl HostTask {
    /// The host's part of an action; none where the host has none. Listen alone has a part for each.
    pub const fn of(action: Action) -> Option<Self> {
        match action {
            Action::ReceiveRequest => Some(HostTask::WaitForRequest),
            Action::TryReceiveRequest(direction) => Some(HostTask::Ask(direction)),
            Action::Listen => Some(HostTask::LookForOutbound),
            Action::Nothing | Action::Stop(_) | Action::ReadHeader | Action::Tx { .. } | Action::Rx { .. } | Action::Off { .. } => {
                None
            }
        }
    }
}

impl From<RadioEvent> for Call {
    fn from(event: RadioEvent) -> Self {
        match event {
            RadioEvent::FrameStart => Call::FrameStart,
            RadioEvent::Stopped(outcome) => Call::Stopped(outcome),
            RadioEvent::Header { arrived, length } => Call::Header { arrived, length },
            RadioEvent::Entered { result, entry } => Call::Entered { result, entry },
            RadioEvent::Fallback { result, cause } => Call::Fallback { result, cause },
            RadioEvent::Rollback => Call::Rollback,
        }
    }
}

/// The buffers of a service, for a radio: it needs no more of it. Each method is that of `DriverService`. All buffers are there, those
/// too that a radio is writing into by itself, of which no reference is to be made (the crate's documentation, "The pool and the
/// radio"). A host has the free ones (`HostView`).
pub trait Buffers {
    /// A buffer's frame: the 127 bytes after the headroom.
    fn frame(&self, buffer: u8) -> Option<&[u8; FRAME_LENGTH]>;
    /// The same to be written; none for the ACK buffer.
    fn frame_mut(&mut self, buffer: u8) -> Option<&mut [u8; FRAME_LENGTH]>;
    /// Writes these bytes to the beginning of a buffer's frame and gives their number.
    fn put_frame(&mut self, buffer: u8, bytes: &[u8]) -> Option<u16>;
    /// A whole buffer, with headroom and tailroom.
    fn buffer(&self, buffer: u8) -> Option<&[u8; BUFFER_LENGTH]>;
    /// The same to be written; none for the ACK buffer.
    fn buffer_mut(&mut self, buffer: u8) -> Option<&mut [u8; BUFFER_LENGTH]>;
    /// The same for a radio's DMA.
    fn buffer_ptr(&self, buffer: u8) -> Option<NonNull<[u8; BUFFER_LENGTH]>>;
    /// The received frame of an answer with what its header says.
    fn received(&self, answer: &Answer) -> Option<Received<'_>>;
}

/// What the loop needs of a driver service. `DriverService` is the proved one; a test can put a model in its place.
pub trait Service: Buffers {
    /// Makes a call. What is refused changes nothing.
    fn step(&mut self, call: Call) -> Result<Reply, Error>;
    /// What the service waits for, for logs.
    fn wait(&self) -> Option<Wait>;
    /// The requests that wait, the earliest arrival first.
    fn waiting(&self) -> [Option<Request>; LINE_CAPACITY];
    /// Whether a buffer is the service's own, or that of a request that waits or is not answered. A host does not reach it then.
    fn is_held(&self, buffer: u8) -> bool;
}

/// A radio that does what the service says. Its driver is written by whoever ports the service to it; `Station` has an example.
///
/// What a task came to that takes time (a frame is sent or received, or none came) is told with the entry into the next one. So the
/// next task is begun while the present one lasts; the radio enters it when that has ended, after the spacing or at its time, and then
/// tells `Entered` with the present one's result. Which outcomes fit which wait stands in docs/ENGINE.md of the repository.
///
/// Which buffer is the radio's when, and the fences that it owes, stand in the crate's documentation, "The pool and the radio". A frame
/// begins as many bytes into its buffer as the settings' headroom.
pub trait Radio {
    /// Begins a task and returns at once. Where the outcome is there at once too, it is returned. Else it comes later and is given to
    /// `Station::told`: by an interrupt handler, a main loop or an async task.
    fn begin(&mut self, task: RadioTask, buffers: &mut dyn Buffers) -> Option<RadioEvent>;
}

/// The host: it says what is to be sent and received, and takes the answers. The radio's next task may be begun after its methods
/// return, so they are to be short.
pub trait Host {
    /// The next request, if there is one. This is asked as long as the line has room. What a Tx is to send is written into its buffer
    /// before. A buffer that is lent to another request is none here, and the request that names it would be refused by 7.
    fn next_request(&mut self, view: &mut HostView<'_>) -> Option<Request>;

    /// A request is answered, and the answer's buffer is the host's again. A received frame stands in it: `HostView::received`.
    fn answered(&mut self, answer: Answer, view: &HostView<'_>);

    /// A request that `next_request` gave is wrong by itself (refusals 6, 7, 8 and 13) and has not arrived. `next_request` is asked
    /// again, so it should not give the same once more. After 32 refusals in one turn it is asked in the next turn only, so that a
    /// host that is always wrong does not keep an interrupt handler. While the service is idle that turn is `host_has_more`, `arrive`
    /// or none.
    fn refused(&mut self, request: Request, refusal: Refusal);

    /// A call was made, by the radio, the host or the loop, with this result; its answers come after this. For logs.
    fn made(&mut self, call: &Call, result: &Result<Reply, Error>, view: &HostView<'_>) {
        let _ = (call, result, view);
    }
}

impl<R: Radio + ?Sized> Radio for &mut R {
    fn begin(&mut self, task: RadioTask, buffers: &mut dyn Buffers) -> Option<RadioEvent> {
        R::begin(self, task, buffers)
    }
}

impl<H: Host + ?Sized> Host for &mut H {
    fn next_request(&mut self, view: &mut HostView<'_>) -> Option<Request> {
        H::next_request(self, view)
    }

    fn answered(&mut self, answer: Answer, view: &HostView<'_>) {
        H::answered(self, answer, view);
    }

    fn refused(&mut self, request: Request, refusal: Refusal) {
        H::refused(self, request, refusal);
    }

    fn made(&mut self, call: &Call, result: &Result<Reply, Error>, view: &HostView<'_>) {
        H::made(self, call, result, view);
    }
}

/// A service with its radio and its host, and the loop between them.
///
/// The radio tells what its task came to (`told`). The loop makes that call and gives its answers to the host, makes the host's calls
/// that the action asks for (`HostTask`), and has the radio begin its next task. As long as there is room the host's requests arrive:
/// before the host's part of an action, else when the radio has begun. Nothing is awaited here: every method returns when the next step
/// is the radio's or, while the service is idle, the host's.
///
/// A radio and a host, each as short as it can be. What stands in for the chip is that its air acknowledges what it sends:
///
/// ```
/// use widosha::*;
///
/// #[derive(Default)]
/// struct Toy {
///     task: Option<RadioTask>,
///     doing: Doing,
///     clock: u64,
/// }
///
/// #[derive(Clone, Copy, Default)]
/// enum Doing {
///     #[default]
///     Nothing,
///     /// A frame with this number is on the air.
///     Sends(u8),
///     /// Its ACK is to arrive in this buffer.
///     Receives(u8, u8),
/// }
///
/// impl Radio for Toy {
///     // Here registers are written, DMA gets what `buffers.buffer_ptr` gives, and the interrupt is enabled.
///     fn begin(&mut self, task: RadioTask, _: &mut dyn Buffers) -> Option<RadioEvent> {
///         self.task = Some(task);
///         None
///     }
/// }
///
/// impl Toy {
///     // The interrupt: what the task came to. A radio without DMA copies here what has arrived.
///     fn interrupt(&mut self, buffers: &mut dyn Buffers) -> Option<RadioEvent> {
///         self.clock += 352_000;
///         let entry = LocalClockInstant::from_nanos(self.clock);
///         let (result, doing) = match (self.task.take()?, self.doing) {
///             (RadioTask::Stop(_), _) => return Some(RadioEvent::Stopped(StopResult::FrameStarted)),
///             (RadioTask::Tx { buffer, .. }, Doing::Nothing) => {
///                 (TaskResult::Off, Doing::Sends(buffers.frame(buffer)?[2]))
///             }
///             (RadioTask::Rx { buffer, .. }, Doing::Sends(number)) => {
///                 (TaskResult::Sent { time: entry }, Doing::Receives(number, buffer))
///             }
///             (RadioTask::Off { .. }, Doing::Receives(number, buffer)) => {
///                 let length = buffers.put_frame(buffer, &[0x02, 0x00, number])?;
///                 let received = RxResult::Frame { length, time: entry, quality: 200 };
///                 (TaskResult::Rx(received), Doing::Nothing)
///             }
///             _ => return None,
///         };
///         self.doing = doing;
///         Some(RadioEvent::Entered { result, entry })
///     }
/// }
///
/// /// The host of a load cell: what it has to send, and the last answer.
/// struct Cell {
///     weighing: Option<[u8; 12]>,
///     answer: Option<Answer>,
/// }
///
/// impl Host for Cell {
///     fn next_request(&mut self, view: &mut HostView) -> Option<Request> {
///         let length = view.put_frame(2, &self.weighing.take()?)?;
///         let task = Task::Tx { length, cca: true };
///         Some(Request { token: 1, start: Timestamp::BestEffort, buffer: 2, task })
///     }
///
///     fn answered(&mut self, answer: Answer, _: &HostView) {
///         self.answer = Some(answer);
///     }
///
///     fn refused(&mut self, request: Request, refusal: Refusal) {
///         panic!("{request:?} is wrong: {refusal}");
///     }
/// }
///
/// # let settings = Settings {
/// #     headroom: 0,
/// #     tailroom: 0,
/// #     fcs_length: FcsLength::Two,
/// #     hardware_addr: 0x0011_2233_4455_0001,
/// #     pan_id: 0x1234,
/// #     implicit_broadcast: false,
/// #     ack_buffer: 0,
/// #     spare_buffer: 1,
/// # };
/// let weighing = Some([0x61, 0x88, 7, 0x34, 0x12, 0x00, 0x00, 0x01, 0x00, 0xc0, 0x5d, 0x00]);
/// let cell = Cell { weighing, answer: None };
/// let mut pool = Pool::<3>::new();
/// let mut station = Station::start(settings, &mut pool, Toy::default(), cell)?;
/// station.host_has_more()?;
/// loop {
///     let (radio, buffers) = station.radio_mut();
///     let Some(event) = radio.interrupt(buffers) else { break };
///     station.told(event)?;
/// }
/// assert!(matches!(station.host().answer, Some(Answer { token: 1, response: Response::Sent { .. }, .. })));
/// # Ok::<(), Error>(())
/// ```
///
/// # What is the port's, and what the host's
///
/// `told`, `radio_mut`, `service` and `into_parts` are for whoever ports the service to a radio: they reach all buffers, or have the
/// service do what is only right if the radio did so. Where the radio writes by itself, nobody else is given them, nor such a radio
/// for a station of their own. `host_mut`, `host_has_more`, `arrive` and `withdraw` are for the host, which reaches free buffers
/// alone, there and in its own methods.
///
/// A call needs at most 2,114 bytes of stack in the library, beside those of the loop, the radio and the host: docs/BENCHMARKS.md of
/// the repository has that bound, and what each call takes.
///
/// # From interrupts
///
/// The station stands where the interrupt handler and the main loop can reach it, as in a `static` behind a critical section; it can
/// be sent there where radio and host can. The handler does what is done in the loop above, once: it asks the radio for the event and
/// tells it. The main loop gives the host new work and calls `host_has_more`.
///
/// A handler that is to be short puts the event into a mailbox with one place, and the main loop takes it from there and tells it. One
/// place is enough: a task has one outcome, and the next task is begun after that was told. Only a `FrameStart` may still be in the
/// mailbox when a Stop is begun, as the host had something to send meanwhile. `begin` then takes it out, and the stop's outcome is that
/// a frame has started.
///
/// # From async code
///
/// What awaits the radio's interrupt is the wrapper; the station is only called. Where the host's own queue is to be awaited too, both
/// are selected, and the other branch calls `host_has_more`. The future that comes second is dropped, so that of the interrupt
/// takes the event only when it is ready:
///
/// ```
/// use core::future::Future;
/// use widosha::*;
///
/// async fn run<R: Radio, H: Host, E: Future<Output = RadioEvent>>(
///     station: &mut Station<DriverService<'_, 3>, R, H>,
///     mut interrupt: impl FnMut() -> E,
/// ) -> Result<(), Error> {
///     station.host_has_more()?;
///     loop {
///         station.told(interrupt().await)?;
///     }
/// }
/// ```
///
/// # Radios that have the outcome at once
///
/// `Radio::begin` may return it, and must not call the station: the loop goes on with it as if it were told. If it does not fit, the
/// method that was called gives it back as its error; what was done before stands, the event of `told` included, and the radio owes
/// the outcome of its task still. `Host::made` sees which call it was that was refused.
/// As long as a radio has every outcome at once, the method does not return; listening is where a radio has none. While a Tx waits
/// Listen is left out, so a radio whose stop has failed tells that later, and not at once again and again.
#[derive(Debug)]
pub struct Station<S, R, H> {
    service: S,
    radio: R,
    host: H,
    action: Action,
    /// Whether the radio's part of the action is begun.
    begun: bool,
}

/// How many requests of a host may be refused in one turn: as many as a pool can have buffers, so that a host may try each.
const REFUSED_IN_A_TURN: u8 = 32;

impl<'p, const N: usize, R: Radio, H: Host> Station<DriverService<'p, N>, R, H> {
    /// Starts a service on this pool. `host_has_more` then takes the host's first requests.
    pub fn start(settings: Settings, pool: &'p mut Pool<N>, radio: R, host: H) -> Result<Self, Error> {
        let (service, first) = DriverService::start(settings, pool)?;
        Ok(Self::new(service, first.action, radio, host))
    }
}

impl<S: Service, R: Radio, H: Host> Station<S, R, H> {
    /// A service that was started elsewhere, with the action that was its last. `Action::Nothing`, of a call on the line, is none:
    /// with it the station would wait for nobody.
    pub fn new(service: S, action: Action, radio: R, host: H) -> Self {
        Self {
            service,
            radio,
            host,
            action,
            begun: false,
        }
    }

    /// The radio tells what its task came to. Then the host has its turns, until the next step is the radio's: that one is begun.
    ///
    /// An event that is refused is given back as the error, and nothing is changed: the radio owes an outcome of its task still. 5
    /// says that it is none of this task's; 10, that a frame or its arrived bytes have a wrong length (`RxResult`, `Call::Header`),
    /// which depends on what others send, so that a port must have another outcome for it; 11, that an entry is at the end of 64 bits.
    /// Where a radio has outcomes at once, the error may be that of a later one (above), and then this event was accepted.
    pub fn told(&mut self, event: RadioEvent) -> Result<(), Error> {
        self.make(event.into())?;
        self.go_on()
    }

    /// The host has something new, or room for it was made by `withdraw`: the line is filled, and if the service waited for that, the
    /// radio begins what follows.
    pub fn host_has_more(&mut self) -> Result<(), Error> {
        self.go_on()
    }

    /// One request arrives, of a host that does not wait until it is asked. What is refused, also by 12 as four wait, is given back
    /// as the error, and nothing is changed. 6 to 8, 12 and 13 are the arrival's; another refusal is that of an outcome which the
    /// radio had at once, and then the request has arrived.
    pub fn arrive(&mut self, request: Request) -> Result<(), Error> {
        self.make(Call::Arrive(request))?;
        self.go_on()
    }

    /// The waiting request with this token leaves the line. It is given back, is not answered, and its buffer is the host's again. If
    /// none waits, or it can no longer be withdrawn (13), nothing is changed.
    pub fn withdraw(&mut self, token: u32) -> Result<Request, Error> {
        let waiting = self.service.waiting();
        let request = waiting.into_iter().flatten().find(|request| request.token == token);
        self.make(Call::Withdraw { token })?;
        request.ok_or(Error::Refused(Refusal::TokenWaits))
    }

    /// The last action.
    pub fn action(&self) -> Action {
        self.action
    }

    /// The service: its state and line, what it waits for, and all its buffers, the radio's too.
    pub fn service(&self) -> &S {
        &self.service
    }

    /// The radio.
    pub fn radio(&self) -> &R {
        &self.radio
    }

    /// The radio with the buffers, as an interrupt handler needs them where no DMA writes what arrives.
    pub fn radio_mut(&mut self) -> (&mut R, &mut dyn Buffers) {
        (&mut self.radio, &mut self.service)
    }

    /// The host.
    pub fn host(&self) -> &H {
        &self.host
    }

    /// The host with what it reaches of the service, to give it something new.
    pub fn host_mut(&mut self) -> (&mut H, HostView<'_>) {
        (&mut self.host, HostView::new(&mut self.service))
    }

    /// Its three parts, as when the radio is to be reset. Nothing is told, and the radio does what it does: it is stopped before the
    /// pool is taken back (`DriverService::into_pool`). Where service and radio are to go on instead, `new` takes them with the
    /// action that `action` gave before, and the radio begins its part again.
    pub fn into_parts(self) -> (S, R, H) {
        (self.service, self.radio, self.host)
    }

    /// One call, with its answers given to the host. A call on the line has no action, so the last one stands.
    fn make(&mut self, call: Call) -> Result<(), Error> {
        let result = self.service.step(call);
        self.host.made(&call, &result, &HostView::new(&mut self.service));
        let reply = result?;
        if reply.action != Action::Nothing {
            self.action = reply.action;
            self.begun = false;
        }
        for answer in reply.answers {
            self.host.answered(answer, &HostView::new(&mut self.service));
        }
        Ok(())
    }

    /// The host's turns, and the radio's task after them. A radio that has the outcome at once is asked again here, and not from
    /// within itself. Where the action asks the host for nothing, its new requests can wait until the radio has begun.
    fn go_on(&mut self) -> Result<(), Error> {
        loop {
            self.host_turns()?;
            let at_once = match RadioTask::of(self.action) {
                Some(task) if !self.begun => {
                    self.begun = true;
                    self.radio.begin(task, &mut self.service)
                }
                _ => None,
            };
            if HostTask::of(self.action).is_none() {
                self.fill()?;
            }
            match at_once {
                Some(event) => self.make(event.into())?,
                None => return Ok(()),
            }
        }
    }

    /// What the action asks of the host's side, until it asks for no more: two turns at most, as where Idle follows None.
    fn host_turns(&mut self) -> Result<(), Error> {
        while let Some(task) = HostTask::of(self.action) {
            self.fill()?;
            let Some(call) = self.host_call(task) else {
                return Ok(());
            };
            match self.make(call) {
                Err(Error::Refused(Refusal::NotAllowed)) if task == HostTask::Ask(TaskDirection::Any) => self.make(Call::None)?,
                made => made?,
            }
        }
        Ok(())
    }

    /// The call that is the host's part of an action; none while nothing waits that it needs.
    fn host_call(&self, task: HostTask) -> Option<Call> {
        let mut waiting = self.service.waiting().into_iter().flatten();
        match task {
            HostTask::WaitForRequest => waiting.next().map(|_| Call::Request),
            HostTask::Ask(_) => Some(Call::Request),
            HostTask::LookForOutbound => waiting.find_map(|request| match request.task {
                Task::Tx { cca, .. } => Some(Call::OutboundSeen {
                    start: request.start,
                    cca,
                }),
                Task::Rx => None,
            }),
        }
    }

    /// As many requests of the host arrive as there is room for, until it has been wrong too often.
    fn fill(&mut self) -> Result<(), Error> {
        let mut refused = 0;
        while refused < REFUSED_IN_A_TURN && self.service.waiting().contains(&None) {
            let Some(request) = self.host.next_request(&mut HostView::new(&mut self.service)) else {
                return Ok(());
            };
            match self.make(Call::Arrive(request)) {
                Err(Error::Refused(refusal)) => {
                    refused += 1;
                    self.host.refused(request, refusal);
                }
                made => made?,
            }
        }
        Ok(())
    }
}

impl<const N: usize> Buffers for DriverService<'_, N> {
    fn frame(&self, buffer: u8) -> Option<&[u8; FRAME_LENGTH]> {
        DriverService::frame(self, buffer)
    }

    fn frame_mut(&mut self, buffer: u8) -> Option<&mut [u8; FRAME_LENGTH]> {
        DriverService::frame_mut(self, buffer)
    }

    fn put_frame(&mut self, buffer: u8, bytes: &[u8]) -> Option<u16> {
        DriverService::put_frame(self, buffer, bytes)
    }

    fn buffer(&self, buffer: u8) -> Option<&[u8; BUFFER_LENGTH]> {
        DriverService::buffer(self, buffer)
    }

    fn buffer_mut(&mut self, buffer: u8) -> Option<&mut [u8; BUFFER_LENGTH]> {
        DriverService::buffer_mut(self, buffer)
    }

    fn buffer_ptr(&self, buffer: u8) -> Option<NonNull<[u8; BUFFER_LENGTH]>> {
        DriverService::buffer_ptr(self, buffer)
    }

    fn received(&self, answer: &Answer) -> Option<Received<'_>> {
        DriverService::received(self, answer)
    }
}

impl<const N: usize> Service for DriverService<'_, N> {
    fn step(&mut self, call: Call) -> Result<Reply, Error> {
        DriverService::step(self, call)
    }

    fn wait(&self) -> Option<Wait> {
        DriverService::wait(self)
    }

    fn waiting(&self) -> [Option<Request>; LINE_CAPACITY] {
        let mut waiting = DriverService::waiting(self);
        [(); LINE_CAPACITY].map(|()| waiting.next())
    }

    fn is_held(&self, buffer: u8) -> bool {
        DriverService::is_held(self, buffer)
    }
}

#[cfg(test)]
mod tests {
    use super::*;
    use crate::call::RxResult;
    use crate::reply::Ifs;

    const TIME: LocalClockInstant = LocalClockInstant::from_nanos(0x0102_0304);

    // Every action is the host's, the radio's or, Listen, for both; Nothing is nobody's. The radio's has the fields of the action.
    #[test]
    fn each_action_is_somebodys() {
        let of = |action| (HostTask::of(action), RadioTask::of(action));
        assert_eq!(of(Action::Nothing), (None, None));
        assert_eq!(of(Action::ReceiveRequest), (Some(HostTask::WaitForRequest), None));
        for direction in [TaskDirection::Any, TaskDirection::Outbound] {
            assert_eq!(
                of(Action::TryReceiveRequest(direction)),
                (Some(HostTask::Ask(direction)), None)
            );
        }
        assert_eq!(of(Action::Listen), (Some(HostTask::LookForOutbound), Some(RadioTask::Listen)));
        let before = StopListening::Before { start: TIME, cca: true };
        for stop in [StopListening::Now, StopListening::At(TIME), before] {
            assert_eq!(of(Action::Stop(stop)), (None, Some(RadioTask::Stop(stop))));
        }
        assert_eq!(of(Action::ReadHeader), (None, Some(RadioTask::ReadHeader)));
        let (start, spacing) = (Timestamp::Scheduled(TIME), Spacing::After(Ifs::Lifs));
        for (cca, rollback) in [(false, true), (true, false)] {
            let (buffer, length) = (2, 12);
            #[rustfmt::skip]
            let tx = (Action::Tx { buffer, length, cca, start, spacing, rollback }, RadioTask::Tx { buffer, length, cca, start, spacing, rollback });
            #[rustfmt::skip]
            let rx = (Action::Rx { buffer, start, spacing, rollback }, RadioTask::Rx { buffer, start, spacing, rollback });
            let off = (Action::Off { rollback }, RadioTask::Off { rollback });
            for (action, task) in [tx, rx, off] {
                assert_eq!(of(action), (None, Some(task)));
            }
        }
    }

    /// A station goes where its radio and its host can, as into a `static` that an interrupt handler shares.
    const fn can_be_sent<T: Send>() {}
    const _: () = can_be_sent::<Station<DriverService<'static, 3>, (), ()>>();

    #[test]
    fn each_event_is_a_call() {
        let result = TaskResult::Rx(RxResult::CrcError { time: TIME, quality: 7 });
        let (entry, cause) = (LocalClockInstant::from_nanos(5), Cause::Task);
        let (arrived, length) = (9, 17);
        let stopped = StopResult::RxWindowEnded(RxResult::RxWindowEnded);
        assert_eq!(Call::from(RadioEvent::FrameStart), Call::FrameStart);
        assert_eq!(Call::from(RadioEvent::Stopped(stopped)), Call::Stopped(stopped));
        assert_eq!(
            Call::from(RadioEvent::Header { arrived, length }),
            Call::Header { arrived, length }
        );
        assert_eq!(
            Call::from(RadioEvent::Entered { result, entry }),
            Call::Entered { result, entry }
        );
        assert_eq!(
            Call::from(RadioEvent::Fallback { result, cause }),
            Call::Fallback { result, cause }
        );
        assert_eq!(Call::from(RadioEvent::Rollback), Call::Rollback);
    }
}
