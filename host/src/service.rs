//! The driver service: the state, the waiting line and the pool, with one method for each call.
use crate::call::{Call, Cause, Request, RxResult, StopResult, TaskResult, Timestamp};
use crate::error::Error;
use crate::ffi::{BUFFER_LENGTH, LINE_LENGTH, REPLY_LENGTH, STATE_LENGTH};
use crate::held;
use crate::info::Received;
use crate::lent::LentPool;
use crate::line::{self, LINE_CAPACITY};
use crate::raw::{self, Slices};
use crate::reply::{Answer, Reply, Response};
use crate::settings::{Pool, Settings, FRAME_LENGTH};
use crate::time::LocalClockInstant;
use crate::wait::Wait;
use core::fmt;
use core::ptr::NonNull;

/// One driver service with its waiting line, and the pool that it is lent. Nobody else can write its state or its line, so every
/// state and line it has follows from start and accepted calls.
///
/// Every method for a call gives the reply of the accepted call, or why it was refused; a refused call changes nothing.
///
/// The pool is lent for as long as the service lives. It stays where it is when the service is moved, and is its owner's again once
/// the service is gone (a pool that was lent for `'static` comes back by `into_pool`):
///
/// ```
/// # use widosha::*;
/// # let settings = Settings {
/// #     headroom: 2,
/// #     tailroom: 0,
/// #     fcs_length: FcsLength::Two,
/// #     hardware_addr: 1,
/// #     pan_id: 0x1234,
/// #     implicit_broadcast: false,
/// #     ack_buffer: 0,
/// #     spare_buffer: 1,
/// # };
/// let mut pool = Pool::<3>::new();
/// let (mut service, _) = DriverService::start(settings, &mut pool)?;
/// let address = service.buffer_ptr(2);
/// service.put_frame(2, &[0x61, 0x88, 7]);
/// let moved = Box::new(service);
/// assert_eq!(moved.buffer_ptr(2), address);
/// drop(moved);
/// assert_eq!(pool.buffer(2).map(|buffer| &buffer[..6]), Some(&[0, 0, 0x61, 0x88, 7, 0][..]));
/// # Ok::<(), Error>(())
/// ```
///
/// It cannot be used meanwhile:
///
/// ```compile_fail,E0502
/// # use widosha::*;
/// # fn lend(settings: Settings) -> Result<(), Error> {
/// let mut pool = Pool::<3>::new();
/// let (mut service, _) = DriverService::start(settings, &mut pool)?;
/// assert_eq!(pool.bytes().len(), 432);
/// service.none()?;
/// # Ok(())
/// # }
/// ```
pub struct DriverService<'p, const N: usize> {
    settings: Settings,
    state: [u8; STATE_LENGTH],
    line: [u8; LINE_LENGTH],
    pool: LentPool<'p, N>,
}

impl<'p, const N: usize> DriverService<'p, N> {
    /// A service with these settings and an empty line, and its first action. It writes 02 10 00 into the ACK buffer's frame and no
    /// other byte of the pool. Refused by 3 or 4, or because a library has another version of the interface than this crate.
    pub fn start(settings: Settings, pool: &'p mut Pool<N>) -> Result<(Self, Reply), Error> {
        if let Some(error) = Error::of_versions(raw::abi_versions()) {
            return Err(error);
        }
        let mut service = Self {
            settings,
            state: [0; STATE_LENGTH],
            line: [0; LINE_LENGTH],
            pool: LentPool::new(pool),
        };
        let reply = service.call(|slices| {
            raw::start(
                Pool::<N>::COUNT,
                settings.headroom,
                settings.tailroom,
                settings.fcs_length.bytes(),
                settings.hardware_addr,
                settings.pan_id,
                u8::from(settings.implicit_broadcast),
                settings.ack_buffer,
                settings.spare_buffer,
                slices,
            )
        })?;
        Ok((service, reply))
    }

    /// Any of the eleven calls.
    pub fn step(&mut self, call: Call) -> Result<Reply, Error> {
        match call {
            Call::Arrive(request) => self.arrive(request),
            Call::Withdraw { token } => self.withdraw(token),
            Call::Request => self.request(),
            Call::None => self.none(),
            Call::FrameStart => self.frame_start(),
            Call::OutboundSeen { start, cca } => self.outbound_seen(start, cca),
            Call::Stopped(outcome) => self.stopped(outcome),
            Call::Header { arrived, length } => self.header(arrived, length),
            Call::Entered { result, entry } => self.entered(result, entry),
            Call::Fallback { result, cause } => self.fallback(result, cause),
            Call::Rollback => self.rollback(),
        }
    }

    /// A request of the host arrives in the waiting line, behind those that wait. Four can wait.
    ///
    /// This fits every wait and changes the line alone: the reply has no action (`Action::Nothing`) and no answer. The request leaves
    /// the line by `request`; what its frame is, and whether it wants an acknowledgement, is read from the pool then.
    pub fn arrive(&mut self, request: Request) -> Result<Reply, Error> {
        let (direction, length, cca) = request.task.numbers();
        let (start, time) = request.start.numbers();
        self.call_on_line(|slices| raw::arrive(request.token, direction, start, time, request.buffer, length, cca, slices))
    }

    /// The waiting request with this token leaves the line. It is not answered, and its buffer is the host's again.
    ///
    /// This fits every wait, and its reply is as that of `arrive`. A request that has left the line cannot be withdrawn, nor the Tx
    /// that `outbound_seen` named while its stop or its ask is open (13).
    pub fn withdraw(&mut self, token: u32) -> Result<Reply, Error> {
        self.call_on_line(|slices| raw::withdraw(token, slices))
    }

    /// Where a request is waited or asked for: the earliest arrival whose direction and start the wait allows is taken from the line.
    /// If none waits that it allows, this is refused by 9; an ask of any direction then takes `none`.
    pub fn request(&mut self) -> Result<Reply, Error> {
        self.call(raw::request)
    }

    /// No request waits that the wait allows. If one does, this is refused by 5.
    pub fn none(&mut self) -> Result<Reply, Error> {
        self.call(raw::none)
    }

    /// A frame starts while the radio listens.
    pub fn frame_start(&mut self) -> Result<Reply, Error> {
        self.call(raw::frame_start)
    }

    /// The earliest outbound request of the line is seen while the radio listens. With another start or flag than its own, or if none
    /// waits, this is refused by 5.
    pub fn outbound_seen(&mut self, start: Timestamp, cca: bool) -> Result<Reply, Error> {
        let (start, time) = start.numbers();
        self.call(|slices| raw::outbound_seen(start, time, u8::from(cca), slices))
    }

    /// What stopping the listening radio came to.
    pub fn stopped(&mut self, outcome: StopResult) -> Result<Reply, Error> {
        let (outcome, length, time, quality) = outcome.numbers();
        self.call(|slices| raw::stopped(outcome, length, time, quality, slices))
    }

    /// So many bytes of the frame that is being received have arrived in the listening buffer, without those of the checksum; the
    /// frame's length is with checksum.
    ///
    /// This is the one look at the header. A frame whose address fields have not all arrived by now is not for us, and is dropped.
    ///
    /// A frame for us that requests an acknowledgement and has a number leads to an ACK turn. A broadcast (to the short address FFFF,
    /// or without a destination) never does: it is received as a frame that requests none.
    pub fn header(&mut self, arrived: u16, length: u16) -> Result<Reply, Error> {
        self.call(|slices| raw::header(arrived, length, slices))
    }

    /// The radio has entered its task at this time, and the previous one came to this result.
    pub fn entered(&mut self, result: TaskResult, entry: LocalClockInstant) -> Result<Reply, Error> {
        let (result, length, time, quality) = result.numbers();
        self.call(|slices| raw::entered(result, length, time, entry.as_nanos(), quality, slices))
    }

    /// The radio could not enter its task, and the previous one came to this result.
    pub fn fallback(&mut self, result: TaskResult, cause: Cause) -> Result<Reply, Error> {
        let (result, length, time, quality) = result.numbers();
        let (cause, cause_time) = cause.numbers();
        self.call(|slices| raw::fallback(result, length, time, cause, cause_time, quality, slices))
    }

    /// The radio went back to listening.
    pub fn rollback(&mut self) -> Result<Reply, Error> {
        self.call(raw::rollback)
    }

    /// A buffer whole: headroom, frame, tailroom, and what is left of its 144 bytes. None if there is no such buffer.
    pub fn buffer(&self, buffer: u8) -> Option<&[u8; BUFFER_LENGTH]> {
        self.pool.buffer(buffer)
    }

    /// A buffer whole, to be written. None if there is no such buffer, and for the ACK buffer, which only the service writes.
    pub fn buffer_mut(&mut self, buffer: u8) -> Option<&mut [u8; BUFFER_LENGTH]> {
        if buffer == self.settings.ack_buffer {
            return None;
        }
        self.pool.buffer_mut(buffer)
    }

    /// Where a buffer stands, whole, for a radio that reads or writes it by itself (DMA). None if there is no such buffer. The pool
    /// does not move while it is lent, so the pointer stays right for 'p, wherever the service itself goes; it may be asked for
    /// before each task or once after start.
    ///
    /// No reference to the buffer is made. Who reads or writes through the pointer, or lets a radio do so, owes that nobody else does
    /// so at the same time: the crate's own documentation says when a buffer is the radio's.
    pub fn buffer_ptr(&self, buffer: u8) -> Option<NonNull<[u8; BUFFER_LENGTH]>> {
        self.pool.buffer_ptr(buffer)
    }

    /// A buffer's frame: the 127 bytes after the headroom. None if there is no such buffer.
    pub fn frame(&self, buffer: u8) -> Option<&[u8; FRAME_LENGTH]> {
        let bytes = self.buffer(buffer)?;
        bytes.get(usize::from(self.settings.headroom)..)?.first_chunk()
    }

    /// A buffer's frame, to be written by the host before a Tx request or by the radio while it receives. None if there is no such
    /// buffer, and for the ACK buffer, which only the service writes. It is not asked whether the buffer is held, as this is for
    /// both; `HostView` asks.
    pub fn frame_mut(&mut self, buffer: u8) -> Option<&mut [u8; FRAME_LENGTH]> {
        let headroom = usize::from(self.settings.headroom);
        self.buffer_mut(buffer)?.get_mut(headroom..)?.first_chunk_mut()
    }

    /// Writes these bytes to the beginning of a buffer's frame and returns how many they are. None, and nothing is written, where
    /// `frame_mut` gives none or there are more than 127.
    pub fn put_frame(&mut self, buffer: u8, bytes: &[u8]) -> Option<u16> {
        let length = u16::try_from(bytes.len()).ok()?;
        self.frame_mut(buffer)?.get_mut(..bytes.len())?.copy_from_slice(bytes);
        Some(length)
    }

    /// The received frame of an answer, exactly its bytes without checksum, with what its header says. None if the answer is not
    /// that of a received frame, or names a buffer or a length that the pool does not have. The answer returned the buffer, and
    /// what stands in it now is taken: ask before it is used again.
    pub fn received(&self, answer: &Answer) -> Option<Received<'_>> {
        let Response::Received(RxResult::Frame { length, .. }) = answer.response else {
            return None;
        };
        let frame = self.frame(answer.buffer)?.get(..usize::from(length))?;
        Some(Received::of(frame))
    }

    /// What start set.
    pub fn settings(&self) -> &Settings {
        &self.settings
    }

    /// What the service waits for, for logs. None would mean that library and crate do not belong together.
    pub fn wait(&self) -> Option<Wait> {
        Wait::of(self.state[17], self.state[18], self.state[19])
    }

    /// The state's bytes.
    pub fn state(&self) -> &[u8; STATE_LENGTH] {
        &self.state
    }

    /// The line's bytes.
    pub fn line(&self) -> &[u8; LINE_LENGTH] {
        &self.line
    }

    /// The requests that wait, in the order of their arrival.
    pub fn waiting(&self) -> impl Iterator<Item = Request> + '_ {
        line::waiting(&self.line)
    }

    /// Whether a buffer is held: one of the service's own two, or that of a request that waits or that has left the line and is not
    /// answered. A radio works on such buffers alone, and an arrival that names one is refused by 7. No if there is no such buffer.
    ///
    /// This reads state and line, and no byte of the pool.
    pub fn is_held(&self, buffer: u8) -> bool {
        held::is_held(&self.state, &self.line, buffer)
    }

    /// The pool.
    pub fn pool(&self) -> &Pool<N> {
        self.pool.pool()
    }

    /// Ends the loan and gives the borrow back, so that a pool that was lent for `'static` can be lent again, as after a reset of the
    /// radio. Where a radio reads or writes the pool by itself, it has been stopped before, and nobody goes on using a pointer of
    /// `buffer_ptr`: this returns a reference to all bytes. What had arrived and was not answered stays so.
    ///
    /// ```
    /// # use widosha::*;
    /// # let settings = Settings {
    /// #     headroom: 2,
    /// #     tailroom: 0,
    /// #     fcs_length: FcsLength::Two,
    /// #     hardware_addr: 1,
    /// #     pan_id: 0x1234,
    /// #     implicit_broadcast: false,
    /// #     ack_buffer: 0,
    /// #     spare_buffer: 1,
    /// # };
    /// let pool: &'static mut Pool<3> = Box::leak(Box::default());
    /// let (mut service, _) = DriverService::start(settings, pool)?;
    /// service.put_frame(2, &[0x61, 0x88, 7]);
    /// let pool: &'static mut Pool<3> = service.into_pool();
    /// assert_eq!(pool.buffer(2).map(|buffer| buffer[4]), Some(7));
    /// let (again, first) = DriverService::start(settings, pool)?;
    /// assert_eq!((first.action, again.waiting().count()), (Action::ReceiveRequest, 0));
    /// # Ok::<(), Error>(())
    /// ```
    pub fn into_pool(self) -> &'p mut Pool<N> {
        self.pool.into_inner()
    }

    fn call(&mut self, function: impl FnOnce(Slices<'_>) -> u8) -> Result<Reply, Error> {
        self.decoded(function, Reply::decode)
    }

    fn call_on_line(&mut self, function: impl FnOnce(Slices<'_>) -> u8) -> Result<Reply, Error> {
        self.decoded(function, Reply::decode_on_line)
    }

    fn decoded(
        &mut self,
        function: impl FnOnce(Slices<'_>) -> u8,
        decode: fn(&[u8; REPLY_LENGTH]) -> Option<Reply>,
    ) -> Result<Reply, Error> {
        let mut reply = [0; REPLY_LENGTH];
        let number = function(Slices {
            state: &mut self.state,
            line: &mut self.line,
            reply: &mut reply,
            pool: self.pool.bytes(),
        });
        match number {
            0 => decode(&reply).ok_or(Error::of_call(number)),
            _ => Err(Error::of_call(number)),
        }
    }
}

/// What it was started with, what it waits for and what waits in its line; of the pool how many buffers it has, and no byte.
impl<const N: usize> fmt::Debug for DriverService<'_, N> {
    fn fmt(&self, f: &mut fmt::Formatter<'_>) -> fmt::Result {
        let mut waiting = [None; LINE_CAPACITY];
        for (place, request) in waiting.iter_mut().zip(self.waiting()) {
            *place = Some(request);
        }
        f.debug_struct("DriverService")
            .field("settings", &self.settings)
            .field("wait", &self.wait())
            .field("waiting", &waiting)
            .field("buffers", &N)
            .finish_non_exhaustive()
    }
}

#[cfg(test)]
mod tests {
    use super::*;
    use crate::*;
    use std::boxed::Box;
    use std::vec::Vec;

    const SETTINGS: Settings = Settings {
        headroom: 2,
        tailroom: 8,
        fcs_length: FcsLength::Four,
        hardware_addr: 0x0011_2233_4455_6677,
        pan_id: 0x1234,
        implicit_broadcast: false,
        ack_buffer: 3,
        spare_buffer: 0,
    };

    /// A pool that is never its owner's again.
    fn pool<const N: usize>() -> &'static mut Pool<N> {
        Box::leak(Box::default())
    }

    fn at(nanoseconds: u64) -> LocalClockInstant {
        LocalClockInstant::from_nanos(nanoseconds)
    }

    fn refused<T>(refusal: Refusal) -> Result<T, Error> {
        Err(Error::Refused(refusal))
    }

    fn started() -> DriverService<'static, 4> {
        let (service, reply) = DriverService::start(SETTINGS, pool()).expect("start is accepted");
        assert_eq!(reply.action, Action::ReceiveRequest);
        assert_eq!(reply.answers, Answers::None);
        service
    }

    fn rx(token: u32, buffer: u8) -> Request {
        let start = Timestamp::BestEffort;
        let task = Task::Rx;
        Request {
            token,
            start,
            buffer,
            task,
        }
    }

    fn tx(token: u32, start: Timestamp, buffer: u8, length: u16, cca: bool) -> Request {
        let task = Task::Tx { length, cca };
        Request {
            token,
            start,
            buffer,
            task,
        }
    }

    /// A request that arrives in an empty line and leaves it at once.
    fn taken<const N: usize>(service: &mut DriverService<'_, N>, request: Request) -> Result<Reply, Error> {
        service.step(Call::Arrive(request))?;
        service.step(Call::Request)
    }

    fn answer(token: u32, buffer: u8, response: Response) -> Answers {
        Answers::One(Answer { token, buffer, response })
    }

    fn off_at(entry: u64) -> Call {
        let (result, entry) = (TaskResult::Off, at(entry));
        Call::Entered { result, entry }
    }

    // Each of start's numbers has an effect of its own: on the bytes written, on a refusal, or on what is for us.
    #[test]
    fn start_passes_every_setting_on() {
        let service = started();
        assert_eq!(service.pool().buffer(3).map(|b| &b[..6]), Some(&[0, 0, 2, 0x10, 0, 0][..]));
        assert_eq!(service.frame(3).map(|f| &f[..3]), Some(&[2, 0x10, 0][..]));
        assert_eq!(service.pool().bytes().iter().filter(|byte| **byte != 0).count(), 2);
        let bytes = [
            4, 2, 8, 4, 0x77, 0x66, 0x55, 0x44, 0x33, 0x22, 0x11, 0, 0x34, 0x12, 0, 3, 0, 0,
        ];
        assert_eq!(service.state()[..18], bytes);
        let refused = |settings| {
            let error = DriverService::start(settings, pool::<4>()).err();
            error.and_then(Error::refusal).map(Refusal::number)
        };
        let (headroom, tailroom, ack_buffer, spare_buffer) = (9, 9, 4, 3);
        assert_eq!(refused(Settings { headroom, ..SETTINGS }), Some(3));
        assert_eq!(refused(Settings { tailroom, ..SETTINGS }), Some(3));
        assert_eq!(refused(Settings { ack_buffer, ..SETTINGS }), Some(4));
        assert_eq!(
            refused(Settings {
                spare_buffer,
                ..SETTINGS
            }),
            Some(4)
        );
        let implicit_broadcast = true;
        let (other, _) = DriverService::start(
            Settings {
                implicit_broadcast,
                ..SETTINGS
            },
            pool::<4>(),
        )
        .expect("accepted");
        assert_eq!(other.state()[14], 1);
    }

    #[test]
    fn frames_stand_after_the_headroom() {
        let mut service = started();
        assert_eq!(service.put_frame(2, &[1, 2, 3]), Some(3));
        assert_eq!(service.pool().buffer(2).map(|b| &b[..6]), Some(&[0, 0, 1, 2, 3, 0][..]));
        assert_eq!(service.put_frame(2, &[9; FRAME_LENGTH]), Some(127));
        assert_eq!(service.put_frame(2, &[9; FRAME_LENGTH + 1]), None);
        assert_eq!(service.put_frame(3, &[9]), None, "the ACK buffer is the service's");
        assert_eq!(service.put_frame(4, &[9]), None, "there is no buffer 4");
        assert!(service.frame(4).is_none() && service.frame(3).is_some());
        assert_eq!(service.pool().buffer(2).map(|b| &b[128..131]), Some(&[9, 0, 0][..]));
    }

    // A buffer is whole, with what stands before and after its frame, and stands where the pool has it, wherever the service goes.
    #[test]
    fn buffers_are_whole_and_stay_in_their_place() {
        let pool = pool::<4>();
        let places: [_; 4] = [0, 1, 2, 3].map(|buffer| pool.buffer(buffer).map(core::ptr::from_ref));
        let (mut service, _) = DriverService::start(SETTINGS, pool).expect("accepted");
        for (buffer, place) in (0..).zip(places) {
            assert_eq!(service.buffer(buffer).map(core::ptr::from_ref), place);
            assert_eq!(service.buffer_ptr(buffer).map(|pointer| pointer.as_ptr().cast_const()), place);
        }
        assert_eq!(service.buffer_mut(2).map(|buffer| core::ptr::from_ref(buffer)), places[2]);
        assert!(service.buffer_mut(3).is_none(), "the ACK buffer is the service's");
        assert!(service.buffer(4).is_none() && service.buffer_mut(4).is_none() && service.buffer_ptr(4).is_none());
        *service.buffer_mut(2).expect("it is there") = core::array::from_fn(|place| place as u8);
        assert_eq!(service.frame(2).map(|frame| (frame[0], frame[126])), Some((2, 128)));
        let moved = Box::new(service);
        assert_eq!(moved.buffer_ptr(2).map(|pointer| pointer.as_ptr().cast_const()), places[2]);
        assert_eq!(moved.buffer(2).map(|buffer| buffer[143]), Some(143));
    }

    // From its arrival to its answer or withdrawal, and the service's own two from start on.
    #[test]
    fn buffers_are_held_until_they_are_given_back() {
        let (mut service, _) = DriverService::start(SETTINGS, pool::<8>()).expect("accepted");
        let held = |service: &DriverService<'_, 8>| (0..=255).filter(|buffer| service.is_held(*buffer)).collect::<Vec<u8>>();
        assert_eq!(held(&service), [0, 3]);
        service
            .arrive(tx(1, Timestamp::BestEffort, 5, 12, true))
            .expect("the line is empty");
        service.arrive(rx(2, 7)).expect("it has room");
        assert_eq!(held(&service), [0, 3, 5, 7]);
        service.request().expect("it takes the first");
        assert_eq!(held(&service), [0, 3, 5, 7], "the radio is to enter its task");
        service.withdraw(2).expect("it waits");
        assert_eq!(held(&service), [0, 3, 5]);
        let (result, cause) = (TaskResult::Off, Cause::Task);
        service.fallback(result, cause).expect("it cannot be sent");
        assert_eq!(held(&service), [0, 3], "it is answered");
    }

    // Two loans of one pool, one after the other: it comes back for as long as it was lent, in its place, with what was written in it.
    #[test]
    fn the_pool_comes_back_and_is_lent_again() {
        let lent = pool::<4>();
        let place = core::ptr::from_ref(lent);
        let (mut service, _) = DriverService::start(SETTINGS, lent).expect("accepted");
        service.put_frame(2, &[1, 2, 3]);
        service.arrive(rx(9, 1)).expect("the line is empty");
        let returned: &'static mut Pool<4> = service.into_pool();
        assert_eq!(core::ptr::from_ref(returned), place);
        assert_eq!(returned.buffer(2).map(|b| &b[..6]), Some(&[0, 0, 1, 2, 3, 0][..]));
        returned.buffer_mut(3).expect("it is there").fill(0xff);
        let (mut again, _) = DriverService::start(SETTINGS, returned).expect("accepted");
        assert_eq!(again.frame(3).map(|f| &f[..4]), Some(&[2, 0x10, 0, 0xff][..]));
        assert_eq!(again.waiting().count(), 0);
        assert!(taken(&mut again, rx(9, 1)).is_ok());
    }

    // What a radio writes through a buffer's pointer is what the next call and the host read there, and the other way round.
    #[test]
    #[allow(unsafe_code)]
    fn a_radio_writes_through_the_pointer() {
        let mut service = started();
        taken(&mut service, rx(9, 1)).expect("a request fits");
        service.step(off_at(1)).expect("the radio listens");
        service.frame_start().expect("a frame starts");
        service.stopped(StopResult::FrameStarted).expect("it is received");
        let radio = service.buffer_ptr(1).expect("it is there").cast::<[u8; 11]>();
        let frame = [0xee, 0xee, 0x41, 0x88, 7, 0x34, 0x12, 0x77, 0x66, 1, 0];
        // SAFETY: the pointer is that of 144 bytes, and no reference to the buffer lives while they are written.
        unsafe { radio.as_ptr().write_volatile(frame) };
        let asked = service.header(9, 30).map(|reply| reply.action);
        assert_eq!(asked, Ok(Action::TryReceiveRequest(TaskDirection::Any)), "for us");
        service.none().expect("nothing waits");
        let result = TaskResult::Rx(RxResult::Frame {
            length: 9,
            time: at(3),
            quality: 4,
        });
        let reply = service.entered(result, at(5)).expect("the frame is there");
        let answer = reply.answers.into_iter().next().expect("token 9 is answered");
        assert_eq!(service.received(&answer).map(|received| received.frame), Some(&frame[2..]));
        service.buffer_mut(1).expect("it is there")[10] = 5;
        // SAFETY: as above, and it is read.
        assert_eq!(unsafe { radio.as_ptr().read_volatile() }[10], 5);
    }

    // Logs have what the service waits for, and no byte of a frame.
    #[test]
    fn debug_has_no_byte_of_the_pool() {
        let mut service = started();
        service.buffer_mut(2).expect("it is there").fill(0xa5);
        service.arrive(rx(77, 2)).expect("the line is empty");
        let (logged, pool) = (std::format!("{service:?}"), std::format!("{:?}", service.pool()));
        assert_eq!(pool, "Pool { buffers: 4, .. }");
        for part in ["pan_id: 4660", "wait: Some(Asking(Idle))", "token: 77", "buffers: 4"] {
            assert!(logged.contains(part), "{part}: {logged}");
        }
        for bytes in [&logged, &pool] {
            assert!(!bytes.contains("165"), "{bytes}");
        }
    }

    // As the borrow that it stands for: the service may go to another thread, and be seen from one.
    #[test]
    fn a_service_may_go_to_another_thread() {
        let mut pool = Pool::<4>::new();
        let (mut service, _) = DriverService::start(SETTINGS, &mut pool).expect("accepted");
        std::thread::scope(|scope| {
            let shared = &service;
            scope.spawn(move || assert_eq!(shared.frame(3).map(|frame| frame[0]), Some(2)));
        });
        std::thread::scope(|scope| {
            scope.spawn(move || assert_eq!(service.put_frame(2, &[6]), Some(1)));
        });
        assert_eq!(pool.buffer(2).map(|buffer| buffer[2]), Some(6));
    }

    // A Tx at a time that falls back, with every number different from the others.
    #[test]
    fn request_and_fallback_pass_their_numbers_on() {
        let mut service = started();
        let start = Timestamp::Scheduled(at(0x0102_0304_0506_0708));
        let asked = taken(&mut service, tx(0xA1B2_C3D4, start, 2, 12, true));
        let action = Action::Tx {
            buffer: 2,
            length: 12,
            cca: true,
            start,
            spacing: Spacing::None,
            rollback: false,
        };
        assert_eq!(asked.map(|reply| reply.action), Ok(action));
        let cause = Cause::Scheduling(Timestamp::Scheduled(at(77)));
        let result = TaskResult::Off;
        let idle = service.step(Call::Fallback { result, cause });
        assert_eq!(
            idle.map(|reply| reply.answers),
            Ok(answer(0xA1B2_C3D4, 2, Response::Error(cause)))
        );
        assert_eq!(service.arrive(tx(1, start, 2, 2, false)), refused(Refusal::TxLength));
        assert_eq!(service.arrive(tx(1, start, 3, 12, false)), refused(Refusal::BufferHeld));
        assert_eq!(service.wait(), Some(Wait::Asking(Asked::Idle)));
    }

    const NOTHING: Reply = Reply {
        action: Action::Nothing,
        answers: Answers::None,
    };

    // Four wait, and a fifth does not. What is refused changes nothing; what is withdrawn leaves no gap, and its buffer is free.
    #[test]
    fn the_line_keeps_four_in_their_order() {
        let (mut service, _) = DriverService::start(SETTINGS, pool::<8>()).expect("accepted");
        assert_eq!((service.waiting().count(), service.line()), (0, &[0; 96]));
        let (timed, best_effort) = (Timestamp::Scheduled(at(0x0102_0304_0506_0708)), Timestamp::BestEffort);
        let four = [
            tx(0xA1B2_C3D4, timed, 1, 12, true),
            rx(2, 2),
            tx(3, best_effort, 4, 123, false),
            rx(4, 5),
        ];
        for request in four {
            assert_eq!(service.step(Call::Arrive(request)), Ok(NOTHING));
        }
        assert!(service.waiting().eq(four));
        let first = [
            1, 1, 1, 1, 0xD4, 0xC3, 0xB2, 0xA1, 8, 7, 6, 5, 4, 3, 2, 1, 12, 0, 0, 0, 0, 0, 0, 0,
        ];
        assert_eq!(service.line()[..24], first);
        let before = (*service.state(), *service.line());
        assert_eq!(service.arrive(rx(3, 4)), refused(Refusal::BufferHeld), "by one that waits");
        assert_eq!(service.arrive(tx(3, timed, 6, 124, true)), refused(Refusal::TxLength));
        assert_eq!(service.arrive(rx(3, 6)), refused(Refusal::LineFull));
        assert_eq!(service.withdraw(6), refused(Refusal::TokenWaits), "it does not");
        assert_eq!((*service.state(), *service.line()), before);
        assert_eq!(service.step(Call::Withdraw { token: 2 }), Ok(NOTHING));
        assert!(service.waiting().eq([four[0], four[2], four[3]]));
        assert_eq!(service.arrive(rx(3, 2)), refused(Refusal::TokenWaits));
        assert_eq!(service.arrive(rx(2, 2)), Ok(NOTHING));
        assert!(service.waiting().eq([four[0], four[2], four[3], four[1]]));
        let action = service.request().map(|reply| reply.action);
        assert!(
            matches!(action, Ok(Action::Tx { buffer: 1, start, .. }) if start == timed),
            "{action:?}"
        );
        assert!(service.waiting().eq([four[2], four[3], four[1]]));
    }

    // While a frame that wants no ACK is sent, nothing with a time may follow: a later request without one passes it.
    #[test]
    fn what_the_wait_allows_passes_what_it_does_not() {
        let (mut service, _) = DriverService::start(SETTINGS, pool::<8>()).expect("accepted");
        let timed = tx(2, Timestamp::Scheduled(at(900)), 1, 12, true);
        service.put_frame(4, &[0x41, 0x88, 7]);
        assert!(taken(&mut service, tx(1, Timestamp::BestEffort, 4, 12, true)).is_ok());
        assert!(service.arrive(timed).is_ok());
        assert_eq!(service.request(), refused(Refusal::Unfit), "nothing is asked for");
        let asked = service.step(off_at(1)).map(|reply| reply.action);
        assert_eq!(asked, Ok(Action::TryReceiveRequest(TaskDirection::Any)));
        assert_eq!(service.request(), refused(Refusal::NotAllowed));
        assert!(service.arrive(rx(3, 2)).is_ok());
        assert_eq!(service.none(), refused(Refusal::Unfit), "one waits that may follow");
        let passing = service.request().map(|reply| reply.action);
        assert!(matches!(passing, Ok(Action::Rx { buffer: 2, .. })), "{passing:?}");
        assert!(service.waiting().eq([timed]));
        assert_eq!(service.withdraw(3), refused(Refusal::TokenWaits), "it has left");
        assert_eq!(service.arrive(rx(3, 5)), refused(Refusal::TokenHeld));
    }

    // Sent with an ACK wait that fails once and ends; the answer has the time sent, the stop the time of entry.
    #[test]
    fn entered_and_stopped_pass_their_numbers_on() {
        let mut service = started();
        service.put_frame(2, &[0x61, 0x88, 7]);
        assert!(taken(&mut service, tx(5, Timestamp::BestEffort, 2, 12, false)).is_ok());
        assert!(service.step(off_at(100)).is_ok());
        assert_eq!(service.wait(), Some(Wait::Entering(Transition::AckWait)));
        let result = TaskResult::Sent { time: at(4_000) };
        assert_eq!(service.entered(result, at(u64::MAX)), refused(Refusal::EntryTooLate));
        let entered = service.entered(result, at(5_000)).map(|reply| reply.action);
        assert_eq!(entered, Ok(Action::Stop(StopListening::At(at(15_000)))));
        let again = service.step(Call::Stopped(StopResult::Failed)).map(|reply| reply.action);
        assert_eq!(again, Ok(Action::Stop(StopListening::Now)));
        let (length, time, quality) = (124, at(1), 5);
        let long = RxResult::Frame { length, time, quality };
        assert_eq!(
            service.stopped(StopResult::RxWindowEnded(long)),
            refused(Refusal::ReceivedLength)
        );
        let ask = service
            .stopped(StopResult::RxWindowEnded(RxResult::RxWindowEnded))
            .map(|reply| reply.action);
        assert_eq!(ask, Ok(Action::TryReceiveRequest(TaskDirection::Any)));
        let none = service.step(Call::None).map(|reply| reply.answers);
        assert_eq!(none, Ok(answer(5, 2, Response::Nack { time: at(4_000) })));
    }

    // Listening: an outbound request, a frame for another station, one that rolls back, and one that is received.
    #[test]
    fn listening_passes_its_numbers_on() {
        let mut service = started();
        assert!(taken(&mut service, rx(9, 1)).is_ok());
        assert_eq!(service.step(off_at(1)).map(|reply| reply.action), Ok(Action::Listen));
        let (start, cca) = (Timestamp::Scheduled(at(900)), true);
        assert!(service.arrive(tx(8, start, 2, 12, cca)).is_ok());
        let stop = service.step(Call::OutboundSeen { start, cca }).map(|reply| reply.action);
        assert_eq!(stop, Ok(Action::Stop(StopListening::Before { start: at(900), cca })));
        assert_eq!(service.withdraw(8), refused(Refusal::TokenWaits), "its stop is open");
        assert!(service.stopped(StopResult::Failed).is_ok());
        assert!(service.step(Call::Withdraw { token: 8 }).is_ok());
        assert_eq!(
            service.step(Call::FrameStart).map(|r| r.action),
            Ok(Action::Stop(StopListening::Now))
        );
        assert_eq!(
            service.stopped(StopResult::FrameStarted).map(|r| r.action),
            Ok(Action::ReadHeader)
        );
        service.put_frame(1, &[0x41, 0x88, 7, 0x34, 0x12, 0x77, 0x66, 1, 0]);
        assert_eq!(service.header(124, 9), refused(Refusal::ReceivedLength));
        let (arrived, length) = (9, 19);
        let asked = service.step(Call::Header { arrived, length }).map(|reply| reply.action);
        assert_eq!(
            asked,
            Ok(Action::TryReceiveRequest(TaskDirection::Any)),
            "for us, without an ACK"
        );
        assert_eq!(service.none().map(|reply| reply.action), Ok(Action::Off { rollback: true }));
        assert_eq!(service.step(Call::Rollback).map(|reply| reply.action), Ok(Action::Listen));
        assert!(service.frame_start().is_ok() && service.stopped(StopResult::FrameStarted).is_ok());
        let rearm = Action::Rx {
            buffer: 0,
            start: Timestamp::BestEffort,
            spacing: Spacing::None,
            rollback: false,
        };
        assert_eq!(
            service.header(8, 19).map(|reply| reply.action),
            Ok(rearm),
            "one byte of the source is missing"
        );
        let result = TaskResult::Rx(RxResult::CrcError { time: at(6), quality: 8 });
        assert_eq!(service.entered(result, at(7)).map(|reply| reply.action), Ok(Action::Listen));
    }

    /// A service that receives a frame for us for token 9 in buffer 1, without an ACK, and asks.
    fn receiving() -> DriverService<'static, 4> {
        let mut service = started();
        service.put_frame(1, &[0x41, 0x88, 7, 0x34, 0x12, 0x77, 0x66, 1, 0]);
        taken(&mut service, rx(9, 1)).expect("a request fits");
        service.step(off_at(1)).expect("the radio listens");
        service.frame_start().expect("a frame starts");
        service.stopped(StopResult::FrameStarted).expect("it is received");
        service.header(9, 30).expect("its header is there");
        service
    }

    // What Entered and Fallback tell of a reception is what the answer tells, number by number and each different from the others.
    #[test]
    fn received_results_come_back_unaltered() {
        let (length, time, quality) = (28, at(4_000), 201);
        let results = [
            RxResult::Frame { length, time, quality },
            RxResult::CrcError { time, quality },
            RxResult::RxWindowEnded,
        ];
        for result in results {
            let received = Answer {
                token: 9,
                buffer: 1,
                response: Response::Received(result),
            };
            let mut service = receiving();
            service.none().expect("nothing waits");
            let entered = service.entered(TaskResult::Rx(result), at(5_000)).map(|reply| reply.answers);
            assert_eq!(entered, Ok(Answers::One(received)));

            let mut service = receiving();
            taken(&mut service, tx(10, Timestamp::Scheduled(at(77)), 2, 12, true)).expect("a Tx of any start");
            let cause = Cause::Scheduling(Timestamp::Scheduled(at(76)));
            let error = Answer {
                token: 10,
                buffer: 2,
                response: Response::Error(cause),
            };
            let fallen = service.fallback(TaskResult::Rx(result), cause).map(|reply| reply.answers);
            assert_eq!(fallen, Ok(Answers::Two(received, error)));
        }
    }

    // The frame stands after the headroom, has the answer's length and not the buffer's, and is looked for in the answer's buffer.
    #[test]
    fn received_frames_are_those_of_the_answer() {
        let mut service = started();
        service.put_frame(1, &[0x41, 0x88, 7, 0x34, 0x12, 0x77, 0x66, 1, 0, 0xee, 0xff]);
        let of = |buffer, length| Answer {
            token: 9,
            buffer,
            response: Response::Received(RxResult::Frame {
                length,
                time: at(3),
                quality: 4,
            }),
        };
        let received = service.received(&of(1, 10)).expect("a received frame");
        assert_eq!(received.frame, [0x41, 0x88, 7, 0x34, 0x12, 0x77, 0x66, 1, 0, 0xee]);
        assert_eq!(received.info, PreliminaryFrameInfo::of(received.frame));
        assert_eq!(received.info.src_address, Some(Address::Short(1)));
        assert_eq!(received.after_addressing(), Some(&[0xee][..]));
        assert_eq!(service.received(&of(1, 8)).and_then(|cut| cut.info.src_address), None);
        assert_eq!(
            service.received(&of(2, 10)).map(|other| other.frame),
            Some(&[0; 10][..]),
            "another buffer"
        );
        assert_eq!(service.received(&of(1, 127)).map(|longest| longest.frame.len()), Some(127));
        assert_eq!(service.received(&of(1, 128)), None, "no frame is as long");
        assert_eq!(service.received(&of(4, 10)), None, "there is no buffer 4");
        let others = [
            Response::Sent { time: at(3) },
            Response::Nack { time: at(3) },
            Response::Error(Cause::Task),
            Response::Received(RxResult::RxWindowEnded),
            Response::Received(RxResult::CrcError { time: at(3), quality: 4 }),
        ];
        for response in others {
            assert_eq!(service.received(&Answer { response, ..of(1, 10) }), None, "{response:?}");
        }
    }
}
