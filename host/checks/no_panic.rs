//! Uses every public function of the crate, and the reader of captures, in a library without std. Its panic handler calls a
//! function that is nowhere; if the optimised library still names that function, some path can panic. tests/41-host-lib.sh looks.
//! It is compiled with checks of arithmetic, so that a sum that could overflow would be found too.
#![no_std]
use widosha::*;

#[allow(dead_code)]
#[path = "../examples/check_capture/reader.rs"]
mod reader;

extern "C" {
    fn widosha_can_panic() -> !;
}

#[panic_handler]
fn panicked(_: &core::panic::PanicInfo) -> ! {
    // SAFETY: the check asks that this is never linked.
    unsafe { widosha_can_panic() }
}

fn number(error: Error) -> u8 {
    match (error, error.refusal()) {
        (_, Some(refusal)) => refusal.number(),
        (Error::AbiVersion { library }, None) => library as u8,
        (Error::Undecodable { returned }, None) => returned,
        _ => 0,
    }
}

#[no_mangle]
pub extern "C" fn start<'p>(
    settings: &[u8; 4],
    addresses: &[u64; 2],
    pool: &'p mut Pool<4>,
    service: &mut Option<DriverService<'p, 4>>,
) -> u8 {
    let [headroom, tailroom, ack_buffer, spare_buffer] = *settings;
    let settings = Settings {
        headroom,
        tailroom,
        fcs_length: FcsLength::Four,
        hardware_addr: addresses[0],
        pan_id: addresses[1] as u16,
        implicit_broadcast: addresses[1] > 65535,
        ack_buffer,
        spare_buffer,
    };
    let started = DriverService::start(settings, pool);
    let number = started.as_ref().map_or_else(|error| number(*error), |_| 0);
    *service = started.ok().map(|(service, _)| service);
    number
}

#[no_mangle]
pub extern "C" fn step(service: &mut DriverService<4>, call: &Call, reply: &mut Result<Reply, Error>) -> u32 {
    *reply = service.step(*call);
    let answers = reply.map_or(Answers::None, |reply| reply.answers);
    answers.into_iter().fold(0, |sum, answer| {
        let quality = answer.response.quality().unwrap_or(0);
        sum ^ answer.token ^ u32::from(quality)
    })
}

#[no_mangle]
pub extern "C" fn bytes(service: &mut DriverService<4>, buffer: u8, frame: &mut [u8; 300], length: u8) -> usize {
    let part = frame.get(..usize::from(length)).unwrap_or(&[]);
    let put = service.put_frame(buffer, part).unwrap_or(0);
    if let Some(whole) = service.frame_mut(buffer) {
        whole[126] ^= 1;
    }
    let first = service.frame(buffer).map_or(0, |whole| whole[0]);
    if let Some(whole) = service.buffer_mut(buffer) {
        whole[143] ^= 1;
    }
    let last = service.buffer(buffer).map_or(0, |whole| whole[143]);
    let there = usize::from(service.buffer_ptr(buffer).is_some());
    let row = service.pool().buffer(buffer).map_or(0, |row| row[143]);
    let known = usize::from(service.wait().is_some()) + usize::from(service.settings().headroom);
    let known = known + usize::from(service.is_held(buffer));
    known
        + there
        + usize::from(last)
        + usize::from(put)
        + usize::from(first)
        + usize::from(row)
        + service.pool().bytes().len()
        + usize::from(service.state()[0])
}

#[no_mangle]
pub extern "C" fn waiting(service: &DriverService<4>, last: &mut Option<Request>) -> u32 {
    let sum = service.waiting().fold(u32::from(service.line()[0]), |sum, request| {
        *last = Some(request);
        sum ^ request.token
    });
    sum ^ LINE_CAPACITY as u32
}

#[no_mangle]
pub extern "C" fn facts(service: &DriverService<4>, answer: &Answer, info: &mut PreliminaryFrameInfo) -> usize {
    let Some(received) = service.received(answer) else { return 0 };
    *info = PreliminaryFrameInfo::of(received.frame);
    let after = Received { info: *info, ..received }.after_addressing();
    after.map_or(1, <[u8]>::len) + usize::from(received.info == *info)
}

#[no_mangle]
pub extern "C" fn pool(pool: &mut Pool<4>, buffer: u8) -> u8 {
    *pool = Pool::default();
    let row = pool.buffer_mut(buffer).map_or(0, |row| row[0]);
    row ^ Pool::<4>::COUNT
}

#[no_mangle]
pub extern "C" fn time(nanoseconds: u64, duration: &core::time::Duration) -> u64 {
    let time = LocalClockInstant::from_nanos(nanoseconds).max(LocalClockInstant::default());
    let later = time.checked_add(*duration).unwrap_or(time);
    let difference = time.checked_duration_since(later).unwrap_or(*duration);
    later.as_nanos() ^ difference.as_secs() ^ later.saturating_duration_since(time).as_secs()
}

#[no_mangle]
pub extern "C" fn ended<'p>(service: &mut Option<DriverService<'p, 4>>, pool: &mut Option<&'p mut Pool<4>>) {
    *pool = service.take().map(DriverService::into_pool);
}

/// A radio and a host that have what they are given next, and keep what the loop gives them.
pub struct Kept {
    event: Option<RadioEvent>,
    task: Option<RadioTask>,
    request: Option<Request>,
    answer: Option<Answer>,
    sum: u8,
}

impl Radio for Kept {
    fn begin(&mut self, task: RadioTask, buffers: &mut dyn Buffers) -> Option<RadioEvent> {
        self.task = Some(task);
        if let RadioTask::Tx { buffer, .. } | RadioTask::Rx { buffer, .. } = task {
            self.sum ^= buffers.buffer(buffer).map_or(0, |whole| whole[0]);
            self.sum ^= u8::from(buffers.buffer_ptr(buffer).is_some());
        }
        self.event.take()
    }
}

impl Host for Kept {
    fn next_request(&mut self, view: &mut HostView) -> Option<Request> {
        let request = self.request.take()?;
        view.put_frame(request.buffer, &[self.sum])?;
        view.frame_mut(request.buffer)?[1] = self.sum;
        view.buffer_mut(request.buffer)?[0] = self.sum;
        Some(request)
    }

    fn answered(&mut self, answer: Answer, view: &HostView) {
        self.answer = Some(answer);
        self.sum ^= view.received(&answer).map_or(0, |received| received.frame.len() as u8);
        self.sum ^= view.frame(answer.buffer).map_or(0, |frame| frame[0]);
        self.sum ^= view.buffer(answer.buffer).map_or(0, |whole| whole[0]);
    }

    fn refused(&mut self, request: Request, refusal: Refusal) {
        self.request = None;
        self.sum ^= refusal.number() ^ request.buffer;
    }

    fn made(&mut self, _: &Call, result: &Result<Reply, Error>, view: &HostView) {
        self.sum ^= u8::from(result.is_ok()) ^ u8::from(view.wait().is_some());
        self.sum ^= u8::from(view.waiting()[0].is_some()) ^ u8::from(view.is_held(self.sum));
    }
}

type Looped<'p> = Station<DriverService<'p, 4>, Kept, Kept>;

/// The same with radio and host lent, through the types and as trait objects.
type Lent<'p, 'k> = Station<DriverService<'p, 4>, &'k mut Kept, &'k mut dyn Host>;

#[no_mangle]
pub extern "C" fn lent<'p>(station: &mut Option<Looped<'p>>, event: &RadioEvent, kept: &mut Option<[Kept; 2]>) -> u8 {
    let Some(station) = station.take() else { return 0 };
    let action = station.action();
    let (service, mut radio, mut host) = station.into_parts();
    let mut lent: Lent<'p, '_> = Station::new(service, action, &mut radio, &mut host);
    let told = lent.told(*event).map_or_else(number, |()| 0);
    let state = lent.into_parts().0.state()[17];
    *kept = Some([radio, host]);
    told ^ state
}

#[no_mangle]
pub extern "C" fn begin<'p>(
    settings: &Settings,
    pool: &'p mut Pool<4>,
    kept: &mut Option<[Kept; 2]>,
    station: &mut Option<Looped<'p>>,
) {
    if let Some([radio, host]) = kept.take() {
        *station = Station::start(*settings, pool, radio, host).ok();
    }
}

#[no_mangle]
pub extern "C" fn looped(station: &mut Looped, event: &RadioEvent, request: &Request, result: &mut Result<(), Error>) -> u8 {
    *result = station.host_has_more();
    station.radio_mut().0.event = Some(*event);
    let (host, mut view) = station.host_mut();
    host.request = Some(*request);
    let put = u8::from(view.put_frame(request.buffer, &[host.sum]).is_some());
    *result = result.and(station.told(*event)).and(station.arrive(*request));
    *result = result.and(station.withdraw(request.token).map(|_| ()));
    let task = RadioTask::of(station.action()).is_some() || HostTask::of(station.action()).is_some();
    let known = task || station.radio().task.is_some() || station.host().answer.is_some();
    station.service().state()[0] ^ u8::from(known) ^ put
}

/// A writer that counts what is written.
struct Count(usize);

impl core::fmt::Write for Count {
    fn write_str(&mut self, text: &str) -> core::fmt::Result {
        self.0 = self.0.wrapping_add(text.len());
        Ok(())
    }
}

/// The sentences of the errors, a time, and what logs have of a service and of its pool.
#[no_mangle]
pub extern "C" fn words(error: &Error, service: &DriverService<4>, nanoseconds: u64) -> usize {
    let (mut count, time) = (Count(0), LocalClockInstant::from_nanos(nanoseconds));
    let written = core::fmt::write(&mut count, format_args!("{error} {time} {service:?} {:?}", service.pool()));
    count.0.wrapping_add(usize::from(written.is_ok()))
}

#[no_mangle]
pub extern "C" fn checksum(frame: &&[u8], fcs: &mut [u8; 2]) -> u8 {
    *fcs = widosha::fcs(frame);
    check_fcs(frame).map_or_else(number, u8::from)
}

/// Everything that the reader gives of a file: places, lengths, bytes and damage. The words for damage are made by core's
/// formatting, which is not looked at here.
#[no_mangle]
pub extern "C" fn capture(file: &&[u8], damage: &mut Option<reader::damage::Damage>) -> usize {
    let mut seen = 0usize;
    for next in reader::Reader::new(file) {
        match next {
            Ok(frame) => {
                let numbers = [frame.offset, frame.line.unwrap_or(0), frame.original.unwrap_or(0) as usize];
                seen = numbers.into_iter().fold(seen, usize::wrapping_add);
                seen = frame.data.fold(seen, |seen, byte| seen.rotate_left(5) ^ usize::from(byte));
            }
            Err(found) => *damage = Some(found),
        }
    }
    seen
}
