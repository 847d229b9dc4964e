//! The safe types beside the C functions: a `DriverService` that is started as a run is, on a pool of the same bytes, and makes the
//! same calls.
use super::{crossing, run};
use crate::model::bytes::write_reply;
use crate::model::calls::{Raw, RawStart};
use crate::model::engine::State;
use crate::model::line::Line;
use std::fmt::Debug;
use widosha::*;

/// A pool, and the service that it is lent.
struct Lent<const N: usize> {
    /// Gone before the pool is.
    service: Option<DriverService<'static, N>>,
    pool: *mut Pool<N>,
}

impl<const N: usize> Drop for Lent<N> {
    fn drop(&mut self) {
        self.service = None;
        // SAFETY: the pointer is that of a box, and the only borrow of it has ended.
        drop(unsafe { Box::from_raw(self.pool) });
    }
}

/// The settings as the safe types have them. None if they have none such: of a checksum length or a flag that stands for nothing.
pub fn settings(raw: &RawStart) -> Option<Settings> {
    Some(Settings {
        headroom: raw.headroom,
        tailroom: raw.tailroom,
        fcs_length: match raw.fcs_length {
            2 => FcsLength::Two,
            4 => FcsLength::Four,
            _ => return None,
        },
        hardware_addr: raw.hardware_addr,
        pan_id: raw.pan_id,
        implicit_broadcast: match raw.implicit_broadcast {
            0 => false,
            1 => true,
            _ => return None,
        },
        ack_buffer: raw.ack_buffer,
        spare_buffer: raw.spare_buffer,
    })
}

/// What is asked of a service, whatever the number of its buffers.
trait Service {
    fn step(&mut self, call: Call) -> Result<Reply, Error>;
    fn poke(&mut self, at: usize, bytes: &[u8]);
    fn slices(&self) -> [&[u8]; 3];
    fn wait(&self) -> Option<Wait>;
    fn waiting(&self) -> Vec<Request>;
    fn is_held(&self, buffer: u8) -> bool;
    fn received(&self, answer: &Answer) -> Option<Received<'_>>;
    /// A buffer whole, and its frame.
    fn buffer(&self, buffer: u8) -> Option<(&[u8], &[u8])>;
}

impl<const N: usize> Lent<N> {
    /// On a pool of these bytes. A refused start leaves them as they are.
    fn start(settings: Settings, bytes: &[u8]) -> Result<(Self, Reply), Error> {
        let pool = Box::into_raw(Box::<Pool<N>>::default());
        // SAFETY: the box is given back when this value is dropped, after the service.
        let lent: &'static mut Pool<N> = unsafe { &mut *pool };
        for (buffer, bytes) in (0..).zip(bytes.chunks(144)) {
            lent.buffer_mut(buffer).expect("as many buffers").copy_from_slice(bytes);
        }
        let started = DriverService::start(settings, lent);
        let (service, told) = match started {
            Ok((service, reply)) => (Some(service), Ok(reply)),
            Err(error) => (None, Err(error)),
        };
        let lent = Self { service, pool };
        if told.is_err() {
            // SAFETY: the borrow has ended with the start.
            assert_eq!(unsafe { (*pool).bytes() }, bytes, "a refused start changed the pool");
        }
        told.map(|reply| (lent, reply))
    }

    fn get(&self) -> &DriverService<'static, N> {
        self.service.as_ref().expect("it lives as long as this")
    }

    fn get_mut(&mut self) -> &mut DriverService<'static, N> {
        self.service.as_mut().expect("it lives as long as this")
    }
}

impl<const N: usize> Service for Lent<N> {
    fn step(&mut self, call: Call) -> Result<Reply, Error> {
        self.get_mut().step(call)
    }

    /// Bytes of one buffer. A whole frame's beginning is put by the method for it, and into the ACK buffer, which the methods do not
    /// write, a radio writes by its pointer.
    fn poke(&mut self, at: usize, bytes: &[u8]) {
        let service = self.get_mut();
        let (buffer, place) = ((at / 144) as u8, at % 144);
        if buffer == service.settings().ack_buffer {
            assert!(service.put_frame(buffer, bytes).is_none() && service.buffer_mut(buffer).is_none());
            let pointer = service.buffer_ptr(buffer).expect("it is there").cast::<u8>().as_ptr();
            assert!(place + bytes.len() <= 144);
            // SAFETY: the bytes lie inside the buffer, and no reference to it lives.
            unsafe { pointer.add(place).copy_from(bytes.as_ptr(), bytes.len()) };
        } else if place == usize::from(service.settings().headroom) && bytes.len() <= FRAME_LENGTH {
            assert_eq!(service.put_frame(buffer, bytes), Some(bytes.len() as u16));
        } else {
            service.buffer_mut(buffer).expect("it is there")[place..place + bytes.len()].copy_from_slice(bytes);
        }
    }

    fn slices(&self) -> [&[u8]; 3] {
        let service = self.get();
        [service.state(), service.line(), service.pool().bytes()]
    }

    fn wait(&self) -> Option<Wait> {
        self.get().wait()
    }

    fn waiting(&self) -> Vec<Request> {
        self.get().waiting().collect()
    }

    fn is_held(&self, buffer: u8) -> bool {
        self.get().is_held(buffer)
    }

    fn received(&self, answer: &Answer) -> Option<Received<'_>> {
        self.get().received(answer)
    }

    fn buffer(&self, buffer: u8) -> Option<(&[u8], &[u8])> {
        let service = self.get();
        Some((service.buffer(buffer)?, service.frame(buffer)?))
    }
}

/// The service of a run.
pub struct Safe {
    service: Box<dyn Service>,
    /// How many calls it has made.
    pub made: u64,
}

type Started = Result<(Safe, Reply), Error>;

fn start_of<const N: usize>(settings: Settings, bytes: &[u8]) -> Started {
    let (service, reply) = Lent::<N>::start(settings, bytes)?;
    let service = Box::new(service);
    Ok((Safe { service, made: 0 }, reply))
}

/// `start_of` for each number of buffers.
macro_rules! start_of_count {
    ($count:expr, $settings:expr, $bytes:expr, $($n:literal)*) => {
        match $count {
            $($n => Some(start_of::<$n>($settings, $bytes)),)*
            _ => None,
        }
    };
}

fn same<T: PartialEq + Debug>(what: &str, safe: T, expected: T) -> Result<(), String> {
    match safe == expected {
        true => Ok(()),
        false => Err(format!("safe types, {what}: {safe:02x?}\n  expected {expected:02x?}")),
    }
}

/// What start or a call gave: the refusal's number as it was returned, or a reply that is written as these bytes.
fn same_reply(told: &Result<Reply, Error>, returned: u8, reply: &[u8]) -> Result<(), String> {
    match told {
        Ok(told) => {
            same("returned", 0, returned)?;
            same("reply", &write_reply(&crossing::model_reply(told))[..], reply)
        }
        Err(Error::Refused(refusal)) => same("returned", refusal.number(), returned),
        Err(error) => Err(format!("safe types: {error}, returned {returned}")),
    }
}

/// What a call left, as the library's slices have it and the model reads it.
pub struct After<'a> {
    pub returned: u8,
    pub state: &'a [u8],
    pub line: &'a [u8],
    pub reply: &'a [u8],
    pub pool: &'a [u8],
    pub read: &'a (State, Line),
    /// The held buffers by the book, sorted.
    pub held: &'a [u8],
}

impl Safe {
    /// Whether the safe types can say these settings, be they refused or not. Each number of buffers is a type of its own, which takes
    /// its time to compile: these nine are those of 93 in 100 random runs.
    pub fn can_say(raw: &RawStart) -> bool {
        settings(raw).is_some() && matches!(raw.count, 3..=10 | 32)
    }

    /// The same start on a pool of these bytes, which returned this number and left this reply. None if start was refused, or where
    /// `can_say` says no.
    pub fn start(raw: &RawStart, bytes: &[u8], returned: u8, reply: &[u8]) -> Result<Option<Safe>, String> {
        let Some(settings) = settings(raw) else { return Ok(None) };
        let started = start_of_count!(raw.count, settings, bytes, 3 4 5 6 7 8 9 10 32);
        let Some(started) = started else { return Ok(None) };
        let (safe, told) = match started {
            Ok((safe, told)) => (Some(safe), Ok(told)),
            Err(error) => (None, Err(error)),
        };
        same_reply(&told, returned, reply)?;
        Ok(safe)
    }

    pub fn poke(&mut self, at: usize, bytes: &[u8]) {
        self.service.poke(at, bytes);
    }

    /// The call, if the safe types can say it: what it gave and left is what the C function did.
    pub fn call(&mut self, raw: &Raw, after: &After) -> Result<(), String> {
        let Some(call) = raw.call() else { return Ok(()) };
        let told = self.service.step(crossing::call(call));
        self.made += 1;
        same_reply(&told, after.returned, after.reply)?;
        self.same_as(after)?;
        for answer in told.into_iter().flat_map(|reply| reply.answers) {
            self.same_frame(&answer, after)?;
        }
        Ok(())
    }

    /// State, line and pool, what is said of them, and a buffer in turn.
    pub fn same_as(&self, after: &After) -> Result<(), String> {
        let [state, line, pool] = self.service.slices();
        same("state", state, after.state)?;
        same("line", line, after.line)?;
        if pool != after.pool {
            return Err("safe types: the pool is not the same".into());
        }
        let (state, line) = after.read;
        same("wait", self.service.wait(), Some(crossing::wait(&state.wait)))?;
        let waiting = self.service.waiting();
        if !waiting.iter().copied().eq(line.0.iter().map(crossing::request)) {
            return Err(format!("safe types: {waiting:?} wait, but {:?} do", line.0));
        }
        // Those of the pool and the first that it does not have.
        let held: Vec<u8> = (0..=state.settings.count)
            .filter(|buffer| self.service.is_held(*buffer))
            .collect();
        same("held buffers", &held, &run::held(state, line))?;
        same("held buffers by the book", &held[..], after.held)?;
        let buffer = (self.made % 256) as u8;
        let at = 144 * usize::from(buffer);
        let frame = at + usize::from(state.settings.headroom);
        let bytes = after
            .pool
            .get(at..at + 144)
            .map(|whole| (whole, &after.pool[frame..frame + 127]));
        same("buffer", self.service.buffer(buffer), bytes)
    }

    /// The frame of an answer: the bytes of the buffer that it returns, as many as it says, with what the header reader says of them.
    fn same_frame(&self, answer: &Answer, after: &After) -> Result<(), String> {
        let found = self.service.received(answer);
        let Response::Received(RxResult::Frame { length, .. }) = answer.response else {
            return same("frame of an answer that has none", found, None);
        };
        let begin = after.read.0.settings.frame(answer.buffer);
        let bytes = &after.pool[begin..begin + usize::from(length)];
        same("received frame", found.map(|found| found.frame), Some(bytes))?;
        same(
            "its facts",
            found.map(|found| found.info),
            Some(PreliminaryFrameInfo::of(bytes)),
        )
    }
}
