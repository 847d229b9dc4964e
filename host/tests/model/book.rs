//! Document 01, "The third demand's book": "It is kept from start, the calls, the pool as each call finds it, and the replies alone,
//! never from the state." Document 02, E1, has the line in it: "The third demand's list takes in the calls on the line". Beside it, from
//! calls and replies alone too: which answers have which link quality (E6), and how the run can go on (`way_on`).
use super::calls::{Call, Raw, RawStart, Request, Start};
use super::settings::LONGEST;
use super::told::{Asked, Told};

/// A request that has arrived and not left. "The book enters a request once, at arrival".
#[derive(Clone, Debug)]
struct Arrival {
    /// How many arrivals the book has entered before it.
    place: u64,
    request: Request,
}

/// A request that has left the line and is still unanswered.
#[derive(Clone, Debug)]
struct Entry {
    token: u32,
    transmit: bool,
    /// How many accepted calls may follow before it is answered: six, "three if its frame wants no acknowledgement".
    limit: u32,
    followed: u32,
}

#[derive(Clone, Debug)]
pub struct Book {
    count: u8,
    headroom: usize,
    longest: u16,
    held: Vec<u8>,
    waiting: Vec<Arrival>,
    unanswered: Vec<Entry>,
    /// The arrivals entered so far.
    arrivals: u64,
    /// The last that has left, of each direction and kind of start, by its place and one more.
    left: [u64; 4],
    /// The place of the Tx that OutboundSeen named, "its stop or the ask after its window ended still open".
    named: Option<u64>,
    told: Told,
}

/// An answer as the reply slice has it.
struct Written {
    code: u8,
    token: u32,
    buffer: u8,
    quality: u8,
}

fn answers(reply: &[u8]) -> Vec<Written> {
    let answer = |at: usize| Written {
        code: reply[at],
        token: u32::from_le_bytes([reply[at + 1], reply[at + 2], reply[at + 3], reply[at + 4]]),
        buffer: reply[at + 5],
        quality: reply[at + 15],
    };
    [12, 30].into_iter().map(answer).filter(|written| written.code != 0).collect()
}

/// E6: "The receive results "frame" and "CRC error" gain the standard's link quality, one byte, and the receive answers made from
/// them, no others, carry it unaltered." They are made from the results of Entered and Fallback, in the very call.
fn check_quality(raw: &Raw, written: &Written) -> Result<(), String> {
    let told = match *raw {
        Raw::Entered { result, quality, .. } | Raw::Fallback { result, quality, .. } => {
            [(2, 6), (4, 8)].contains(&(result, written.code)).then_some(quality)
        }
        _ => None,
    };
    let received = written.code == 6 || written.code == 8;
    match received == told.is_some() && written.quality == told.unwrap_or(0) {
        true => Ok(()),
        false => Err(format!(
            "answer {} has quality {}, told was {told:?}",
            written.code, written.quality
        )),
    }
}

/// Whether the action in the reply is this request's: direction, buffer, and as it has them length, flag and start.
fn is_task_of(reply: &[u8], request: &Request) -> bool {
    let (timed, time) = match request.start() {
        Start::BestEffort => (0, 0),
        Start::At(time) => (1, time),
    };
    let (code, length, check) = match *request {
        Request::Tx { length, check, .. } => (9, length as u8, u8::from(check)),
        Request::Rx { .. } => (10, 0, 0),
    };
    let flags = reply[3] & 0b101;
    reply[..3] == [code, request.buffer(), length] && flags == (timed << 2 | check) && reply[4..12] == time.to_le_bytes()
}

/// "one direction and one kind of start"
fn kind(request: &Request) -> usize {
    usize::from(request.transmits()) + 2 * usize::from(request.start() == Start::BestEffort)
}

impl Book {
    /// "Start enters the own buffers as held."
    pub fn new(start: &RawStart) -> Book {
        let held = vec![start.ack_buffer, start.spare_buffer];
        Book {
            count: start.count,
            headroom: usize::from(start.headroom),
            longest: LONGEST - u16::from(start.fcs_length),
            held,
            waiting: Vec::new(),
            unanswered: Vec::new(),
            arrivals: 0,
            left: [0; 4],
            named: None,
            told: Told::by_start(),
        }
    }

    /// Whether the frame of a Tx request wants an ACK, from "the pool as each call finds it".
    fn limit(&self, buffer: u8, pool: &[u8]) -> u32 {
        let frame = 144 * usize::from(buffer) + self.headroom;
        let (low, high) = (pool[frame], pool[frame + 1]);
        let suppressed = high & 0x30 == 0x20 && high & 0x01 != 0;
        if low & 0x20 != 0 && !suppressed {
            6
        } else {
            3
        }
    }

    fn is_unanswered(&self, token: u32) -> bool {
        self.unanswered.iter().any(|entry| entry.token == token)
    }

    fn waits(&self, token: u32) -> Option<&Arrival> {
        self.waiting.iter().find(|arrival| arrival.request.token() == token)
    }

    /// "which one a Request takes, it finds among its own waiting entries by the rule above": "the earliest arrival whose direction
    /// and start the wait allows". Where it stands among them.
    fn takes(&self) -> Option<usize> {
        self.waiting
            .iter()
            .position(|arrival| self.told.asked.allows(&arrival.request))
    }

    fn earliest_tx(&self) -> Option<&Arrival> {
        self.waiting.iter().find(|arrival| arrival.request.transmits())
    }

    /// The refusals of an arrival, in checking order; 0 if none holds. "What 6 calls unanswered and 7 calls held is, at each call of
    /// the list, what the book says before it." "6 .. looks at requests that have left the line"; "12 .. when four wait; 13 when the
    /// token already waits .. ; both after 8".
    fn arrival(&self, request: &Request) -> u8 {
        let length_fits = match *request {
            Request::Tx { length, .. } => (3..=self.longest).contains(&length),
            Request::Rx { .. } => true,
        };
        let buffer = request.buffer();
        let tests = [
            (6, self.is_unanswered(request.token())),
            (7, buffer >= self.count || self.held.contains(&buffer)),
            (8, !length_fits),
            (12, self.waiting.len() == 4),
            (13, self.waits(request.token()).is_some()),
        ];
        tests.into_iter().find(|test| test.1).map_or(0, |test| test.0)
    }

    /// What the book says that the call returns, where line, ask and last action settle it: 5 or another number, or 0.
    fn expects(&self, call: &Call) -> Option<u8> {
        let fits = |fits: bool| if fits { 0 } else { 5 };
        Some(match *call {
            Call::Arrive(request) => self.arrival(&request),
            // "13 when the token .. does not [wait] or is the Tx OutboundSeen named"
            Call::Withdraw(token) => match self.waits(token) {
                Some(arrival) if self.named != Some(arrival.place) => 0,
                _ => 13,
            },
            Call::Request if self.told.asked == Asked::Nothing => 5,
            // "a Request, now without fields, that finds none such is 9"
            Call::Request => self.takes().map_or(9, |_| 0),
            // "where a wait takes None, it now fits exactly if the line holds no such arrival"
            Call::None => fits(self.told.asked.takes_none() && self.takes().is_none()),
            Call::FrameStart => fits(self.told.action == 4),
            // "OutboundSeen fits only with the start and flag of its earliest Tx."
            Call::OutboundSeen(seen, flag) => fits(
                self.told.action == 4
                    && match self.earliest_tx().map(|arrival| arrival.request) {
                        Some(Request::Tx { start, check, .. }) => start == seen && check == flag,
                        _ => false,
                    },
            ),
            // "In every wait it fits only where rollback is on."
            Call::Rollback => fits(self.told.rollback),
            Call::Stopped(_) | Call::Header { .. } | Call::Entered(..) | Call::Fallback(..) => return None,
        })
    }

    /// Whether the returned number can be, by the book before the call.
    pub fn check_refusal(&self, raw: &Raw, returned: u8) -> Result<(), String> {
        let expected = match raw.call() {
            Some(call) => self.expects(&call),
            None => Some(5),
        };
        let right = match expected {
            Some(number) => returned == number,
            None => matches!(returned, 0 | 5 | 10 | 11),
        };
        match right {
            true => Ok(()),
            false => Err(format!("returned {returned}, but by the book {expected:?}")),
        }
    }

    /// Takes an accepted call: its numbers, the pool as it found it, the reply slice it left. Then the claims of the third demand.
    pub fn accept(&mut self, raw: &Raw, pool: &[u8], reply: &[u8]) -> Result<(), String> {
        match raw.call() {
            Some(Call::Arrive(request)) => self.enter(request, reply)?,
            Some(Call::Withdraw(token)) => self.withdraw(token, reply)?,
            Some(call) => self.follow(raw, &call, pool, reply)?,
            None => return Err("accepted with a code that stands for nothing".to_string()),
        }
        self.claims()
    }

    /// "The book enters a request once, at arrival"; "A waiting request's buffer is held from arrival and counts in the held total".
    fn enter(&mut self, request: Request, reply: &[u8]) -> Result<(), String> {
        self.held.push(request.buffer());
        self.waiting.push(Arrival {
            place: self.arrivals,
            request,
        });
        self.arrivals += 1;
        nothing(reply)
    }

    /// "withdrawal frees it, and the withdrawn request no longer counts as unanswered"
    fn withdraw(&mut self, token: u32, reply: &[u8]) -> Result<(), String> {
        let place = self.waiting.iter().position(|arrival| arrival.request.token() == token);
        let arrival = self.waiting.remove(place.ok_or("a token was withdrawn that does not wait")?);
        self.held.retain(|held| *held != arrival.request.buffer());
        nothing(reply)
    }

    /// A call that is not on the line. "the six calls, or the three, run from leaving, calls on the line not counted".
    fn follow(&mut self, raw: &Raw, call: &Call, pool: &[u8], reply: &[u8]) -> Result<(), String> {
        for entry in &mut self.unanswered {
            entry.followed += 1;
        }
        if *call == Call::Request {
            self.leave(pool, reply)?;
        }
        for written in answers(reply) {
            check_quality(raw, &written)?;
            self.strike(&written)?;
        }
        self.named = match call {
            Call::OutboundSeen(..) => self.earliest_tx().map(|arrival| arrival.place),
            // "its stop or the ask after its window ended": that ask is the only one for an outbound request.
            _ => self.named.filter(|_| reply[0] == 3),
        };
        self.told = self.told.after(call, reply);
        Ok(())
    }

    /// A Request was accepted. The one that leaves is told by the action; the rule says the same.
    fn leave(&mut self, pool: &[u8], reply: &[u8]) -> Result<(), String> {
        let taken = self.waiting.iter().position(|arrival| is_task_of(reply, &arrival.request));
        let rule = self.takes();
        let Some(taken) = taken else {
            return Err("no request that waits is the one of the action".to_string());
        };
        let Arrival { place, request } = self.waiting.remove(taken);
        // "Requests of one direction and one kind of start leave in arrival order, none twice."
        let last = &mut self.left[kind(&request)];
        if place < *last {
            return Err(format!("arrival {place} leaves after arrival {} of its kind", *last - 1));
        }
        *last = place + 1;
        if rule != Some(taken) {
            return Err(format!("the request in place {taken} leaves, by the rule it is {rule:?}"));
        }
        // Asked for an outbound request, the one that OutboundSeen named is what leaves.
        if self.named.is_some_and(|named| named != place) {
            return Err(format!("arrival {place} leaves, OutboundSeen named {:?}", self.named));
        }
        // "it is unanswered from then on"; its buffer is held as before. Whether its frame wants an ACK is noted at leaving.
        let limit = if request.transmits() {
            self.limit(request.buffer(), pool)
        } else {
            0
        };
        self.unanswered.push(Entry {
            token: request.token(),
            transmit: request.transmits(),
            limit,
            followed: 0,
        });
        Ok(())
    }

    /// "each strikes out the unanswered request with its token, and the buffer it returns"
    fn strike(&mut self, written: &Written) -> Result<(), String> {
        let Written { code, token, buffer, .. } = *written;
        let found = self.unanswered.iter().position(|entry| entry.token == token);
        let Some(found) = found else {
            return Err(format!(
                "token {token} is answered, but has no unanswered request that has left"
            ));
        };
        let entry = self.unanswered.remove(found);
        // "Sent, Nack and error answer a transmit request; a receive result or "window ended" answers a receive request."
        if entry.transmit != (1..=5).contains(&code) {
            return Err(format!("token {token} gets answer {code} of the other direction"));
        }
        let Some(place) = self.held.iter().position(|held| *held == buffer) else {
            return Err(format!("token {token} gets back buffer {buffer}, which was not held"));
        };
        self.held.remove(place);
        Ok(())
    }

    fn claims(&self) -> Result<(), String> {
        // "No accepted transmit request is still unanswered once six accepted calls have followed its own (three ...)."
        if let Some(late) = self
            .unanswered
            .iter()
            .find(|entry| entry.transmit && entry.followed >= entry.limit)
        {
            return Err(format!(
                "token {} is unanswered after {} accepted calls",
                late.token, late.followed
            ));
        }
        // "those held number exactly the service's two plus one for each unanswered request, all different"; one that waits is
        // unanswered too.
        if self.held.len() != 2 + self.unanswered.len() + self.waiting.len() {
            return Err(format!(
                "{} buffers held with {} requests unanswered and {} that wait",
                self.held.len(),
                self.unanswered.len(),
                self.waiting.len()
            ));
        }
        // The one that OutboundSeen named leaves at the ask after its window ended: it waits there, and the ask is never met by 9.
        let waits = |named: u64| self.waiting.iter().any(|arrival| arrival.place == named);
        if self.told.asked == Asked::Outbound && !self.named.is_some_and(waits) {
            return Err(format!(
                "an outbound request is asked for, but {:?} does not wait",
                self.named
            ));
        }
        let mut different = self.held.clone();
        different.sort_unstable();
        different.dedup();
        match different.len() == self.held.len() {
            true => Ok(()),
            false => Err(format!("held buffers {:?} are not all different", self.held)),
        }
    }

    /// A call that fits next, by the last action alone: no list of calls leads to where none does. An arrival is named only where
    /// nothing waits and the service waits for a request.
    pub fn way_on(&self) -> Raw {
        match self.told.action {
            1 if self.waiting.is_empty() => {
                let free = (0..self.count)
                    .find(|buffer| !self.held.contains(buffer))
                    .unwrap_or(self.count);
                let token = (0..).find(|token| !self.is_unanswered(*token)).unwrap_or(0);
                Raw::arrive(token, 1, 0, 0, free, 0, 0)
            }
            2 if self.takes().is_none() => Raw::None,
            1..=3 => Raw::Request,
            4 => Raw::FrameStart,
            5..=7 => Raw::stopped(0, 0, 0, 0),
            8 => Raw::header(0, 0),
            _ => self.told.entered(),
        }
    }

    /// What waits, in the order of arrival; tokens of requests that have left and are unanswered, and buffers held, both sorted.
    pub fn says(&self) -> (Vec<Request>, Vec<u32>, Vec<u8>) {
        let waiting = self.waiting.iter().map(|arrival| arrival.request).collect();
        let mut tokens: Vec<u32> = self.unanswered.iter().map(|entry| entry.token).collect();
        let mut held = self.held.clone();
        tokens.sort_unstable();
        held.sort_unstable();
        (waiting, tokens, held)
    }
}

/// An accepted call on the line changes the line alone: no action and no answer.
fn nothing(reply: &[u8]) -> Result<(), String> {
    match reply.iter().all(|byte| *byte == 0) {
        true => Ok(()),
        false => Err(format!("a call on the line was told {reply:02x?}")),
    }
}
