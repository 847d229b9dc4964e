//! The air between the two cranes: every frame reaches every station, and frames that overlap may spoil one another.

/// Who sends and hears. The last three follow a script and have no driver of ours: two devices of another make on crane B, and the
/// port's coordinator.
#[derive(Clone, Copy, Debug, PartialEq, Eq)]
pub enum Who {
    HubA,
    CellA,
    HubB,
    CellB,
    CellC,
    CellD,
    HandsetB,
    ReaderB,
    Port,
}

impl Who {
    pub fn name(self) -> &'static str {
        match self {
            Who::HubA => "hub A",
            Who::CellA => "cell A",
            Who::HubB => "hub B",
            Who::CellB => "cell B",
            Who::CellC => "cell C",
            Who::CellD => "cell D",
            Who::HandsetB => "handset B",
            Who::ReaderB => "reader B",
            Who::Port => "port",
        }
    }

    fn on_crane_b(self) -> bool {
        matches!(self, Who::HubB | Who::CellB | Who::HandsetB | Who::ReaderB)
    }
}

pub const MICROSECOND: u64 = 1_000;
/// From the antenna that sends to the radio that notices: 2 µs for every pair.
pub const DELAY: u64 = 2 * MICROSECOND;
/// Preamble, start of frame and length: six bytes at 250 kbit/s.
pub const BEFORE_BYTES: u64 = 192 * MICROSECOND;
pub const BYTE: u64 = 32 * MICROSECOND;
pub const CHECKSUM: u16 = 2;
/// The spreaders swing, and each frame finds the aerials a little otherwise: by how much its link quality is above the lowest.
const SWING: [u8; 7] = [4, 0, 7, 3, 9, 5, 1];

/// A frame on its way, with the times at which it is heard. The checksum is the radios' affair and not among the bytes.
pub struct Flying {
    pub from: Who,
    pub begin: u64,
    pub end: u64,
    pub bytes: Vec<u8>,
}

impl Flying {
    pub fn length(&self) -> u16 {
        self.bytes.len() as u16
    }

    pub fn length_with_checksum(&self) -> u16 {
        self.length() + CHECKSUM
    }
}

#[derive(Default)]
pub struct Air {
    pub frames: Vec<Flying>,
}

impl Air {
    /// A frame begins to leave an antenna now. Gives its place in the list and when it has left.
    pub fn send(&mut self, from: Who, now: u64, bytes: Vec<u8>) -> (usize, u64) {
        let lasts = BEFORE_BYTES + BYTE * (bytes.len() as u64 + u64::from(CHECKSUM));
        let begin = now + DELAY;
        let end = begin + lasts;
        self.frames.push(Flying { from, begin, end, bytes });
        (self.frames.len() - 1, now + lasts)
    }

    /// Crane B's devices stand close together and hear one another loudly. Cell A's aerial is bent against the spreader's steel,
    /// and hub A hears its own cell no louder than crane B. Everybody else is far away.
    fn loudness(from: Who, to: Who) -> u8 {
        if from.on_crane_b() && to.on_crane_b() {
            2
        } else {
            1
        }
    }

    /// The link quality that the receiving radio tells with a frame, whole or damaged. Cell A's aerial is weak both ways.
    pub fn quality(&self, id: usize, to: Who) -> u8 {
        let from = self.frames[id].from;
        let lowest = match (from, to) {
            (Who::CellA, _) | (_, Who::CellA) => 48,
            _ if from.on_crane_b() && to.on_crane_b() => 211,
            _ => 134,
        };
        lowest + SWING[(id + to as usize) % SWING.len()]
    }

    /// Whether a frame arrives with a wrong checksum: another one overlaps it and is at least as loud.
    pub fn spoiled(&self, id: usize, to: Who) -> bool {
        let this = &self.frames[id];
        let loud = Self::loudness(this.from, to);
        let overlaps = |other: &Flying| other.begin < this.end && this.begin < other.end;
        let mut others = self.frames.iter().enumerate().filter(|(place, _)| *place != id);
        others.any(|(_, other)| overlaps(other) && Self::loudness(other.from, to) >= loud)
    }

    /// What a channel check of this station finds: what others send.
    pub fn is_busy(&self, now: u64, who: Who) -> bool {
        let mut others = self.frames.iter().filter(|frame| frame.from != who);
        others.any(|frame| frame.begin <= now && now < frame.end)
    }
}
