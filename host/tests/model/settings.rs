//! Document 01, "Settings and pool" and "Spacing and time".

/// "The pool is one lent slice of 144 × n bytes; buffer b begins at 144 × b."
pub const BUFFER: usize = 144;

/// "The longest frame with checksum is 127 bytes."
pub const LONGEST: u16 = 127;

/// What start was given, and the two own buffers as they are now.
#[derive(Clone, Copy, Debug, PartialEq, Eq)]
pub struct Settings {
    pub count: u8,
    pub headroom: u8,
    pub tailroom: u8,
    pub fcs: u8,
    /// "hardware address (8 bytes, highest first)"
    pub hardware: [u8; 8],
    pub pan: u16,
    pub implicit: bool,
    pub ack: u8,
    pub spare: u8,
}

impl Settings {
    /// The refusals 2 to 4, in checking order.
    pub fn refusal(&self, pool: usize) -> Option<u8> {
        // "2. The count is outside 3 to 32 or the pool is not 144 × n bytes."
        if self.count < 3 || self.count > 32 || pool != self.pool_length() {
            return Some(2);
        }
        // "3. H, T or F is out of range." "H is 0 to 8, tailroom T 0 to 8, checksum length F 2 or 4."
        if self.headroom > 8 || self.tailroom > 8 || (self.fcs != 2 && self.fcs != 4) {
            return Some(3);
        }
        // "4. The two own buffers are equal or not below n."
        if self.ack == self.spare || self.ack >= self.count || self.spare >= self.count {
            return Some(4);
        }
        None
    }

    pub fn pool_length(&self) -> usize {
        BUFFER * usize::from(self.count)
    }

    /// "A frame begins H bytes into its buffer."
    pub fn frame(&self, buffer: u8) -> usize {
        BUFFER * usize::from(buffer) + usize::from(self.headroom)
    }

    /// 127 − F, the longest frame without checksum.
    pub fn longest(&self) -> u16 {
        LONGEST - u16::from(self.fcs)
    }

    /// Whether a Tx length passes 8: "A Tx length is below 3 or above 127 − F."
    pub fn sends(&self, length: u16) -> bool {
        length >= 3 && length <= self.longest()
    }
}

#[derive(Clone, Copy, Debug, PartialEq, Eq)]
pub enum Spacing {
    Ack,
    Short,
    Long,
}

/// "Length with checksum up to 18: short; 19 and over: long"
pub fn spacing(length_with_checksum: u32) -> Spacing {
    match length_with_checksum {
        0..=18 => Spacing::Short,
        _ => Spacing::Long,
    }
}

/// "Latest ACK start is the measured entry + 10,000." Nothing if that exceeds 64 bits.
pub fn latest_ack_start(entry: u64) -> Option<u64> {
    entry.checked_add(10_000)
}
