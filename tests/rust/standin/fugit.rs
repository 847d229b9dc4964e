//! Stand-in for the crate fugit: what phy.rs, timer.rs, mod.rs and tasks.rs name of it.

use core::ops::{Add, Sub, SubAssign};

#[derive(Clone, Copy, Debug, PartialEq, Eq, PartialOrd, Ord)]
pub struct Duration<T, const NOM: u32, const DENOM: u32>(T);

#[derive(Clone, Copy, Debug, PartialEq, Eq, PartialOrd, Ord)]
pub struct Instant<T, const NOM: u32, const DENOM: u32>(T);

pub type NanosDurationU64 = Duration<u64, 1, 1_000_000_000>;

impl<const NOM: u32, const DENOM: u32> Duration<u64, NOM, DENOM> {
    pub const fn from_ticks(ticks: u64) -> Self {
        Self(ticks)
    }

    pub const fn ticks(self) -> u64 {
        self.0
    }

    pub const fn convert<const TO_NOM: u32, const TO_DENOM: u32>(self) -> Duration<u64, TO_NOM, TO_DENOM> {
        Duration(self.0 * NOM as u64 * TO_DENOM as u64 / (DENOM as u64 * TO_NOM as u64))
    }

    pub const fn to_micros(self) -> u64 {
        self.convert::<1, 1_000_000>().0
    }
}

impl<const NOM: u32, const DENOM: u32> Instant<u64, NOM, DENOM> {
    pub const fn from_ticks(ticks: u64) -> Self {
        Self(ticks)
    }
}

impl<const NOM: u32, const DENOM: u32> Add<Duration<u64, NOM, DENOM>> for Instant<u64, NOM, DENOM> {
    type Output = Self;

    fn add(self, duration: Duration<u64, NOM, DENOM>) -> Self {
        Self(self.0 + duration.0)
    }
}

impl<const NOM: u32, const DENOM: u32> Sub<Duration<u64, NOM, DENOM>> for Instant<u64, NOM, DENOM> {
    type Output = Self;

    fn sub(self, duration: Duration<u64, NOM, DENOM>) -> Self {
        Self(self.0 - duration.0)
    }
}

impl<const NOM: u32, const DENOM: u32> SubAssign<Duration<u64, NOM, DENOM>> for Instant<u64, NOM, DENOM> {
    fn sub_assign(&mut self, duration: Duration<u64, NOM, DENOM>) {
        self.0 -= duration.0;
    }
}

/// Named by an import only.
pub trait ExtU64 {}
