//! Stand-in for the root of the crate dot15d4-driver: the Rust's own modules, the header reader, and a radio that is only a
//! configuration.

pub mod radio;
pub mod reader;
pub mod timer;

use core::{
    fmt::Debug,
    future::{ready, Future},
    marker::PhantomData,
};

use radio::{
    phy::{OQpsk250KBit, Phy},
    DriverConfig,
};
use timer::*;

/// Headroom H, tailroom T and a checksum of the size of F.
pub struct Config<const H: u8, const T: u8, F>(PhantomData<F>);

impl<const H: u8, const T: u8, F: Copy + Debug> DriverConfig for Config<H, T, F> {
    type Phy = Phy<OQpsk250KBit>;
    const HEADROOM: u8 = H;
    const TAILROOM: u8 = T;
    const MAX_SDU_LENGTH: u16 = 127;
    type Fcs = F;
    type Timer = NoTimer;
}

/// No leaf uses a timer.
#[derive(Clone, Copy)]
pub struct NoTimer;

impl RadioTimerApi for NoTimer {
    const TICK_PERIOD: LocalClockDuration = LocalClockDuration::from_ticks(1);
    const GUARD_TIME: LocalClockDuration = LocalClockDuration::from_ticks(0);

    type HighPrecisionTimer = NoTimer;

    fn now(&self) -> LocalClockInstant {
        unimplemented!()
    }

    unsafe fn wait_until(
        &mut self,
        _instant: LocalClockInstant,
    ) -> impl Future<Output = Result<(), RadioTimerError>> {
        ready(unimplemented!())
    }

    fn start_high_precision_timer(
        &self,
        _at: Option<LocalClockInstant>,
    ) -> Result<NoTimer, RadioTimerError> {
        unimplemented!()
    }
}

impl HighPrecisionTimer for NoTimer {
    const TICK_PERIOD: LocalClockDuration = LocalClockDuration::from_ticks(1);

    fn schedule_timed_signal(&self, _signal: TimedSignal) -> Result<&Self, RadioTimerError> {
        unimplemented!()
    }

    fn schedule_timed_signal_unless(
        &self,
        _signal: TimedSignal,
        _event: HardwareEvent,
    ) -> Result<&Self, RadioTimerError> {
        unimplemented!()
    }

    unsafe fn wait_for(&mut self, _signal: HardwareSignal) -> impl Future<Output = ()> {
        ready(unimplemented!())
    }

    fn observe_event(&self, _event: HardwareEvent) -> Result<&Self, RadioTimerError> {
        unimplemented!()
    }

    fn poll_event(&self, _event: HardwareEvent) -> Option<LocalClockInstant> {
        unimplemented!()
    }

    fn reset(&self) {
        unimplemented!()
    }
}
