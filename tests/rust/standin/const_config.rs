//! Stand-in for the two constants that utils.rs names. Implicit broadcast is a constant that the build sets. The PAN is a
//! constant too in the benchmark's build (cfg fixed_pan); otherwise it can be set between two calls.

pub const MAC_IMPLICIT_BROADCAST: bool = cfg!(implicit_broadcast);

#[cfg(fixed_pan)]
mod pan {
    use crate::radio::frame::PanId;

    pub const MAC_PAN_ID: PanId<[u8; 2]> = PanId::new_owned(0x4321u16.to_le_bytes());
}

#[cfg(not(fixed_pan))]
mod pan {
    use std::cell::UnsafeCell;

    pub struct OwnPanId(UnsafeCell<[u8; 2]>);

    /// Safety: The comparison runs on one thread.
    unsafe impl Sync for OwnPanId {}

    pub static MAC_PAN_ID: OwnPanId = OwnPanId(UnsafeCell::new([0; 2]));

    impl OwnPanId {
        pub fn set(&self, pan: u16) {
            // Safety: No reference to the bytes outlives a call of the filter.
            unsafe { *self.0.get() = pan.to_le_bytes() }
        }
    }

    impl AsRef<[u8]> for OwnPanId {
        /// Little endian
        fn as_ref(&self) -> &[u8] {
            // Safety: As above.
            unsafe { &*self.0.get() }
        }
    }
}

pub use pan::*;
