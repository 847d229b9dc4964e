//! What start sets, and the pool of buffers.
use crate::ffi::{self, BUFFER_LENGTH};
use core::fmt;

/// The longest frame with checksum, in bytes.
pub const FRAME_LENGTH: usize = ffi::FRAME_LENGTH;

/// Length of a frame's checksum.
#[derive(Clone, Copy, Debug, PartialEq, Eq)]
pub enum FcsLength {
    /// 2 bytes.
    Two,
    /// 4 bytes.
    Four,
}

impl FcsLength {
    /// The length in bytes.
    pub const fn bytes(self) -> u8 {
        match self {
            FcsLength::Two => 2,
            FcsLength::Four => 4,
        }
    }
}

/// What start sets. How many buffers there are is the pool's parameter.
///
/// Requests E8 and E10 of document 02 change this: two identities, and a third own buffer. A host has to choose them, so every field
/// has to be named.
#[derive(Clone, Copy, Debug, PartialEq, Eq)]
pub struct Settings {
    /// Bytes of each buffer before its frame: 0 to 8, else start is refused.
    pub headroom: u8,
    /// Bytes after a frame that the radio may use: 0 to 8, else start is refused.
    pub tailroom: u8,
    /// Length of the checksum.
    pub fcs_length: FcsLength,
    /// The number whose eight bytes, highest first, are the hardware address.
    pub hardware_addr: u64,
    /// Our PAN.
    pub pan_id: u16,
    /// Whether a frame without destination is for us: a broadcast, which is never acknowledged.
    pub implicit_broadcast: bool,
    /// The buffer of the ACK that the service sends for a frame that requests one, unless that is a broadcast.
    pub ack_buffer: u8,
    /// The service's other own buffer. It changes: a frame that is not for us exchanges it for the buffer of the receive request.
    pub spare_buffer: u8,
}

/// The buffers, 144 bytes each. `N` is 3 to 32; another number does not compile. 8 are held at most: the service's own two, those of
/// four requests that wait, and those of two that have left the line and are not answered yet.
///
/// ```compile_fail
/// let pool = widosha::Pool::<2>::new();
/// ```
#[derive(Clone, PartialEq, Eq)]
#[repr(transparent)]
pub struct Pool<const N: usize>([[u8; BUFFER_LENGTH]; N]);

impl<const N: usize> Pool<N> {
    /// How many buffers there are.
    pub const COUNT: u8 = {
        assert!(3 <= N && N <= 32, "a pool has 3 to 32 buffers");
        N as u8
    };

    /// A pool of zeros.
    pub const fn new() -> Self {
        const { assert!(Self::COUNT as usize == N) }
        Self([[0; BUFFER_LENGTH]; N])
    }

    /// The buffer's 144 bytes; none if there is no such buffer.
    pub fn buffer(&self, buffer: u8) -> Option<&[u8; BUFFER_LENGTH]> {
        self.0.get(usize::from(buffer))
    }

    /// The buffer's 144 bytes, to be written; none if there is no such buffer.
    pub fn buffer_mut(&mut self, buffer: u8) -> Option<&mut [u8; BUFFER_LENGTH]> {
        self.0.get_mut(usize::from(buffer))
    }

    /// All bytes, buffer 0 first.
    pub fn bytes(&self) -> &[u8] {
        self.0.as_flattened()
    }
}

/// How many buffers there are, and no byte of them.
impl<const N: usize> fmt::Debug for Pool<N> {
    fn fmt(&self, f: &mut fmt::Formatter<'_>) -> fmt::Result {
        f.debug_struct("Pool").field("buffers", &N).finish_non_exhaustive()
    }
}

impl<const N: usize> Default for Pool<N> {
    fn default() -> Self {
        Self::new()
    }
}
