//! Stand-in for the crate dot15d4-util: errors, frame traits and a buffer that is one lent slice.

#[derive(Clone, Copy, Debug, PartialEq, Eq)]
pub struct Error;

pub type Result<T> = core::result::Result<T, Error>;

pub mod frame {
    pub trait FramePdu {
        type Pdu: ?Sized;

        fn pdu_ref(&self) -> &Self::Pdu;
        fn pdu_mut(&mut self) -> &mut Self::Pdu;
    }

    pub trait Frame: FramePdu {
        fn sdu_ref(&self) -> &[u8];
        fn sdu_mut(&mut self) -> &mut [u8];
    }
}

pub mod allocator {
    use core::ops::{Deref, DerefMut};

    #[derive(Debug, PartialEq, Eq)]
    pub struct BufferToken(&'static mut [u8]);

    impl BufferToken {
        pub fn new(bytes: &'static mut [u8]) -> Self {
            Self(bytes)
        }

        pub const fn len(&self) -> usize {
            self.0.len()
        }

        pub const fn as_ptr(&self) -> *const u8 {
            self.0.as_ptr()
        }

        pub const fn as_mut_ptr(&mut self) -> *mut u8 {
            self.0.as_mut_ptr()
        }
    }

    impl Deref for BufferToken {
        type Target = [u8];

        fn deref(&self) -> &[u8] {
            self.0
        }
    }

    impl DerefMut for BufferToken {
        fn deref_mut(&mut self) -> &mut [u8] {
            self.0
        }
    }

    impl AsRef<[u8]> for BufferToken {
        fn as_ref(&self) -> &[u8] {
            self.0
        }
    }

    impl AsMut<[u8]> for BufferToken {
        fn as_mut(&mut self) -> &mut [u8] {
            self.0
        }
    }

    pub trait IntoBuffer {
        fn into_buffer(self) -> BufferToken;
    }

    /// Named by the droppable frame only, which is not used here.
    #[derive(Clone, Copy, Debug)]
    pub struct BufferAllocator;

    impl BufferAllocator {
        /// # Safety
        ///
        /// Nothing is freed.
        pub unsafe fn deallocate_buffer(&self, _buffer: BufferToken) {}
    }
}
