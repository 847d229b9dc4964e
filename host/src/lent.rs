//! The pool as it is lent to a service: a pointer, from which a reference is made only where one is asked for.
#![allow(unsafe_code)]
use crate::ffi::BUFFER_LENGTH;
use crate::settings::Pool;
use core::marker::PhantomData;
use core::ptr::NonNull;

/// An exclusive borrow of a pool, kept as a pointer. A reference to the pool, which the compiler may take for the only way to its
/// bytes, would have to stand in the service all the time that a radio writes into a buffer. A pointer says nothing of the bytes
/// until it is used.
pub(crate) struct LentPool<'p, const N: usize> {
    pool: NonNull<Pool<N>>,
    loan: PhantomData<&'p mut Pool<N>>,
}

// SAFETY: the borrow that `loan` stands for is exclusive and nobody else has the pointer, but who asked for it by `buffer_ptr` and
// answers for its use. So it may go to another thread where that borrow may.
unsafe impl<'p, const N: usize> Send for LentPool<'p, N> where &'p mut Pool<N>: Send {}

// SAFETY: a shared reference to it gives shared references to bytes of the pool, as one to that borrow would, and pointers.
unsafe impl<'p, const N: usize> Sync for LentPool<'p, N> where &'p mut Pool<N>: Sync {}

/// All bytes of a lent pool for one call.
pub(crate) struct PoolBytes<'a> {
    first: NonNull<u8>,
    length: usize,
    loan: PhantomData<&'a mut [u8]>,
}

impl PoolBytes<'_> {
    pub(crate) fn as_mut_ptr(&self) -> *mut u8 {
        self.first.as_ptr()
    }

    pub(crate) fn len(&self) -> usize {
        self.length
    }
}

impl<'p, const N: usize> LentPool<'p, N> {
    pub(crate) fn new(pool: &'p mut Pool<N>) -> Self {
        let pool = NonNull::from(pool);
        let loan = PhantomData;
        Self { pool, loan }
    }

    /// The borrow itself, for what is left of it.
    pub(crate) fn into_inner(mut self) -> &'p mut Pool<N> {
        // SAFETY: the pointer comes from the exclusive borrow of a pool that lasts for 'p, and this value, which is gone with it, was
        // the only way to it. Who asked for a pointer by `buffer_ptr` answers for its use.
        unsafe { self.pool.as_mut() }
    }

    /// As pointer and length: no reference to the bytes is made.
    pub(crate) fn bytes(&mut self) -> PoolBytes<'_> {
        PoolBytes {
            first: self.pool.cast(),
            length: size_of::<Pool<N>>(),
            loan: PhantomData,
        }
    }

    pub(crate) fn pool(&self) -> &Pool<N> {
        // SAFETY: the pointer comes from the exclusive borrow of a pool that lasts for 'p. The reference lives no longer than that
        // of `self`, so no call and no exclusive reference to a buffer is made meanwhile.
        unsafe { self.pool.as_ref() }
    }

    pub(crate) fn buffer_ptr(&self, buffer: u8) -> Option<NonNull<[u8; BUFFER_LENGTH]>> {
        let place = usize::from(buffer);
        if place >= N {
            return None;
        }
        let first: NonNull<[u8; BUFFER_LENGTH]> = self.pool.cast();
        // SAFETY: a pool is N buffers one behind the other, and the place is below N: the sum stays inside the borrowed pool.
        Some(unsafe { first.add(place) })
    }

    pub(crate) fn buffer(&self, buffer: u8) -> Option<&[u8; BUFFER_LENGTH]> {
        // SAFETY: as of `pool`, of the bytes of this buffer alone.
        self.buffer_ptr(buffer).map(|pointer| unsafe { pointer.as_ref() })
    }

    pub(crate) fn buffer_mut(&mut self, buffer: u8) -> Option<&mut [u8; BUFFER_LENGTH]> {
        // SAFETY: the pointer comes from the exclusive borrow of a pool that lasts for 'p. The reference lives no longer than the
        // exclusive one to `self`, so no other reference to this buffer is made meanwhile.
        self.buffer_ptr(buffer).map(|mut pointer| unsafe { pointer.as_mut() })
    }
}
