//! Pages of memory that can be barred: Linux alone, by its own functions.
use std::ffi::c_void;
use std::ops::Range;

const PAGE: usize = 4096;
/// Enough before and after the middle for the longest pool, 32 buffers of 144 bytes.
const PAGES: usize = 8;

/// What may be done with the bytes of a page.
#[derive(Clone, Copy, Debug, PartialEq, Eq)]
pub enum Rights {
    None,
    Read,
    /// Reading and writing.
    All,
}

extern "C" {
    fn mmap(address: *mut c_void, length: usize, rights: i32, flags: i32, file: i32, offset: i64) -> *mut c_void;
    fn mprotect(address: *mut c_void, length: usize, rights: i32) -> i32;
    fn munmap(address: *mut c_void, length: usize) -> i32;
    fn fork() -> i32;
    fn waitpid(child: i32, status: *mut i32, options: i32) -> i32;
    fn signal(number: i32, handler: usize) -> usize;
    fn _exit(status: i32) -> !;
}

impl Rights {
    /// PROT_READ is 1, PROT_WRITE 2.
    fn number(self) -> i32 {
        match self {
            Rights::None => 0,
            Rights::Read => 1,
            Rights::All => 3,
        }
    }
}

/// SIGSEGV, by which Linux ends a process that touches a barred page.
const TOUCHED: i32 = 11;

pub struct Pages {
    first: *mut u8,
}

impl Pages {
    pub fn new() -> Pages {
        // MAP_PRIVATE 2 and MAP_ANONYMOUS 32: pages of their own, without a file.
        // SAFETY: new pages, at no place that is asked for.
        let first = unsafe { mmap(std::ptr::null_mut(), PAGES * PAGE, 3, 2 | 32, -1, 0) };
        assert_ne!(first as isize, -1, "there are no pages");
        Pages { first: first.cast() }
    }

    pub fn length(&self) -> usize {
        PAGES * PAGE
    }

    /// Gives the pages of these bytes these rights.
    pub fn bar(&mut self, bytes: Range<usize>, rights: Rights) {
        assert!(bytes.start % PAGE == 0 && bytes.end % PAGE == 0 && bytes.end <= PAGES * PAGE);
        // SAFETY: they are pages of this value, and no reference to one of their bytes lives.
        let done = unsafe { mprotect(self.first.add(bytes.start).cast(), bytes.len(), rights.number()) };
        assert_eq!(done, 0, "the rights of pages were not changed");
    }

    /// Puts the bytes in, of which the one with this place begins the page in the middle. Gives where the first one stands.
    pub fn put(&mut self, bytes: &[u8], middle: usize) -> *mut u8 {
        let begin = PAGES / 2 * PAGE - middle;
        assert!(middle <= bytes.len() && begin + bytes.len() <= PAGES * PAGE);
        // SAFETY: the bytes lie inside the pages.
        unsafe {
            let first = self.first.add(begin);
            first.copy_from(bytes.as_ptr(), bytes.len());
            first
        }
    }

    /// What stands there now.
    pub fn bytes(&self, from: *const u8, length: usize) -> &[u8] {
        let begin = (from as usize).wrapping_sub(self.first as usize);
        assert!(begin + length <= PAGES * PAGE);
        // SAFETY: the bytes lie inside the pages, which are only written by those who have the value to write.
        unsafe { std::slice::from_raw_parts(from, length) }
    }

    /// Whether a process of its own ends by a touched page in this function, which may do nothing but touch bytes.
    pub fn ends_child(function: impl FnOnce()) -> bool {
        // SAFETY: the child calls the function and ends.
        unsafe {
            let child = fork();
            assert!(child >= 0, "there is no child");
            if child == 0 {
                // SIG_DFL: the process ends at once.
                signal(TOUCHED, 0);
                function();
                _exit(0);
            }
            let mut status = 0;
            assert_eq!(waitpid(child, &mut status, 0), child);
            assert!(status == 0 || status & 0x7f == TOUCHED, "the child ended by {status}");
            status != 0
        }
    }
}

impl Drop for Pages {
    fn drop(&mut self) {
        // SAFETY: the pages of this value, of which nothing lives any more.
        unsafe { munmap(self.first.cast(), PAGES * PAGE) };
    }
}
