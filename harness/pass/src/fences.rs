//! Memory between two pages that nobody may touch: a byte read or written beside what is lent ends the program.

use std::ffi::c_void;
use std::ptr;
use std::sync::atomic::{AtomicPtr, AtomicUsize, Ordering};

const PAGE: usize = 4_096;
/// As <sys/mman.h> of Linux has them on x86-64.
const PROT_NONE: i32 = 0;
const PROT_READ: i32 = 1;
const PROT_READ_AND_WRITE: i32 = 3;
const MAP_PRIVATE_ANONYMOUS: i32 = 0x22;

unsafe extern "C" {
    fn mmap(
        address: *mut c_void,
        length: usize,
        protection: i32,
        flags: i32,
        file: i32,
        offset: i64,
    ) -> *mut c_void;
    fn mprotect(address: *mut c_void, length: usize, protection: i32) -> i32;
    fn munmap(address: *mut c_void, length: usize) -> i32;
    fn signal(number: i32, handler: extern "C" fn(i32)) -> usize;
    fn write(file: i32, bytes: *const u8, length: usize) -> isize;
    fn _exit(status: i32) -> !;
}

const SEGMENTATION_FAULT: i32 = 11;
const STANDARD_ERROR: i32 = 2;

/// What was said of the call under way, for the last words.
static SAID: AtomicPtr<u8> = AtomicPtr::new(ptr::null_mut());
static LENGTH: AtomicUsize = AtomicUsize::new(0);

/// Has the program say, where a fence is touched, what was told last; it then ends with status 1.
pub fn watch() {
    // SAFETY: the handler makes system calls alone.
    unsafe { signal(SEGMENTATION_FAULT, ended) };
}

/// Tells what is under way; the text is kept for good.
pub fn tell(text: String) {
    let kept = text.leak();
    LENGTH.store(0, Ordering::SeqCst);
    SAID.store(kept.as_mut_ptr(), Ordering::SeqCst);
    LENGTH.store(kept.len(), Ordering::SeqCst);
}

extern "C" fn ended(_: i32) {
    let first = "a byte beside what is lent was touched: ";
    // SAFETY: both texts live as long as the program.
    unsafe {
        write(STANDARD_ERROR, first.as_ptr(), first.len());
        write(
            STANDARD_ERROR,
            SAID.load(Ordering::SeqCst),
            LENGTH.load(Ordering::SeqCst),
        );
        write(STANDARD_ERROR, b"\n".as_ptr(), 1);
        _exit(1)
    }
}

/// At which fence what is lent stands; between both where it fills all the room.
#[derive(Clone, Copy, Debug, PartialEq, Eq)]
pub enum Side {
    Front,
    Back,
}

/// So many whole pages, with a fence on either side.
pub struct Fenced {
    fence: *mut u8,
    room: usize,
}

impl Fenced {
    /// Room for at least so many bytes.
    pub fn new(bytes: usize) -> Fenced {
        let room = bytes.max(1).next_multiple_of(PAGE);
        let length = room + 2 * PAGE;
        // SAFETY: a mapping of its own, at an address that the kernel picks.
        let fence = unsafe {
            mmap(
                ptr::null_mut(),
                length,
                PROT_NONE,
                MAP_PRIVATE_ANONYMOUS,
                -1,
                0,
            )
        };
        assert_ne!(fence as isize, -1, "no memory for {length} bytes");
        let fenced = Fenced {
            fence: fence.cast(),
            room,
        };
        fenced.protect(PROT_READ_AND_WRITE);
        fenced
    }

    pub fn room(&self) -> usize {
        self.room
    }

    /// `bytes` bytes at one of the fences.
    pub fn lend(&mut self, bytes: usize, side: Side) -> &mut [u8] {
        assert!(bytes <= self.room);
        let start = match side {
            Side::Front => PAGE,
            Side::Back => PAGE + self.room - bytes,
        };
        // SAFETY: within the room between the fences, which is this one's own.
        unsafe { std::slice::from_raw_parts_mut(self.fence.add(start), bytes) }
    }

    /// Whether what is lent may be written, or only read.
    pub fn writable(&mut self, writable: bool) {
        self.protect(if writable {
            PROT_READ_AND_WRITE
        } else {
            PROT_READ
        });
    }

    fn protect(&self, protection: i32) {
        // SAFETY: the pages between the fences, which are this one's own.
        let failed = unsafe { mprotect(self.fence.add(PAGE).cast(), self.room, protection) };
        assert_eq!(failed, 0, "pages are protected as asked");
    }
}

impl Drop for Fenced {
    fn drop(&mut self) {
        // SAFETY: nothing lent outlives its owner.
        unsafe { munmap(self.fence.cast(), self.room + 2 * PAGE) };
    }
}
