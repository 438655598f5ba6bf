//! Whether standard output was open when the program began.
//!
//! Rust's runtime opens /dev/null in the place of a standard stream that is closed, so that what is written there is lost
//! without a fault. A function that the loader calls in front of it looks first.

use std::ffi::c_int;
use std::sync::atomic::{AtomicBool, Ordering};

const OUTPUT: c_int = 1;
/// `fcntl`'s `F_GETFD`: the flags of a descriptor, or -1 where it is closed.
const GET_FLAGS: c_int = 1;

static CLOSED: AtomicBool = AtomicBool::new(false);

unsafe extern "C" {
    fn fcntl(descriptor: c_int, command: c_int, ...) -> c_int;
}

extern "C" fn look() {
    // SAFETY: the C library's function; with this command it takes no third word, and changes nothing.
    let flags = unsafe { fcntl(OUTPUT, GET_FLAGS) };
    CLOSED.store(flags == -1, Ordering::Relaxed);
}

// SAFETY: the section holds pointers to functions that are called before `main`; `look` needs nothing of the runtime.
#[used]
#[unsafe(link_section = ".init_array")]
static LOOK: extern "C" fn() = look;

/// Whether standard output was closed when the program began.
pub fn is_output_closed() -> bool {
    CLOSED.load(Ordering::Relaxed)
}
