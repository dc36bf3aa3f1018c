//! The standard output, and whether it was closed when the command was started.
//!
//! Before `main`, Rust opens the null device in place of a standard stream that is closed: what is written there is
//! lost, and nobody is told. Hence the look at it before that: the loader calls what `.init_array` lists first.

use std::ffi::c_int;
use std::io::{self, Write};
use std::sync::atomic::{AtomicBool, Ordering};

const STANDARD_OUTPUT: c_int = 1;
const F_GETFD: c_int = 1;

static CLOSED: AtomicBool = AtomicBool::new(false);

unsafe extern "C" {
    fn fcntl(descriptor: c_int, command: c_int, ...) -> c_int;
}

#[used]
// SAFETY: the loader calls each entry of this section once, as a C function. What it hands over may go unused.
#[unsafe(link_section = ".init_array")]
static BEFORE_MAIN: extern "C" fn() = look;

extern "C" fn look() {
    // SAFETY: F_GETFD takes no further parameter and changes nothing; of a closed descriptor it answers -1.
    let flags = unsafe { fcntl(STANDARD_OUTPUT, F_GETFD) };
    CLOSED.store(flags == -1, Ordering::Relaxed);
}

/// The standard output. If it is closed, nothing can be written to it.
pub fn standard_output() -> Box<dyn Write> {
    if CLOSED.load(Ordering::Relaxed) { Box::new(Closed) } else { Box::new(io::stdout().lock()) }
}

struct Closed;

impl Write for Closed {
    fn write(&mut self, _: &[u8]) -> io::Result<usize> {
        Err(io::Error::other("it is closed"))
    }

    fn flush(&mut self) -> io::Result<()> {
        Ok(())
    }
}
