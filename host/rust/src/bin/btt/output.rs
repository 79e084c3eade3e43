//! Standard output.
use crate::problem::Problem;
use std::ffi::c_int;
use std::fs::File;
use std::io::{self, Write};
use std::os::fd::AsFd;
use std::sync::atomic::{AtomicBool, Ordering};

extern "C" {
    fn fcntl(descriptor: c_int, command: c_int, ...) -> c_int;
}

/// Whether standard output was closed when the command began.
static CLOSED: AtomicBool = AtomicBool::new(false);

/// Rust opens a standard output that is closed anew, to nowhere, before `main` begins; so this is run earlier.
#[used]
#[link_section = ".init_array"]
static LOOK: extern "C" fn() = look;

extern "C" fn look() {
    const STANDARD_OUTPUT: c_int = 1;
    const F_GETFD: c_int = 1;
    // SAFETY: asking for the flags of a descriptor changes nothing, whether it is open or not.
    let closed = unsafe { fcntl(STANDARD_OUTPUT, F_GETFD) } == -1;
    CLOSED.store(closed, Ordering::Relaxed);
}

/// A command that has something to say is not begun where it could not say it.
pub fn must_be_open() -> Result<(), Problem> {
    if CLOSED.load(Ordering::Relaxed) {
        return Err(Problem::File("standard output is closed".into()));
    }
    Ok(())
}

/// Writes to standard output. It is written as a file, for Rust's own takes one that cannot be written to as written.
pub fn print(bytes: &[u8]) -> Result<(), Problem> {
    let out = io::stdout().as_fd().try_clone_to_owned();
    let written = out.and_then(|out| File::from(out).write_all(bytes));
    written.map_err(|error| Problem::File(format!("standard output: {error}")))
}
