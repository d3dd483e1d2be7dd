//! Standard output, and whether there is any.

use crate::Trouble;
use std::ffi::c_int;
use std::io::{self, Write};
use std::sync::atomic::{AtomicBool, Ordering};

/// The exit status where standard output is closed or full.
pub const NOT_WRITTEN: u8 = 6;

const STANDARD_OUTPUT: c_int = 1;
const GET_FLAGS: c_int = 1;
const NO_SPACE: i32 = 28;

static CLOSED: AtomicBool = AtomicBool::new(false);

extern "C" {
    fn fcntl(descriptor: c_int, command: c_int, ...) -> c_int;
}

extern "C" fn look() {
    // SAFETY: asks for the flags of a descriptor, and changes nothing.
    let flags = unsafe { fcntl(STANDARD_OUTPUT, GET_FLAGS) };
    CLOSED.store(flags < 0, Ordering::Relaxed);
}

/// Rust's runtime opens /dev/null in the place of what is closed; so it is looked at before.
#[used]
#[link_section = ".init_array"]
static AT_START: extern "C" fn() = look;

fn trouble(words: &str) -> Trouble {
    Trouble(NOT_WRITTEN, format!("standard output: {words}"))
}

/// What may be written to, if anything.
pub fn opened() -> Result<io::StdoutLock<'static>, Trouble> {
    if CLOSED.load(Ordering::Relaxed) {
        return Err(trouble("it is closed"));
    }
    Ok(io::stdout().lock())
}

/// What a failed write means, in words where they are known.
pub fn failed(error: &io::Error) -> Trouble {
    if error.kind() == io::ErrorKind::BrokenPipe {
        return trouble("what it was sent to has ended before it had read all");
    }
    if error.raw_os_error() == Some(NO_SPACE) {
        return trouble("there is no room left on the disk");
    }
    trouble(&error.to_string())
}

/// All of it, or an error.
pub fn put(bytes: &[u8]) -> Result<(), Trouble> {
    let mut out = opened()?;
    out.write_all(bytes)
        .and_then(|()| out.flush())
        .map_err(|error| failed(&error))
}
