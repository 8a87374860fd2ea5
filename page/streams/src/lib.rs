//! Whether the standard streams were open when the program began. Rust puts `/dev/null` in place of those
//! that were closed before `main` runs, so that a report to a closed standard output would seem to be
//! written, and a closed standard input would seem to be empty.

use std::path::Path;
use std::sync::atomic::{AtomicBool, Ordering};

/// A standard stream, by its number.
#[derive(Clone, Copy, Debug, PartialEq, Eq)]
pub enum Stream {
    Input = 0,
    Output = 1,
}

static CLOSED: [AtomicBool; 2] = [const { AtomicBool::new(false) }; 2];

/// Was the stream closed when the program began? Where the system does not say, it was not.
pub fn was_closed(stream: Stream) -> bool {
    CLOSED[stream as usize].load(Ordering::Relaxed)
}

/// Asks the system, which lists the open files of a program as links.
extern "C" fn look() {
    let open = Path::new("/proc/self/fd");
    for (number, closed) in CLOSED.iter().enumerate() {
        let link = open.join(number.to_string());
        closed.store(open.exists() && link.symlink_metadata().is_err(), Ordering::Relaxed);
    }
}

// The system calls what stands in this section before `main`, and before Rust looks at the streams. That
// it is a function of this form is what must hold, and what the compiler does not see.
#[allow(unsafe_code)]
#[used]
#[cfg_attr(target_os = "linux", unsafe(link_section = ".init_array"))]
static LOOK: extern "C" fn() = look;
