//! Finds out which standard streams were closed when the program started. This works on Linux only.
//! Elsewhere the streams count as open, and std replaces a closed stream by one that is empty or
//! accepts everything.

use std::io::{stdin, stdout};
use std::os::unix::io::AsFd;
use std::sync::atomic::{AtomicBool, Ordering};

/// The error number for a descriptor that is not open.
const EBADF: i32 = 9;

pub static INPUT_CLOSED: AtomicBool = AtomicBool::new(false);
pub static OUTPUT_CLOSED: AtomicBool = AtomicBool::new(false);

/// Before `main`, std opens `/dev/null` in place of a closed stream. The loader calls the functions
/// in this section before that.
// SAFETY: the section is an array of addresses of C functions without results, which the loader
// calls once before `main`. `find_out` is one, and ignores the arguments that some loaders pass. It
// does not panic: it makes std's handles of two streams, which allocates their buffers, copies two
// descriptors, closes the copies, and stores two atomics. std does not guarantee that its calls
// work before `main`. The calls here need nothing that std sets up there: each handle is made at
// its first use, and a copy is one system call.
#[used]
#[cfg_attr(target_os = "linux", link_section = ".init_array")]
static BEFORE_STD: extern "C" fn() = find_out;

extern "C" fn find_out() {
    INPUT_CLOSED.store(is_closed(&stdin()), Ordering::Relaxed);
    OUTPUT_CLOSED.store(is_closed(&stdout()), Ordering::Relaxed);
}

fn is_closed(stream: &impl AsFd) -> bool {
    let copied = stream.as_fd().try_clone_to_owned();
    matches!(copied, Err(error) if error.raw_os_error() == Some(EBADF))
}
