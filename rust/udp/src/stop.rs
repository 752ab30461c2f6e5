//! Ctrl-C and SIGTERM ask for a stop; the programs look between two packets, and a wait for packets ends by it.

use std::os::fd::{AsFd, AsRawFd, BorrowedFd};
use std::os::unix::net::UnixStream;
use std::sync::atomic::{AtomicBool, AtomicI32, Ordering};
use std::sync::OnceLock;

const SIGINT: i32 = 2;
const SIGTERM: i32 = 15;

static ASKED: AtomicBool = AtomicBool::new(false);
/// Two ends: a byte is written to the second when a stop is asked for, and never read.
static ENDS: OnceLock<(UnixStream, UnixStream)> = OnceLock::new();
/// The second end's number, for the handler; below 0 where there is none.
static WRITTEN: AtomicI32 = AtomicI32::new(-1);

extern "C" {
    fn signal(number: i32, handler: extern "C" fn(i32)) -> usize;
    fn write(descriptor: i32, bytes: *const u8, count: usize) -> isize;
}

extern "C" fn ask(_number: i32) {
    if !ASKED.swap(true, Ordering::Relaxed) {
        // SAFETY: a handler may write; the byte outlives the call. A number below 0 is refused.
        unsafe { write(WRITTEN.load(Ordering::Relaxed), [1].as_ptr(), 1) };
    }
}

pub fn listen() {
    if let Ok(ends) = UnixStream::pair() {
        let (_, written) = ENDS.get_or_init(|| ends);
        WRITTEN.store(written.as_raw_fd(), Ordering::Relaxed);
    }
    // SAFETY: the handler stores to an atomic and writes, which a handler may do.
    unsafe {
        signal(SIGINT, ask);
        signal(SIGTERM, ask);
    }
}

pub fn asked() -> bool {
    ASKED.load(Ordering::Relaxed)
}

/// Where there is something to read as soon as a stop is asked for.
pub fn descriptor() -> Option<BorrowedFd<'static>> {
    ENDS.get().map(|(read, _)| read.as_fd())
}
