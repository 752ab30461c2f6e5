//! Waiting for several descriptors at once: Linux's `poll`.

use std::ffi::{c_int, c_ulong};
use std::io;
use std::os::fd::{AsRawFd, BorrowedFd};
use std::time::Duration;

use super::system::check;

const POLLIN: i16 = 1;

#[repr(C)]
struct Polled {
    descriptor: c_int,
    wanted: i16,
    given: i16,
}

extern "C" {
    fn poll(polled: *mut Polled, count: c_ulong, wait: c_int) -> c_int;
}

/// The first of these from which there is something to read (or an end, or an error), if there is one before the wait is over.
pub fn first(descriptors: &[BorrowedFd], wait: Duration) -> io::Result<Option<usize>> {
    let polled = polled(descriptors, wait.as_millis())?;
    Ok(polled.iter().position(|polled| polled.given != 0))
}

/// Waits until there is something to read from one of these, or so many milliseconds are over, or a signal came.
pub fn wait(descriptors: &[BorrowedFd], milliseconds: u64) -> io::Result<()> {
    match polled(descriptors, milliseconds.into()) {
        Err(error) if error.kind() == io::ErrorKind::Interrupted => Ok(()),
        polled => polled.map(|_| ()),
    }
}

fn polled(descriptors: &[BorrowedFd], milliseconds: u128) -> io::Result<Vec<Polled>> {
    let of = |descriptor: &BorrowedFd| Polled {
        descriptor: descriptor.as_raw_fd(),
        wanted: POLLIN,
        given: 0,
    };
    let mut polled: Vec<Polled> = descriptors.iter().map(of).collect();
    let count = polled.len() as c_ulong;
    let wait = c_int::try_from(milliseconds).unwrap_or(c_int::MAX);
    // SAFETY: the list outlives the call, and its true length is given.
    check(unsafe { poll(polled.as_mut_ptr(), count, wait) })?;
    Ok(polled)
}
