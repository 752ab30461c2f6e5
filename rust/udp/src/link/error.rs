//! What the system said no to, and what to do about it.

use std::fmt;
use std::io;
use std::net::{IpAddr, SocketAddr};

use super::{GROUP, PORT};

// Linux's numbers.
const ENODEV: i32 = 19;
const EADDRINUSE: i32 = 98;
const EADDRNOTAVAIL: i32 = 99;
const ENETUNREACH: i32 = 101;
const EHOSTUNREACH: i32 = 113;

/// What was tried.
#[derive(Clone, Copy, Debug, PartialEq, Eq)]
pub enum Step {
    Open,
    FindInterface,
    Bind,
    Join(IpAddr),
    /// Of changes of interfaces.
    Watch,
    Receive,
    /// From an address to the group.
    Send(IpAddr),
    Reply(SocketAddr),
}

#[derive(Debug)]
pub struct LinkError {
    step: Step,
    cause: io::Error,
}

impl LinkError {
    pub fn at(step: Step) -> impl Fn(io::Error) -> LinkError {
        move |cause| LinkError { step, cause }
    }

    /// Whether another program has the port and doesn't share it.
    pub fn is_port_taken(&self) -> bool {
        (self.step, self.cause.raw_os_error()) == (Step::Bind, Some(EADDRINUSE))
    }
}

/// As the system says it.
pub fn no_such_interface() -> io::Error {
    io::Error::from_raw_os_error(ENODEV)
}

/// The same, of one that is not on the link.
pub fn not_near() -> io::Error {
    io::Error::from_raw_os_error(EHOSTUNREACH)
}

impl fmt::Display for LinkError {
    fn fmt(&self, f: &mut fmt::Formatter) -> fmt::Result {
        let cause = &self.cause;
        match (self.step, cause.raw_os_error()) {
            (Step::Open, _) => write!(f, "can't open a UDP socket: {cause}"),
            (Step::FindInterface, Some(ENETUNREACH)) => write!(
                f,
                "no multicast route: no interface leads to {GROUP}; name one with --interface, or add a route"
            ),
            (Step::FindInterface, _) => write!(f, "can't find an interface for {GROUP}: {cause}"),
            (Step::Bind, Some(EADDRINUSE)) => write!(
                f,
                "port {PORT} is taken by a program that doesn't share it (it was bound without SO_REUSEADDR); 'ss -ulpn sport = :{PORT}' lists who has it"
            ),
            (Step::Bind, _) => write!(f, "can't bind port {PORT}: {cause}"),
            (Step::Join(interface), Some(ENODEV | EADDRNOTAVAIL)) => {
                write!(f, "no interface of this machine has the address {interface}")
            }
            (Step::Join(interface), _) => {
                write!(f, "can't join the group of {interface}: {cause}")
            }
            (Step::Watch, _) => write!(f, "can't watch the interfaces: {cause}"),
            (Step::Receive, _) => write!(f, "receiving failed: {cause}"),
            (Step::Send(from), Some(ENETUNREACH)) => {
                write!(f, "sending from {from} failed: no multicast route on this interface, or it is down")
            }
            (Step::Send(from), _) => write!(f, "sending from {from} failed: {cause}"),
            (Step::Reply(to), _) => write!(f, "the reply to {to} failed: {cause}"),
        }
    }
}

impl std::error::Error for LinkError {}

#[cfg(test)]
mod tests {
    use super::*;

    fn said(step: Step, number: i32) -> String {
        LinkError::at(step)(io::Error::from_raw_os_error(number)).to_string()
    }

    #[test]
    fn errors_say_what_to_do() {
        assert!(said(Step::FindInterface, ENETUNREACH).starts_with("no multicast route"));
        assert!(said(Step::Bind, EADDRINUSE).starts_with("port 5353 is taken"));
        let join = Step::Join([127, 0, 0, 1].into());
        assert!(said(join, ENODEV).ends_with("address 127.0.0.1"));
        let send = Step::Send([127, 0, 0, 1].into());
        assert!(said(send, ENETUNREACH).contains("route"));
        let taken = LinkError::at(Step::Bind)(io::Error::from_raw_os_error(EADDRINUSE));
        assert!(taken.is_port_taken());
        let denied = LinkError::at(Step::Bind)(io::Error::from_raw_os_error(13));
        assert!(!denied.is_port_taken());
        assert!(said(Step::Bind, 13).starts_with("can't bind port 5353: Permission"));
    }
}
