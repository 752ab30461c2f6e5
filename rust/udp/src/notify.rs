//! Tells a supervisor how the program stands, by the protocol of systemd's `sd_notify`: lines to the socket that NOTIFY_SOCKET names. Where there is none, nothing
//! is done. A line that can't be sent is no reason to stop.

use std::env;
use std::os::linux::net::SocketAddrExt;
use std::os::unix::net::{SocketAddr, UnixDatagram};
use std::process;

/// A supervisor, if there is one.
#[derive(Default)]
pub struct Notify {
    socket: Option<(UnixDatagram, SocketAddr)>,
    /// How many milliseconds may lie between two signs of life, and when the next is due.
    watchdog: Option<Watchdog>,
    status: String,
}

#[derive(Clone, Copy, Debug, PartialEq, Eq)]
struct Watchdog {
    gap: u64,
    due: u64,
}

impl Notify {
    pub fn open() -> Notify {
        let text = |name| env::var(name).ok();
        let socket = text("NOTIFY_SOCKET").and_then(|path| {
            let socket = UnixDatagram::unbound().ok()?;
            socket.set_nonblocking(true).ok()?;
            Some((socket, address(&path)?))
        });
        let own = process::id().to_string();
        let is_ours = text("WATCHDOG_PID").is_none_or(|id| id == own);
        let gap = text("WATCHDOG_USEC").filter(|_| is_ours && socket.is_some());
        Notify {
            watchdog: gap.and_then(|gap| watchdog(&gap)),
            socket,
            status: String::new(),
        }
    }

    pub fn ready(&self) {
        self.send("READY=1");
    }

    pub fn stopping(&self) {
        self.send("STOPPING=1");
    }

    /// Says in words how it stands, where that changed.
    pub fn status(&mut self, status: String) {
        if self.status != status {
            self.send(&format!("STATUS={status}"));
            self.status = status;
        }
    }

    /// When the next sign of life is due.
    pub fn due(&self) -> Option<u64> {
        self.watchdog.map(|watchdog| watchdog.due)
    }

    /// Gives a sign of life, where one is due.
    pub fn live(&mut self, now: u64) {
        if let Some(watchdog) = &mut self.watchdog {
            if now >= watchdog.due {
                watchdog.due = now + watchdog.gap;
                self.send("WATCHDOG=1");
            }
        }
    }

    fn send(&self, line: &str) {
        if let Some((socket, address)) = &self.socket {
            let _ = socket.send_to_addr(line.as_bytes(), address);
        }
    }
}

/// A path, or behind an '@' a name that is in no file system.
fn address(path: &str) -> Option<SocketAddr> {
    match path.strip_prefix('@') {
        Some(name) => SocketAddr::from_abstract_name(name).ok(),
        None => SocketAddr::from_pathname(path).ok(),
    }
}

/// A sign of life at half of the time that the supervisor waits for one, given in microseconds.
fn watchdog(microseconds: &str) -> Option<Watchdog> {
    let microseconds: u64 = microseconds.parse().ok()?;
    let gap = (microseconds / 2000).max(1);
    (microseconds > 0).then_some(Watchdog { gap, due: 0 })
}

#[cfg(test)]
mod tests {
    use super::*;

    /// A supervisor at a name of its own, and what tells it.
    fn pair(name: &str) -> (UnixDatagram, Notify) {
        let name = format!("@kurgashel-{name}-{}", process::id());
        let supervisor = UnixDatagram::bind_addr(&address(&name).unwrap()).unwrap();
        supervisor.set_nonblocking(true).unwrap();
        let socket = UnixDatagram::unbound().unwrap();
        let notify = Notify {
            socket: Some((socket, address(&name).unwrap())),
            watchdog: watchdog("3000000"),
            status: String::new(),
        };
        (supervisor, notify)
    }

    fn heard(supervisor: &UnixDatagram) -> Vec<String> {
        let mut bytes = [0; 100];
        let lines = std::iter::from_fn(|| {
            let length = supervisor.recv(&mut bytes).ok()?;
            Some(String::from_utf8_lossy(&bytes[..length]).into_owned())
        });
        lines.collect()
    }

    #[test]
    fn what_a_supervisor_hears() {
        let (supervisor, mut notify) = pair("hears");
        notify.ready();
        notify.status("dock.local held".into());
        notify.status("dock.local held".into());
        for now in [0, 1499, 1500, 2999, 3100] {
            notify.live(now);
        }
        assert_eq!(notify.due(), Some(4600));
        notify.stopping();
        let lines = [
            "READY=1",
            "STATUS=dock.local held",
            "WATCHDOG=1",
            "WATCHDOG=1",
            "WATCHDOG=1",
            "STOPPING=1",
        ];
        assert_eq!(heard(&supervisor), lines);
    }

    #[test]
    fn times_that_a_supervisor_waits() {
        assert_eq!(watchdog("1000").unwrap().gap, 1);
        assert_eq!(watchdog("30000000").unwrap().gap, 15_000);
        for none in ["0", "", "x"] {
            assert_eq!(watchdog(none), None);
        }
    }

    #[test]
    fn without_a_supervisor_nothing_happens() {
        let mut notify = Notify::default();
        notify.ready();
        notify.live(9);
        assert_eq!(notify.due(), None);
    }
}
