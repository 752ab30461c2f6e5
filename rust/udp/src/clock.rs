//! Time for the library: milliseconds that never run backwards, from the program's start.

use std::thread::sleep;
use std::time::{Duration, Instant, SystemTime, UNIX_EPOCH};

pub struct Clock {
    begun: Instant,
}

impl Clock {
    pub fn begin() -> Clock {
        Clock {
            begun: Instant::now(),
        }
    }

    pub fn now(&self) -> u64 {
        self.begun.elapsed().as_millis() as u64
    }
}

/// Milliseconds of the wall clock since 1970.
pub fn wall() -> u64 {
    let since = SystemTime::now().duration_since(UNIX_EPOCH);
    since.unwrap_or_default().as_millis() as u64
}

/// Sleeps until a moment of the wall clock, so that several programs begin in one millisecond; more of them than there are cores too, so it is never busy.
pub fn wait_until(moment: u64) {
    let moment = UNIX_EPOCH + Duration::from_millis(moment);
    while let Ok(ahead) = moment.duration_since(SystemTime::now()) {
        sleep(ahead);
    }
}

#[cfg(test)]
mod tests {
    use super::*;

    #[test]
    fn time_passes_and_never_runs_backwards() {
        let clock = Clock::begin();
        let first = clock.now();
        wait_until(wall() + 20);
        assert!(clock.now() >= first + 15);
    }

    #[test]
    fn a_moment_past_is_not_waited_for() {
        let clock = Clock::begin();
        wait_until(0);
        assert!(clock.now() < 1000);
    }
}
