//! Random draws from the system's generator, each value of a range alike.

use std::fs::File;
use std::io::{self, Read};
use std::ops::RangeInclusive;

/// The wait before the first probe.
pub const START: RangeInclusive<u64> = 0..=250;
/// The wait before a shared record's reply.
pub const REPLY: RangeInclusive<u64> = 20..=120;
/// The wait for the known answers that follow a query in further packets.
pub const HOLD: RangeInclusive<u64> = 400..=500;
/// What is added to 80, 85, 90 and 95 percent of a record's life before it is asked for again, in thousandths.
pub const REFRESH: RangeInclusive<u64> = 0..=20;

pub struct Draws<R = File> {
    source: R,
}

impl Draws {
    pub fn open() -> io::Result<Draws> {
        let source = File::open("/dev/urandom")?;
        Ok(Draws { source })
    }
}

impl<R: Read> Draws<R> {
    /// A value of a range of at most 256 values. A byte that would favour the lower ones is thrown away.
    pub fn within(&mut self, range: &RangeInclusive<u64>) -> io::Result<u64> {
        let values = range.end() - range.start() + 1;
        let even = 256 - 256 % values;
        loop {
            let mut byte = [0];
            self.source.read_exact(&mut byte)?;
            let byte = u64::from(byte[0]);
            if byte < even {
                return Ok(range.start() + byte % values);
            }
        }
    }
}

#[cfg(test)]
mod tests {
    use super::*;

    fn drawn(bytes: &[u8], range: RangeInclusive<u64>) -> Option<u64> {
        Draws { source: bytes }.within(&range).ok()
    }

    #[test]
    fn every_value_of_a_range_comes_up_equally_often() {
        for range in [START, REPLY, HOLD, REFRESH] {
            let mut count = [0; 502];
            for byte in 0..=255 {
                if let Some(value) = drawn(&[byte], range.clone()) {
                    count[value as usize] += 1;
                }
            }
            let each = 256 / (range.end() - range.start() + 1);
            for (value, count) in (0..).zip(count) {
                assert_eq!(count, if range.contains(&value) { each } else { 0 });
            }
        }
    }

    #[test]
    fn a_byte_too_great_is_thrown_away() {
        assert_eq!(drawn(&[251, 255, 7], START), Some(7));
        assert_eq!(drawn(&[202, 101], REPLY), Some(20));
        assert_eq!(drawn(&[202, 100], HOLD), Some(500));
    }

    #[test]
    fn the_systems_generator_gives_draws() {
        let mut draws = Draws::open().unwrap();
        assert!(START.contains(&draws.within(&START).unwrap()));
        assert!(REPLY.contains(&draws.within(&REPLY).unwrap()));
        assert!(HOLD.contains(&draws.within(&HOLD).unwrap()));
        assert!(REFRESH.contains(&draws.within(&REFRESH).unwrap()));
    }
}
