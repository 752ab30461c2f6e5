//! A response that goes to both groups is heard twice, and is to be taken once: the library's rules count a second hearing as a second conflict, by which a name that
//! is to be probed for again would be lost.

use std::hash::{BuildHasher, RandomState};
use std::time::{Duration, Instant};

/// How far apart two copies may come. No responder multicasts a record again within 250 ms (RFC 6762 section 6), so that two of one family are no copies.
const WITHIN: Duration = Duration::from_millis(200);
/// How many are remembered.
const MOST: usize = 512;

/// The responses that were heard by one family alone so far.
pub struct Copies {
    heard: Vec<Heard>,
    keys: RandomState,
}

struct Heard {
    is_ipv4: bool,
    at: Instant,
    hash: u64,
}

impl Copies {
    pub fn new() -> Copies {
        Copies {
            heard: Vec::new(),
            keys: RandomState::new(),
        }
    }

    /// Whether a response is the copy of one that was heard by the other family. Each has one copy.
    pub fn is_copy(&mut self, response: &[u8], is_ipv4: bool, now: Instant) -> bool {
        let hash = self.keys.hash_one(response);
        self.heard
            .retain(|one| now.saturating_duration_since(one.at) < WITHIN);
        let is_same = |one: &Heard| one.is_ipv4 != is_ipv4 && one.hash == hash;
        match self.heard.iter().position(is_same) {
            Some(at) => {
                self.heard.remove(at);
                true
            }
            None => {
                if self.heard.len() == MOST {
                    self.heard.remove(0);
                }
                let at = now;
                self.heard.push(Heard { is_ipv4, at, hash });
                false
            }
        }
    }
}

#[cfg(test)]
mod tests {
    use super::*;

    /// Which of these are copies: by IPv4 or not, the bytes, and when in milliseconds.
    fn copies(heard: &[(bool, &str, u64)]) -> Vec<bool> {
        let (mut copies, begun) = (Copies::new(), Instant::now());
        let each = heard.iter().map(|(is_ipv4, bytes, at)| {
            let now = begun + Duration::from_millis(*at);
            copies.is_copy(bytes.as_bytes(), *is_ipv4, now)
        });
        each.collect()
    }

    #[test]
    fn each_has_one_copy() {
        let twice = [
            (true, "a", 0),
            (false, "a", 1),
            (true, "a", 2),
            (false, "a", 3),
        ];
        assert_eq!(copies(&twice), [false, true, false, true]);
        let later = [
            (true, "a", 0),
            (true, "a", 1),
            (false, "a", 2),
            (false, "a", 3),
        ];
        assert_eq!(copies(&later), [false, false, true, true]);
        let other = [(true, "a", 0), (false, "b", 1), (false, "a", 199)];
        assert_eq!(copies(&other), [false, false, true]);
    }

    #[test]
    fn what_comes_later_is_no_copy() {
        assert_eq!(copies(&[(true, "a", 0), (false, "a", 200)]), [false, false]);
    }

    #[test]
    fn only_so_many_are_remembered() {
        let mut copies = Copies::new();
        let now = Instant::now();
        for number in 0..2 * MOST {
            assert!(!copies.is_copy(&number.to_be_bytes(), true, now));
        }
        assert_eq!(copies.heard.len(), MOST);
        assert!(!copies.is_copy(&0usize.to_be_bytes(), false, now));
        assert!(copies.is_copy(&(2 * MOST - 1).to_be_bytes(), false, now));
    }
}
