//! Random numbers of a seed, drawn as the hostile lists need them; the generator is that of the reference program's scripts.

use reference::script::random::Random as Source;

pub struct Random(Source);

impl Random {
    pub fn new(seed: u64) -> Random {
        Random(Source::new(seed))
    }

    pub fn number(&mut self) -> u64 {
        self.0.number()
    }

    /// A number from 0 to `most`.
    pub fn up_to(&mut self, most: u64) -> u64 {
        self.number() % (most + 1)
    }

    /// A place in something of this length, which is not 0.
    pub fn place(&mut self, length: usize) -> usize {
        self.up_to(length as u64 - 1) as usize
    }

    /// True in `percent` of 100 cases.
    pub fn chance(&mut self, percent: u64) -> bool {
        self.up_to(99) < percent
    }

    pub fn pick<T: Clone>(&mut self, choices: &[T]) -> T {
        choices[self.place(choices.len())].clone()
    }

    /// Turns the case of some ASCII letters.
    pub fn recase(&mut self, bytes: &[u8]) -> Vec<u8> {
        let mut turned = bytes.to_vec();
        for byte in &mut turned {
            if byte.is_ascii_alphabetic() && self.chance(40) {
                *byte ^= 0x20;
            }
        }
        turned
    }
}
