//! "Refusal numbers" of the specification.

#[derive(Clone, Copy, Debug, PartialEq, Eq)]
#[repr(u8)]
pub enum Refusal {
    Time = 1,
    Draw = 2,
    OutBuffer = 3,
    MessageLength = 4,
    Header = 5,
    Malformed = 6,
    Setup = 7,
    Table = 8,
    Key = 9,
    Lost = 10,
    TooSoon = 11,
    /// Given with an offset.
    Trace = 12,
    NameLength = 13,
}

impl Refusal {
    pub fn number(self) -> u8 {
        self as u8
    }
}
