//! Messages of real responders, taken off a link by tests/capture.sh.

const TEXT: &str = include_str!("../packets/captured.txt");

/// The responders, as the file names them, and by their own names.
pub const SENDERS: [(&str, &str); 4] = [
    ("ours", "our responder"),
    ("avahi", "Avahi"),
    ("zeroconf", "python-zeroconf"),
    ("resolved", "systemd-resolved"),
];

/// The messages of a responder.
pub fn of(sender: &str) -> Vec<Vec<u8>> {
    TEXT.lines()
        .filter_map(|line| line.split_once(' '))
        .filter(|(name, _)| *name == sender)
        .map(|(_, hex)| bytes(hex))
        .collect()
}

/// The messages of all.
pub fn all() -> Vec<Vec<u8>> {
    SENDERS.iter().flat_map(|(sender, _)| of(sender)).collect()
}

fn bytes(hex: &str) -> Vec<u8> {
    (0..hex.len() / 2)
        .map(|i| u8::from_str_radix(&hex[2 * i..2 * i + 2], 16).expect("hexadecimal"))
        .collect()
}
