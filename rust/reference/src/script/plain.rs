//! Queries from other ports than 5353: plain resolvers, and what may be taken for them.

use super::packet::Draft;
use super::Script;
use crate::setup::ClaimName;

/// Ports that are not 5353, some of them only nearly.
pub const OTHER_PORTS: [u64; 9] = [
    0,
    53,
    1024,
    5352,
    5354,
    49_152,
    65_535,
    5353 + 65_536,
    u64::MAX,
];

impl Script {
    /// A name with the case of some whole labels turned, so that the suffixes
    /// that stand byte for byte in it begin anywhere.
    fn respelled(&mut self, name: &[u8]) -> Vec<u8> {
        let mut starts = Vec::new();
        let mut at = 0;
        while name[at] != 0 {
            starts.push(at);
            at += 1 + usize::from(name[at]);
        }
        let mut other = name.to_vec();
        for start in starts {
            if self.random.chance(30) {
                let end = start + 1 + usize::from(name[start]);
                let label = self.random.recase(&name[start + 1..end]);
                other[start + 1..end].copy_from_slice(&label);
            }
        }
        other
    }

    /// One question, most times for an own record and in some spelling.
    fn plain_question(&mut self) -> (Vec<u8>, u16, u16) {
        let (name, rtype, class) = self.some_question();
        (self.respelled(&name), rtype, class)
    }

    pub(super) fn recv_plain(&mut self, now: u64) {
        let mut draft = Draft::query();
        draft.id = self.random.number() as u16;
        for _ in 0..self.random.pick(&[1, 1, 1, 1, 1, 1, 1, 0, 2, 2, 3]) {
            let question = self.plain_question();
            draft.questions.push(question);
        }
        if self.random.chance(10) && draft.questions.len() == 1 {
            // the question twice
            draft.questions.extend_from_within(..);
        }
        if self.random.chance(30) {
            self.add_known_answers(&mut draft);
        }
        if self.random.chance(15) {
            let claim = self.random.pick(&[ClaimName::Instance, ClaimName::Host]);
            draft.sections[1] = self.rival_records(claim);
        }
        let packet = self.packet(draft);
        let port = self.random.pick(&OTHER_PORTS);
        self.recv_from(port, now, &packet);
        if self.random.chance(30) {
            self.say("claims");
        }
        if self.random.chance(30) {
            // the same from port 5353, which obeys the gaps, then again
            self.recv_from(crate::MDNS_PORT, now, &packet);
            self.recv_from(port, now, &packet);
        }
        if self.random.chance(10) {
            self.say("out 0 300");
        }
    }
}
