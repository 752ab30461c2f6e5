//! Questions that the link has been asked and clients wait for: when to ask again, and when to answer.

use super::clients::Client;
use super::message::Query;
use crate::query::Question;
use crate::rtype;

/// When a question is asked again, counted from when it was first asked, in milliseconds (RFC 6762 section 5.2: gaps of one second and of two).
const ASKED_AT: [u64; 3] = [0, 1000, 3000];
/// How long the link is waited for (RFC 8766 section 5.6).
const MOST_WAIT: u64 = 6000;
/// Several may answer a question for PTR, each up to 120 ms later: how long all of them are waited for.
const GATHERING: u64 = 400;
/// So many clients may wait at once; a further one is told to ask again.
const MOST_WAITING: usize = 512;

/// A client that waits.
#[derive(Clone, Debug)]
pub struct Waiting {
    pub client: Client,
    pub query: Query,
    until: u64,
}

/// A question to the link.
#[derive(Clone, Debug)]
pub struct Pending {
    pub question: Question,
    begun: u64,
    asked: usize,
    waiting: Vec<Waiting>,
}

#[derive(Default)]
pub struct Pendings(Vec<Pending>);

impl Pendings {
    /// A client waits for the answer to a question; false where too many do.
    pub fn add(&mut self, now: u64, question: Question, client: Client, query: Query) -> bool {
        if self.0.iter().map(|one| one.waiting.len()).sum::<usize>() >= MOST_WAITING {
            return false;
        }
        let waiting = Waiting {
            client,
            query,
            until: now + MOST_WAIT,
        };
        match self.0.iter_mut().find(|one| one.question == question) {
            Some(pending) => pending.waiting.push(waiting),
            None => self.0.push(Pending {
                question,
                begun: now,
                asked: 0,
                waiting: vec![waiting],
            }),
        }
        true
    }

    /// The questions that the link is to be asked now.
    pub fn due(&mut self, now: u64) -> Vec<Question> {
        let mut due = Vec::new();
        for pending in &mut self.0 {
            if pending.next().is_some_and(|next| next <= now) {
                pending.asked += 1;
                due.push(pending.question.clone());
            }
        }
        due
    }

    /// The clients whose time has come: those whose question is answered, and those that have waited long enough.
    pub fn ready(
        &mut self,
        now: u64,
        is_answered: impl Fn(&Question) -> bool,
    ) -> Vec<(Question, Waiting)> {
        let mut ready = Vec::new();
        for pending in &mut self.0 {
            let is_over = now >= pending.gathered() && is_answered(&pending.question);
            let (over, waiting) = std::mem::take(&mut pending.waiting)
                .into_iter()
                .partition(|one: &Waiting| is_over || one.until <= now);
            pending.waiting = waiting;
            let over: Vec<Waiting> = over;
            ready.extend(over.into_iter().map(|one| (pending.question.clone(), one)));
        }
        self.0.retain(|pending| !pending.waiting.is_empty());
        ready
    }

    /// When something is to be done next, if no packet comes.
    pub fn next(&self, now: u64) -> Option<u64> {
        let times = self.0.iter().flat_map(|pending| {
            let gathered = Some(pending.gathered()).filter(|time| now < *time);
            let until = pending.waiting.iter().map(|one| one.until);
            until.chain(pending.next()).chain(gathered)
        });
        times.min()
    }
}

impl Pending {
    fn next(&self) -> Option<u64> {
        ASKED_AT.get(self.asked).map(|after| self.begun + after)
    }

    /// From when on an answer is taken to be whole.
    fn gathered(&self) -> u64 {
        match self.question.rtype {
            rtype::A | rtype::AAAA | rtype::SRV | rtype::TXT => self.begun,
            _ => self.begun + GATHERING,
        }
    }
}

#[cfg(test)]
mod tests {
    use super::super::message::{read, Heard};
    use super::*;
    use crate::name::from_labels;

    fn question(rtype: u16) -> Question {
        Question {
            name: from_labels(&[b"dock", b"local"]),
            rtype,
        }
    }

    fn query() -> Query {
        match read(b"\0\x07\0\0\0\x01\0\0\0\0\0\0\x01x\0\0\x01\0\x01") {
            Heard::Query(query) => query,
            heard => panic!("{heard:?}"),
        }
    }

    fn with(rtype: u16) -> Pendings {
        let mut pendings = Pendings::default();
        assert!(pendings.add(100, question(rtype), Client::Tcp(0), query()));
        pendings
    }

    #[test]
    fn three_times_in_six_seconds() {
        let mut pendings = with(rtype::A);
        let mut asked = Vec::new();
        for now in 100..6100 {
            asked.extend(pendings.due(now).iter().map(|_| now));
            assert!(pendings.ready(now, |_| false).is_empty());
            assert!(pendings.next(now).unwrap() > now);
        }
        assert_eq!(asked, [100, 1100, 3100]);
        assert_eq!(pendings.ready(6100, |_| false).len(), 1);
        assert_eq!(pendings.next(6100), None);
    }

    #[test]
    fn one_question_for_several_clients() {
        let mut pendings = with(rtype::A);
        assert!(pendings.add(2000, question(rtype::A), Client::Tcp(1), query()));
        assert_eq!(pendings.due(2000).len(), 1);
        assert!(pendings.due(2000).len() == 1);
        let first = pendings.ready(6100, |_| false);
        assert_eq!((first.len(), first[0].1.client), (1, Client::Tcp(0)));
        let second = pendings.ready(6101, |_| true);
        assert_eq!((second.len(), second[0].1.client), (1, Client::Tcp(1)));
    }

    #[test]
    fn answers_of_several_are_gathered() {
        assert_eq!(with(rtype::A).ready(100, |_| true).len(), 1);
        let mut pendings = with(rtype::PTR);
        assert_eq!(pendings.due(100).len(), 1);
        assert!(pendings.ready(499, |_| true).is_empty());
        assert_eq!(pendings.next(499), Some(500));
        assert_eq!(pendings.ready(500, |_| true).len(), 1);
    }

    #[test]
    fn only_so_many_wait() {
        let mut pendings = Pendings::default();
        for number in 0..MOST_WAITING as u64 {
            assert!(pendings.add(0, question(1), Client::Tcp(number), query()));
        }
        assert!(!pendings.add(0, question(1), Client::Tcp(0), query()));
    }
}
