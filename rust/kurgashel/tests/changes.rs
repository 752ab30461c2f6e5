//! Stops and updates as a Rust caller meets them: goodbyes, announcements of changed data and the refusals of both, as the independent reference program says.

use kurgashel::{Claim, Refusal, Responder, Setup, OUT_BYTES};
use reference::responder::{Change, Responder as Reference};

const TXT: &[u8] = b"\x06room=3";
const A: [u8; 4] = [10, 0, 0, 7];

/// The proved responder and the reference program's, at one time.
struct Both {
    proved: Responder,
    reference: Reference,
}

/// The packet that is sent, or the number of the refusal.
type Told = Result<Vec<u8>, u8>;

impl Both {
    fn started(draw: u64) -> Both {
        let ours = Setup::new("booth", "_voice", "_tcp", "dock", 4000, TXT, A, None);
        let theirs = reference::setup::Setup {
            instance: b"booth".to_vec(),
            service: b"_voice".to_vec(),
            protocol: b"_tcp".to_vec(),
            host: b"dock".to_vec(),
            domain: b"local".to_vec(),
            port: 4000,
            txt: TXT.to_vec(),
            a: A,
            aaaa: None,
        };
        Both {
            proved: Responder::start(&ours, 0, draw).unwrap(),
            reference: Reference::start(0, draw, theirs).unwrap(),
        }
    }

    /// Both hold their names, and no step is to come.
    fn settled() -> Both {
        let mut both = Both::started(0);
        while let Some(due) = both.proved.due() {
            both.tick(due).unwrap();
        }
        both
    }

    fn tick(&mut self, now: u64) -> Told {
        let (mut ours, mut theirs) = ([0; OUT_BYTES], [0; OUT_BYTES]);
        let sent = self.proved.tick(now, &mut ours).map(|sent| sent.length);
        let expected = self.reference.tick(now, &mut theirs);
        let expected = expected.map(|sent| sent.map(|sent| sent.length));
        same(sent, &ours, expected, &theirs)
    }

    fn stop(&mut self, now: u64) -> Told {
        let (mut ours, mut theirs) = ([0; OUT_BYTES], [0; OUT_BYTES]);
        let sent = self.proved.stop(now, &mut ours);
        same(sent, &ours, self.reference.stop(now, &mut theirs), &theirs)
    }

    fn update(&mut self, now: u64, change: Change) -> Told {
        let (mut ours, mut theirs) = ([0; OUT_BYTES], [0; OUT_BYTES]);
        let sent = match &change {
            Change::Port(port) => self.proved.update_port(now, *port, &mut ours),
            Change::Txt(txt) => self.proved.update_txt(now, txt, &mut ours),
        };
        let expected = self.reference.update(now, change, &mut theirs);
        same(sent, &ours, expected, &theirs)
    }
}

/// What both say, which is the same.
fn same(
    sent: Result<usize, Refusal>,
    ours: &[u8],
    expected: Result<Option<usize>, reference::refusal::Refusal>,
    theirs: &[u8],
) -> Told {
    let told = sent.map_err(Refusal::number);
    let expected = expected.map(|length| length.unwrap_or(0));
    assert_eq!(told, expected.map_err(|refusal| refusal.number()));
    assert_eq!(ours, theirs);
    told.map(|length| ours[..length].to_vec())
}

/// The type and TTL of each Answer record.
fn records(packet: &[u8]) -> Vec<(u16, u32)> {
    let message = kurgashel::Message::read(packet).unwrap();
    let records = message.records(kurgashel::Section::Answer);
    records.map(|record| (record.rtype, record.ttl)).collect()
}

fn txt(txt: &[u8]) -> Change {
    Change::Txt(txt.to_vec())
}

#[test]
fn a_stop_says_goodbye_and_ends_both_names() {
    let mut both = Both::settled();
    let goodbye = both.stop(5000).unwrap();
    assert_eq!(records(&goodbye), [(12, 0), (33, 0), (16, 0), (1, 0)]);
    assert_eq!(both.proved.instance(), Claim::Lost);
    assert_eq!(both.proved.host(), Claim::Lost);
    assert_eq!(both.proved.due(), None);
    assert_eq!(both.stop(5000), Ok(vec![]));
    assert_eq!(both.update(20000, Change::Port(1)), Err(10));
    assert_eq!(both.tick(20000), Ok(vec![]));
}

#[test]
fn an_update_announces_the_record_twice() {
    let mut both = Both::settled();
    assert_eq!(
        records(&both.update(5000, Change::Port(1)).unwrap()),
        [(33, 120)]
    );
    assert_eq!(both.proved.due(), Some(6000));
    assert!(!both.tick(6000).unwrap().is_empty());
    assert_eq!(both.update(10999, txt(b"\x01a")), Err(11));
    assert_eq!(
        records(&both.update(11000, txt(b"\x01a")).unwrap()),
        [(16, 4500)]
    );
    assert_eq!(both.update(11000, txt(b"\x02a")), Err(7));
    assert_eq!(both.update(17000, txt(&[0; 401])), Err(7));
    assert_eq!(both.update(1, txt(b"\x01a")), Err(1));
    // equal data are announced all the same
    assert!(!both.update(17000, txt(b"\x01a")).unwrap().is_empty());
}

#[test]
fn an_update_before_the_name_is_held_begins_anew() {
    let mut both = Both::started(100);
    both.tick(100).unwrap();
    assert_eq!(both.proved.instance(), Claim::Probing);
    assert_eq!(both.update(150, Change::Port(9)), Ok(vec![]));
    assert_eq!(both.proved.instance(), Claim::Waiting);
    // the host's first probe is overdue by then
    let (mut now, mut probes) = (150, 0);
    while let Some(due) = both.proved.due() {
        now = due.max(now);
        probes += usize::from(both.tick(now).unwrap()[2] == 0);
    }
    // three of each name, beside the one of the old data
    assert_eq!(probes, 6);
    assert_eq!(both.proved.instance(), Claim::Held);
}
