//! Legal messages of any size whose names take long to read: each is the worst for some way of reading.

const HEADER: usize = 12;

/// The most labels that a name has.
const MOST_LABELS: usize = 127;

/// A query's header with so many questions, and then the questions.
fn query(questions: usize, body: &[u8]) -> Vec<u8> {
    let mut p = vec![0; HEADER];
    p[4..6].copy_from_slice(&(questions as u16).to_be_bytes());
    p.extend(body);
    p
}

/// A response's header with so many answers, and then the records.
fn response(answers: usize, body: &[u8]) -> Vec<u8> {
    let mut p = vec![0; HEADER];
    p[2] = 0x84;
    p[6..8].copy_from_slice(&(answers as u16).to_be_bytes());
    p.extend(body);
    p
}

fn pointer(target: usize) -> [u8; 2] {
    (0xC000 + target as u16).to_be_bytes()
}

/// One chain of pointers through a whole query: the name, the type and the class of each question point to what stands before them, and the name of
/// each question follows the chain to its beginning.
pub fn chained_questions(size: usize) -> Vec<u8> {
    let count = (size - HEADER - 5) / 6;
    let mut body = vec![0, 0, 1, 0, 1];
    let mut last = HEADER;
    for _ in 0..3 * count {
        let here = HEADER + body.len();
        body.extend(pointer(last));
        last = here;
    }
    query(1 + count, &body)
}

/// The same of a response with PTR records, in which owner, class, TTL and rdata are pointers.
pub fn chained_records(size: usize) -> Vec<u8> {
    let count = (size - HEADER - 11) / 14;
    let mut body = vec![0, 0, 99, 0, 1, 0, 0, 0, 0, 0, 0];
    let mut last = HEADER;
    let mut chain = |body: &mut Vec<u8>| {
        let here = HEADER + body.len();
        body.extend(pointer(last));
        last = here;
    };
    for _ in 0..count {
        chain(&mut body);
        body.extend([0, 12]);
        (0..3).for_each(|_| chain(&mut body));
        body.extend([0, 2]);
        chain(&mut body);
    }
    response(1 + count, &body)
}

/// The same with NSEC records of the restricted kind, whose next name equals the owner.
pub fn chained_nsec(size: usize) -> Vec<u8> {
    let count = (size - HEADER - 11) / 17;
    let mut body = vec![0, 0, 99, 0, 1, 0, 0, 0, 0, 0, 0];
    let mut last = HEADER;
    let mut chain = |body: &mut Vec<u8>| {
        let here = HEADER + body.len();
        body.extend(pointer(last));
        last = here;
    };
    for _ in 0..count {
        chain(&mut body);
        body.extend([0, 47]);
        (0..3).for_each(|_| chain(&mut body));
        body.extend([0, 5]);
        chain(&mut body);
        body.extend([0, 1, 0x40]);
    }
    response(1 + count, &body)
}

/// A name of 127 labels of a byte, each behind a pointer, in the first questions; and as many questions as fit whose names all lead to it.
pub fn label_by_label(size: usize) -> Vec<u8> {
    let mut body = vec![0, 0, 1, 0, 1];
    let mut questions = 1;
    let mut last = HEADER;
    let mut labels = 0;
    while labels < MOST_LABELS.min(size / 8) {
        for _ in 0..2 {
            let here = HEADER + body.len();
            if labels < MOST_LABELS {
                body.extend([1, b'a']);
                body.extend(pointer(last));
                last = here;
                labels += 1;
            } else {
                body.extend([0, 1, 0, 1]);
            }
        }
        questions += 1;
    }
    while HEADER + body.len() + 6 <= size {
        body.extend(pointer(last));
        body.extend([0, 1, 0, 1]);
        questions += 1;
    }
    query(questions, &body)
}

/// NSEC records of the restricted kind, whose owner and next name are one name of 127 labels, each behind a pointer where `apart`, else in a row.
pub fn long_nsec(size: usize, apart: bool) -> Vec<u8> {
    let mut rdata = Vec::new();
    let start = HEADER + 11;
    let mut last = HEADER;
    for _ in 0..MOST_LABELS.min(size / 8) {
        if apart {
            let here = start + rdata.len();
            rdata.extend([1, b'a']);
            rdata.extend(pointer(last));
            last = here;
        } else {
            rdata.extend([1, b'a']);
        }
    }
    if !apart {
        rdata.push(0);
        last = start;
    }
    let mut body = vec![0, 0, 99, 0, 1, 0, 0, 0, 0];
    body.extend((rdata.len() as u16).to_be_bytes());
    body.extend(&rdata);
    let mut count = 1;
    while HEADER + body.len() + 17 <= size {
        body.extend(pointer(last));
        body.extend([0, 47, 0, 1, 0, 0, 0, 120, 0, 5]);
        body.extend(pointer(last));
        body.extend([0, 1, 0x40]);
        count += 1;
    }
    response(count, &body)
}

/// `names` questions, each of whose names begins at a place of its own in the runs of one-byte labels of the first questions, from the longest names on; where
/// `twice`, through a pointer of its own in the type of the question before.
fn starts_with(size: usize, runs: usize, twice: bool) -> Option<Vec<u8>> {
    let mut body = Vec::new();
    for _ in 0..runs {
        body.extend([1; 2 * MOST_LABELS]);
        body.extend([0, 0, 1, 0, 1]);
    }
    if HEADER + body.len() + 6 > size {
        return None;
    }
    let mut questions = runs;
    let mut places = (0..2 * MOST_LABELS)
        .flat_map(|offset| (0..runs).map(move |run| HEADER + run * (2 * MOST_LABELS + 5) + offset))
        .cycle();
    let mut before = places.next()?;
    while HEADER + body.len() + 6 <= size {
        let place = places.next()?;
        body.extend(pointer(before));
        before = if twice { HEADER + body.len() } else { place };
        body.extend(if twice { pointer(place) } else { [0, 1] });
        body.extend([0, 1]);
        questions += 1;
    }
    Some(query(questions, &body))
}

/// The longest of them to read: the most labels in all the names.
pub fn starts(size: usize, twice: bool) -> Vec<u8> {
    let labels = |runs: usize| {
        let left = (size - HEADER).saturating_sub(runs * (2 * MOST_LABELS + 5)) / 6;
        (0..left)
            .map(|name| MOST_LABELS.saturating_sub(name / runs / 2))
            .sum::<usize>()
    };
    (1..=size / 300)
        .max_by_key(|&runs| labels(runs))
        .and_then(|runs| starts_with(size, runs, twice))
        .unwrap_or_else(|| label_by_label(size))
}

/// A name that is as long as that of the responder's host, "dock.local", and another.
const OTHER_HOST: &[u8] = b"\x04lock\x05local\0";

/// Questions for all that a name has, of class 1: each name is a pointer to the one before, and all are as long as an own name.
pub fn asking(size: usize) -> Vec<u8> {
    let mut body = OTHER_HOST.to_vec();
    body.extend([0, 255, 0, 1]);
    let mut questions = 1;
    let mut last = HEADER;
    while HEADER + body.len() + 6 <= size {
        let here = HEADER + body.len();
        body.extend(pointer(last));
        body.extend([0, 255, 0, 1]);
        last = here;
        questions += 1;
    }
    query(questions, &body)
}

/// As many PTR records of class 1 as fit behind `before`, owner and target on one chain, and how many they are.
fn chained_class_1(size: usize, before: &[u8]) -> (usize, Vec<u8>) {
    let mut body = before.to_vec();
    let mut last = HEADER;
    let mut count = 0;
    while HEADER + body.len() + 14 <= size {
        let here = HEADER + body.len();
        body.extend(pointer(last));
        body.extend([0, 12, 0, 1, 0, 0, 17, 148, 0, 2]);
        body.extend(pointer(here));
        last = here + 12;
        count += 1;
    }
    (count, body)
}

/// A query with known answers: a question, and PTR records that follow one chain.
pub fn knowing(size: usize) -> Vec<u8> {
    let (count, body) = chained_class_1(size, &[OTHER_HOST, &[0, 255, 0, 1]].concat());
    let mut p = query(1, &body);
    p[6..8].copy_from_slice(&(count as u16).to_be_bytes());
    p
}

/// A probe: the same records in the Authority section.
pub fn claiming(size: usize) -> Vec<u8> {
    let (count, body) = chained_class_1(size, &[OTHER_HOST, &[0, 255, 0, 1]].concat());
    let mut p = query(1, &body);
    p[8..10].copy_from_slice(&(count as u16).to_be_bytes());
    p
}

/// The name of the responder's instance, "booth._voice._tcp.local", in which its service's begins at the sixth byte; and that of its host.
const OWN_INSTANCE: &[u8] = b"\x05booth\x06_voice\x04_tcp\x05local\0";
const OWN_SERVICE_AT: usize = 6;
const OWN_HOST: &[u8] = b"\x04dock\x05local\0";

/// A query with the own instance's name in its question, a record whose rdata is a chain of pointers to `end`, through half of the message, and as many
/// records as fit with an own owner, at `owner`, and rdata that is `numbers` and a pointer to the chain. They stand in the section whose count is at `count`.
fn own_behind_chain(
    size: usize,
    end: &[u8],
    owner: usize,
    rtype: u8,
    numbers: &[u8],
    count: usize,
) -> Vec<u8> {
    let mut body = [OWN_INSTANCE, &[0, 255, 0, 1], &[0, 0, 99, 0, 1, 0, 0, 0, 0]].concat();
    let room = HEADER + body.len() + 2 + end.len();
    let pointers = (size / 2).saturating_sub(room) / 2;
    body.extend(((end.len() + 2 * pointers) as u16).to_be_bytes());
    let mut last = HEADER + body.len();
    body.extend(end);
    for _ in 0..pointers {
        let here = HEADER + body.len();
        body.extend(pointer(last));
        last = here;
    }
    let mut records = 1;
    while HEADER + body.len() + 14 + numbers.len() <= size {
        body.extend(pointer(owner));
        body.extend([0, rtype, 0, 1, 0, 0, 17, 148, 0, numbers.len() as u8 + 2]);
        body.extend(numbers);
        body.extend(pointer(last));
        records += 1;
    }
    let mut p = query(1, &body);
    p[count..count + 2].copy_from_slice(&(records as u16).to_be_bytes());
    // bytes after the last record are ignored
    p.resize(size, 0);
    p
}

/// Known answers under the own service's name, each with another target behind a chain.
pub fn knowing_own(size: usize) -> Vec<u8> {
    own_behind_chain(size, OTHER_HOST, HEADER + OWN_SERVICE_AT, 12, &[], 6)
}

/// Authority records under the own instance's name, each with the own SRV's rdata, its target behind a chain: as a response, they do not conflict.
pub fn claiming_own(size: usize) -> Vec<u8> {
    own_behind_chain(size, OWN_HOST, HEADER, 33, &[0, 0, 0, 0, 15, 160], 8)
}

/// A response with one PTR record that agrees with those of `knowing` in its owner and in all lengths; its target has a number of its own.
pub fn alike(number: usize) -> Vec<u8> {
    let target = format!("\x04{number:04}\x05local\0");
    let mut body = OTHER_HOST.to_vec();
    body.extend([0, 12, 0, 1, 0, 0, 17, 148, 0, target.len() as u8]);
    body.extend(target.as_bytes());
    response(1, &body)
}

/// An ordinary long message: PTR records of one service whose targets share their ends.
pub fn ordinary(size: usize) -> Vec<u8> {
    let mut body = Vec::from(*b"\x06_voice\x04_tcp\x05local\0");
    let mut count = 0;
    loop {
        let name = format!("Booth {count} of the large court room");
        let mut record = Vec::new();
        if count > 0 {
            record.extend(pointer(HEADER));
        }
        record.extend([0, 12, 0, 1, 0, 0, 17, 148, 0, name.len() as u8 + 3]);
        record.push(name.len() as u8);
        record.extend(name.as_bytes());
        record.extend(pointer(HEADER));
        if HEADER + body.len() + record.len() > size {
            return response(count, &body);
        }
        body.extend(record);
        count += 1;
    }
}

/// All of them but the ordinary one, by name.
pub fn all(size: usize) -> Vec<(&'static str, Vec<u8>)> {
    vec![
        ("a chain through all questions", chained_questions(size)),
        ("a chain through all PTR records", chained_records(size)),
        ("a chain through all NSEC records", chained_nsec(size)),
        ("127 labels, each behind a pointer", label_by_label(size)),
        ("the same in NSEC records", long_nsec(size, true)),
        (
            "127 labels in a row in NSEC records",
            long_nsec(size, false),
        ),
        ("each name from a place of its own", starts(size, false)),
        ("the same through two pointers", starts(size, true)),
        ("questions of class 1, as long as an own name", asking(size)),
        ("known answers of class 1, the same", knowing(size)),
        ("Authority records of class 1, the same", claiming(size)),
        ("known answers under an own name", knowing_own(size)),
        ("Authority records under an own name", claiming_own(size)),
    ]
}
