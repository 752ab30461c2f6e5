//! Packets for the comparison: short announcements, full ones, damaged ones, and the worst that is legal.

/// A small generator of numbers (xorshift), so that a run can be repeated.
pub struct Random(pub u64);

impl Random {
    pub fn number(&mut self) -> u64 {
        self.0 ^= self.0 << 13;
        self.0 ^= self.0 >> 7;
        self.0 ^= self.0 << 17;
        self.0
    }

    pub fn below(&mut self, limit: usize) -> usize {
        (self.number() % limit as u64) as usize
    }
}

const HEADER: usize = 12;
pub const MOST_MESSAGE: usize = 8972;

/// A response's header with so many answers.
fn response(answers: u16) -> Vec<u8> {
    let mut p = vec![0, 0, 0x84, 0, 0, 0];
    p.extend(answers.to_be_bytes());
    p.extend([0; 4]);
    p
}

fn label(p: &mut Vec<u8>, bytes: &[u8]) {
    p.push(bytes.len() as u8);
    p.extend(bytes);
}

fn pointer(p: &mut Vec<u8>, target: usize) {
    p.extend((0xC000 + target as u16).to_be_bytes());
}

fn fields(p: &mut Vec<u8>, rtype: u16, class: u16, ttl: u32, length: usize) {
    p.extend(rtype.to_be_bytes());
    p.extend(class.to_be_bytes());
    p.extend(ttl.to_be_bytes());
    p.extend((length as u16).to_be_bytes());
}

/// The specification's announcement of one address: 38 bytes.
pub fn address() -> Vec<u8> {
    let mut p = response(1);
    label(&mut p, b"dock");
    label(&mut p, b"local");
    p.push(0);
    fields(&mut p, 1, 0x8001, 120, 4);
    p.extend([10, 0, 0, 7]);
    p
}

/// A response with the address of one of 65,536 hosts that share a name; nothing is flushed.
pub fn address_of(number: u16) -> Vec<u8> {
    let mut p = response(1);
    label(&mut p, b"dock");
    label(&mut p, b"local");
    p.push(0);
    fields(&mut p, 1, 1, 120, 4);
    p.extend([10, 0]);
    p.extend(number.to_be_bytes());
    p
}

/// A response with the address of a host of its own name; nothing is flushed, and it lives for 4,500 s.
pub fn host_address(number: u16) -> Vec<u8> {
    let mut p = response(1);
    label(&mut p, format!("host-{number:03}").as_bytes());
    label(&mut p, b"local");
    p.push(0);
    fields(&mut p, 1, 1, 4500, 4);
    p.extend([10, 1]);
    p.extend(number.to_be_bytes());
    p
}

/// A name of so many bytes, its zero byte with them, with a letter in its middle.
pub fn long_name(bytes: usize, middle: u8) -> Vec<u8> {
    let mut name = Vec::new();
    while name.len() + 1 < bytes {
        let left = bytes - 1 - name.len() - 1;
        // no label of length 0 is left at the end
        let length = if left > 63 { 49.min(left - 2) } else { left };
        label(&mut name, &vec![b'a'; length]);
    }
    name.push(0);
    name[bytes / 2 + 7] = middle;
    name
}

/// A response with an address, the four bytes of a number, of a name that others may have too.
pub fn shared_address(owner: &[u8], address: u32) -> Vec<u8> {
    let mut p = response(1);
    p.extend(owner);
    fields(&mut p, 1, 1, 120, 4);
    p.extend(address.to_be_bytes());
    p
}

/// The announcement of a service: PTR, SRV, TXT and A, names compressed.
pub fn service() -> Vec<u8> {
    let mut p = response(4);
    let service = p.len();
    label(&mut p, b"_voice");
    let protocol = p.len();
    label(&mut p, b"_tcp");
    let local = p.len();
    label(&mut p, b"local");
    p.push(0);
    fields(&mut p, 12, 1, 4500, 8);
    let instance = p.len();
    label(&mut p, b"booth");
    pointer(&mut p, service);
    pointer(&mut p, instance);
    fields(&mut p, 33, 0x8001, 120, 13);
    p.extend([0, 0, 0, 0, 15, 160]);
    let host = p.len();
    label(&mut p, b"dock");
    pointer(&mut p, local);
    pointer(&mut p, instance);
    fields(&mut p, 16, 0x8001, 4500, 20);
    label(&mut p, b"txtvers=1");
    label(&mut p, b"room=0003");
    pointer(&mut p, host);
    fields(&mut p, 1, 0x8001, 120, 4);
    p.extend([10, 0, 0, 7]);
    debug_assert!(protocol < host);
    p
}

/// A packet of at most 1,452 bytes full of PTR records whose targets share their ends.
pub fn full() -> Vec<u8> {
    pointers(1452)
}

/// As many PTR records as a packet of so many bytes has room for, their targets sharing their ends.
pub fn pointers(most: usize) -> Vec<u8> {
    let mut body = Vec::new();
    let service = HEADER;
    let mut count = 0u16;
    label(&mut body, b"_voice");
    label(&mut body, b"_tcp");
    label(&mut body, b"local");
    body.push(0);
    loop {
        let mut record = Vec::new();
        if count > 0 {
            pointer(&mut record, service);
        }
        let name = format!("Booth {count} of the large court room");
        fields(&mut record, 12, 1, 4500, name.len() + 3);
        label(&mut record, name.as_bytes());
        pointer(&mut record, service);
        if HEADER + body.len() + record.len() > most {
            break;
        }
        body.extend(record);
        count += 1;
    }
    let mut p = response(count);
    p.extend(body);
    p
}

/// A packet with some bytes changed, or cut short.
pub fn damaged(packet: &[u8], random: &mut Random) -> Vec<u8> {
    let mut p = packet.to_vec();
    if random.below(4) == 0 {
        p.truncate(random.below(p.len()));
        return p;
    }
    for _ in 0..=random.below(3) {
        let at = random.below(p.len());
        p[at] = random.number() as u8;
    }
    p
}

/// The mix that the two readers are timed on: short announcements, packets of up to 1,452 bytes, and damaged ones, a third each.
pub fn mix() -> Vec<Vec<u8>> {
    let mut random = Random(20260711);
    let good = [address(), service(), full()];
    let mut packets = Vec::new();
    for i in 0..300 {
        packets.push(good[i % 2].clone());
        packets.push(good[2].clone());
        packets.push(damaged(&good[i % 3], &mut random));
    }
    packets
}

/// A chain of pointers, each to the one before it, the first to the zero byte at offset 12: the rdata of a record of an unknown type, which no
/// reader looks into by itself. Gives the packet and the offset of the last pointer; of `most` bytes `tail` are left free.
fn chain(most: usize, answers: u16, tail: usize) -> (Vec<u8>, usize) {
    let mut p = response(answers);
    p.push(0);
    let start = p.len() + 10;
    let count = (most - start - tail) / 2;
    fields(&mut p, 99, 1, 120, 2 * count);
    for i in 0..count {
        pointer(&mut p, if i == 0 { HEADER } else { start + 2 * (i - 1) });
    }
    let last = p.len() - 2;
    (p, last)
}

/// The longest chain of pointers that a legal message holds, and the offset at which it begins.
pub fn longest_chain() -> (Vec<u8>, usize) {
    chain(MOST_MESSAGE, 1, 0)
}

/// The legal message that takes longest.
pub fn worst() -> Vec<u8> {
    worst_of(MOST_MESSAGE)
}

/// The legal message of at most so many bytes, at least 64, that takes longest: a chain through half of it, and as many PTR records as fit whose owner and
/// target both follow it.
pub fn worst_of(most: usize) -> Vec<u8> {
    let count = most / 2 / 14;
    let (mut p, last) = chain(most, 1 + count as u16, 14 * count);
    for _ in 0..count {
        pointer(&mut p, last);
        fields(&mut p, 12, 1, 120, 2);
        pointer(&mut p, last);
    }
    p
}

/// A name of 127 labels of one byte, each reached through a pointer: 255 bytes. Gives the packet and the name's offset.
pub fn label_by_label() -> (Vec<u8>, usize) {
    let mut p = response(1);
    p.push(0);
    let start = p.len() + 10;
    fields(&mut p, 99, 1, 120, 4 * 127);
    for i in 0..127 {
        label(&mut p, b"a");
        pointer(&mut p, if i == 0 { HEADER } else { start + 4 * (i - 1) });
    }
    let last = p.len() - 4;
    (p, last)
}
