//! Random books in the words of a store, frames, announces in words, lists of TLVs and our own data.
use crate::plain::store::*;
use crate::plain::{Own, ANNOUNCE_WORDS};

pub struct Random(pub u64);

impl Random {
    pub fn next(&mut self) -> u64 {
        self.0 ^= self.0 << 13;
        self.0 ^= self.0 >> 7;
        self.0 ^= self.0 << 17;
        self.0.wrapping_mul(0x2545_F491_4F6C_DD1D)
    }

    pub fn below(&mut self, n: u64) -> u64 {
        (self.next() >> 11) % n
    }

    /// True once in so many times.
    pub fn once_in(&mut self, n: u64) -> bool {
        self.below(n) == 0
    }

    pub fn one_of<T: Copy>(&mut self, list: &[T]) -> T {
        list[self.below(list.len() as u64) as usize]
    }

    pub fn words(&mut self, count: usize) -> Vec<u64> {
        (0..count).map(|_| self.next()).collect()
    }

    pub fn bytes(&mut self, count: usize) -> Vec<u8> {
        (0..count).map(|_| self.next() as u8).collect()
    }
}

/// What a book is made of: counts, or any up to those where they are free; a list of 16, or any master; few grandmasters,
/// qualities and ages, so that comparisons go deep, or all different.
#[derive(Clone, Copy)]
pub struct Kind {
    pub ports: u64,
    pub masters: u64,
    pub messages: u64,
    pub free: bool,
    pub listed: bool,
    pub alike: bool,
}

pub const OWN: u64 = 0x508;

pub const INTERVAL: u64 = 1 << 30;

/// Priority 1, class, accuracy, variance and priority 2 of messages that are alike, as one number.
const HIGH: u64 = 0x80F8_FEFF_FF80;

/// A sound book, with one master more than is counted. What else lies past the counts is random.
pub fn book(random: &mut Random, kind: Kind) -> Vec<u64> {
    let mut store = random.words(STORE_WORDS);
    store[0] = kind.ports;
    store[1] = OWN;
    store[2] = kind.listed as u64;
    store[3] = LISTED as u64;
    for (i, clock) in store[4..HEAD_WORDS].iter_mut().enumerate() {
        *clock = 0x500 + i as u64 + (i >= 8) as u64;
    }
    let list = store[4..HEAD_WORDS].to_vec();
    for (q, port) in ports_mut(&mut store).iter_mut().enumerate() {
        port[0] = INTERVAL;
        port[1] = if kind.free {
            random.below(kind.masters + 1)
        } else {
            kind.masters
        };
        for i in 0..port[1] as usize + 1 {
            let count = if kind.free {
                1 + random.below(kind.messages)
            } else {
                kind.messages
            };
            let master = &mut port[4..].as_chunks_mut::<MASTER_WORDS>().0[i];
            // Two masters in a row now and then have one clock, and other port numbers.
            master[0] = list[(i - (kind.alike && i % 4 == 1) as usize + 3 * q) % LISTED];
            master[1] = random.next() << 16 | i as u64;
            master[3] = count;
            fill(random, kind, master);
        }
    }
    store
}

/// Messages whose ages fall and whose sequences rise.
fn fill(random: &mut Random, kind: Kind, master: &mut Master) {
    let mut age = 2 * INTERVAL + random.below(if kind.alike { 2 } else { 1000 });
    let mut sequence = random.below(65536);
    for k in 0..master[3] {
        let at = slot_at(master, k);
        age -= random.below(if kind.alike { 3 } else { INTERVAL / 4 });
        sequence = (sequence + random.below(5)) % 65536;
        let steps = random.below(if kind.alike { 3 } else { 250 });
        let high = HIGH + random.below(2);
        let slot = &mut master[at..at + SLOT_WORDS];
        slot[2] = age;
        slot[4] = slot[4] << 48 | sequence << 32 | steps << 16 | random.below(65536);
        if kind.alike {
            slot[0] = random.one_of(&[0x507, OWN, 0x509, 0x50A]);
            slot[5] = high << 16 | random.below(65536);
        }
    }
}

/// Another word somewhere, or a field on one side of its limit or the other.
pub fn damage(random: &mut Random, store: &mut [u64]) {
    let any = random.below(STORE_WORDS as u64) as usize;
    let port = HEAD_WORDS + random.below(store[0]) as usize * PORT_WORDS;
    let master = port + 4 + random.below(store[port + 1].max(1)) as usize * MASTER_WORDS;
    let (start, count) = (store[master + 2], store[master + 3]);
    let slot = |k: u64| master + 4 + (start.wrapping_add(k) % 8) as usize * SLOT_WORDS;
    let newest = slot(count - 1) + 4;
    match random.below(11) {
        0 => store[any] = random.next(),
        1 => store[any] ^= 1 << random.below(64),
        2 => store[random.below(4) as usize] = random.below(20),
        3 => store[port] = random.one_of(&[0, 1, (1 << 60) - 1, 1 << 60]),
        4 => store[port + 1] += 1,
        5 => store[master + 3] = random.one_of(&[0, 8, 9]),
        6 => store[slot(0) + 2] = 4 * store[port] - random.below(2),
        7 => store[newest] = store[newest] & !0xFFFF_0000 | (254 + random.below(2)) << 16,
        8 => {
            store[master] = store[port + 4];
            store[master + 1] = store[port + 5] ^ 1 << 40;
        }
        9 => store[newest - 2] += random.below(3),
        _ if count > 1 => {
            let before = store[slot(count - 2) + 4] >> 32;
            let next = (before + 32766 + random.below(2)) % 65536;
            store[newest] = store[newest] & 0xFFFF_FFFF | next << 32;
        }
        _ => store[master] = store[1],
    }
}

/// A list of entries, the last of which has a value where it is asked.
pub fn tlvs(random: &mut Random, entries: u64, valued: bool) -> Vec<u8> {
    let mut list = Vec::new();
    for left in (0..entries).rev() {
        let least = (left == 0 && valued) as u64;
        let length = 2 * (least + random.below(5)) as usize;
        list.extend(random.bytes(2));
        list.extend((length as u16).to_be_bytes());
        list.extend(random.bytes(length));
    }
    list
}

/// An announce with these TLVs and some bytes behind it.
pub fn frame(random: &mut Random, tlvs: &[u8], behind: usize) -> Vec<u8> {
    let mut frame = random.bytes(64);
    frame[0] = frame[0] & 0xF0 | 11;
    frame[2..4].copy_from_slice(&(64 + tlvs.len() as u16).to_be_bytes());
    frame.extend(tlvs);
    frame.extend(random.bytes(behind));
    frame
}

/// An announce with up to three TLVs.
pub fn some_frame(random: &mut Random) -> Vec<u8> {
    let entries = random.below(4);
    let tlvs = tlvs(random, entries, true);
    let behind = random.below(3) as usize;
    frame(random, &tlvs, behind)
}

/// Another type, length or byte, fewer bytes, or any bytes.
pub fn damage_frame(random: &mut Random, frame: &mut Vec<u8>) {
    let length = frame.len() as u64;
    let any = random.below(length) as usize;
    match random.below(7) {
        0 => frame[0] = frame[0] & 0xF0 | random.below(16) as u8,
        1 => {
            let near = [0, 33, 34, 63, 64, 65, length as u16, length as u16 + 1];
            let field = random.one_of(&near);
            frame[2..4].copy_from_slice(&field.to_be_bytes());
        }
        2 => frame[any] ^= 1 << random.below(8),
        3 => frame.truncate(random.one_of(&[0, 1, 33, 34, 63, 64, any])),
        4 => {
            let places: Vec<usize> = (67..frame.len()).collect();
            if !places.is_empty() {
                frame[random.one_of(&places)] ^= 1 << random.below(3);
            }
        }
        5 => {
            frame[0] = frame[0] & 0xF0 | random.below(16) as u8;
            let field = random.one_of(&[33, 34, length as u16, length as u16 + 1]);
            frame[2..4].copy_from_slice(&field.to_be_bytes());
        }
        _ => *frame = random.bytes(any),
    }
}

/// The sender, the sequence and the steps of a frame.
pub fn set_sender(frame: &mut [u8], clock: u64, port: u16, sequence: u16, steps: u16) {
    frame[20..28].copy_from_slice(&clock.to_be_bytes());
    frame[28..30].copy_from_slice(&port.to_be_bytes());
    frame[30..32].copy_from_slice(&sequence.to_be_bytes());
    frame[61..63].copy_from_slice(&steps.to_be_bytes());
}

/// A frame for a port of a book, of one of its masters, of another one or of ourselves, near the limits.
pub fn heard(random: &mut Random, store: &[u64], port: u16) -> Vec<u8> {
    let mut frame = some_frame(random);
    let words = ports(store).get((port as usize).wrapping_sub(1));
    let masters = words.map_or(&[][..], masters);
    let steps = random.one_of(&[0, 1, 254, 255, 256, 65535]);
    let far = random.one_of(&[0, 1, 32766, 32767, 65535]);
    if masters.is_empty() || random.once_in(3) {
        let clock = random.one_of(&[OWN, 0x500, 0x50F, 0x510, 0x511]);
        let number = random.one_of(&[1, port, 0x777]);
        set_sender(&mut frame, clock, number, far, steps);
    } else {
        let master = &masters[random.below(masters.len() as u64) as usize];
        let last = sequence(slot(master, master[3].wrapping_sub(1)));
        let number = master[1] as u16 ^ random.once_in(20) as u16;
        set_sender(&mut frame, master[0], number, last.wrapping_add(far), steps);
    }
    frame
}

/// An announce in words, each within what its field holds, flags that have no name too.
pub fn announce(random: &mut Random) -> [u64; ANNOUNCE_WORDS] {
    let widths = [
        12, 4, 4, 8, 16, 64, 64, 16, 16, 8, 48, 32, 16, 8, 8, 8, 16, 8, 64, 16, 8,
    ];
    widths.map(|width| random.next() >> (64 - width))
}

/// Our own data, near that of messages that are alike or anywhere.
pub fn some_own(random: &mut Random) -> Own {
    let near = random.one_of(&[HIGH - 1, HIGH, HIGH + 1, HIGH + 2]);
    let any = random.next() >> 16;
    let high = random.one_of(&[near, any]);
    let class = (high >> 32) as u8;
    Own {
        priority_1: (high >> 40) as u8,
        class: if random.once_in(4) {
            random.one_of(&[0, 1, 127, 128])
        } else {
            class
        },
        accuracy: (high >> 24) as u8,
        variance: (high >> 8) as u16,
        priority_2: high as u8,
        listening: random.next() as u8,
    }
}
