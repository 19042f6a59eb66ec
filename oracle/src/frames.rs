// The subcommand frames: frames of many kinds, the same for the same seed.

use crate::random::Random;

/// Lengths at and beside the ends of a header and of an announce.
pub const EDGES: [usize; 6] = [33, 34, 35, 63, 64, 65];

/// Lengths of the frames of one byte throughout.
const PLAIN: [usize; 13] = [0, 1, 33, 34, 35, 49, 50, 63, 64, 65, 100, 120, 2048];

/// Place and width of every number of an announce; sdo, version, flags and accuracy are apart.
const NUMBERS: [(usize, usize); 16] = [
    (4, 1),
    (5, 1),
    (8, 8),
    (20, 8),
    (28, 2),
    (30, 2),
    (33, 1),
    (34, 6),
    (40, 4),
    (44, 2),
    (47, 1),
    (48, 1),
    (50, 2),
    (52, 1),
    (53, 8),
    (61, 2),
];

/// The place of an announce's clock accuracy.
const ACCURACY: usize = 49;

/// A frame with an accuracy that the crate keeps.
pub fn kept(mut frame: Vec<u8>) -> Vec<u8> {
    if let Some(byte) = frame.get_mut(ACCURACY) {
        *byte = unfolded(*byte);
    }
    frame
}

/// An accuracy that the crate keeps: it reads the reserved 01-16, 32-7F and FF as 00.
pub fn unfolded(byte: u8) -> u8 {
    match byte {
        0x00 | 0x17..=0x31 | 0x80..=0xfe => byte,
        _ => (byte | 0x80).min(0xfe),
    }
}

/// A frame before its accuracy is set right: the kinds take turns.
pub fn frame(index: u64, random: &mut Random) -> Vec<u8> {
    let turn = (index / 11) as usize;
    match index % 11 {
        0 | 1 => announce(random),
        2 => limits(random),
        3 => one_flag(turn, random),
        4 => truncated(random),
        5 => {
            let mut frame = announce(random);
            set_type(&mut frame, (turn % 16) as u8);
            frame
        }
        6 => wrong_length(turn, random),
        7 => flipped(announce(random), random),
        8 => {
            let length = random.below(121);
            random.bytes(length)
        }
        9 => plain(turn),
        _ => {
            let mut frame = announce(random);
            frame[1] = (turn % 256) as u8;
            frame
        }
    }
}

/// A good announce: all fields and reserved bits random, 0 to 40 bytes behind it.
pub fn announce(random: &mut Random) -> Vec<u8> {
    let length = 64 + random.below(41);
    let mut frame = random.bytes(length);
    set_type(&mut frame, 0xb);
    frame[1] = random.of(&[0x02, 0x12]);
    set_length(&mut frame, length as u16);
    if random.below(2) == 0 {
        frame[ACCURACY] = random.of(&[0x00, 0x17, 0x20, 0x21, 0x31, 0x80, 0xfd, 0xfe]);
    }
    if random.below(2) == 0 {
        frame[63] = random.of(&[0x10, 0x20, 0x39, 0x40, 0x90, 0xa0, 0xef, 0xf0, 0xfe, 0xff]);
    }
    frame
}

/// An announce whose numbers are 0, 1, the largest, the sign bit alone, or all but it.
fn limits(random: &mut Random) -> Vec<u8> {
    let mut frame = announce(random);
    frame[0] = random.of(&[0x0b, 0x1b, 0x7b, 0x8b, 0xfb]);
    frame[1] = random.of(&[0x00, 0x01, 0x0f, 0x10, 0xf0, 0xff]);
    frame[6] = random.of(&[0x00, 0xff, 0x67, 0x98]);
    frame[7] = random.of(&[0x00, 0xff, 0x7f, 0x80]);
    frame[63] = random.of(&[0x00, 0x01, 0x7f, 0x80, 0xff]);
    for (start, width) in NUMBERS {
        let largest = u64::MAX >> (64 - 8 * width);
        let number = random.of(&[0, 1, largest, largest / 2 + 1, largest / 2]);
        frame[start..start + width].copy_from_slice(&number.to_be_bytes()[8 - width..]);
    }
    frame
}

/// An announce of zeros but for one flag bit, reserved ones too, and its sequence.
fn one_flag(turn: usize, random: &mut Random) -> Vec<u8> {
    let mut frame = vec![0; 64];
    frame[0] = 0x0b;
    frame[1] = 0x02;
    set_length(&mut frame, 64);
    frame[6 + turn / 8 % 2] = 1 << (turn % 8);
    frame[30] = random.byte();
    frame[31] = random.byte();
    frame
}

/// An announce cut to at most 70 bytes.
fn truncated(random: &mut Random) -> Vec<u8> {
    let mut frame = announce(random);
    frame.resize(frame.len().max(70), 0);
    let length = match random.below(2) {
        0 => random.of(&EDGES),
        _ => random.below(71),
    };
    frame.truncate(length);
    frame
}

/// An announce with another length field than its length.
fn wrong_length(turn: usize, random: &mut Random) -> Vec<u8> {
    let mut frame = announce(random);
    let anything = random.next() as u16;
    let lengths = [0, 1, 33, 34, 35, 63, 64, 65, 65535, anything];
    set_length(&mut frame, lengths[turn % lengths.len()]);
    frame
}

/// A frame with one to three bits flipped.
pub fn flipped(mut frame: Vec<u8>, random: &mut Random) -> Vec<u8> {
    for _ in 0..=random.below(3) {
        let bit = random.below(8 * frame.len());
        frame[bit / 8] ^= 1 << (bit % 8);
    }
    frame
}

/// One byte throughout, with and without the type of an announce.
fn plain(turn: usize) -> Vec<u8> {
    let byte = if turn % 2 == 0 { 0x00 } else { 0xff };
    let mut frame = vec![byte; PLAIN[turn / 4 % PLAIN.len()]];
    if turn / 2 % 2 == 0 {
        set_type(&mut frame, 0xb);
    }
    frame
}

pub fn set_type(frame: &mut [u8], message_type: u8) {
    if let Some(first) = frame.first_mut() {
        *first = *first & 0xf0 | message_type;
    }
}

pub fn set_length(frame: &mut [u8], length: u16) {
    frame[2..4].copy_from_slice(&length.to_be_bytes());
}
