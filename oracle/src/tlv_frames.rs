// The subcommand tlv-frames: announces with TLVs and damaged ones, the same for the same seed.

use crate::frames::{announce, flipped, set_length, set_type, EDGES};
use crate::random::Random;

/// The size of an announce without TLVs.
const ANNOUNCE_SIZE: usize = 64;

/// The type of a path trace.
const PATH_TRACE: u16 = 0x0008;

/// The types that have names.
const NAMED: [u16; 21] = [
    0x0001, 0x0002, 0x0003, 0x0004, 0x0005, 0x0006, 0x0007, 0x0008, 0x0009, 0x4000, 0x4001, 0x8000,
    0x8001, 0x8002, 0x8003, 0x8004, 0x8005, 0x8006, 0x8007, 0x8008, 0x8009,
];

/// The ends of the ranges of types that have none.
const RANGE_ENDS: [u16; 17] = [
    0x0000, 0x000a, 0x1fff, 0x2000, 0x2003, 0x2004, 0x202f, 0x2030, 0x3fff, 0x4002, 0x7eff, 0x7f00,
    0x7fff, 0x800a, 0xffef, 0xfff0, 0xffff,
];

/// The lengths of most values, and half the length of the longest.
const LENGTHS: [usize; 5] = [0, 2, 4, 8, 16];
const HALF_LONGEST: usize = 920;

/// A frame before its accuracy is set right: the kinds take turns.
pub fn frame(index: u64, random: &mut Random) -> Vec<u8> {
    let turn = (index / 15) as usize;
    let mut frame = match index % 15 {
        0 | 1 => good(random),
        2 => message(&path_trace(random), random),
        3 => message(&empty_last(random), random),
        4 => message(&odd(random), random),
        5 => message(&past_end(turn, random), random),
        6 => message(&left_over(turn, random), random),
        7 => message(&two_faults(turn, random), random),
        8 => wrong_length(turn, random),
        9 => padded(turn, random),
        10 => other_type(good(random), turn),
        11 => other_type(wrong_length(turn / 16, random), turn),
        12 => truncated(random),
        13 => flipped(good(random), random),
        _ => anything(random),
    };
    if frame.len() > 1 && random.below(8) == 0 {
        frame[1] = random.byte();
    }
    frame
}

/// A good announce with 0 to 6 entries.
pub fn good(random: &mut Random) -> Vec<u8> {
    let list = entries(6, random);
    message(&list, random)
}

/// An announce with a list of TLVs.
pub fn message(list: &[u8], random: &mut Random) -> Vec<u8> {
    let mut frame = announce(random);
    frame.truncate(ANNOUNCE_SIZE);
    frame.extend(list);
    let length = frame.len() as u16;
    set_length(&mut frame, length);
    frame
}

/// A good list of so many entries at most; now and then one is long.
fn entries(most: usize, random: &mut Random) -> Vec<u8> {
    let long = random.below(100);
    list(most, long, random)
}

/// A good list of so many entries at most, none of them long.
fn short_entries(most: usize, random: &mut Random) -> Vec<u8> {
    list(most, most, random)
}

/// A good list of so many entries at most, of which the one at a place is long: values are even,
/// and the last is not empty.
fn list(most: usize, long: usize, random: &mut Random) -> Vec<u8> {
    let mut list = Vec::new();
    let count = random.below(most + 1);
    for place in 0..count {
        let length = if place == long {
            2 * (1 + random.below(HALF_LONGEST))
        } else {
            random.of(&LENGTHS)
        };
        let least = if place + 1 == count { 2 } else { 0 };
        let value = random.bytes(length.max(least));
        add_entry(&mut list, some_type(random), value.len(), &value);
    }
    list
}

/// A named type, the end of a range, or any.
fn some_type(random: &mut Random) -> u16 {
    match random.below(3) {
        0 => random.of(&NAMED),
        1 => random.of(&RANGE_ENDS),
        _ => random.next() as u16,
    }
}

/// Adds an entry, whatever its length field says.
pub fn add_entry(list: &mut Vec<u8>, tlv_type: u16, length: usize, value: &[u8]) {
    list.extend(tlv_type.to_be_bytes());
    list.extend((length as u16).to_be_bytes());
    list.extend(value);
}

/// A path trace of 0 to 8 identities among other entries, or as the last.
fn path_trace(random: &mut Random) -> Vec<u8> {
    let mut list = entries(2, random);
    let identities = random.below(9);
    let value = random.bytes(8 * identities);
    add_entry(&mut list, PATH_TRACE, value.len(), &value);
    list.extend(short_entries(2, random));
    list
}

/// An empty last entry.
fn empty_last(random: &mut Random) -> Vec<u8> {
    let mut list = entries(3, random);
    add_entry(&mut list, some_type(random), 0, &[]);
    list
}

/// An entry of odd length: as many bytes as it says, one more, one fewer, or a single one.
fn odd(random: &mut Random) -> Vec<u8> {
    let mut list = entries(2, random);
    let length = 1 + 2 * random.below(10);
    let given = random.of(&[length, length + 1, length - 1, 1]);
    let value = random.bytes(given);
    add_entry(&mut list, some_type(random), length, &value);
    list.extend(short_entries(2, random));
    list
}

/// A length past the end by 1 to 4 or by many.
fn past_end(turn: usize, random: &mut Random) -> Vec<u8> {
    let mut list = entries(2, random);
    let many = 2 * (3 + random.below(32700));
    let over = [1, 2, 3, 4, many, many - 1][turn % 6];
    let length = random.of(&LENGTHS);
    let value = random.bytes(length);
    add_entry(&mut list, some_type(random), length + over, &value);
    list
}

/// 1 to 4 bytes left over after good entries.
fn left_over(turn: usize, random: &mut Random) -> Vec<u8> {
    let mut list = entries(3, random);
    list.extend(random.bytes(1 + turn % 4));
    list
}

/// An odd length before a length past the end or bytes left over, or behind a length past the end.
fn two_faults(turn: usize, random: &mut Random) -> Vec<u8> {
    let mut list = short_entries(1, random);
    let odd = 1 + 2 * random.below(5);
    let value = random.bytes(odd);
    match turn % 3 {
        0 => {
            add_entry(&mut list, some_type(random), odd, &value);
            list.extend(past_end(turn / 3, random));
        }
        1 => {
            add_entry(&mut list, some_type(random), odd, &value);
            list.extend(left_over(turn / 3, random));
        }
        _ => {
            let past = 2 * (8 + random.below(1000));
            add_entry(&mut list, some_type(random), past, &[]);
            add_entry(&mut list, some_type(random), odd, &value);
        }
    }
    list
}

/// A frame with each type in turn.
fn other_type(mut frame: Vec<u8>, turn: usize) -> Vec<u8> {
    set_type(&mut frame, (turn % 16) as u8);
    frame
}

/// A good announce with another length field than its length.
fn wrong_length(turn: usize, random: &mut Random) -> Vec<u8> {
    let mut frame = good(random);
    let given = frame.len() as u16;
    let within = random.below(frame.len()) as u16;
    let any = random.next() as u16;
    let mut lengths = vec![0, given - 2, given - 1, given + 1, 65535, within, any];
    lengths.extend(EDGES.map(|length| length as u16));
    set_length(&mut frame, lengths[turn % lengths.len()]);
    frame
}

/// Padding behind a good announce: any bytes, or what would be a damaged list.
pub fn padded(turn: usize, random: &mut Random) -> Vec<u8> {
    let mut frame = good(random);
    let count = 1 + random.below(16);
    match turn % 3 {
        0 => frame.extend(random.bytes(count)),
        1 => add_entry(&mut frame, PATH_TRACE, 2 * count, &[]),
        _ => add_entry(&mut frame, PATH_TRACE, 3, &[0; 3]),
    }
    frame
}

/// A good announce cut short, half of them at or beside the ends of a header and of an announce;
/// half say the length that is left, and a third have any type.
fn truncated(random: &mut Random) -> Vec<u8> {
    let mut frame = good(random);
    frame.truncate(match random.below(2) {
        0 => random.of(&EDGES),
        _ => random.below(frame.len()),
    });
    if frame.len() >= 4 && random.below(2) == 0 {
        let length = frame.len() as u16;
        set_length(&mut frame, length);
    }
    if random.below(3) == 0 {
        set_type(&mut frame, random.below(16) as u8);
    }
    frame
}

/// Any bytes; half of them say that they are an announce of their length.
fn anything(random: &mut Random) -> Vec<u8> {
    let count = random.below(200);
    let mut frame = random.bytes(count);
    if frame.len() >= 4 && random.below(2) == 0 {
        set_type(&mut frame, 0xb);
        set_length(&mut frame, count as u16);
    }
    frame
}
