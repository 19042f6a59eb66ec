// Lines about one port's recommended state: Ebest and Erbest as whole messages, often almost the same.

use crate::candidates::*;
use crate::frames::{announce, set_length};
use crate::random::Random;

/// A frame of 64 bytes, its age and its receiver.
type Record = [u8; 82];
const FRAME: usize = 64;

/// Where a record has the fields of a candidate: those of the set, then the age.
const CANDIDATE: [Field; 11] = [
    (376, 8),
    (384, 8),
    FRAME_ACCURACY,
    (400, 16),
    (416, 8),
    (424, 64),
    (488, 16),
    (160, 64),
    (576, 64),
    (640, 16),
    (514, 62),
];

/// Its other fields: sdo, versions, domain, twelve flags, correction, the sender's port, sequence,
/// log interval, seconds, nanoseconds, UTC offset, time source.
const OTHERS: [Field; 25] = [
    (0, 4),
    (40, 8),
    (8, 4),
    (12, 4),
    (32, 8),
    (55, 1),
    (54, 1),
    (53, 1),
    (50, 1),
    (49, 1),
    (63, 1),
    (62, 1),
    (61, 1),
    (60, 1),
    (59, 1),
    (58, 1),
    (57, 1),
    (64, 64),
    (224, 16),
    (240, 16),
    (264, 8),
    (272, 48),
    (320, 32),
    (352, 16),
    (504, 8),
];

/// What a reader ignores: four flags, bytes 16 to 19, control, byte 46.
const IGNORED: [Field; 7] = [
    (48, 1),
    (51, 1),
    (52, 1),
    (56, 1),
    (128, 32),
    (256, 8),
    (368, 8),
];

/// A recommended state. Ebest and Erbest differ in each field in turn; in nothing, or in what is
/// ignored; in anything; or one or both are absent.
pub fn state(turn: usize, world: &World, random: &mut Random) -> Vec<u8> {
    let own = own_data(world, random);
    let mut pair = [some_record(&own, world, random); 2];
    let mut present = [true; 2];
    let side = random.below(2);
    match turn % 8 {
        place @ 0..=4 => {
            let fields = [&CANDIDATE[..], &OTHERS].concat();
            let field = fields[(turn / 8 * 5 + place) % fields.len()];
            change(&mut pair[side], field, random);
        }
        5 if turn / 8 % 2 == 0 => {}
        5 => change(&mut pair[side], random.of(&IGNORED), random),
        6 => pair[1] = some_record(&own, world, random),
        _ => present = [[true, false], [false, true], [false, false]][turn / 8 % 3],
    }
    let mut line = [&[4], &own[..], &[random.below(2) as u8]].concat();
    for (record, present) in pair.iter().zip(present) {
        line.push(present.into());
        if present {
            line.extend(record);
        }
    }
    line
}

/// Our own data, most often so that it loses and both messages are asked.
fn own_data(world: &World, random: &mut Random) -> [u8; 14] {
    let mut own = world.own_data(random);
    if random.below(4) > 0 {
        put(&mut own[8..], PRIORITY_1, 255);
        put(&mut own[8..], CLASS, random.of(&[0, 128, 248, 255]));
    }
    own
}

/// A record: any of the world, or what our own data would be.
fn some_record(own: &[u8; 14], world: &World, random: &mut Random) -> Record {
    let port = random.of(&[1, 1, 2, 8, 0, 0x0100]);
    let candidate = match random.below(12) {
        0 => world.ours(own),
        _ => world.candidate(port, random),
    };
    let mut record = [0; 82];
    record[..FRAME].copy_from_slice(&announce(random)[..FRAME]);
    set_length(&mut record, FRAME as u16);
    for (from, to) in SET.iter().chain(&[AGE]).zip(CANDIDATE) {
        put(&mut record, to, get(&candidate, *from));
    }
    record
}
