// Candidates as they stand in a line, drawn from small worlds, so that ties and close calls are many.

use crate::frames::unfolded;
use crate::random::Random;

/// A field of a record: its first bit and its width in bits, the first bit of a byte being its
/// highest.
pub type Field = (usize, usize);

/// A candidate: a set, which is what the comparison reads, and the age.
pub type Candidate = [u8; 42];
pub const SET_SIZE: usize = 34;

/// The fields of a set and the age.
pub const PRIORITY_1: Field = (0, 8);
pub const CLASS: Field = (8, 8);
pub const ACCURACY: Field = (16, 8);
pub const VARIANCE: Field = (24, 16);
pub const PRIORITY_2: Field = (40, 8);
pub const GRANDMASTER: Field = (48, 64);
pub const STEPS: Field = (112, 16);
pub const SENDER: Field = (128, 64);
pub const RECEIVER: Field = (192, 64);
pub const PORT: Field = (256, 16);
pub const AGE: Field = (274, 62);
pub const SET: [Field; 10] = [
    PRIORITY_1,
    CLASS,
    ACCURACY,
    VARIANCE,
    PRIORITY_2,
    GRANDMASTER,
    STEPS,
    SENDER,
    RECEIVER,
    PORT,
];

/// The accuracy of an announce frame.
pub const FRAME_ACCURACY: Field = (392, 8);

/// What a grandmaster says of itself, as it stands at the start of a set and at the end of our own
/// data.
pub type Profile = [u8; 6];
pub const PROFILE: [Field; 5] = [PRIORITY_1, CLASS, ACCURACY, VARIANCE, PRIORITY_2];

const PRIORITIES: [u64; 7] = [0, 1, 127, 128, 200, 254, 255];
const OWN_CLASSES: [u64; 7] = [0, 1, 6, 127, 128, 248, 255];
const CLASSES: [u64; 9] = [6, 7, 52, 127, 128, 135, 187, 248, 255];
const ACCURACIES: [u64; 7] = [0x00, 0x17, 0x20, 0x21, 0x31, 0x80, 0xfe];
const VARIANCES: [u64; 5] = [0, 0x4e5d, 0x7fff, 0x8000, 0xffff];
const STEPS_FROM: [u64; 10] = [0, 0, 0, 1, 2, 100, 252, 254, 65531, 65532];

pub fn get(record: &[u8], (start, width): Field) -> u64 {
    (start..start + width).fold(0, |value, bit| {
        value << 1 | u64::from(record[bit / 8] >> (7 - bit % 8) & 1)
    })
}

pub fn put(record: &mut [u8], (start, width): Field, value: u64) {
    for bit in 0..width {
        let (byte, mask) = ((start + bit) / 8, 1 << (7 - (start + bit) % 8));
        match value >> (width - 1 - bit) & 1 {
            0 => record[byte] &= !mask,
            _ => record[byte] |= mask,
        }
    }
}

/// Another value of so many bits: the next, the one before, or one bit apart.
pub fn near(value: u64, width: usize, random: &mut Random) -> u64 {
    let other = match random.below(4) {
        0 => value.wrapping_add(1),
        1 => value.wrapping_sub(1),
        _ => value ^ 1 << random.below(width),
    };
    other & u64::MAX >> (64 - width)
}

/// Gives a field another value; an accuracy stays one that the crate keeps.
pub fn change(record: &mut [u8], field: Field, random: &mut Random) {
    let before = get(record, field);
    let mut other = before;
    while other == before {
        other = near(before, field.1, random);
        if [ACCURACY, FRAME_ACCURACY].contains(&field) {
            other = u64::from(unfolded(other as u8));
        }
    }
    put(record, field, other);
}

fn profile(random: &mut Random) -> Profile {
    let mut profile = [0; 6];
    put(&mut profile, PRIORITY_1, random.of(&PRIORITIES));
    put(&mut profile, CLASS, random.of(&CLASSES));
    put(&mut profile, ACCURACY, random.of(&ACCURACIES));
    put(&mut profile, VARIANCE, random.of(&VARIANCES));
    put(&mut profile, PRIORITY_2, random.of(&PRIORITIES));
    profile
}

/// A small number, one with only a high bit, or any.
pub fn identity(random: &mut Random) -> u64 {
    match random.below(4) {
        0 => random.below(8) as u64,
        1 => 1 << (56 + random.below(8)),
        _ => random.next(),
    }
}

fn age(random: &mut Random) -> u64 {
    match random.below(4) {
        0 => random.of(&[0, 1, (1 << 62) - 1]),
        1 => random.below(1000) as u64,
        _ => random.next() >> 2,
    }
}

/// The few clocks, profiles and ages that the candidates of one line have.
pub struct World {
    /// The first two are grandmasters, the last is ours.
    pub clocks: [u64; 4],
    pub profiles: [Profile; 3],
    /// Whether each grandmaster has one profile.
    agreed: bool,
    steps: u64,
    ages: [u64; 3],
}

impl World {
    pub fn new(random: &mut Random) -> Self {
        let first = identity(random);
        let own = identity(random);
        let mut clocks = [first, near(first, 64, random), near(own, 64, random), own];
        if random.below(8) == 0 {
            clocks[random.below(2)] = own;
        }
        let mut profiles = [profile(random); 3];
        for other in 1..3 {
            change(&mut profiles[other], random.of(&PROFILE), random);
        }
        if random.below(4) == 0 {
            profiles[2] = profile(random);
        }
        let first = age(random);
        World {
            clocks,
            profiles,
            agreed: random.below(2) == 0,
            steps: random.of(&STEPS_FROM),
            ages: [first, near(first, 62, random), age(random)],
        }
    }

    pub fn own(&self) -> u64 {
        self.clocks[3]
    }

    pub fn age(&self, random: &mut Random) -> u64 {
        random.of(&self.ages)
    }

    /// A candidate that our clock received at a port.
    pub fn candidate(&self, port: u64, random: &mut Random) -> Candidate {
        let grandmaster = random.of(&[0, 0, 1]);
        let profile = if self.agreed {
            self.profiles[grandmaster]
        } else {
            random.of(&self.profiles)
        };
        let sender = random.of(&[0, 0, 1, 1, 2, 2, 3]);
        let steps = match random.below(16) {
            0 => random.next() & 0xffff,
            _ => self.steps + random.of(&[0, 0, 0, 1, 1, 2, 3]),
        };
        let mut candidate = [0; 42];
        candidate[..6].copy_from_slice(&profile);
        put(&mut candidate, GRANDMASTER, self.clocks[grandmaster]);
        put(&mut candidate, STEPS, steps);
        put(&mut candidate, SENDER, self.clocks[sender]);
        put(&mut candidate, RECEIVER, self.own());
        put(&mut candidate, PORT, port);
        put(&mut candidate, AGE, self.age(random));
        candidate
    }

    /// A candidate that any of the clocks received, at one of a few ports.
    pub fn anywhere(&self, random: &mut Random) -> Candidate {
        let port = random.of(&[1, 1, 1, 2, 2, 3, 0, 0x0101, 0x8001, 0xffff]);
        let mut candidate = self.candidate(port, random);
        put(&mut candidate, RECEIVER, random.of(&self.clocks));
        candidate
    }

    /// What our own data is as a candidate.
    pub fn ours(&self, own: &[u8; 14]) -> Candidate {
        let mut candidate = [0; 42];
        candidate[..6].copy_from_slice(&own[8..]);
        for field in [GRANDMASTER, SENDER, RECEIVER] {
            put(&mut candidate, field, self.own());
        }
        candidate
    }

    /// Our own data: the identity, and most often a profile that loses.
    pub fn own_data(&self, random: &mut Random) -> [u8; 14] {
        let mut profile = match random.below(8) {
            0 => profile(random),
            _ => random.of(&self.profiles),
        };
        match random.below(8) {
            0 => {}
            1 => put(&mut profile, PRIORITY_1, 0),
            2 => change(&mut profile, random.of(&PROFILE), random),
            _ => put(&mut profile, PRIORITY_1, 255),
        }
        if random.below(8) > 0 {
            put(&mut profile, CLASS, random.of(&OWN_CLASSES));
        }
        let mut own = [0; 14];
        own[..8].copy_from_slice(&self.own().to_be_bytes());
        own[8..].copy_from_slice(&profile);
        own
    }
}
