// The odd lines of log-lines: each leaves the book as it is.

use crate::book_worlds::{any_frame, frame_line, World};
use crate::books::MAX_PORTS;
use crate::candidates::identity;
use crate::frames::{set_length, set_type};
use crate::lines::MAX_FRAME;
use crate::log::{DECISION, FRAME, INTERVAL_SIZE, MAX_DIGITS, SETUP, SETUP_SIZE, STEP};
use crate::log_lines::{all_listen, profile, setup, spelled, ANNOUNCE_SIZE};
use crate::random::Random;
use crate::tlv_frames::{add_entry, message};

/// The most ports that a line has room for, and numbers that no interval and no step has.
const PORTS_OF_LINE: usize = (MAX_FRAME - SETUP_SIZE) / INTERVAL_SIZE;
const INTERVAL_LIMIT: u64 = 1 << 60;
const STEP_LIMIT: u64 = 1 << 62;

/// Bytes that are no digits: ends of lines and spaces, those beside the digits, and others.
const NO_DIGITS: [u8; 18] = [
    b'\r', b'\r', b' ', b'\t', b'/', b':', b'@', b'G', b'`', b'g', b'x', b'-', 0x00, 0x0b, 0x7f,
    0xb0, 0xc1, 0xff,
];

/// What is wrong with an odd line.
#[derive(Clone, Copy, PartialEq, Eq)]
pub enum Odd {
    /// Setups out of range.
    NoPorts,
    ManyPorts,
    MostPorts,
    NoInterval,
    LongInterval,
    /// Setups of another length than they say.
    SetupAlone,
    CountAlone,
    SetupLength,
    /// Frames: none at all, an empty one, damaged, ports that are not there, refused for two reasons.
    FrameAlone,
    EmptyFrame,
    DamagedFrame,
    PortZero,
    PortAbove,
    TwoReasons,
    /// Steps.
    LongStep,
    StepLength,
    /// Decisions.
    BitAbove,
    DecisionLength,
    /// Lines of no kind.
    UnknownKind,
    OddDigits,
    NoDigit,
    Empty,
    TooLong,
}

/// The setups out of range, and all odd lines, as they take turns.
pub const REFUSED: [Odd; 4] = [
    Odd::NoPorts,
    Odd::ManyPorts,
    Odd::NoInterval,
    Odd::LongInterval,
];
pub const TURNS: [Odd; 41] = [
    Odd::NoPorts,
    Odd::DamagedFrame,
    Odd::NoDigit,
    Odd::ManyPorts,
    Odd::TwoReasons,
    Odd::MostPorts,
    Odd::NoInterval,
    Odd::LongStep,
    Odd::LongInterval,
    Odd::OddDigits,
    Odd::DamagedFrame,
    Odd::SetupAlone,
    Odd::CountAlone,
    Odd::SetupLength,
    Odd::NoDigit,
    Odd::BitAbove,
    Odd::SetupLength,
    Odd::FrameAlone,
    Odd::EmptyFrame,
    Odd::PortZero,
    Odd::NoDigit,
    Odd::PortAbove,
    Odd::TwoReasons,
    Odd::PortAbove,
    Odd::StepLength,
    Odd::DamagedFrame,
    Odd::LongStep,
    Odd::UnknownKind,
    Odd::StepLength,
    Odd::BitAbove,
    Odd::TwoReasons,
    Odd::DecisionLength,
    Odd::NoDigit,
    Odd::UnknownKind,
    Odd::OddDigits,
    Odd::NoDigit,
    Odd::Empty,
    Odd::TooLong,
    Odd::DecisionLength,
    Odd::BitAbove,
    Odd::NoDigit,
];

/// An odd line after a good one, which some are made of; some kinds take turns within themselves.
pub fn odd(kind: Odd, turn: usize, line: &[u8], world: &World, random: &mut Random) -> Vec<u8> {
    let bytes = match kind {
        Odd::NoPorts => other_setup(&[], world, random),
        Odd::ManyPorts => many_ports(turn, world, random),
        Odd::MostPorts => other_setup(&[1; PORTS_OF_LINE], world, random),
        Odd::NoInterval => setup_with(0, world, random),
        Odd::LongInterval => {
            let beyond = [0, 1, INTERVAL_LIMIT, 3 << 62, u64::MAX - INTERVAL_LIMIT];
            setup_with(INTERVAL_LIMIT + beyond[turn % beyond.len()], world, random)
        }
        Odd::SetupAlone => vec![SETUP],
        Odd::CountAlone => vec![SETUP, random.of(&[0, 1, 2, 8, 9, 255])],
        Odd::SetupLength => wrong_setup(turn, world, random),
        Odd::FrameAlone => vec![FRAME],
        Odd::EmptyFrame => vec![FRAME, world.port(random) as u8 + 1],
        Odd::DamagedFrame => damaged_frame(world.port(random) as u8 + 1, random),
        Odd::PortZero => some_frame(0, line, random),
        Odd::PortAbove => {
            let count = world.intervals.len() as u8;
            let number = random.of(&[count + 1, count + 1, 9, 16 + count, 128 + count, 255]);
            some_frame(number, line, random)
        }
        Odd::TwoReasons => two_reasons(turn, world, random),
        Odd::LongStep => {
            let any = random.next() >> 1;
            let beyond = [0, 1, STEP_LIMIT - 1, STEP_LIMIT, 3 * STEP_LIMIT - 1, any];
            let step = STEP_LIMIT + beyond[turn % beyond.len()];
            [&[STEP], &step.to_be_bytes()[..]].concat()
        }
        Odd::StepLength => {
            let length = random.of(&[0, 1, 7, 7, 9, 9, 16]);
            [&[STEP], random.bytes(length).as_slice()].concat()
        }
        Odd::BitAbove if world.intervals.len() < MAX_PORTS => bit_above(turn, world, random),
        Odd::BitAbove | Odd::DecisionLength => {
            let length = random.of(&[0, 2, 2, 3, 8]);
            [&[DECISION], vec![0; length].as_slice()].concat()
        }
        Odd::UnknownKind => {
            let any = 4 + random.below(252) as u8;
            let kind = random.of(&[4, 5, 0x0f, 0x10, 0x13, 0x80, 0x83, 0xff, any, any]);
            let rest = random.of(&[&[], &line[1..]]);
            [&[kind], rest].concat()
        }
        Odd::OddDigits => return odd_digits(turn, spelled(line, random)),
        Odd::NoDigit => return no_digit(turn, spelled(line, random), random),
        Odd::Empty => Vec::new(),
        Odd::TooLong => return too_long(turn, line, random),
    };
    spelled(&bytes, random)
}

/// A setup that counts more ports than a book has, all with good intervals.
fn many_ports(turn: usize, world: &World, random: &mut Random) -> Vec<u8> {
    let any = MAX_PORTS + 1 + random.below(56);
    let counts = [MAX_PORTS + 1, any, 16, 17, 128, PORTS_OF_LINE - 1];
    let interval = random.of(&world.intervals);
    other_setup(&vec![interval; counts[turn % counts.len()]], world, random)
}

/// A decision with one bit or more above the count: the lowest, the highest, all, or any.
fn bit_above(turn: usize, world: &World, random: &mut Random) -> Vec<u8> {
    let below = all_listen(world);
    let any = (random.byte() & !below).max(below + 1);
    let above = [below + 1, 0x80, !below, any][turn % 4];
    vec![DECISION, above | random.byte() & below]
}

/// A setup with these intervals, of our clock or another, with other data than before.
fn other_setup(intervals: &[u64], world: &World, random: &mut Random) -> Vec<u8> {
    let other = identity(random);
    let own = random.of(&[world.own, other]);
    setup(own, profile(world, random), intervals)
}

/// A setup with as many ports as the book has, or another count, and with an interval among good ones.
fn setup_with(interval: u64, world: &World, random: &mut Random) -> Vec<u8> {
    let mut intervals = world.intervals.clone();
    if random.below(2) == 0 {
        intervals.resize(1 + random.below(MAX_PORTS), world.intervals[0]);
    }
    let place = random.below(intervals.len());
    intervals[place] = interval;
    other_setup(&intervals, world, random)
}

/// A setup of another length than its count says: cut, longer, or with another count.
fn wrong_setup(turn: usize, world: &World, random: &mut Random) -> Vec<u8> {
    let mut line = other_setup(&world.intervals, world, random);
    let (length, count) = (line.len(), line[1]);
    match turn % 8 {
        0 => line.truncate(length - 1),
        1 => line.push(0),
        2 => line.truncate(length - INTERVAL_SIZE),
        3 => line.extend_from_within(length - INTERVAL_SIZE..),
        4 => line[1] = count + 1,
        5 => line[1] = count - 1,
        6 => line[1] = random.of(&[0, 9, 16, 128, 255]),
        _ => line.truncate(2 + random.below(length - 2)),
    }
    if line.len() == SETUP_SIZE + INTERVAL_SIZE * usize::from(line[1]) {
        line.push(0);
    }
    line
}

/// A frame at a port that is refused: too short, and perhaps for another reason as well, of an unknown
/// type, with a length field below that of a header, with a TLV of odd length, or of another type.
fn damaged_frame(number: u8, random: &mut Random) -> Vec<u8> {
    let mut frame = message(&[], random);
    match random.below(6) {
        0 => {
            let short = random.of(&[0, 1, 32, 33, 33, 34, 35, ANNOUNCE_SIZE - 1]);
            set_type(&mut frame, random.of(&[0x0, 0x4, 0xb, 0xb, 0xf]));
            set_length(&mut frame, random.of(&[33, 34, short as u16, 64]));
            frame.truncate(short);
        }
        1 => set_type(&mut frame, random.of(&[4, 5, 6, 7, 14, 15])),
        2 => set_length(&mut frame, random.of(&[0, 1, 32, 33])),
        3 => {
            let length = random.of(&[1, 3, 9]);
            add_entry(&mut frame, random.next() as u16, length, &[0; 10]);
            let length = frame.len() as u16;
            set_length(&mut frame, length);
        }
        _ => set_type(&mut frame, random.of(&[0, 1, 2, 3, 8, 9, 10, 12, 13])),
    }
    [&[FRAME, number], frame.as_slice()].concat()
}

/// At a port that is not there: the frame of a line if it has one, or any, or none.
fn some_frame(number: u8, line: &[u8], random: &mut Random) -> Vec<u8> {
    let frame = match (line, random.below(4)) {
        (_, 0) => Vec::new(),
        ([FRAME, _, frame @ ..], 1 | 2) => frame.to_vec(),
        _ => any_frame(random),
    };
    [&[FRAME, number], frame.as_slice()].concat()
}

/// A frame with too many steps that has another fault as well, or most often has: our own port, our
/// own clock, an old sequence, one more master.
fn two_reasons(turn: usize, world: &World, random: &mut Random) -> Vec<u8> {
    let port = world.port(random);
    let number = port as u16 + 1;
    let sender = match turn % 5 {
        0 => (world.own, number),
        1 => (world.own, number ^ 1),
        2 => (identity(random), number),
        _ => random.of(&world.senders),
    };
    let content = world.content(random.of(&[255, 256, 65535]), random);
    let sequence = random.next() as u16;
    frame_line(message(&[], random), port, sender, sequence, content)
}

/// Digits of which one is missing, too many, or alone.
fn odd_digits(turn: usize, mut text: Vec<u8>) -> Vec<u8> {
    match turn % 4 {
        0 | 1 => text.truncate(text.len() - 1),
        2 => text.push(b'0'),
        _ => text.truncate(1),
    }
    text
}

/// Digits among which there is a byte that is none: in place of one, twice between others, at the
/// end, or at the start.
fn no_digit(turn: usize, mut text: Vec<u8>, random: &mut Random) -> Vec<u8> {
    let byte = NO_DIGITS[turn % NO_DIGITS.len()];
    let place = random.below(text.len());
    match random.below(6) {
        0..=2 => text[place] = byte,
        3 => drop(text.splice(place..place, [byte; 2])),
        4 => text.push(byte),
        _ => text.insert(0, byte),
    }
    text
}

/// A frame in more digits than a line may have, or in as many with one more byte at the end; it would
/// be good if it were cut.
fn too_long(turn: usize, line: &[u8], random: &mut Random) -> Vec<u8> {
    let mut line = match line {
        [FRAME, _, _, ..] => line.to_vec(),
        _ => [&[FRAME, 1], message(&[], random).as_slice()].concat(),
    };
    let far = 9000 + random.below(2000);
    let count = [MAX_DIGITS + 1, MAX_DIGITS + 2, MAX_DIGITS, far][turn % 4];
    line.extend(random.bytes(far / 2 + 1));
    let mut text = spelled(&line, random);
    text.truncate(count);
    if count == MAX_DIGITS {
        text.push(b'\r');
    }
    text
}
