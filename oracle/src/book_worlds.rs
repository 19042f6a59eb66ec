// The small worlds of the histories of book-lines: our clock, the ports, the senders, their frames and what these tell.

use crate::books::{MAX_LISTED, MAX_PORTS};
use crate::candidates::{
    self, change, get, identity, near, put, Candidate, Profile, ACCURACY, GRANDMASTER, PROFILE,
    STEPS,
};
use crate::decision_lines::circle;
use crate::frames::{kept, unfolded};
use crate::random::Random;
use crate::tlv_frames::{frame, good, message, padded};

/// The most masters of a port.
pub const MAX_MASTERS: usize = 8;

/// Who sends a frame: a clock and the number of its port.
pub type Sender = (u64, u16);

/// What a frame tells of a grandmaster: its profile, its identity and the steps removed, as they
/// stand at the start of a candidate.
pub type Content = [u8; 16];

/// The numbers of the ports of senders.
const NUMBERS: [u16; 8] = [1, 1, 1, 2, 0, 0x0100, 0x0101, 0xffff];

/// A second and the longest interval, in units of 2^-16 ns.
const SECOND: u64 = 1_000_000_000 << 16;
const LONGEST: u64 = (1 << 60) - 1;

/// The size of an announce without TLVs, and where its content stands.
const ANNOUNCE_SIZE: usize = 64;
const CONTENT_START: usize = 47;

/// How often a history is crowded, and the first that is.
const CROWDED_EACH: usize = 120;
const CROWDED_FIRST: usize = 20;

/// What a history comes to: a few masters, more than a port has room for, a port that is full, masters
/// that send at each interval, or eight ports that are full.
#[derive(Clone, Copy, PartialEq, Eq)]
pub enum Aim {
    Few,
    Many,
    Full,
    Steady,
    Crowded,
}

/// What the masters tell that send at each interval: each something; all the same, being ports of one
/// clock; what beats each other in a circle; or of one grandmaster, at each port so many steps away.
#[derive(Clone, Copy, PartialEq, Eq)]
pub enum Tale {
    Any,
    Alike,
    Circle,
    Steps,
}

pub struct World {
    pub aim: Aim,
    pub tale: Tale,
    pub own: u64,
    /// Whether only the clocks of the list are acceptable.
    is_listed: bool,
    list: Vec<u64>,
    pub intervals: Vec<u64>,
    /// The port at which most is heard, counted from 0.
    busy: usize,
    pub senders: Vec<Sender>,
    /// The grandmasters, and what they say of themselves.
    grandmasters: candidates::World,
    /// The fewest steps of most frames.
    steps: u16,
}

impl World {
    /// A world: the aims take turns.
    pub fn new(turn: usize, random: &mut Random) -> Self {
        let (aim, count) = match turn % 12 {
            _ if turn % CROWDED_EACH == CROWDED_FIRST => (Aim::Crowded, MAX_MASTERS),
            0 | 5 | 10 => (Aim::Few, 2 + random.below(6)),
            2 | 7 => (Aim::Many, 10 + random.below(4)),
            9 => (Aim::Full, MAX_MASTERS + random.below(3)),
            _ => (Aim::Steady, 2 + random.below(4)),
        };
        let grandmasters = candidates::World::new(random);
        let own = grandmasters.own();
        let mut senders = senders(count, own, random);
        let tale = random.of(&[Tale::Any, Tale::Alike, Tale::Circle, Tale::Steps]);
        if aim == Aim::Steady && tale == Tale::Alike {
            let (clock, _) = senders[0];
            senders = (1..).map(|number| (clock, number)).take(count).collect();
        }
        let intervals = intervals(aim, random);
        World {
            aim,
            tale,
            own,
            is_listed: !aim.is_full() && random.below(2) == 0,
            list: list(&senders, own, random),
            busy: random.below(intervals.len()),
            intervals,
            senders,
            grandmasters,
            steps: random.of(&[0, 0, 0, 1, 2, 100, 251]),
        }
    }

    /// A world of a log: any sender is acceptable, and more often there are four to seven ports.
    pub fn of_log(turn: usize, random: &mut Random) -> Self {
        let mut world = Self::new(turn, random);
        world.is_listed = false;
        let is_small = !world.aim.is_full() && world.intervals.len() < 4;
        if is_small && random.below(5) == 0 {
            let interval = world.intervals[0];
            world.intervals.resize(4 + random.below(4), interval);
        }
        world
    }

    /// The line of the fresh start.
    pub fn start(&self) -> Vec<u8> {
        let mut line = vec![0];
        line.extend(self.own.to_be_bytes());
        line.extend([self.is_listed.into(), self.list.len() as u8]);
        for number in self.list.iter().chain(&self.intervals) {
            line.extend(number.to_be_bytes());
        }
        line
    }

    /// A port, counted from 0: the busy one most often.
    pub fn port(&self, random: &mut Random) -> usize {
        match random.below(2) {
            0 => self.busy,
            _ => random.below(self.intervals.len()),
        }
    }

    /// One who sends to a port: where there are few, the first ones most often; now and then the
    /// port itself, another of our ports, a stranger, or another port of a sender.
    pub fn sender(&self, port: usize, random: &mut Random) -> Sender {
        let number = port as u16 + 1;
        let mut known = random.below(self.senders.len());
        if self.aim == Aim::Few {
            known = random.below(known + 1);
        }
        let known = self.senders[known];
        match random.below(if self.aim.is_full() { 80 } else { 24 }) {
            0 => (self.own, number),
            1 => {
                let other = number ^ 1 << random.below(16);
                (self.own, random.of(&[number - 1, number + 1, other]))
            }
            2 => (identity(random), random.of(&NUMBERS)),
            3 => (known.0, random.of(&NUMBERS)),
            _ => known,
        }
    }

    /// Steps as most frames have them, at most 3 apart.
    pub fn steps(&self, random: &mut Random) -> u16 {
        self.steps + random.of(&[0, 0, 0, 1, 1, 2, 3])
    }

    /// What a frame of so many steps tells: of one of the grandmasters, or now and then anything or of our
    /// own clock.
    pub fn content(&self, steps: u16, random: &mut Random) -> Content {
        let mut content = match random.below(8) {
            0 => [0; 16].map(|_| random.byte()),
            _ => content(self.grandmasters.candidate(0, random)),
        };
        if random.below(16) == 0 {
            put(&mut content, GRANDMASTER, self.own);
        }
        put(&mut content, STEPS, steps.into());
        content
    }

    /// What masters at these ports tell. A circle stands most often at ports that follow each other.
    pub fn contents(&self, ports: &[usize], random: &mut Random) -> Vec<Content> {
        let first = self.content(self.steps(random), random);
        let circle = circle(random.below(6), &self.grandmasters, random);
        let apart = [0; MAX_PORTS].map(|_| random.below(3));
        let contents = ports.iter().map(|port| match self.tale {
            Tale::Any => self.content(self.steps(random), random),
            Tale::Alike => first,
            Tale::Circle => content(circle[(port + random.below(4) / 3) % circle.len()]),
            Tale::Steps => {
                let mut content = first;
                put(&mut content, STEPS, u64::from(self.steps) + apart[*port] as u64);
                content
            }
        });
        contents.collect()
    }

    /// What our own clock says of itself where it is close to what a grandmaster says: most often one
    /// field apart.
    pub fn close_profile(&self, random: &mut Random) -> Profile {
        let content = self.content(0, random);
        let mut profile = *content.first_chunk().expect("it stands at the start");
        let accuracy = get(&profile, ACCURACY) as u8;
        put(&mut profile, ACCURACY, unfolded(accuracy).into());
        if random.below(4) > 0 {
            change(&mut profile, random.of(&PROFILE), random);
        }
        profile
    }

    /// What our own clock says of itself.
    pub fn own_profile(&self, random: &mut Random) -> Profile {
        let own = self.grandmasters.own_data(random);
        *own.last_chunk().expect("it stands at the end")
    }
}

impl Aim {
    /// Whether a port is to be filled.
    fn is_full(self) -> bool {
        matches!(self, Aim::Full | Aim::Crowded)
    }
}

/// What a candidate tells of its grandmaster.
fn content(candidate: Candidate) -> Content {
    *candidate.first_chunk().expect("it stands at the start")
}

/// A frame: a plain announce most often, or one with TLVs or with bytes behind it, or a damaged one.
pub fn any_frame(random: &mut Random) -> Vec<u8> {
    match random.below(24) {
        0 | 1 => frame(random.next(), random),
        2 => padded(random.below(3), random),
        3 | 4 => good(random),
        5 if random.below(4) == 0 => Vec::new(),
        _ => message(&[], random),
    }
}

/// The line of a frame at a port, from this sender and with this sequence and content, if it is as
/// long as an announce.
pub fn frame_line(
    mut frame: Vec<u8>,
    port: usize,
    (clock, number): Sender,
    sequence: u16,
    content: Content,
) -> Vec<u8> {
    if frame.len() >= ANNOUNCE_SIZE {
        frame[20..28].copy_from_slice(&clock.to_be_bytes());
        frame[28..30].copy_from_slice(&number.to_be_bytes());
        frame[30..32].copy_from_slice(&sequence.to_be_bytes());
        frame[CONTENT_START..][..content.len()].copy_from_slice(&content);
    }
    [&[1, port as u8 + 1], kept(frame).as_slice()].concat()
}

/// So many senders, all different: clocks near to ours or to each other, and several ports of one.
fn senders(count: usize, own: u64, random: &mut Random) -> Vec<Sender> {
    let mut senders: Vec<Sender> = Vec::new();
    while senders.len() < count {
        let (before, _) = *senders.last().unwrap_or(&(own, 0));
        let clock = match random.below(4) {
            0 => before,
            1 => near(before, 64, random),
            2 => near(own, 64, random),
            _ => identity(random),
        };
        let sender = (clock, random.of(&NUMBERS));
        if clock != own && !senders.contains(&sender) {
            senders.push(sender);
        }
    }
    senders
}

/// A list of clocks: most senders, ours in half of them; some are empty, filled up or repeat one.
fn list(senders: &[Sender], own: u64, random: &mut Random) -> Vec<u64> {
    let mut list: Vec<u64> = senders.iter().map(|sender| sender.0).collect();
    list.retain(|_| random.below(8) > 0);
    if random.below(2) == 0 {
        list.insert(random.below(list.len() + 1), own);
    }
    match random.below(16) {
        0 => list.clear(),
        1..=3 => list.resize_with(MAX_LISTED, || identity(random)),
        4..=9 => list.extend(list.first().copied()),
        _ => list.dedup(),
    }
    list.truncate(MAX_LISTED);
    list
}

/// The intervals of one to three ports, sometimes of more: each another, or all the same.
fn intervals(aim: Aim, random: &mut Random) -> Vec<u64> {
    let ports = match random.below(16) {
        _ if aim == Aim::Crowded => MAX_PORTS,
        _ if aim == Aim::Full => 1,
        _ if aim == Aim::Many => 1 + random.below(2),
        0..=3 => MAX_PORTS,
        4 => 4 + random.below(4),
        _ => random.of(&[1, 2, 3, 3]),
    };
    let mut intervals: Vec<u64> = (0..ports).map(|_| interval(random)).collect();
    if aim.is_full() {
        intervals.fill_with(|| random.of(&[1000, SECOND, LONGEST]));
    } else if aim == Aim::Steady || random.below(2) == 0 {
        intervals = vec![intervals[0]; ports];
    }
    intervals
}

/// The shortest or the longest interval, a short one, any, or a usual one.
fn interval(random: &mut Random) -> u64 {
    match random.below(8) {
        0 => 1,
        1 => LONGEST,
        2 => 2 + random.below(8) as u64,
        3 => (random.next() >> 4).clamp(1, LONGEST),
        _ => SECOND << random.below(5) >> random.below(4),
    }
}
