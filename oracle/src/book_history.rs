// The lines of one history of book-lines, made by what the book holds so far.

use crate::bmc::foreign_master::{ForeignAnnounceMessage, ForeignMaster};
use crate::book_worlds::{any_frame, frame_line, Aim, Content, Sender, World, MAX_MASTERS};
use crate::books::{units, Book};
use crate::candidates::Profile;
use crate::random::Random;
use crate::tlv_frames::message;
use std::collections::BTreeMap;

/// The most messages of a master, and of a port.
pub const MAX_MESSAGES: usize = 8;
const MAX_HELD: usize = MAX_MASTERS * MAX_MESSAGES;

/// The longest step of age.
pub const LONGEST_STEP: u64 = (1 << 62) - 1;

fn sender(master: &ForeignMaster) -> Sender {
    let identity = master.foreign_master_port_identity;
    let clock = u64::from_be_bytes(identity.clock_identity.0);
    (clock, identity.port_number)
}

fn age(message: &ForeignAnnounceMessage) -> u64 {
    units(message.age)
}

pub fn step_line(step: u64) -> Vec<u8> {
    [&[2], &step.to_be_bytes()[..]].concat()
}

/// The lines of a history so far, and the book that they come to.
pub struct History {
    pub world: World,
    pub lines: Vec<Vec<u8>>,
    /// Whether the first port is still to be filled.
    pub is_filling: bool,
    book: Book,
    /// The newest sequence of each sender at each port, held or not.
    newest: BTreeMap<(usize, Sender), u16>,
    /// What our own clock said of itself in the last decision.
    own_profile: Profile,
}

impl History {
    pub fn new(world: World, random: &mut Random) -> Self {
        let own_profile = world.own_profile(random);
        let mut history = History {
            lines: Vec::new(),
            is_filling: world.aim == Aim::Full,
            book: Book::new(),
            newest: BTreeMap::new(),
            own_profile,
            world,
        };
        history.add(history.world.start());
        history
    }

    pub fn add(&mut self, line: Vec<u8>) {
        self.book.answer(&line).expect("the line has a shape");
        self.lines.push(line);
        let masters = self.book.masters(0).iter();
        let held: usize = masters.map(|master| master.announce_messages.len()).sum();
        self.is_filling &= held < MAX_HELD;
    }

    /// How many masters offer a message, at the port where most do.
    pub fn offered(&self) -> usize {
        let offers = |master: &&ForeignMaster| master.announce_messages.len() > 1;
        let ports = 0..self.world.intervals.len();
        let offered = ports.map(|port| self.book.masters(port).iter().filter(offers).count());
        offered.max().unwrap_or(0)
    }

    /// A decision: our own data as before or anew, and ports that listen: none, all, or any.
    pub fn decision_line(&mut self, random: &mut Random) -> Vec<u8> {
        if random.below(3) == 0 {
            self.own_profile = self.world.own_profile(random);
        }
        let listening = match random.below(8) {
            0 => 0xff,
            1..=3 => 0,
            _ => random.byte(),
        };
        [&[4], &self.own_profile[..], &[listening]].concat()
    }

    /// Adds so many decisions.
    pub fn decisions(&mut self, count: usize, random: &mut Random) {
        for _ in 0..count {
            let line = self.decision_line(random);
            self.add(line);
        }
    }

    /// One who sends to a port: one of whom there is little, if the port is to be filled.
    fn sender(&self, port: usize, random: &mut Random) -> Sender {
        let masters = self.book.masters(port).iter();
        let little = masters.min_by_key(|master| master.announce_messages.len());
        match little {
            Some(master) if self.is_filling && random.below(2) == 0 => sender(master),
            _ => self.world.sender(port, random),
        }
    }

    /// A frame at a port.
    pub fn frame_line(&mut self, random: &mut Random) -> Vec<u8> {
        let port = self.world.port(random);
        let from = self.sender(port, random);
        let sequence = self.sequence(port, from, random);
        let steps = match random.below(if self.is_filling { 128 } else { 32 }) {
            0 | 1 => 254,
            2 | 3 => 255,
            4 => random.of(&[256, 65535]),
            5 => random.next() as u16,
            _ => self.world.steps(random),
        };
        let content = self.world.content(steps, random);
        self.sent(any_frame(random), port, from, sequence, content)
    }

    /// The line of a frame; its sequence is the newest unless it is an older one.
    fn sent(
        &mut self,
        frame: Vec<u8>,
        port: usize,
        from: Sender,
        sequence: u16,
        content: Content,
    ) -> Vec<u8> {
        let newest = self.newest.entry((port, from)).or_insert(sequence);
        if sequence.wrapping_sub(*newest) < 1 << 15 {
            *newest = sequence;
        }
        frame_line(frame, port, from, sequence, content)
    }

    /// A sequence: most often the next one, or some way from the last one held or from the newest, on
    /// both sides of what is news.
    fn sequence(&self, port: usize, from: Sender, random: &mut Random) -> u16 {
        let any = random.next() as u16;
        let held = self.last_held(port, from);
        let newest = self.newest.get(&(port, from)).copied();
        let near = if random.below(2) == 0 { held } else { newest };
        let Some(near) = near else {
            return random.of(&[any, 0, 65534, 65535]);
        };
        let difference = match random.below(if self.is_filling { 128 } else { 32 }) {
            0..=2 => 0,
            3 | 4 => 32766,
            5 | 6 => 32767,
            7 | 8 => 65535,
            9 | 10 => any,
            11 | 12 => any % 16,
            _ => 1,
        };
        near.wrapping_add(difference)
    }

    /// The sequence of the last message that is held of a sender at a port.
    pub fn last_held(&self, port: usize, from: Sender) -> Option<u16> {
        let mut masters = self.book.masters(port).iter();
        let master = masters.find(|master| sender(master) == from)?;
        let last = master.announce_messages.last()?;
        Some(last.header.sequence_id)
    }

    /// Adds a frame of one who sends at each interval: the next one, or now and then the last again or
    /// an older one that is late.
    pub fn steady_frame(
        &mut self,
        port: usize,
        from: Sender,
        content: Content,
        random: &mut Random,
    ) {
        let any = random.next() as u16;
        let newest = self.newest.get(&(port, from)).copied().unwrap_or(any);
        let difference = match random.below(16) {
            0 => 0,
            1 | 2 => 65535,
            3 => 65534,
            _ => 1,
        };
        let frame = match random.below(4) {
            0 => any_frame(random),
            _ => message(&[], random),
        };
        let line = self.sent(frame, port, from, newest.wrapping_add(difference), content);
        self.add(line);
    }

    /// Adds the frame of the last line again, at each other port.
    pub fn everywhere(&mut self) {
        let last = self.lines.last().expect("a history has a line").clone();
        for port in 1..=self.world.intervals.len() as u8 {
            if port != last[1] {
                self.add([&[1, port], &last[2..]].concat());
            }
        }
    }

    /// Adds a plain announce that is news.
    pub fn plain_frame(&mut self, port: usize, from: Sender, random: &mut Random) {
        let any = random.next() as u16;
        let newest = self.newest.get(&(port, from)).copied().unwrap_or(any);
        let content = self.world.content(self.world.steps(random), random);
        let frame = message(&[], random);
        let line = self.sent(frame, port, from, newest.wrapping_add(1), content);
        self.add(line);
    }

    /// Adds a step of an interval or about that, or of half of it.
    pub fn interval(&mut self, random: &mut Random) {
        let interval = self.world.intervals[0];
        let about = [interval - 1, interval + 1, interval / 2, interval];
        let step = match random.below(2) {
            0 => interval,
            _ => random.of(&about),
        };
        self.add(step_line(step));
    }

    /// Adds a step that is a small part of every interval.
    pub fn short_step(&mut self, random: &mut Random) {
        let least = self.world.intervals.iter().min().copied();
        let least = least.expect("a book has a port");
        self.add(step_line(random.next() % least / 16));
    }

    /// A step of age: most often one that brings a message to four intervals or just below, or a
    /// part of an interval; small ones while a port is to be filled.
    pub fn age_line(&self, random: &mut Random) -> Vec<u8> {
        let interval = random.of(&self.world.intervals);
        let any = random.next();
        step_line(match random.below(16) {
            _ if self.is_filling => any % interval / 64,
            0 if any % 2 == 0 => random.of(&[LONGEST_STEP, any >> 2]),
            0 | 1 => random.below(5) as u64,
            2..=6 => self.edge(random),
            _ => any % interval / random.of(&[1, 4, 16, 16]),
        })
    }

    /// The step that brings a message to four intervals of its port, or to one unit less: any of
    /// them, or the newest of the master between others that was silent longest, so that it goes.
    /// 0 where none is held.
    fn edge(&self, random: &mut Random) -> u64 {
        let port = self.world.port(random);
        let masters = self.book.masters(port);
        let between = match masters {
            [_, between @ .., _] if !between.is_empty() => between,
            _ => masters,
        };
        let newest = |master: &ForeignMaster| master.announce_messages.last().map(age);
        let silent = between.iter().filter_map(newest).max();
        let all = masters.iter().flat_map(|master| &*master.announce_messages);
        let any: Vec<u64> = all.map(age).collect();
        let age = match random.below(3) {
            0 | 1 => silent,
            _ => any.get(random.below(any.len().max(1))).copied(),
        };
        let limit = 4 * self.world.intervals[port];
        age.map_or(0, |age| limit - age - random.below(2) as u64)
    }
}
