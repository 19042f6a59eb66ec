// The subcommand log-lines: logs for the log program, the same for the same seed.

use crate::book_history::History;
use crate::book_lines::history;
use crate::book_worlds::World;
use crate::books::{Book, MAX_PORTS};
use crate::candidates::Profile;
use crate::frames::set_length;
use crate::lines::{digits, MAX_FRAME};
use crate::log::{DECISION, FRAME, SETUP, STEP};
use crate::log_endings::{drained, reordered};
use crate::log_odd::{odd, REFUSED, TURNS};
use crate::random::Random;
use crate::tlv_frames::add_entry;
use std::collections::VecDeque;

/// The first byte of a decision in a book's history.
const BOOK_DECISION: u8 = 4;

/// Where a frame begins in its line, and the size of an announce without TLVs.
const FRAME_START: usize = 2;
pub const ANNOUNCE_SIZE: usize = 64;

/// How often an odd line follows a line, a setup that is refused stands before a decision, and a plain
/// announce fills its line: one in so many.
const ODD_EACH: usize = 11;
const REFUSED_EACH: usize = 12;
const LONG_EACH: usize = 300;

/// How often a history has an ending: one in so many has each.
const ENDINGS_EACH: usize = 8;

/// How many rounds of lines stand before the first good setup.
const ROUNDS_BEFORE: usize = 20;

/// How many histories, odd lines and refused setups before decisions there were, and the lines that
/// are still to come.
pub struct Logs {
    histories: usize,
    odd: usize,
    refused: usize,
    lines: VecDeque<Vec<u8>>,
}

impl Logs {
    pub fn new() -> Self {
        Self {
            histories: 0,
            odd: 0,
            refused: 0,
            lines: VecDeque::new(),
        }
    }

    /// The next line: digits, or other bytes.
    pub fn line(&mut self, random: &mut Random) -> Vec<u8> {
        if self.lines.is_empty() {
            self.history(random);
            self.histories += 1;
        }
        self.lines.pop_front().expect("a history has a line")
    }

    /// Adds a history of a book, with odd lines between: a setup that is refused before some decisions,
    /// which then show the old book and the old data, and any of them after any line.
    fn history(&mut self, random: &mut Random) {
        let world = World::of_log(self.histories, random);
        let mut history = history(self.histories, world, random);
        match self.histories % ENDINGS_EACH {
            1 => drained(&mut history, random),
            5 => reordered(&mut history, random),
            _ => {}
        }
        let world = &history.world;
        let setup = setup(world.own, profile(world, random), &world.intervals);
        let lines = kept_lines(&history, random);
        if self.histories == 0 {
            self.before(&setup, &lines, world, random);
        }
        self.add(&setup, random);
        for line in &lines {
            if line[0] == DECISION && random.below(REFUSED_EACH) == 0 {
                let kind = REFUSED[self.refused % REFUSED.len()];
                self.refused += 1;
                let refused = odd(kind, self.refused, line, world, random);
                self.lines.push_back(refused);
            }
            match is_plain(line) && random.below(LONG_EACH) == 0 {
                true => self.add(&filled(line, random), random),
                false => self.add(line, random),
            }
            if random.below(ODD_EACH) == 0 {
                self.odd(line, world, random);
            }
        }
    }

    /// Adds what may come before a first good setup: lines that would be good after it, setups that
    /// are refused, and odd lines.
    fn before(&mut self, setup: &[u8], lines: &[Vec<u8>], world: &World, random: &mut Random) {
        for round in 0..ROUNDS_BEFORE {
            let kind = [FRAME, DECISION, STEP][round % 3];
            let line = lines.iter().skip(round).find(|line| line[0] == kind);
            line.into_iter().for_each(|line| self.add(line, random));
            let refused = odd(REFUSED[round % REFUSED.len()], round, setup, world, random);
            self.lines.push_back(refused);
            self.odd(setup, world, random);
        }
    }

    /// Adds a line in digits.
    fn add(&mut self, line: &[u8], random: &mut Random) {
        self.lines.push_back(spelled(line, random));
    }

    /// Adds the odd line whose turn it is, after a good line.
    fn odd(&mut self, line: &[u8], world: &World, random: &mut Random) {
        let kind = TURNS[self.odd % TURNS.len()];
        self.lines
            .push_back(odd(kind, self.odd, line, world, random));
        self.odd += 1;
    }
}

/// What our own clock says of itself: half of the time close to what grandmasters say.
pub fn profile(world: &World, random: &mut Random) -> Profile {
    match random.below(2) {
        0 => world.own_profile(random),
        _ => world.close_profile(random),
    }
}

/// The lines of a history after its setup. Half of the decisions that consume nothing, and so leave the
/// book as it is, are left out, that frames dominate.
fn kept_lines(history: &History, random: &mut Random) -> Vec<Vec<u8>> {
    let mut book = Book::new();
    let mut lines = Vec::new();
    for line in &history.lines {
        let held = book.held();
        book.answer(line).expect("the line has a shape");
        let is_idle = line[0] == BOOK_DECISION && held == book.held();
        if !is_idle || random.below(2) == 0 {
            lines.extend(log_line(line, &history.world));
        }
    }
    lines
}

/// A line of a book's history as a line of a log, if it has one: the book is told in none, and a
/// decision has our own data from the setup.
fn log_line(line: &[u8], world: &World) -> Option<Vec<u8>> {
    match line {
        [FRAME | STEP, ..] => Some(line.to_vec()),
        [BOOK_DECISION, .., listening] => Some(vec![DECISION, listening & all_listen(world)]),
        _ => None,
    }
}

/// The byte of a decision in which all ports listen.
pub fn all_listen(world: &World) -> u8 {
    u8::MAX >> (MAX_PORTS - world.intervals.len())
}

pub fn setup(own: u64, profile: Profile, intervals: &[u64]) -> Vec<u8> {
    let mut line = vec![SETUP, intervals.len() as u8];
    line.extend(own.to_be_bytes());
    line.extend(profile);
    line.extend(intervals.iter().flat_map(|interval| interval.to_be_bytes()));
    line
}

/// Whether a line is a plain announce, good and without TLVs.
fn is_plain(line: &[u8]) -> bool {
    let is_announce = |kind: &u8| kind & 0xf == 0xb;
    line[0] == FRAME
        && line.len() == FRAME_START + ANNOUNCE_SIZE
        && line.get(FRAME_START).is_some_and(is_announce)
        && line[FRAME_START + 2..][..2] == (ANNOUNCE_SIZE as u16).to_be_bytes()
}

/// A plain announce with as much behind it as a line can have: a TLV, or bytes that are not read.
fn filled(line: &[u8], random: &mut Random) -> Vec<u8> {
    let mut line = line.to_vec();
    let left = MAX_FRAME - line.len();
    if random.below(2) == 0 {
        line.extend(random.bytes(left));
    } else {
        let value = random.bytes(left - 4);
        add_entry(&mut line, random.next() as u16, value.len(), &value);
        set_length(&mut line[FRAME_START..], (MAX_FRAME - FRAME_START) as u16);
    }
    line
}

/// The digits of a line: upper case most often, or lower or mixed.
pub fn spelled(line: &[u8], random: &mut Random) -> Vec<u8> {
    let mut text = digits(line);
    match random.below(4) {
        0 => text.make_ascii_lowercase(),
        1 => {
            let mixed = text.iter_mut().filter(|_| random.below(2) == 0);
            mixed.for_each(|digit| digit.make_ascii_lowercase());
        }
        _ => {}
    }
    text
}
