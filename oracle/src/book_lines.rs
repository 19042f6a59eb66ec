// The subcommand book-lines: histories of books, the same for the same seed.

use crate::book_history::{History, MAX_MESSAGES};
use crate::book_worlds::{Aim, Content, Sender, Tale, World};
use crate::random::Random;
use std::collections::VecDeque;

/// How many histories there were, and the lines of the last that are still to come.
pub struct Histories {
    turn: usize,
    lines: VecDeque<Vec<u8>>,
}

impl Histories {
    pub fn new() -> Self {
        Self {
            turn: 0,
            lines: VecDeque::new(),
        }
    }

    /// The next line: a fresh start where a history is over.
    pub fn line(&mut self, random: &mut Random) -> Vec<u8> {
        if self.lines.is_empty() {
            let world = World::new(self.turn, random);
            self.lines = history(self.turn, world, random).lines.into();
            self.turn += 1;
        }
        self.lines.pop_front().expect("a history has a line")
    }
}

/// A history: a fresh start, decided at once or not, what its aim asks for, and the whole book at the
/// end.
pub fn history(turn: usize, world: World, random: &mut Random) -> History {
    let mut history = History::new(world, random);
    if turn % 3 == 0 {
        history.decisions(1, random);
    }
    match history.world.aim {
        Aim::Few | Aim::Many => mixed(&mut history, 20 + random.below(131), random),
        Aim::Full => mixed(&mut history, 150 + random.below(21), random),
        Aim::Steady => steady(&mut history, 30 + random.below(81), random),
        Aim::Crowded => crowded(&mut history, random),
    }
    history.add(vec![3]);
    history
}

/// Frames, steps of age, decisions, and now and then the whole book, up to so many lines. There are more
/// decisions where more is offered, and few while a port is to be filled. Some frames and decisions
/// come again at once, a few frames so often that they fill a master's list, and some frames at all
/// ports.
fn mixed(history: &mut History, length: usize, random: &mut Random) {
    while history.lines.len() < length {
        let decisions = match history.offered() {
            _ if history.is_filling => 1,
            0 => 6,
            1 => 20,
            _ => 36,
        };
        let line = match random.below(64) {
            0 => vec![3],
            1..=10 => history.age_line(random),
            place if place - 10 <= decisions => history.decision_line(random),
            _ => history.frame_line(random),
        };
        let times = match (line[0], random.below(240)) {
            (1, 0 | 1) => MAX_MESSAGES + 1 + random.below(3),
            (1, 2..=9) => 2,
            (4, 0..=59) => 2 + random.below(3),
            _ => 1,
        };
        for _ in 0..times.min(length - history.lines.len()) {
            history.add(line.clone());
        }
        if line[0] == 1 && random.below(16) == 0 {
            history.everywhere();
        }
    }
}

/// One who sends at each interval: at which port, what it tells, and for how many rounds it is silent.
struct Master {
    port: usize,
    from: Sender,
    content: Content,
    silent: usize,
}

/// Two to four masters at each port, or one or two where ports are many.
fn masters(world: &World, random: &mut Random) -> Vec<Master> {
    let count = world.intervals.len();
    let (least, most) = if count > 3 { (1, 2) } else { (2, 4) };
    let ports: Vec<usize> = (0..count)
        .flat_map(|port| vec![port; least + random.below(most - least + 1)])
        .collect();
    let contents = world.contents(&ports, random);
    let masters = ports.into_iter().zip(contents);
    masters
        .map(|(port, content)| Master {
            port,
            from: random.of(&world.senders),
            content,
            silent: 0,
        })
        .collect()
}

/// Rounds of masters that send at each interval, of steps of age and of decisions, up to so many lines
/// or a few more.
fn steady(history: &mut History, length: usize, random: &mut Random) {
    let mut masters = masters(&history.world, random);
    while history.lines.len() < length {
        for master in &mut masters {
            if sends(master, &history.world, random) {
                history.steady_frame(master.port, master.from, master.content, random);
                let is_alike = history.world.tale == Tale::Alike;
                if random.below(if is_alike { 2 } else { 16 }) == 0 {
                    history.everywhere();
                }
                history.decisions(random.below(12) / 11, random);
            }
        }
        history.decisions(random.of(&[1, 1, 1, 1, 1, 2, 3]), random);
        history.interval(random);
        history.decisions(random.of(&[0, 0, 1]), random);
    }
}

/// Whether a master sends in this round. Now and then one falls silent, often for so long that it is
/// forgotten, or tells something new.
fn sends(master: &mut Master, world: &World, random: &mut Random) -> bool {
    if master.silent > 0 {
        master.silent -= 1;
        return false;
    }
    match random.below(40) {
        0..=2 => master.silent = random.below(8),
        3 => master.content = world.content(world.steps(random), random),
        _ => {}
    }
    master.silent == 0
}

/// Eight messages of eight masters at each of eight ports, decided until nothing is consumed; then as
/// it comes.
fn crowded(history: &mut History, random: &mut Random) {
    for _ in 0..MAX_MESSAGES {
        for port in 0..history.world.intervals.len() {
            for place in 0..history.world.senders.len() {
                history.plain_frame(port, history.world.senders[place], random);
            }
        }
        history.short_step(random);
    }
    history.decisions(MAX_MESSAGES + 1, random);
    mixed(history, history.lines.len() + 60, random);
}
