//! Histories of a book against the oracle's log program, which tells the number of every refusal.
use crate::oracle::{compare, hex};
use crate::random::{scaled, Random};
use crate::worlds::{Clock, SECOND};
use rillarch::{Acceptable, Book, OwnData, Refusal};

/// The lines of all histories, and what is expected of each.
#[derive(Default)]
struct Log {
    lines: Vec<Vec<u8>>,
    answers: Vec<String>,
    numbers: [u64; 17],
    states: [u64; 7],
}

/// The line of a setup.
fn setup(own_clock: u64, own: &OwnData, intervals: &[u64]) -> Vec<u8> {
    let quality = own.clock_quality;
    let intervals: Vec<u8> = intervals.iter().flat_map(|i| i.to_be_bytes()).collect();
    [
        &[0, (intervals.len() / 8) as u8],
        &own_clock.to_be_bytes()[..],
        &[own.priority_1, quality.clock_class, quality.clock_accuracy],
        &quality.offset_scaled_log_variance.to_be_bytes(),
        &[own.priority_2],
        &intervals,
    ]
    .concat()
}

/// Intervals that are out of range: too few or too many, or one that is too short or too long.
fn bad_intervals(random: &mut Random) -> Vec<u64> {
    match random.below(4) {
        0 => vec![],
        1 => vec![SECOND; 9 + random.below(20)],
        2 => vec![SECOND, 0],
        _ => vec![random.of(&[1 << 60, u64::MAX]), SECOND],
    }
}

impl Log {
    /// A line, and the number that it answers.
    fn add<T>(&mut self, line: Vec<u8>, result: Result<T, Refusal>) {
        let number = result.err().map_or(0, Refusal::number);
        self.numbers[usize::from(number)] += 1;
        self.lines.push(line);
        self.answers.push(format!("{number:02X}"));
    }

    fn decide(&mut self, book: &mut Book, clock: &Clock, own: &OwnData, random: &mut Random) {
        let listening = random.byte() & random.byte() & (0xff >> (8 - clock.ports()));
        let decision = book.decide(own, listening);
        self.add(vec![3, listening], decision.clone());
        let states = decision.expect("the book is sound").states;
        for state in states {
            let answer = self.answers.last_mut().expect("there is an answer");
            *answer += &format!("{:02X}", state.number());
            self.states[usize::from(state.number())] += 1;
        }
    }

    /// A setup, and what follows it in any order; some of it is out of range.
    fn history(&mut self, random: &mut Random) {
        let mut clock = Clock::new(random);
        let own = clock.world.own_data(random);
        let book = Book::new(clock.own, Acceptable::Any, &clock.intervals);
        self.add(setup(clock.own, &own, &clock.intervals), book.clone());
        let mut book = book.expect("all is in range");
        for _ in 0..20 + random.below(41) {
            match random.below(32) {
                0 => {
                    let intervals = bad_intervals(random);
                    let answer = book.fresh_start(!clock.own, Acceptable::Any, &intervals);
                    self.add(setup(!clock.own, &own, &intervals), answer);
                }
                1 => {
                    let port = random.of(&[0, clock.ports() + 1, 255]);
                    let frame = clock.frame(1, random);
                    let answer = book.register(port, &frame);
                    self.add([vec![1, port as u8], frame].concat(), answer);
                }
                2 => {
                    let step = random.of(&[1 << 62, 1 << 63, u64::MAX]);
                    let answer = book.age(step);
                    self.add([&[2], &step.to_be_bytes()[..]].concat(), answer);
                }
                3..=5 => {
                    let step = clock.step(random);
                    let answer = book.age(step);
                    self.add([&[2], &step.to_be_bytes()[..]].concat(), answer);
                }
                6..=11 => self.decide(&mut book, &clock, &own, random),
                _ => {
                    let port = clock.port(random);
                    let frame = clock.frame(port, random);
                    let answer = book.register(port, &frame);
                    self.add([vec![1, port as u8], frame].concat(), answer);
                }
            }
        }
    }
}

#[test]
fn calls_are_answered_as_by_the_log_program() {
    let mut random = Random::new();
    let mut log = Log::default();
    for _ in 0..scaled(2_000) {
        log.history(&mut random);
    }
    // 8 needs a list; 15 and 16 are no answers to a line
    let refusals = [0, 1, 2, 3, 4, 5, 6, 7, 9, 10, 11, 12, 13, 14];
    let counts = refusals.map(|number| log.numbers[number]);
    assert!(counts.iter().all(|count| *count > 0), "{counts:?}");
    assert!(
        log.states.iter().all(|count| *count > 0),
        "{:?}",
        log.states
    );
    compare("log", &log.lines, |place, answer| {
        let line = &log.lines[place];
        assert_eq!(log.answers[place], answer, "line {place}: {}", hex(line));
    });
    let (lines, numbers, states) = (log.lines.len(), log.numbers, log.states);
    println!("logs: {lines} lines; numbers {numbers:?}; states {states:?}");
}
