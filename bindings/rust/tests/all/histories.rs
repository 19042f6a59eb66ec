//! Histories of a book against the crate statime: what each call answers, the candidates, the states and what they carry.
use crate::oracle::{compare, hex};
use crate::random::{scaled, Random};
use crate::worlds::Clock;
use rillarch::{choose, Acceptable, Announce, Book, Candidate, ClockQuality};
use rillarch::{Decision, OwnData, PortIdentity, Refusal, State, Tallies};

/// What a line asked for, and what was answered here.
enum Call {
    /// A fresh start: our clock, and how many ports.
    Start(u64, usize),
    Register(Result<Tallies, Refusal>),
    Age(Tallies),
    /// Nothing: the book is told in full.
    Candidates(Vec<Candidate>),
    /// A decision: how many candidates there were, and the one chosen at once.
    Decide(Decision, usize, Option<Candidate>),
}

/// The lines of all histories for the oracle's command books, and what was answered here.
#[derive(Default)]
struct Histories {
    lines: Vec<Vec<u8>>,
    calls: Vec<Call>,
}

impl Histories {
    fn add(&mut self, line: Vec<u8>, call: Call) {
        self.lines.push(line);
        self.calls.push(call);
    }

    /// A fresh start: any sender is acceptable, or those of a list that leaves out a clock of the world, and our own or not.
    fn start(&mut self, clock: &Clock, random: &mut Random) -> Book {
        let first = random.below(2);
        let list = [&clock.world.clocks[first..3], &[random.next()]].concat();
        let is_listed = random.once_in(3);
        let rule = if is_listed {
            Acceptable::Listed(&list)
        } else {
            Acceptable::Any
        };
        let book = Book::new(clock.own, rule, &clock.intervals).expect("all is in range");
        let mut line = vec![0];
        line.extend(clock.own.to_be_bytes());
        line.extend([u8::from(is_listed), list.len() as u8]);
        let numbers = list.iter().chain(&clock.intervals);
        line.extend(numbers.flat_map(|number| number.to_be_bytes()));
        self.add(line, Call::Start(clock.own, clock.intervals.len()));
        book
    }

    fn register(&mut self, book: &mut Book, clock: &mut Clock, random: &mut Random) {
        let port = clock.port(random);
        let frame = clock.frame(port, random);
        let answer = book.register(port, &frame);
        self.add(
            [vec![1, port as u8], frame].concat(),
            Call::Register(answer),
        );
    }

    fn age(&mut self, book: &mut Book, clock: &Clock, random: &mut Random) {
        let step = clock.step(random);
        let tallies = book.age(step).expect("the step is in range");
        let line = [&[2], &step.to_be_bytes()[..]].concat();
        self.add(line, Call::Age(tallies));
    }

    fn decide(&mut self, book: &mut Book, clock: &Clock, random: &mut Random) {
        let candidates = book.candidates().expect("the book is sound");
        self.add(vec![3], Call::Candidates(candidates.clone()));
        let own = clock.world.own_data(random);
        let listening = random.byte() & random.byte();
        let decision = book.decide(&own, listening).expect("the book is sound");
        let line = [vec![4], profile(&own), vec![listening]].concat();
        let at_once = choose(&candidates);
        self.add(line, Call::Decide(decision, candidates.len(), at_once));
    }

    /// A fresh start, and frames, steps of age and decisions in any order.
    fn history(&mut self, random: &mut Random) {
        let mut clock = Clock::new(random);
        let mut book = self.start(&clock, random);
        for _ in 0..20 + random.below(41) {
            match random.below(16) {
                0 | 1 => self.age(&mut book, &clock, random),
                2..=4 => self.decide(&mut book, &clock, random),
                _ => self.register(&mut book, &mut clock, random),
            }
        }
        assert_eq!(book.check(), Ok(()));
    }
}

/// Our own data without the identity, as they stand in a line.
fn profile(own: &OwnData) -> Vec<u8> {
    let quality = own.clock_quality;
    let variance = quality.offset_scaled_log_variance.to_be_bytes();
    [
        &[own.priority_1, quality.clock_class, quality.clock_accuracy],
        &variance[..],
        &[own.priority_2],
    ]
    .concat()
}

/// The hash FNV-1a of a message written over zeros.
fn in_short(message: &Announce) -> String {
    let mut bytes = [0; 64];
    assert_eq!(message.write(&[], &mut bytes), Ok(64));
    let hash = bytes.iter().fold(0x811c_9dc5_u32, |hash, byte| {
        (hash ^ u32::from(*byte)).wrapping_mul(0x0100_0193)
    });
    format!("{hash:08x}")
}

/// A state as the oracle tells it.
fn state_told(state: &State, own_clock: u64) -> String {
    let carried = match state {
        State::Stay => "-".to_string(),
        State::M1(own) | State::M2(own) => format!("{own_clock:016x}{}", hex(&profile(own))),
        State::M3(message) | State::P1(message) | State::P2(message) | State::S1(message) => {
            in_short(message)
        }
    };
    format!("{:02x} {carried}", state.number())
}

fn number(digits: &str) -> u64 {
    u64::from_str_radix(digits, 16).unwrap_or_else(|_| panic!("no digits: {digits}"))
}

/// The candidate of a message's 64 bytes in digits, by their places on the wire.
fn candidate(message: &str, sender: &str, receiver: PortIdentity, age: u64) -> Candidate {
    let field = |start: usize, width: usize| number(&message[2 * start..2 * (start + width)]);
    Candidate {
        gm_priority_1: field(47, 1) as u8,
        gm_clock_quality: ClockQuality {
            clock_class: field(48, 1) as u8,
            clock_accuracy: field(49, 1) as u8,
            offset_scaled_log_variance: field(50, 2) as u16,
        },
        gm_priority_2: field(52, 1) as u8,
        gm_identity: field(53, 8),
        steps_removed: field(61, 2) as u16,
        sender: number(sender),
        receiver,
        age,
        place: 0,
    }
}

/// The candidates of a book that is told in full: port 1 first, in a port the last master first, each master with two messages or
/// more its newest.
fn candidates_of(told: &str, own_clock: u64) -> Vec<Candidate> {
    let mut candidates = Vec::new();
    for (port, masters) in told
        .split('|')
        .skip(1)
        .zip(1..)
        .map(|(text, port)| (port, text))
    {
        let mut offered = Vec::new();
        let mut tokens = masters.split_whitespace().peekable();
        while let Some(master) = tokens.next() {
            let (sender, _) = master.split_once('.').expect("it is a master");
            let mut messages = Vec::new();
            while let Some(message) = tokens.next_if(|token| token.contains(':')) {
                messages.push(message);
            }
            if let [_, .., newest] = messages[..] {
                let parts: Vec<&str> = newest.split(':').collect();
                let receiver = PortIdentity {
                    clock_identity: own_clock,
                    port_number: port,
                };
                offered.push(candidate(parts[2], sender, receiver, number(parts[1])));
            }
        }
        candidates.extend(offered.into_iter().rev());
    }
    for (candidate, place) in candidates.iter_mut().zip(0..) {
        candidate.place = place;
    }
    candidates
}

/// How the answers are held to each other: what is known of the book that the oracle told last.
#[derive(Default)]
struct Check {
    /// The line that is checked, for a failure.
    line: String,
    own_clock: u64,
    /// How many messages are held, by the tallies.
    held: u64,
    /// The book as it was told last in short.
    told: String,
    numbers: [u64; 17],
    states: [u64; 7],
    candidates: usize,
    gone: Tallies,
}

impl Check {
    fn call(&mut self, call: &Call, answer: &str) {
        let book = answer.find('|').map_or("", |place| &answer[place..]);
        let head = answer[..answer.len() - book.len()].trim();
        let ours = match call {
            Call::Start(own_clock, ports) => {
                self.own_clock = *own_clock;
                self.held = 0;
                assert_eq!(book.matches('|').count(), *ports, "{}", self.line);
                "00".to_string()
            }
            Call::Register(result) => self.register(result, book),
            Call::Age(tallies) => {
                self.count(tallies);
                format!("00 {:x}", tallies.aged_out)
            }
            Call::Candidates(candidates) => {
                let told = candidates_of(book, self.own_clock);
                assert_eq!(*candidates, told, "{}", self.line);
                self.candidates += told.len();
                return;
            }
            Call::Decide(decision, count, at_once) => self.decide(decision, *count, *at_once),
        };
        assert_eq!(ours, head, "{}", self.line);
        if !book.is_empty() {
            let held = book.matches(':').count() as u64 / 2;
            assert_eq!(self.held, held, "{}", self.line);
            self.told = book.to_string();
        }
    }

    /// Counts what is gone.
    fn count(&mut self, tallies: &Tallies) {
        self.gone.evicted += tallies.evicted;
        self.gone.aged_out += tallies.aged_out;
        self.gone.consumed += tallies.consumed;
        self.held -= tallies.evicted + tallies.aged_out + tallies.consumed;
    }

    /// The crate says yes to what it takes and to 9 to 12, no to 7 and 8; by a refusal the book stays as it was.
    fn register(&mut self, result: &Result<Tallies, Refusal>, book: &str) -> String {
        let number = result.err().map_or(0, Refusal::number);
        self.numbers[usize::from(number)] += 1;
        if let Ok(tallies) = result {
            self.held += 1;
            self.count(tallies);
            return format!("00 1 {:x}", tallies.evicted);
        }
        match number {
            7..=12 => {
                assert_eq!(book, self.told, "{}", self.line);
                format!("00 {} 0", u8::from(number > 8))
            }
            _ => format!("{number:02x}"),
        }
    }

    fn decide(&mut self, decision: &Decision, count: usize, at_once: Option<Candidate>) -> String {
        let place = at_once.map_or("-".to_string(), |chosen| format!("{:x}", chosen.place));
        self.count(&decision.tallies);
        let mut told = format!("00 {count:x} {place} {:x}", decision.tallies.consumed);
        for state in &decision.states {
            self.states[usize::from(state.number())] += 1;
            told += &format!(" {}", state_told(state, self.own_clock));
        }
        told
    }
}

#[test]
fn books_are_kept_and_decided_as_by_statime() {
    let mut random = Random::new();
    let mut histories = Histories::default();
    for _ in 0..scaled(2_000) {
        histories.history(&mut random);
    }
    let mut check = Check::default();
    compare("books", &histories.lines, |place, answer| {
        check.line = format!("line {place}: {}", hex(&histories.lines[place]));
        check.call(&histories.calls[place], answer);
    });
    println!(
        "histories: {} lines; registered and refused {:?}; states {:?}; {} candidates; {:?}",
        histories.lines.len(),
        check.numbers,
        check.states,
        check.candidates,
        check.gone,
    );
    if check.line.is_empty() {
        return; // there is no oracle
    }
    let refusals = [0, 1, 2, 3, 4, 5, 7, 8, 9, 10, 11, 12];
    assert!(refusals.iter().all(|number| check.numbers[*number] > 0));
    assert!(check.states.iter().all(|count| *count > 0));
    let gone = check.gone;
    assert!(gone.evicted > 0 && gone.aged_out > 0 && gone.consumed > 0);
}
