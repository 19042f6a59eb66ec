// The subcommand log-counts: how many lines of a log gave each answer, by their kind.

use crate::lines::spells;
use crate::log::{
    next_line, DECISION, DONE, FRAME, INTERVAL_SIZE, MAX_DIGITS, SETUP, SETUP_SIZE, STEP,
};
use std::collections::BTreeMap;
use std::io::{BufRead, Error, ErrorKind, Write};

/// What a line is: one of the four kinds, or why it is none.
#[derive(Clone, Copy, PartialEq, Eq, PartialOrd, Ord)]
enum Kind {
    Setup,
    Frame,
    Step,
    Decision,
    Empty,
    TooLong,
    NoDigit,
    OddDigits,
    BeforeSetup,
    UnknownKind,
    SetupLength,
    NoPort,
    StepLength,
    DecisionLength,
    BitAbove,
}

impl Kind {
    fn name(self) -> &'static str {
        match self {
            Self::Setup => "setup",
            Self::Frame => "frame",
            Self::Step => "step",
            Self::Decision => "decision",
            Self::Empty => "no digit at all",
            Self::TooLong => "more than 4,096 bytes",
            Self::NoDigit => "a byte that is no digit",
            Self::OddDigits => "an odd number of digits",
            Self::BeforeSetup => "before a first good setup",
            Self::UnknownKind => "first byte 04 or above",
            Self::SetupLength => "setup of another length",
            Self::NoPort => "frame without a port",
            Self::StepLength => "step of another length",
            Self::DecisionLength => "decision of another length",
            Self::BitAbove => "decision with a bit above the count",
        }
    }
}

/// How many lines of each kind gave each answer, and how many ports each state.
#[derive(Default)]
pub struct Counts {
    lines: BTreeMap<(Kind, String), u64>,
    states: BTreeMap<String, u64>,
}

impl Counts {
    /// Counts the lines of a log and their answers.
    pub fn add(&mut self, log: &mut impl BufRead, answers: impl BufRead) -> Result<(), Error> {
        let mut answers = answers.lines();
        let (mut line, mut bytes) = (Vec::new(), Vec::new());
        let mut ports = None;
        while next_line(log, &mut line)? {
            let answer = answers
                .next()
                .unwrap_or_else(|| unlike("fewer answers than lines"))?;
            let is_spelled = spells(&line, &mut bytes);
            let kind = kind(&line, is_spelled.then_some(&bytes), ports);
            let Some((number, states)) = answer.split_at_checked(2) else {
                return unlike("an answer without a number");
            };
            if kind == Kind::Setup && number == DONE {
                ports = Some(bytes[1]);
            }
            *self.lines.entry((kind, number.to_string())).or_default() += 1;
            for state in states.as_bytes().chunks(2) {
                let state = String::from_utf8_lossy(state).into_owned();
                *self.states.entry(state).or_default() += 1;
            }
        }
        answers
            .next()
            .map_or(Ok(()), |_| unlike("more answers than lines"))
    }

    /// Writes the tables.
    pub fn write(&self, output: &mut impl Write) -> Result<(), Error> {
        writeln!(output, "| line | answer | lines |\n|---|---|---|")?;
        for ((kind, number), count) in &self.lines {
            writeln!(output, "| {} | {number} | {count} |", kind.name())?;
        }
        let all: u64 = self.lines.values().sum();
        writeln!(output, "| all | | {all} |\n")?;
        writeln!(output, "| state | ports |\n|---|---|")?;
        for (state, count) in &self.states {
            writeln!(output, "| {state} | {count} |")?;
        }
        Ok(())
    }
}

/// The answers are not those of the log.
fn unlike<T>(what: &str) -> Result<T, Error> {
    Err(Error::new(ErrorKind::InvalidData, what))
}

/// The kind of a line, of its bytes if it spells any, where a book has so many ports if there is one.
fn kind(line: &[u8], bytes: Option<&Vec<u8>>, ports: Option<u8>) -> Kind {
    let Some(bytes) = bytes else {
        return match line.iter().all(u8::is_ascii_hexdigit) {
            _ if line.len() > MAX_DIGITS => Kind::TooLong,
            true => Kind::OddDigits,
            false => Kind::NoDigit,
        };
    };
    let setup_size = |count: u8| SETUP_SIZE + INTERVAL_SIZE * usize::from(count);
    match (bytes.as_slice(), ports) {
        ([], _) => Kind::Empty,
        ([SETUP, count, ..], _) if bytes.len() == setup_size(*count) => Kind::Setup,
        ([SETUP, ..], _) => Kind::SetupLength,
        (_, None) => Kind::BeforeSetup,
        ([FRAME], _) => Kind::NoPort,
        ([FRAME, ..], _) => Kind::Frame,
        ([STEP, step @ ..], _) if step.len() == size_of::<u64>() => Kind::Step,
        ([STEP, ..], _) => Kind::StepLength,
        ([DECISION, listening], Some(ports)) if u16::from(*listening) >> ports > 0 => {
            Kind::BitAbove
        }
        ([DECISION, _], _) => Kind::Decision,
        ([DECISION, ..], _) => Kind::DecisionLength,
        _ => Kind::UnknownKind,
    }
}
