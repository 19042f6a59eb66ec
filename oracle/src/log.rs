// The subcommand log: the paper's log program, driven by the crate's own code.

use crate::bmc::foreign_master::ForeignMaster;
use crate::book_worlds::MAX_MASTERS;
use crate::books::{announce, Acceptable, Book, MAX_PORTS};
use crate::datastructures::datasets::InternalDefaultDS;
use crate::datastructures::messages::AnnounceMessage;
use crate::decisions;
use crate::lines::{spells, MAX_FRAME};
use crate::records::Rest;
use std::io::{BufRead, Error, Read, Write};

/// The first byte of a line says what it is.
pub const SETUP: u8 = 0;
pub const FRAME: u8 = 1;
pub const STEP: u8 = 2;
pub const DECISION: u8 = 3;

/// The most digits of a line.
pub const MAX_DIGITS: usize = 2 * MAX_FRAME;

/// The bytes of a setup line without ports, and of each port's interval.
pub const SETUP_SIZE: usize = 16;
pub const INTERVAL_SIZE: usize = 8;

/// A number of the paper's table, as the program writes it; those of frames come from their reader.
type Number = &'static str;
pub const DONE: Number = "00";
const NO_PORT: Number = "06";
const FROM_OWN_PORT: Number = "07";
const FROM_OWN_CLOCK: Number = "09";
const OLD_SEQUENCE: Number = "0A";
const MANY_STEPS: Number = "0B";
const NINTH_MASTER: Number = "0C";
const LONG_STEP: Number = "0D";
const OUT_OF_RANGE: Number = "0E";
const SHAPE: Number = "11";

/// A sequence this far or farther from the last one held is old, and so many steps are too many.
const SEQUENCE_LIMIT: u16 = 32767;
const STEPS_LIMIT: u16 = 255;

/// Answers every line of the input with a line of the output.
pub fn run(input: &mut impl BufRead, output: &mut impl Write) -> Result<(), Error> {
    let mut log = Log {
        book: Book::new(),
        own: None,
    };
    let mut line = Vec::with_capacity(MAX_DIGITS + 1);
    let mut bytes = Vec::with_capacity(MAX_FRAME);
    while next_line(input, &mut line)? {
        if spells(&line, &mut bytes) {
            log.answer(&bytes, output)?;
        } else {
            output.write_all(SHAPE.as_bytes())?;
        }
        output.write_all(b"\n")?;
    }
    Ok(())
}

/// Whether there is another line; it is then in the buffer, without its end. Of a line that is too long
/// the buffer has one digit more than a line may have.
pub fn next_line(input: &mut impl BufRead, line: &mut Vec<u8>) -> Result<bool, Error> {
    line.clear();
    let most = MAX_DIGITS as u64 + 1;
    let read = input.by_ref().take(most).read_until(b'\n', line)?;
    if line.last() == Some(&b'\n') {
        line.pop();
    } else if line.len() > MAX_DIGITS {
        input.skip_until(b'\n')?;
    }
    Ok(read > 0)
}

/// The book and our own data; none before a first good setup.
struct Log {
    book: Book,
    own: Option<InternalDefaultDS>,
}

impl Log {
    /// Writes the answer to one line, without its end.
    fn answer(&mut self, line: &[u8], output: &mut impl Write) -> Result<(), Error> {
        let number = match (line, self.own) {
            ([SETUP, ..], _) => self.start(line),
            ([FRAME, port, frame @ ..], Some(_)) => self.register(*port, frame),
            ([STEP, step @ ..], Some(_)) => self.age(step),
            ([DECISION, listening], Some(own)) if self.is_of_ports(*listening) => {
                output.write_all(DONE.as_bytes())?;
                for state in self.book.states(&own, *listening) {
                    output.write_all(&[b'0', b'0' + decisions::number(&state)])?;
                }
                return Ok(());
            }
            _ => SHAPE,
        };
        output.write_all(number.as_bytes())
    }

    /// A setup: our own data, and an interval for each port that it counts.
    fn start(&mut self, line: &[u8]) -> Number {
        let [_, count, rest @ ..] = line else {
            return SHAPE;
        };
        let count = usize::from(*count);
        if line.len() != SETUP_SIZE + INTERVAL_SIZE * count {
            return SHAPE;
        }
        let mut rest = Rest(rest);
        let own = rest.own().expect("a setup has our own data");
        let intervals: Option<Vec<_>> = (0..count).map(|_| rest.interval()).collect();
        match intervals {
            Some(intervals) if (1..=MAX_PORTS).contains(&count) => {
                self.book = Book::fresh(own.clock_identity, &Acceptable::Any, &intervals);
                self.own = Some(own);
                DONE
            }
            _ => OUT_OF_RANGE,
        }
    }

    /// A frame at a port. The crate says only yes or no: why it stored nothing is told by the paper's
    /// tests on its own lists, and what these say must be what it did.
    fn register(&mut self, port: u8, frame: &[u8]) -> Number {
        let Some(place) = self.book.place(port) else {
            return NO_PORT;
        };
        let (header, announce) = match announce(frame) {
            Ok(read) => read,
            Err(refusal) => return refusal,
        };
        let number = self.refusal(place, &announce).unwrap_or(DONE);
        let did = self.book.hear(place, &header, &announce);
        assert_eq!(
            did,
            (number != FROM_OWN_PORT, usize::from(number == DONE)),
            "the paper answers {number}: the crate's yes and what it took in are not as expected, \
             at port {port}, {announce:?}"
        );
        number
    }

    /// Why an announce is not stored at a port, if it is not.
    fn refusal(&self, port: usize, announce: &AnnounceMessage) -> Option<Number> {
        let own = self.book.identity(port);
        let sender = announce.header.source_port_identity;
        let masters = self.book.masters(port);
        let is_sender = |master: &&ForeignMaster| master.foreign_master_port_identity == sender;
        let known = masters.iter().find(is_sender);
        let last = known.and_then(|master| master.announce_messages.last());
        let is_old = last.is_some_and(|last| {
            let sequence = announce.header.sequence_id;
            sequence.wrapping_sub(last.header.sequence_id) >= SEQUENCE_LIMIT
        });
        if sender == own {
            Some(FROM_OWN_PORT)
        } else if sender.clock_identity == own.clock_identity {
            Some(FROM_OWN_CLOCK)
        } else if is_old {
            Some(OLD_SEQUENCE)
        } else if announce.steps_removed >= STEPS_LIMIT {
            Some(MANY_STEPS)
        } else if known.is_none() && masters.len() >= MAX_MASTERS {
            Some(NINTH_MASTER)
        } else {
            None
        }
    }

    /// A step of age at all ports.
    fn age(&mut self, step: &[u8]) -> Number {
        if step.len() != size_of::<u64>() {
            return SHAPE;
        }
        let Some(step) = Rest(step).age() else {
            return LONG_STEP;
        };
        self.book.step_age(step);
        DONE
    }

    /// Whether the bits above the count of ports are zero.
    fn is_of_ports(&self, listening: u8) -> bool {
        u16::from(listening) >> self.book.count() == 0
    }
}
