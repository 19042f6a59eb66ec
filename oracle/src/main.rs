// The oracle: answers recorded inputs with the original source files of the crate statime 0.4.0.
#![allow(dead_code, unused)]

mod bmc;
mod book_history;
mod book_lines;
mod book_worlds;
mod books;
mod candidates;
mod codec;
mod config;
mod datastructures;
mod decision_lines;
mod decisions;
mod frames;
mod kinds;
mod lines;
mod log;
mod log_counts;
mod log_endings;
mod log_lines;
mod log_odd;
mod messages;
mod port;
mod ptp_instance;
mod random;
mod records;
mod state_lines;
mod time;
mod tlv_frames;

use lines::digits;
use log_counts::Counts;
use random::Random;
use std::fmt::Display;
use std::fs::File;
use std::io::{stdin, stdout, BufReader, BufWriter, Error, ErrorKind, Write};
use std::process::ExitCode;

const HELP: &str = "\
usage: oracle codec                      answer frames: header and announce
       oracle messages                   answer frames: messages with their TLVs
       oracle kinds                      write what each number of a TLV type is
       oracle decisions                  answer comparisons, choices and decisions
       oracle books                      answer what ports hear, hold and decide
       oracle log                        answer a log: the log program
       oracle frames SEED COUNT          write COUNT frames
       oracle tlv-frames SEED COUNT      write COUNT frames with TLVs
       oracle decision-lines SEED COUNT  write COUNT lines for decisions
       oracle book-lines SEED COUNT      write COUNT lines for books
       oracle log-lines SEED COUNT       write COUNT lines for log
       oracle log-counts ANSWERS         count a log's lines by their answers
       oracle log-counts LOG ANSWERS ..  the same for one or more logs
       oracle --help                     this text

codec, messages, decisions and books read standard input: each line 0 to 2,048
bytes in hexadecimal digits, for codec and messages a frame. They write a line
for each. All numbers are lower-case hexadecimal.

codec: 01 (too few bytes) or 02 (unknown type), or 00, the header's fields and
the header written again; for an announce then 01 (too few bytes), or 00, its
fields and the content written again. A signed number has a token before it, 1
if negative.

messages: 01 (too few bytes), 02 (unknown type), 03 (length field below 34), 04
(odd TLV length) or 05 (no announce), or 00; then four tokens for each TLV: its
type, the code of the type's name, 1 if it is passed on, and its length; then
the message written again and the two bytes behind it, which were a5 before.

kinds: a line for each run of numbers that are treated alike: the first, the
last, the code of their name, 1 if they are passed on, and 1 if the kind of a
number has that number. The code of a name is its place in the enum TlvType from
01 on, Reserved, Legacy and Experimental not counted: these are 00.

decisions: the first byte of a line says what is asked.
  00 SET SET                     the verdict on the first
  01 OWN SET                     the verdict on our own data
  02 CANDIDATE..                 the best candidate
  03 OWN LISTENING CANDIDATE..   a decision over 8 ports
  04 OWN LISTENS EBEST ERBEST    the recommended state of one port
  OWN        identity (8 bytes), PROFILE
  SET        PROFILE, grandmaster (8), steps removed (2), sender's identity (8),
             receiver's identity (8) and port (2)
  PROFILE    priority 1 (1), class (1), accuracy (1), variance (2), priority 2 (1)
  CANDIDATE  SET, age (8, below 2^62); at most 48 of them
  LISTENING  a byte, bit k-1 set if port k listens; LISTENS: 00 or 01
  EBEST      00, or 01, an announce of 64 bytes, its age (8), the receiver's
             identity (8) and port (2); ERBEST alike
The candidates of a decision stand in the order of the ports, 1 to 8, that
received them. The answer to 00 and 01 is the place of the verdict in the enum
DatasetOrdering, to 02 the place of the best, from 00 on. A decision is answered
with the best of all candidates, Ebest, and for each port Erbest, the number of
its state (00 stay, 01 M1, 02 M2, 03 M3, 04 P1, 05 P2, 06 S1) and what tells
which message or data that carries: the message's place as four digits, or our
priority 1 and class. 04 is answered with the number of the state and all that
it carries: OWN, or the message written again over zeros. - stands for none.

books: the first byte of a line says what is done. The first line is a 00.
  00 CLOCK RULE LENGTH LISTED.. INTERVAL..   a fresh start
  01 PORT FRAME                              a frame at a port
  02 STEP                                    a step of age at all ports
  03                                         nothing: the book is told in full
  04 PROFILE LISTENING                       a decision; both as for decisions
  CLOCK     our clock's identity (8 bytes)
  RULE      00 any sender is acceptable, 01 the clocks of the list are
  LENGTH    how many LISTED (8 bytes each) there are: 00 to 10
  INTERVAL  a port's (8 bytes), 1 to 2^60 - 1; 1 to 8 of them, port 1 first
  PORT      a byte, from 01 on
  FRAME     any bytes up to the end of the line
  STEP      8 bytes, below 2^62
Intervals, steps and ages are in units of 2^-16 ns. 00 is answered with 00 and
the book; 02 with 00, how many messages aged out and the book; 03 with the book
alone. 01 is answered as messages tells a refusal, or with 00, 1 if the crate
says true, how many messages were evicted, and the book. 04 is answered with 00,
how many candidates there were, the place of the best among all of them at once
(from 0 on, or - for none; port 1 first, within a port from the last master to
the first), how many messages were consumed, for each port the number of its
state and what that carries (OWN, a message's content as the book has it, or -
for none), and the book. Bits of LISTENING above the count are ignored.
The book has a | for each port and then its masters: clock (16 digits), a dot
and port (4 digits), followed by the master's messages: sequence (4 digits), age
and content with colons between. The content is the hash FNV-1a (8 digits) of
the 64 bytes of the message, written again over zeros; for 03 it is those bytes.
Ages, counts and places have no leading zeros.

log: reads standard input of any bytes. A line ends at LF or at the end of the
input, and has at most 4,096 hexadecimal digits of either case.
  00 COUNT CLOCK PROFILE INTERVAL..   a setup; COUNT (1) says how many intervals
  01 PORT FRAME                       a frame at a port
  02 STEP                             a step of age at all ports
  03 LISTENING                        a decision; bits above the count are zero
Each line is answered with its number, two upper-case digits: 00 done; 01 to 05
as messages tells a refusal of a frame; 06 no such port; 07 from our own port;
09 from our own clock; 0A an old sequence; 0B 255 steps or more; 0C a ninth
master; 0D a step of 2^62 or more; 0E port count or interval out of range; 11
any other line, and any but a setup before a first good one. A decision adds the
number of the state of each port. A refused setup leaves all as it was. Where
the crate did not do what a number says, the program panics.

log-counts: the log is standard input or a file LOG, and ANSWERS a file that has
a line for each of its lines. It writes how many lines of each kind gave each
number, and how many ports each state, as rows of Markdown.

frames, tlv-frames, decision-lines, book-lines and log-lines write the same for
the same SEED. SEED and COUNT are decimal numbers below 2^64.

exit: 0 done, 1 reading or writing failed, 2 bad usage, a line of another shape,
or answers that are not those of the log, 101 the crate differs from the paper
";

/// The subcommands that make lines from a seed.
const MAKERS: [&str; 5] = [
    "frames",
    "tlv-frames",
    "decision-lines",
    "book-lines",
    "log-lines",
];

/// How many bytes are read or written at once.
const BLOCK: usize = 1 << 16;

fn main() -> ExitCode {
    let args: Vec<String> = std::env::args_os()
        .skip(1)
        .map(|arg| arg.to_string_lossy().into_owned())
        .collect();
    let args: Vec<&str> = args.iter().map(String::as_str).collect();
    let mut output = BufWriter::with_capacity(BLOCK, stdout().lock());
    let done = match args[..] {
        ["--help" | "-h"] => output.write_all(HELP.as_bytes()),
        ["codec"] => answer("frame", |frame| Some(codec::answer(frame)), &mut output),
        ["messages"] => answer("frame", |frame| Some(messages::answer(frame)), &mut output),
        ["decisions"] => answer("question", decisions::answer, &mut output),
        ["books"] => {
            let mut book = books::Book::new();
            answer("line of a book", |line| book.answer(line), &mut output)
        }
        ["kinds"] => kinds::run(&mut output),
        ["log"] => {
            let mut input = BufReader::with_capacity(BLOCK, stdin().lock());
            log::run(&mut input, &mut output)
        }
        ["log-counts", ref files @ ..] if are_files_of_logs(files) => {
            log_counts(files).and_then(|counts| counts.write(&mut output))
        }
        ["log-counts", ..] => {
            return bad_usage("log-counts takes ANSWERS, or pairs of LOG and ANSWERS")
        }
        [name, seed, count] if MAKERS.contains(&name) => {
            let (Ok(seed), Ok(count)) = (seed.parse(), count.parse()) else {
                return bad_usage("SEED and COUNT are decimal numbers below 2^64");
            };
            let mut histories = book_lines::Histories::new();
            let mut logs = log_lines::Logs::new();
            let line = |index, random: &mut Random| match name {
                "frames" => digits(&frames::kept(frames::frame(index, random))),
                "tlv-frames" => digits(&frames::kept(tlv_frames::frame(index, random))),
                "decision-lines" => digits(&decision_lines::line(index, random)),
                "book-lines" => digits(&histories.line(random)),
                _ => logs.line(random),
            };
            lines::make(line, seed, count, &mut output)
        }
        [name, ..] if MAKERS.contains(&name) => {
            return bad_usage(&format!("{name} takes SEED and COUNT"))
        }
        [name @ ("codec" | "messages" | "kinds" | "decisions" | "books" | "log"), ..] => {
            return bad_usage(&format!("{name} takes no arguments"))
        }
        [] => return bad_usage("no subcommand"),
        [other, ..] => return bad_usage(&format!("unknown subcommand {other}")),
    };
    match done.and_then(|()| output.flush()) {
        Ok(()) => ExitCode::SUCCESS,
        Err(error) if error.kind() == ErrorKind::InvalidData => fail(2, error),
        Err(error) => fail(1, error),
    }
}

/// Whether there is one file of answers, or pairs of a log and its answers.
fn are_files_of_logs(files: &[&str]) -> bool {
    files.len() == 1 || files.len() > 0 && files.len() % 2 == 0
}

/// The counts of the log of standard input with one file of answers, or of pairs of files.
fn log_counts(files: &[&str]) -> Result<Counts, Error> {
    let mut counts = Counts::default();
    match files {
        [answers] => counts.add(&mut stdin().lock(), opened(answers)?)?,
        pairs => {
            for pair in pairs.chunks_exact(2) {
                counts.add(&mut opened(pair[0])?, opened(pair[1])?)?;
            }
        }
    }
    Ok(counts)
}

/// A file to read from.
fn opened(path: &str) -> Result<BufReader<File>, Error> {
    let named = |error: Error| Error::new(error.kind(), format!("{path}: {error}"));
    File::open(path).map(BufReader::new).map_err(named)
}

/// Answers the lines of standard input.
fn answer(
    what: &str,
    answer: impl FnMut(&[u8]) -> Option<String>,
    output: &mut impl Write,
) -> Result<(), Error> {
    lines::run(what, answer, &mut stdin().lock(), output)
}

fn bad_usage(text: &str) -> ExitCode {
    fail(2, format!("{text} (see oracle --help)"))
}

fn fail(code: u8, text: impl Display) -> ExitCode {
    eprintln!("oracle: {text}");
    ExitCode::from(code)
}
