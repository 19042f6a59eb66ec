//! Has the oracle answer lines: the program that oracle/build makes around the source files of the crate statime.
use std::env;
use std::io::{stderr, BufRead, BufReader, BufWriter, Write};
use std::path::{Path, PathBuf};
use std::process::{Command, Stdio};
use std::sync::OnceLock;
use std::thread;

/// The status of oracle/build where there are no excerpts of the crate or no rustc.
const NOT_AT_HAND: i32 = 3;

fn root() -> PathBuf {
    Path::new(env!("CARGO_MANIFEST_DIR")).join("../..")
}

/// Builds the program; none where that is not possible here.
fn built() -> Option<PathBuf> {
    let builder = root().join("oracle/build");
    let built = Command::new(&builder).output();
    let built = built.unwrap_or_else(|error| panic!("{}: {error}", builder.display()));
    let text = String::from_utf8_lossy(&built.stderr);
    match built.status.code() {
        Some(0) => Some(root().join("target/oracle/oracle")),
        Some(NOT_AT_HAND) if env::var("RILLARCH_ORACLE_REQUIRED").as_deref() != Ok("1") => {
            // written past the capture of the tests' output
            let _ = writeln!(
                stderr(),
                "skipped, nothing is compared with statime: {}",
                text.trim()
            );
            None
        }
        _ => panic!("the oracle is not built: {text}"),
    }
}

/// Has each line answered, and hands each answer with its place to a check. Where there is no oracle nothing is done.
pub fn compare(command: &str, lines: &[Vec<u8>], mut check: impl FnMut(usize, &str)) {
    static PROGRAM: OnceLock<Option<PathBuf>> = OnceLock::new();
    let Some(program) = PROGRAM.get_or_init(built) else {
        return;
    };
    let child = Command::new(program)
        .arg(command)
        .stdin(Stdio::piped())
        .stdout(Stdio::piped())
        .spawn();
    let mut child = child.expect("the oracle can be run");
    let input = child.stdin.take().expect("its input is piped");
    let output = child.stdout.take().expect("its output is piped");
    let mut answered = 0;
    thread::scope(|scope| {
        scope.spawn(move || {
            let mut input = BufWriter::new(input);
            for line in lines {
                // an oracle that stops early is told by the count of its answers
                if writeln!(input, "{}", hex(line)).is_err() {
                    return;
                }
            }
        });
        for answer in BufReader::new(output).lines() {
            check(answered, &answer.expect("answers are text"));
            answered += 1;
        }
    });
    let status = child.wait().expect("the oracle ends");
    assert!(
        status.success(),
        "the oracle ended with {status} at line {answered}"
    );
    assert_eq!(answered, lines.len(), "each line has an answer");
}

/// Bytes: two digits each.
pub fn hex(bytes: &[u8]) -> String {
    const DIGITS: &[u8; 16] = b"0123456789abcdef";
    let digit = |value: u8| char::from(DIGITS[usize::from(value)]);
    let pairs = bytes
        .iter()
        .map(|byte| [digit(byte >> 4), digit(byte & 15)]);
    pairs.flatten().collect()
}
