// Lines: bytes in hexadecimal digits, read from the input and made; and the tokens of the answers.

use crate::random::Random;
use std::io::{BufRead, Error, ErrorKind, Write};

/// The longest frame, and the most bytes of any line.
pub const MAX_FRAME: usize = 2048;

/// Answers every line of the input, which holds one of what it is to hold, with a line of the output.
pub fn run(
    what: &str,
    mut answer: impl FnMut(&[u8]) -> Option<String>,
    input: &mut impl BufRead,
    output: &mut impl Write,
) -> Result<(), Error> {
    let (mut line, mut bytes) = (Vec::new(), Vec::new());
    for number in 1_u64.. {
        line.clear();
        if input.read_until(b'\n', &mut line)? == 0 {
            break;
        }
        let digits = line.strip_suffix(b"\n").unwrap_or(&line);
        let text = spells(digits, &mut bytes).then(|| answer(&bytes));
        let Some(text) = text.flatten() else {
            let wanted = format!("{what} of at most {MAX_FRAME} bytes in hexadecimal");
            let text = format!("line {number}: no {wanted}");
            return Err(Error::new(ErrorKind::InvalidData, text));
        };
        writeln!(output, "{text}")?;
    }
    Ok(())
}

/// Writes so many lines as they are made from a seed, digits or any other bytes.
pub fn make(
    mut line: impl FnMut(u64, &mut Random) -> Vec<u8>,
    seed: u64,
    count: u64,
    output: &mut impl Write,
) -> Result<(), Error> {
    let mut random = Random::new(seed);
    for index in 0..count {
        output.write_all(&line(index, &mut random))?;
        output.write_all(b"\n")?;
    }
    Ok(())
}

/// The value of a byte as a hexadecimal digit of either case; NO_DIGIT for any other byte.
const VALUES: [u8; 256] = values();
const NO_DIGIT: u8 = 0xff;

const fn values() -> [u8; 256] {
    let mut values = [NO_DIGIT; 256];
    let mut value = 0;
    while value < 16 {
        values[b"0123456789abcdef"[value] as usize] = value as u8;
        values[b"0123456789ABCDEF"[value] as usize] = value as u8;
        value += 1;
    }
    values
}

/// Whether a line spells bytes; these are then in the buffer, which is used again for each line.
pub fn spells(digits: &[u8], bytes: &mut Vec<u8>) -> bool {
    bytes.clear();
    if digits.len() % 2 != 0 || digits.len() > 2 * MAX_FRAME {
        return false;
    }
    let value = |digit: u8| VALUES[usize::from(digit)];
    let mut all = 0;
    bytes.extend(digits.chunks_exact(2).map(|pair| {
        let (high, low) = (value(pair[0]), value(pair[1]));
        all |= high | low;
        high << 4 | low
    }));
    all < 16
}

/// The digits of a line, in upper case.
pub fn digits(line: &[u8]) -> Vec<u8> {
    let text: String = line.iter().map(|byte| format!("{byte:02X}")).collect();
    text.into_bytes()
}

/// A flag or the sign of a number: one digit.
pub fn sign(set: bool) -> String {
    u8::from(set).to_string()
}

/// Bytes: two digits each.
pub fn hex(bytes: &[u8]) -> String {
    bytes.iter().map(|byte| format!("{byte:02x}")).collect()
}
