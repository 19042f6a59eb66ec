//! Times the proved calls beside Rust written for the purpose over the same words, and beside the crate statime's own code.
mod compare;
mod crate_code;
mod inputs;
mod plain;
mod proved;
mod rows;

use rows::{Row, Side};
use std::hint::black_box;
use std::process::ExitCode;
use std::time::Instant;

/// How many blocks of slices a row has, how many slices a block, and how many before them are not counted.
const BLOCKS: usize = 20;
const SLICES: usize = 100;
const WARMING: usize = 5;

/// So many calls on the inputs in turn; ns a call.
fn slice(side: &mut Side, calls: usize, inputs: usize) -> f64 {
    let start = Instant::now();
    for i in (0..inputs).cycle().take(calls) {
        black_box(side(i));
    }
    start.elapsed().as_nanos() as f64 / calls as f64
}

fn quantile(list: &[f64], part: f64) -> f64 {
    let mut list = list.to_vec();
    list.sort_by(f64::total_cmp);
    list[(list.len() as f64 * part) as usize]
}

fn median(list: &[f64]) -> f64 {
    quantile(list, 0.5)
}

/// One block of slices of some sides in turn, so that what slows the machine slows all; each comes first in its turn.
fn block(row: &Row, sides: &mut [Side], taken: &mut [Vec<f64>]) {
    for turn in 0..WARMING + SLICES {
        let count = sides.len();
        for which in (0..count).map(|k| (k + turn) % count) {
            let ns = slice(&mut sides[which], row.calls, row.inputs.frames.len());
            if turn >= WARMING {
                taken[which].push(ns);
            }
        }
    }
}

fn ns(ns: f64) -> String {
    if ns >= 100.0 {
        format!("{ns:.0}")
    } else {
        format!("{ns:.1}")
    }
}

/// The ratio of the medians, less what was made ready, and the middle half of the ratios of neighbouring slices.
fn by_rust([copy, proved, rust]: &[Vec<f64>; 3]) -> String {
    let slices = copy.iter().zip(proved.iter().zip(rust));
    let each: Vec<f64> = slices
        .map(|(copy, (a, b))| (a - copy) / (b - copy))
        .collect();
    let ratio = (median(proved) - median(copy)) / (median(rust) - median(copy));
    let (low, high) = (quantile(&each, 0.25), quantile(&each, 0.75));
    format!("{ratio:.2} ({low:.2} to {high:.2})")
}

/// Each call that is timed is done, and the crate's do the same.
fn good(row: &Row) -> Result<(), String> {
    let sides = row.sides().into_iter();
    for mut side in sides.chain(crate_code::sides(row).into_iter().flatten()) {
        for i in 0..row.inputs.frames.len() {
            let number = side(i);
            if number != plain::DONE {
                let (name, of) = (row.name(), row.of);
                return Err(format!("{name} on {of} is refused {number}, on input {i}"));
            }
        }
    }
    crate_code::agree(row)
}

/// Blocks of the words' sides and of the crate's take turns: its lists are large and would push the words out of the cache.
fn time(row: &Row) {
    let mut words = row.sides();
    let mut lists = crate_code::sides(row);
    let mut taken = [const { Vec::new() }; 3];
    let mut lists_taken = [const { Vec::new() }; 2];
    for _ in 0..BLOCKS {
        block(row, &mut words, &mut taken);
        if let Some(lists) = &mut lists {
            block(row, lists, &mut lists_taken);
        }
    }
    let [copy, proved, rust] = taken.each_ref().map(|list| median(list));
    let (proved, rust) = (proved - copy, rust - copy);
    let by_crate = lists.map(|_| {
        let [copy, whole] = lists_taken.each_ref().map(|list| median(list));
        let told = format!("{:.2}", proved / (whole - copy));
        [ns(whole - copy), told, ns(copy)]
    });
    let [by_crate, ratio, crate_copy] =
        by_crate.unwrap_or([crate_code::NONE, "-", "-"].map(String::from));
    let (name, of, by_rust) = (row.name(), row.of, by_rust(&taken));
    let (proved, rust, copy) = (ns(proved), ns(rust), ns(copy));
    println!("| {name} | {of} | {proved} | {rust} | {by_rust} | {by_crate} | {ratio} | {copy} | {crate_copy} |");
}

/// So many calls of one side alone, for a count of instructions; false where there is no such side.
fn only(who: &str, place: &str, calls: &str) -> Option<bool> {
    let place = place.parse().ok().filter(|place| *place < rows::COUNT)?;
    let (calls, row) = (calls.parse().ok()?, Row::new(place));
    let [_, proved, rust] = row.sides();
    let side = match who {
        "proved" => Some(proved),
        "rust" => Some(rust),
        "crate" => crate_code::sides(&row).map(|[_, whole]| whole),
        _ => return None,
    };
    Some(side.is_some_and(|mut side| {
        slice(&mut side, calls, row.inputs.frames.len());
        true
    }))
}

const USAGE: &str = "usage: calls [--compare | --rows | --only SIDE ROW CALLS | --help]

Compares the proved calls with the Rust on random inputs, and with the crate's
code on those that are timed, then times all and prints a table.

--compare  compares and does not time
--rows     prints a line for each row: what its functions' names end with, its
           call and its book, with | between
--only     makes so many calls of one side (proved, rust or crate) on the inputs
           of a row, which count from 0, or prints why there is no such side

exit: 0 done, 1 the sides answer differently or an input of some kind did not
occur, 2 bad usage, 3 --only: the crate has no such call, or no excerpts
";

const HEADINGS: &str = "
| call | book | proved ns | Rust ns | proved / Rust | crate ns | proved / crate | copy ns | crate's copy ns |
|---|---|---|---|---|---|---|---|---|";

fn main() -> ExitCode {
    let arguments: Vec<String> = std::env::args().skip(1).collect();
    let arguments: Vec<&str> = arguments.iter().map(String::as_str).collect();
    let rows = || (0..rows::COUNT).map(Row::new);
    let timed = match arguments[..] {
        [] => true,
        ["--compare"] => false,
        ["--help"] => {
            print!("{USAGE}");
            return ExitCode::SUCCESS;
        }
        ["--rows"] => {
            for row in rows() {
                println!("{}|{}|{}", row.symbol(), row.name(), row.of);
            }
            return ExitCode::SUCCESS;
        }
        ["--only", who, row, calls] => match only(who, row, calls) {
            Some(true) => return ExitCode::SUCCESS,
            Some(false) => {
                println!("{}", crate_code::NONE);
                return ExitCode::from(3);
            }
            None => return bad_usage(),
        },
        _ => return bad_usage(),
    };
    if let Err(why) = compare::compare().and_then(|()| rows().try_for_each(|row| good(&row))) {
        eprintln!("calls: {why}");
        return ExitCode::from(1);
    }
    if timed {
        println!("{HEADINGS}");
        rows().for_each(|row| time(&row));
    }
    ExitCode::SUCCESS
}

fn bad_usage() -> ExitCode {
    eprint!("{USAGE}");
    ExitCode::from(2)
}
