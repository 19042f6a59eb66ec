// The endings of some histories of log-lines, which make a log tell what only the lists of a book hold.

use crate::book_history::{step_line, History, LONGEST_STEP, MAX_MESSAGES};
use crate::book_worlds::{frame_line, Content, Sender, MAX_MASTERS};
use crate::random::Random;
use crate::tlv_frames::message;

/// How far a sequence is behind that of the last message held where it is one older, and where it is old
/// by the least.
const ONE_OLDER: u16 = 65535;
const LEAST_OLD: u16 = 32767;

/// Adds more messages of a few senders than a master's list has room for, and decisions until nothing is
/// consumed any more. Then come frames on both sides of what is old, which tell the last message that is
/// held, and so how many there were.
pub fn drained(history: &mut History, random: &mut Random) {
    let port = history.world.port(random);
    let senders: Vec<Sender> = history.world.senders.iter().copied().take(3).collect();
    for _ in 0..MAX_MESSAGES + 1 + random.below(2) {
        for sender in &senders {
            history.plain_frame(port, *sender, random);
        }
    }
    history.decisions(senders.len() * MAX_MESSAGES, random);
    for sender in senders {
        let last = history.last_held(port, sender).unwrap_or(0);
        for difference in [ONE_OLDER, LEAST_OLD, random.of(&[0, 1, LEAST_OLD - 1])] {
            let content = some_content(history, random);
            heard(
                history,
                port,
                sender,
                last.wrapping_add(difference),
                content,
                random,
            );
        }
    }
}

/// Empties the book, and adds masters that tell the same: ports of one clock, of which the first ages out.
/// The one that then comes first wins, and the others are consumed: frames that are one older than the
/// last tell which.
pub fn reordered(history: &mut History, random: &mut Random) {
    let port = history.world.port(random);
    let interval = history.world.intervals[port];
    let (clock, _) = history.world.senders[0];
    let count = 3 + random.below(MAX_MASTERS - 2) as u16;
    let first = random.next() as u16;
    let content = some_content(history, random);
    history.add(step_line(LONGEST_STEP));
    heard(history, port, (clock, 1), first, content, random);
    history.add(step_line(interval));
    for number in (2..=count).flat_map(|number| [number; 2]) {
        let sender = (clock, number);
        let held = history.last_held(port, sender);
        let sequence = held.map_or(first, |last| last.wrapping_add(1));
        heard(history, port, sender, sequence, content, random);
    }
    history.add(step_line(3 * interval));
    history.decisions(1, random);
    for number in 1..=count {
        heard(history, port, (clock, number), first, content, random);
    }
    history.decisions(2, random);
}

/// What a frame with steps as most have them tells.
fn some_content(history: &History, random: &mut Random) -> Content {
    let steps = history.world.steps(random);
    history.world.content(steps, random)
}

/// Adds a plain announce.
fn heard(
    history: &mut History,
    port: usize,
    from: Sender,
    sequence: u16,
    content: Content,
    random: &mut Random,
) {
    let frame = message(&[], random);
    history.add(frame_line(frame, port, from, sequence, content));
}
