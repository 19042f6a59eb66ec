//! The decision.
use super::store::*;
use super::*;
use std::cmp::Ordering::{Equal, Greater, Less};

/// Our own data, and which ports listen.
#[derive(Clone, Copy, Debug)]
pub struct Own {
    pub priority_1: u8,
    pub class: u8,
    pub accuracy: u8,
    pub variance: u16,
    pub priority_2: u8,
    pub listening: u8,
}

impl Own {
    /// Priority 1, class, accuracy, variance and priority 2 as one number.
    fn high(&self) -> u64 {
        (self.priority_1 as u64) << 40
            | (self.class as u64) << 32
            | (self.accuracy as u64) << 24
            | (self.variance as u64) << 8
            | self.priority_2 as u64
    }
}

/// What the choice reads of an offered message, and where it stands.
#[derive(Clone, Copy)]
struct Candidate {
    high: u64,
    grandmaster: u64,
    steps: u16,
    sender: u64,
    port: usize,
    age: u64,
    place: usize,
}

/// The one held stays. No sender is our own clock, so one grandmaster's messages stand in one row.
fn stays(held: &Candidate, next: &Candidate) -> bool {
    if held.grandmaster == next.grandmaster {
        (held.steps, held.sender, held.port, held.age)
            < (next.steps, next.sender, next.port, next.age)
    } else {
        (held.high, held.grandmaster) < (next.high, next.grandmaster)
    }
}

fn keep(held: Option<Candidate>, next: Candidate) -> Option<Candidate> {
    match held {
        Some(held) if stays(&held, &next) => Some(held),
        _ => Some(next),
    }
}

/// The Erbest of a port: from the last master to the first, those with two messages or more. These are consumed, but for the winner's.
fn take_winner(words: &mut Port, port: usize, consumed: &mut u64) -> Option<Candidate> {
    let mut held = None;
    let masters = masters_mut(words);
    for (place, master) in masters.iter_mut().enumerate().rev() {
        if master[3] >= 2 {
            master[3] -= 1;
            *consumed += 1;
            let newest = slot(master, master[3]);
            let next = Candidate {
                high: newest[5] >> 16,
                grandmaster: newest[0],
                steps: steps(newest),
                sender: master[0],
                port,
                age: newest[2],
                place,
            };
            held = keep(held, next);
        }
    }
    if let Some(winner) = &held {
        masters[winner.place][3] += 1;
        *consumed -= 1;
    }
    held
}

/// Our own data ranks below a candidate.
fn below(clock: u64, own: &Own, best: &Candidate) -> bool {
    if best.grandmaster == clock {
        best.steps == 0 && best.sender < clock
    } else {
        (best.high, best.grandmaster) < (own.high(), clock)
    }
}

/// The first ranks above the second by the network's topology alone.
fn by_topology(clock: u64, a: &Candidate, b: &Candidate) -> bool {
    a.grandmaster == b.grandmaster
        && match a.steps.cmp(&b.steps) {
            Less => a.steps + 1 == b.steps && b.sender < clock,
            Equal => (a.sender, a.port) < (b.sender, b.port),
            Greater => false,
        }
}

/// The announce in a slot, from its sender.
pub fn announce_words(slot: &Slot, clock: u64, port: u64) -> [u64; ANNOUNCE_WORDS] {
    let [grandmaster, correction, _, _, counts, quality, origin, rest] = *slot;
    [
        origin >> 4 & 0xF00 | origin & 0xFF,
        rest >> 8 & 0xF,
        rest >> 12 & 0xF,
        rest & 0xFF,
        rest >> 16 & 0x677F,
        correction,
        clock,
        port & 0xFFFF,
        counts >> 32 & 0xFFFF,
        quality & 0xFF,
        origin >> 16,
        rest >> 32,
        counts & 0xFFFF,
        quality >> 56,
        quality >> 48 & 0xFF,
        quality >> 40 & 0xFF,
        quality >> 24 & 0xFFFF,
        quality >> 16 & 0xFF,
        grandmaster,
        counts >> 16 & 0xFFFF,
        quality >> 8 & 0xFF,
    ]
}

/// The message of a winner.
fn message(store: &[u64], winner: &Candidate) -> [u64; ANNOUNCE_WORDS] {
    let master = &masters(&ports(store)[winner.port])[winner.place];
    announce_words(slot(master, master[3] - 1), master[0], master[1])
}

#[no_mangle]
#[inline(never)]
pub fn plain_decide(store: &mut [u64], own: &Own, answer: &mut [u64]) -> u32 {
    let Some(answer) = answer.first_chunk_mut::<DECISION_WORDS>() else {
        return SHORT;
    };
    let refused = plain_check(store);
    if refused != DONE {
        return refused;
    }
    let clock = store[1];
    let mut consumed = 0;
    let mut winners = [None; PORTS];
    let mut best = None;
    for (q, port) in ports_mut(store).iter_mut().enumerate() {
        winners[q] = take_winner(port, q, &mut consumed);
        if let Some(winner) = winners[q] {
            best = keep(best, winner);
        }
    }
    // What stands above our own data, with its message.
    let best = best.filter(|best| below(clock, own, best));
    let best = best.map(|best| (best, message(store, &best)));
    let none = [0; ANNOUNCE_WORDS];
    let count = store[0] as usize;
    let (head, states) = answer.split_at_mut(TALLY_WORDS + 1);
    head.copy_from_slice(&[0, 0, consumed, count as u64]);
    let states = states.as_chunks_mut::<STATE_WORDS>().0;
    for (q, state) in states.iter_mut().enumerate().take(count) {
        let (number, message) = match (&winners[q], &best) {
            (None, _) if own.listening >> q & 1 == 1 => (0, none),
            (Some(port), _) if (1..=127).contains(&own.class) && below(clock, own, port) => {
                (4, message(store, port))
            }
            _ if (1..=127).contains(&own.class) => (1, none),
            (_, None) => (2, none),
            (Some(_), Some((best, ebest))) if best.port == q => (6, *ebest),
            (Some(port), Some((best, _))) if by_topology(clock, best, port) => {
                (5, message(store, port))
            }
            (_, Some((_, ebest))) => (3, *ebest),
        };
        state[0] = number;
        state[1..].copy_from_slice(&message);
    }
    states[count..].as_flattened_mut().fill(0);
    DONE
}
