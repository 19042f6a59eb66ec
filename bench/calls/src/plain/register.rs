//! A registration.
use super::frame::{length, number};
use super::store::*;
use super::*;

/// The slot of a frame that is taken: age and receipt are 0.
fn slot_of(frame: &[u8]) -> Slot {
    let fields = |at: usize, width: usize| number(&frame[at..at + width]);
    let byte = |at: usize| frame[at] as u64;
    [
        fields(53, 8),
        fields(8, 8),
        0,
        0,
        fields(30, 2) << 32 | fields(61, 2) << 16 | fields(44, 2),
        fields(47, 6) << 16 | byte(63) << 8 | byte(33),
        fields(34, 6) << 16 | byte(0) << 8 | byte(5),
        fields(40, 4) << 32 | (fields(6, 2) & 0x677F) << 16 | byte(1) << 8 | byte(4),
    ]
}

/// A message at the end of a master's ring: the ninth takes the room of the first. How many were put out.
fn append(master: &mut Master, message: &Slot) -> u64 {
    let at = slot_at(master, master[3]);
    master[at..at + SLOT_WORDS].copy_from_slice(message);
    if master[3] < MESSAGES as u64 {
        master[3] += 1;
        0
    } else {
        master[2] = master[2].wrapping_add(1) % MESSAGES as u64;
        1
    }
}

#[no_mangle]
#[inline(never)]
pub fn plain_register(store: &mut [u64], port: u16, frame: &[u8], answer: &mut [u64]) -> u32 {
    let Some(answer) = answer.first_chunk_mut::<TALLY_WORDS>() else {
        return SHORT;
    };
    let refused = plain_check(store);
    if refused != DONE {
        return refused;
    }
    if port == 0 || port as u64 > store[0] {
        return NO_PORT;
    }
    if let Err(refused) = length(frame) {
        return refused;
    }
    let own = store[1];
    let clock = number(&frame[20..28]);
    let sender = number(&frame[28..30]) as u16;
    if clock == own && sender == port {
        return OWN_PORT;
    }
    if !acceptable(store, clock) {
        return NOT_ACCEPTABLE;
    }
    if clock == own {
        return OWN_CLOCK;
    }
    let message = slot_of(frame);
    let words = &mut ports_mut(store)[port as usize - 1];
    let known = masters(words)
        .iter()
        .position(|master| is_master(master, clock, sender));
    if let Some(place) = known {
        let master = &masters(words)[place];
        let last = sequence(slot(master, master[3] - 1));
        if sequence(&message).wrapping_sub(last) >= 32767 {
            return SEQUENCE;
        }
    }
    if steps(&message) >= 255 {
        return STEPS;
    }
    let evicted = match known {
        Some(place) => append(&mut masters_mut(words)[place], &message),
        None if words[1] == MASTERS as u64 => return NINTH_MASTER,
        None => {
            words[1] += 1;
            let master = masters_mut(words).last_mut().expect("one was counted");
            master[..4].copy_from_slice(&[clock, sender as u64, 0, 1]);
            master[4..4 + SLOT_WORDS].copy_from_slice(&message);
            0
        }
    };
    *answer = [evicted, 0, 0];
    DONE
}
