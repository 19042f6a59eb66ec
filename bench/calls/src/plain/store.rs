//! The layout of a store, as crates/store has it, and the check.
use super::{DONE, SHORT, UNSOUND};

pub const PORTS: usize = 8;
pub const MASTERS: usize = 8;
pub const ROOM: usize = 12;
pub const MESSAGES: usize = 8;
pub const LISTED: usize = 16;
pub const SLOT_WORDS: usize = 8;
pub const MASTER_WORDS: usize = 4 + MESSAGES * SLOT_WORDS;
pub const PORT_WORDS: usize = 4 + ROOM * MASTER_WORDS;
pub const HEAD_WORDS: usize = 4 + LISTED;
pub const STORE_WORDS: usize = HEAD_WORDS + PORTS * PORT_WORDS;

/// A slot: grandmaster, correction, age, receipt; sequence, steps, UTC offset; qualities; origin; nanoseconds and the rest.
pub type Slot = [u64; SLOT_WORDS];

/// A master: clock, port number, first slot, count of messages, slots.
pub type Master = [u64; MASTER_WORDS];

/// A port: interval, count of masters, two words that no call reads, masters.
pub type Port = [u64; PORT_WORDS];

/// Where message k of a master stands.
pub fn slot_at(master: &Master, k: u64) -> usize {
    4 + master[2].wrapping_add(k) as usize % MESSAGES * SLOT_WORDS
}

pub fn slot(master: &Master, k: u64) -> &Slot {
    let slots = master[4..].as_chunks().0;
    &slots[master[2].wrapping_add(k) as usize % MESSAGES]
}

pub fn steps(slot: &Slot) -> u16 {
    (slot[4] >> 16) as u16
}

pub fn sequence(slot: &Slot) -> u16 {
    (slot[4] >> 32) as u16
}

/// The masters of a port.
pub fn masters(port: &Port) -> &[Master] {
    let all = port[4..].as_chunks().0;
    &all[..(port[1] as usize).min(ROOM)]
}

pub fn masters_mut(port: &mut Port) -> &mut [Master] {
    let count = (port[1] as usize).min(ROOM);
    &mut port[4..].as_chunks_mut().0[..count]
}

/// The ports of a store, port 1 first.
pub fn ports(store: &[u64]) -> &[Port] {
    let all = store[HEAD_WORDS..].as_chunks().0;
    &all[..(store[0] as usize).min(PORTS)]
}

pub fn ports_mut(store: &mut [u64]) -> &mut [Port] {
    let count = (store[0] as usize).min(PORTS);
    &mut store[HEAD_WORDS..].as_chunks_mut().0[..count]
}

pub fn is_master(master: &Master, clock: u64, number: u16) -> bool {
    master[0] == clock && master[1] as u16 == number
}

/// Any clock, or those of the list.
pub fn acceptable(store: &[u64], clock: u64) -> bool {
    store[2] == 0 || store[4..4 + store[3] as usize].contains(&clock)
}

/// One pass over the messages of a master, which carries the last age and counts. Ages fall, so the first one's tells that all are
/// below the limit; steps and sequences are compared where they stand.
fn messages_sound(master: &Master, limit: u64) -> bool {
    let first = slot(master, 0);
    let (mut age, mut counts) = (first[2], first[4]);
    if age >= limit || counts & 0xFFFF_0000 >= 255 << 16 {
        return false;
    }
    for k in 1..master[3] {
        let next = slot(master, k);
        let far = (next[4] >> 32).wrapping_sub(counts >> 32) & 0xFFFF;
        if next[2] > age || next[4] & 0xFFFF_0000 >= 255 << 16 || far >= 32767 {
            return false;
        }
        (age, counts) = (next[2], next[4]);
    }
    true
}

fn port_sound(store: &[u64], port: &Port) -> bool {
    if port[0] < 1 || port[0] >= 1 << 60 || port[1] > MASTERS as u64 {
        return false;
    }
    let masters = masters(port);
    masters.iter().enumerate().all(|(i, master)| {
        let (clock, number) = (master[0], master[1] as u16);
        !masters[..i]
            .iter()
            .any(|other| is_master(other, clock, number))
            && (1..=MESSAGES as u64).contains(&master[3])
            && clock != store[1]
            && acceptable(store, clock)
            && messages_sound(master, 4 * port[0])
    })
}

fn sound(store: &[u64]) -> bool {
    (1..=PORTS as u64).contains(&store[0])
        && store[3] <= LISTED as u64
        && ports(store).iter().all(|port| port_sound(store, port))
}

#[no_mangle]
#[inline(never)]
pub fn plain_check(store: &[u64]) -> u32 {
    if store.len() < STORE_WORDS {
        SHORT
    } else if sound(store) {
        DONE
    } else {
        UNSOUND
    }
}
