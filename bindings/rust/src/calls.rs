//! The calls of librillarch.a as include/rillarch.h declares them, and each as a safe function over slices.
use crate::{OwnData, Refusal};

#[cfg(test)]
mod contract;

/// How many words the blocks of the header take.
pub const TALLIES_WORDS: usize = 3;
pub const ANNOUNCE_WORDS: usize = 21;
pub const FRAME_WORDS: usize = ANNOUNCE_WORDS + 2;
pub const PORT_WORDS: usize = 1 + ANNOUNCE_WORDS;
pub const DECISION_WORDS: usize = TALLIES_WORDS + 1 + 8 * PORT_WORDS;
pub const CANDIDATE_WORDS: usize = 12;
pub const FOUND_WORDS: usize = 1 + CANDIDATE_WORDS;
pub const TLV_WORDS: usize = 5;

pub type Answer<const WORDS: usize> = Result<[u64; WORDS], Refusal>;

#[rustfmt::skip] // a line for each line of the header
extern "C" {
    fn rillarch_store_words() -> u32;
    fn rillarch_check(store: *const u64, store_words: u64) -> u32;
    fn rillarch_fresh_start(store: *mut u64, store_words: u64, own_clock: u64, any: u8, listed: *const u64, listed_count: u64, intervals: *const u64, ports: u64) -> u32;
    fn rillarch_register(store: *mut u64, store_words: u64, port: u16, frame: *const u8, frame_bytes: u64, answer: *mut u64, answer_words: u64) -> u32;
    fn rillarch_age(store: *mut u64, store_words: u64, step: u64, answer: *mut u64, answer_words: u64) -> u32;
    fn rillarch_decide(store: *mut u64, store_words: u64, priority_1: u8, class_: u8, accuracy: u8, variance: u16, priority_2: u8, listening: u8, answer: *mut u64, answer_words: u64) -> u32;
    fn rillarch_candidate(store: *const u64, store_words: u64, place: u64, answer: *mut u64, answer_words: u64) -> u32;
    fn rillarch_compare(left: *const u64, left_words: u64, right: *const u64, right_words: u64, answer: *mut u64, answer_words: u64) -> u32;
    fn rillarch_choose(candidates: *const u64, candidate_words: u64, answer: *mut u64, answer_words: u64) -> u32;
    fn rillarch_read_frame(frame: *const u8, frame_bytes: u64, answer: *mut u64, answer_words: u64) -> u32;
    fn rillarch_write_announce(announce: *const u64, announce_words: u64, tlvs: *const u8, tlv_bytes: u64, buffer: *mut u8, buffer_bytes: u64) -> u32;
    fn rillarch_tlv_entry(tlvs: *const u8, tlv_bytes: u64, place: u64, answer: *mut u64, answer_words: u64) -> u32;
}

/// A slice as the calls take one that they read: where it stands, and how many elements it has. The pointer is never null.
fn read<T>(slice: &[T]) -> (*const T, u64) {
    (slice.as_ptr(), slice.len() as u64)
}

/// A slice as the calls take one that they write, which is lent to them alone.
fn lent<T>(slice: &mut [T]) -> (*mut T, u64) {
    let count = slice.len() as u64;
    (slice.as_mut_ptr(), count)
}

/// The result of a call, which is 0 or the number of a refusal.
fn done(number: u32) -> Result<(), Refusal> {
    if number == 0 {
        return Ok(());
    }
    let refusal = u8::try_from(number).ok().and_then(Refusal::from_number);
    Err(refusal.unwrap_or_else(|| panic!("{number} is no number of the paper's table")))
}

/// What a call writes into an answer that has room for it.
fn answered<const WORDS: usize>(call: impl FnOnce(*mut u64, u64) -> u32) -> Answer<WORDS> {
    let mut answer = [0; WORDS];
    let (pointer, words) = lent(&mut answer);
    done(call(pointer, words))?;
    Ok(answer)
}

pub fn store_words() -> usize {
    // SAFETY: the call takes nothing.
    let words = unsafe { rillarch_store_words() };
    words as usize
}

pub fn check(store: &[u64]) -> Result<(), Refusal> {
    let (store, words) = read(store);
    // SAFETY: pointer and count are those of a slice that outlives the call.
    done(unsafe { rillarch_check(store, words) })
}

pub fn fresh_start(
    store: &mut [u64],
    own_clock: u64,
    any: bool,
    listed: &[u64],
    intervals: &[u64],
) -> Result<(), Refusal> {
    let (store, words) = lent(store);
    let (listed, listed_count) = read(listed);
    let (intervals, ports) = read(intervals);
    let any = any.into();
    // SAFETY: pointers and counts are those of slices that outlive the call, and the store is lent to it alone.
    done(unsafe {
        rillarch_fresh_start(
            store,
            words,
            own_clock,
            any,
            listed,
            listed_count,
            intervals,
            ports,
        )
    })
}

pub fn register(store: &mut [u64], port: u16, frame: &[u8]) -> Answer<TALLIES_WORDS> {
    let (store, words) = lent(store);
    let (frame, bytes) = read(frame);
    answered(|answer, room| {
        // SAFETY: pointers and counts are those of slices that outlive the call; store and answer are lent to it alone.
        unsafe { rillarch_register(store, words, port, frame, bytes, answer, room) }
    })
}

pub fn age(store: &mut [u64], step: u64) -> Answer<TALLIES_WORDS> {
    let (store, words) = lent(store);
    answered(|answer, room| {
        // SAFETY: pointers and counts are those of slices that outlive the call and are lent to it alone.
        unsafe { rillarch_age(store, words, step, answer, room) }
    })
}

pub fn decide(store: &mut [u64], own: &OwnData, listening: u8) -> Answer<DECISION_WORDS> {
    let (store, words) = lent(store);
    let quality = own.clock_quality;
    answered(|answer, room| {
        // SAFETY: pointers and counts are those of slices that outlive the call and are lent to it alone.
        unsafe {
            rillarch_decide(
                store,
                words,
                own.priority_1,
                quality.clock_class,
                quality.clock_accuracy,
                quality.offset_scaled_log_variance,
                own.priority_2,
                listening,
                answer,
                room,
            )
        }
    })
}

pub fn candidate(store: &[u64], place: u64) -> Answer<FOUND_WORDS> {
    let (store, words) = read(store);
    answered(|answer, room| {
        // SAFETY: pointers and counts are those of slices that outlive the call, and the answer is lent to it alone.
        unsafe { rillarch_candidate(store, words, place, answer, room) }
    })
}

pub fn compare(left: &[u64], right: &[u64]) -> Answer<1> {
    let (left, left_words) = read(left);
    let (right, right_words) = read(right);
    answered(|answer, room| {
        // SAFETY: pointers and counts are those of slices that outlive the call, and the answer is lent to it alone.
        unsafe { rillarch_compare(left, left_words, right, right_words, answer, room) }
    })
}

pub fn choose(candidates: &[u64]) -> Answer<FOUND_WORDS> {
    let (candidates, words) = read(candidates);
    answered(|answer, room| {
        // SAFETY: pointers and counts are those of slices that outlive the call, and the answer is lent to it alone.
        unsafe { rillarch_choose(candidates, words, answer, room) }
    })
}

pub fn read_frame(frame: &[u8]) -> Answer<FRAME_WORDS> {
    let (frame, bytes) = read(frame);
    answered(|answer, room| {
        // SAFETY: pointers and counts are those of slices that outlive the call, and the answer is lent to it alone.
        unsafe { rillarch_read_frame(frame, bytes, answer, room) }
    })
}

pub fn write_announce(announce: &[u64], tlvs: &[u8], buffer: &mut [u8]) -> Result<(), Refusal> {
    let (announce, words) = read(announce);
    let (tlvs, bytes) = read(tlvs);
    let (buffer, room) = lent(buffer);
    // SAFETY: pointers and counts are those of slices that outlive the call, and the buffer is lent to it alone.
    done(unsafe { rillarch_write_announce(announce, words, tlvs, bytes, buffer, room) })
}

pub fn tlv_entry(tlvs: &[u8], place: u64) -> Answer<TLV_WORDS> {
    let (tlvs, bytes) = read(tlvs);
    answered(|answer, room| {
        // SAFETY: pointers and counts are those of slices that outlive the call, and the answer is lent to it alone.
        unsafe { rillarch_tlv_entry(tlvs, bytes, place, answer, room) }
    })
}
