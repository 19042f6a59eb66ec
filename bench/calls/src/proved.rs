//! The calls of target/staticlib/librillarch.a, over slices.
use crate::plain::Own;

mod library {
    extern "C" {
        pub fn rillarch_store_words() -> u32;
        pub fn rillarch_check(store: *const u64, words: u64) -> u32;
        pub fn rillarch_register(
            store: *mut u64,
            words: u64,
            port: u16,
            frame: *const u8,
            bytes: u64,
            answer: *mut u64,
            answer_words: u64,
        ) -> u32;
        pub fn rillarch_age(
            store: *mut u64,
            words: u64,
            step: u64,
            answer: *mut u64,
            answer_words: u64,
        ) -> u32;
        pub fn rillarch_decide(
            store: *mut u64,
            words: u64,
            priority_1: u8,
            class: u8,
            accuracy: u8,
            variance: u16,
            priority_2: u8,
            listening: u8,
            answer: *mut u64,
            answer_words: u64,
        ) -> u32;
        pub fn rillarch_read_frame(
            frame: *const u8,
            bytes: u64,
            answer: *mut u64,
            answer_words: u64,
        ) -> u32;
        pub fn rillarch_write_announce(
            announce: *const u64,
            words: u64,
            tlvs: *const u8,
            tlv_bytes: u64,
            buffer: *mut u8,
            buffer_bytes: u64,
        ) -> u32;
    }
}

// SAFETY, of every call below: each pointer and length are those of a slice that is lent for the call.

pub fn store_words() -> usize {
    // SAFETY: it is lent nothing.
    unsafe { library::rillarch_store_words() as usize }
}

pub fn check(store: &[u64]) -> u32 {
    unsafe { library::rillarch_check(store.as_ptr(), store.len() as u64) }
}

pub fn register(store: &mut [u64], port: u16, frame: &[u8], answer: &mut [u64]) -> u32 {
    unsafe {
        library::rillarch_register(
            store.as_mut_ptr(),
            store.len() as u64,
            port,
            frame.as_ptr(),
            frame.len() as u64,
            answer.as_mut_ptr(),
            answer.len() as u64,
        )
    }
}

pub fn age(store: &mut [u64], step: u64, answer: &mut [u64]) -> u32 {
    unsafe {
        library::rillarch_age(
            store.as_mut_ptr(),
            store.len() as u64,
            step,
            answer.as_mut_ptr(),
            answer.len() as u64,
        )
    }
}

pub fn decide(store: &mut [u64], own: &Own, answer: &mut [u64]) -> u32 {
    unsafe {
        library::rillarch_decide(
            store.as_mut_ptr(),
            store.len() as u64,
            own.priority_1,
            own.class,
            own.accuracy,
            own.variance,
            own.priority_2,
            own.listening,
            answer.as_mut_ptr(),
            answer.len() as u64,
        )
    }
}

pub fn read_frame(frame: &[u8], answer: &mut [u64]) -> u32 {
    unsafe {
        library::rillarch_read_frame(
            frame.as_ptr(),
            frame.len() as u64,
            answer.as_mut_ptr(),
            answer.len() as u64,
        )
    }
}

pub fn write_announce(announce: &[u64], tlvs: &[u8], buffer: &mut [u8]) -> u32 {
    unsafe {
        library::rillarch_write_announce(
            announce.as_ptr(),
            announce.len() as u64,
            tlvs.as_ptr(),
            tlvs.len() as u64,
            buffer.as_mut_ptr(),
            buffer.len() as u64,
        )
    }
}
