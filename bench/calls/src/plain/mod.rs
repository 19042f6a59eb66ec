//! The calls written in Rust for the purpose, over the same words as the proved ones, by include/rillarch.h.
mod age;
pub mod decide;
mod frame;
mod register;
pub mod store;

pub use age::plain_age;
pub use decide::{plain_decide, Own};
pub use frame::{plain_read_frame, plain_write_announce};
pub use register::plain_register;
pub use store::plain_check;

// The numbers of include/rillarch.h.
pub const DONE: u32 = 0;
pub const SHORT: u32 = 1;
pub const RESERVED_TYPE: u32 = 2;
pub const LENGTH_FIELD: u32 = 3;
pub const ODD_TLV: u32 = 4;
pub const NO_ANNOUNCE: u32 = 5;
pub const NO_PORT: u32 = 6;
pub const OWN_PORT: u32 = 7;
pub const NOT_ACCEPTABLE: u32 = 8;
pub const OWN_CLOCK: u32 = 9;
pub const SEQUENCE: u32 = 10;
pub const STEPS: u32 = 11;
pub const NINTH_MASTER: u32 = 12;
pub const LONG_STEP: u32 = 13;
pub const UNFIT: u32 = 15;
pub const UNSOUND: u32 = 16;

// How many words the answers take.
pub const TALLY_WORDS: usize = 3;
pub const ANNOUNCE_WORDS: usize = 21;
pub const FRAME_WORDS: usize = ANNOUNCE_WORDS + 2;
pub const STATE_WORDS: usize = 1 + ANNOUNCE_WORDS;
pub const DECISION_WORDS: usize = TALLY_WORDS + 1 + store::PORTS * STATE_WORDS;
