//! Decides which PTP master a boundary clock follows, by the proved calls of Rillarch.
//!
//! A [`Book`] holds what the ports of a clock have heard. It is set up with our own clock identity, the masters that are
//! acceptable and an interval for each port; announce frames are registered in it, it ages, and it is decided over. Ports count
//! from 1, lengths of time are in units of 2^-16 ns, and a call that is turned away gives a [`Refusal`] and changes nothing.
//!
//! ```
//! use rillarch::{Acceptable, Announce, Book, ClockQuality, OwnData, PortIdentity, State};
//!
//! // Two ports, to which a master is to send once a second; our clock is A.
//! let second = 1_000_000_000 << 16;
//! let mut book = Book::new(0xA, Acceptable::Any, &[second, second])?;
//!
//! // A master needs two messages to be considered.
//! let mut message = Announce {
//!     version_major: 2,
//!     source_port_identity: PortIdentity { clock_identity: 1, port_number: 1 },
//!     grandmaster_priority_1: 128,
//!     grandmaster_clock_quality: ClockQuality {
//!         clock_class: 6,
//!         clock_accuracy: 0x20,
//!         offset_scaled_log_variance: 0x4E5D,
//!     },
//!     grandmaster_priority_2: 128,
//!     grandmaster_identity: 1,
//!     ..Announce::default()
//! };
//! for sequence_id in [1, 2] {
//!     message.sequence_id = sequence_id;
//!     let mut frame = [0; 64];
//!     message.write(&[], &mut frame)?;
//!     book.register(1, &frame)?;
//! }
//!
//! let own = OwnData {
//!     priority_1: 128,
//!     clock_quality: ClockQuality {
//!         clock_class: 248,
//!         clock_accuracy: 0xFE,
//!         offset_scaled_log_variance: 0xFFFF,
//!     },
//!     priority_2: 128,
//! };
//! let decision = book.decide(&own, 0)?;
//! assert_eq!(decision.states, [State::S1(message), State::M3(message)]);
//! # Ok::<(), rillarch::Refusal>(())
//! ```
#![deny(unsafe_op_in_unsafe_fn, missing_docs)]

mod announce;
mod book;
mod calls;
mod candidate;
#[cfg(test)]
mod layout;
mod refusal;
mod tlv;

pub use announce::{Announce, ClockQuality, PortIdentity, Timestamp};
pub use book::{Acceptable, Book, Decision, OwnData, State, Tallies};
pub use candidate::{choose, Candidate, Verdict};
pub use refusal::Refusal;
pub use tlv::{tlvs, Tlv, Tlvs};
