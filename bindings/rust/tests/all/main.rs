//! The tests: concrete cases, laws, and comparisons with the crate statime by the oracle.
mod choices;
mod frames;
mod histories;
mod laws;
mod logs;
mod oracle;
mod random;
mod refusals;
mod worlds;
