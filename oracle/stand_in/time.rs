// Stands in for the crate's time: moments, lengths of time and log intervals.

use crate::datastructures::common::TimeInterval;
use fixed::types::{I48F16, I96F32};
use std::ops::{AddAssign, Mul};

/// A moment, in units of 2^-32 ns.
#[derive(Debug, Clone, Copy, PartialEq, Eq, PartialOrd, Ord)]
pub struct Time(u128);

impl Time {
    pub fn secs(&self) -> u64 {
        ((self.0 >> 32) / 1_000_000_000) as u64
    }

    pub fn subsec_nanos(&self) -> u32 {
        ((self.0 >> 32) % 1_000_000_000) as u32
    }

    pub fn subnano(&self) -> TimeInterval {
        TimeInterval(I48F16::from_bits(((self.0 & 0xffff_ffff) >> 16) as i64))
    }
}

/// A length of time, in nanoseconds.
#[derive(Debug, Clone, Copy, PartialEq, Eq, PartialOrd, Ord)]
pub struct Duration(I96F32);

impl Duration {
    pub const ZERO: Self = Self(I96F32::from_bits(0));

    pub fn nanos(&self) -> I96F32 {
        self.0
    }
}

impl From<TimeInterval> for Duration {
    fn from(interval: TimeInterval) -> Self {
        Self(I96F32::from_bits(i128::from(interval.0.to_bits()) << 16))
    }
}

impl AddAssign for Duration {
    fn add_assign(&mut self, other: Self) {
        self.0 = I96F32::from_bits(self.0.to_bits() + other.0.to_bits());
    }
}

impl Mul<u16> for Duration {
    type Output = Self;

    fn mul(self, times: u16) -> Self {
        Self(I96F32::from_bits(self.0.to_bits() * i128::from(times)))
    }
}

/// An interval of 2^n seconds.
#[derive(Debug, Clone, Copy, PartialEq, Eq)]
pub struct Interval(i8);

impl Interval {
    pub fn as_log_2(self) -> i8 {
        self.0
    }
}
