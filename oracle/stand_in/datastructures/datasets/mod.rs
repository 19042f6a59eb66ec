// Stands in for the crate's datastructures/datasets/mod.rs: the data sets the excerpts name.

use super::common::{ClockIdentity, ClockQuality, LeapIndicator, TimeSource};
pub(crate) use default::InternalDefaultDS;

mod default;

#[derive(Debug, Clone, Copy, PartialEq, Eq)]
pub struct TimePropertiesDS {
    pub current_utc_offset: Option<i16>,
    pub leap_indicator: LeapIndicator,
    pub time_traceable: bool,
    pub frequency_traceable: bool,
    pub ptp_timescale: bool,
    pub time_source: TimeSource,
}

pub struct CurrentDS {
    pub steps_removed: u16,
}

pub struct ParentDS {
    pub grandmaster_identity: ClockIdentity,
    pub grandmaster_clock_quality: ClockQuality,
    pub grandmaster_priority_1: u8,
    pub grandmaster_priority_2: u8,
}
