// Stands in for the crate's datastructures/common/leap_indicator.rs.

#[derive(Debug, Clone, Copy, PartialEq, Eq)]
pub enum LeapIndicator {
    NoLeap,
    Leap61,
    Leap59,
}
