// Stands in for the crate's config: what the excerpts name of it.

use crate::datastructures::common::ClockIdentity;
pub use crate::datastructures::common::LeapIndicator;
use crate::datastructures::messages::SdoId;

pub struct InstanceConfig {
    pub clock_identity: ClockIdentity,
    pub priority_1: u8,
    pub priority_2: u8,
    pub domain_number: u8,
    pub slave_only: bool,
    pub sdo_id: SdoId,
}
