// Stands in for the crate's bmc/acceptable_master.rs: the question that a port asks of a list.

use crate::datastructures::common::ClockIdentity;

pub trait AcceptableMasterList {
    fn is_acceptable(&self, identity: ClockIdentity) -> bool;
}
