// Stands in for the crate's bmc/mod.rs: names the files of the decision.

pub(crate) mod acceptable_master;
pub(crate) mod bmca;
pub(crate) mod dataset_comparison;
pub(crate) mod foreign_master;
