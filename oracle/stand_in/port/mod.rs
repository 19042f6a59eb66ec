// Stands in for the crate's port/mod.rs: names the file of the port states.

pub(crate) mod state;
