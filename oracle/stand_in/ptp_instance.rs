// Stands in for the crate's ptp_instance: the state that an own announce is made of.

use crate::datastructures::datasets::{CurrentDS, InternalDefaultDS, ParentDS, TimePropertiesDS};

pub struct PtpInstanceState {
    pub(crate) default_ds: InternalDefaultDS,
    pub(crate) current_ds: CurrentDS,
    pub(crate) parent_ds: ParentDS,
    pub(crate) time_properties_ds: TimePropertiesDS,
}
