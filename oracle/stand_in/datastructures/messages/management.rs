// Stands in for the crate's datastructures/messages/management.rs, which the comparison does not reach.

use crate::datastructures::{common::PortIdentity, WireFormat, WireFormatError};

#[derive(Debug, Clone, Copy, PartialEq, Eq)]
pub(crate) struct ManagementMessage {
    pub(crate) target_port_identity: PortIdentity,
    pub(crate) starting_boundary_hops: u8,
    pub(crate) boundary_hops: u8,
    pub(crate) action: u8,
}

impl ManagementMessage {
    pub(crate) fn content_size(&self) -> usize {
        14
    }

    pub(crate) fn serialize_content(&self, buffer: &mut [u8]) -> Result<(), WireFormatError> {
        buffer[10] = self.starting_boundary_hops;
        buffer[11] = self.boundary_hops;
        buffer[12] = self.action & 0x0f;
        buffer[13] = 0;
        self.target_port_identity.serialize(&mut buffer[0..10])
    }

    pub(crate) fn deserialize_content(buffer: &[u8]) -> Result<Self, WireFormatError> {
        let slice = buffer.get(0..14).ok_or(WireFormatError::BufferTooShort)?;
        Ok(Self {
            target_port_identity: PortIdentity::deserialize(&slice[0..10])?,
            starting_boundary_hops: slice[10],
            boundary_hops: slice[11],
            action: slice[12] & 0x0f,
        })
    }
}
