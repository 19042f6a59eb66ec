// The subcommand kinds: what the crate makes of each number of a TLV type.

use crate::datastructures::common::TlvType;
use crate::lines::sign;
use std::io::{Error, Write};

/// Writes the numbers in order, a line for each run of numbers that the crate treats alike.
pub fn run(output: &mut impl Write) -> Result<(), Error> {
    let mut first = 0;
    for number in 0..=u16::MAX {
        if number == u16::MAX || tokens(number + 1) != tokens(number) {
            writeln!(output, "{first:04x} {number:04x} {}", tokens(number))?;
            first = number.wrapping_add(1);
        }
    }
    Ok(())
}

/// The code of a number's name, whether it is passed on, and whether its kind has the same number.
fn tokens(number: u16) -> String {
    let kind = TlvType::from_primitive(number);
    let code = name_code(kind);
    let passed_on = sign(kind.announce_propagate());
    let keeps = sign(kind.to_primitive() == number);
    format!("{code:02x} {passed_on} {keeps}")
}

/// The code of a kind's name: the place of the name in the table, and 0 where a kind has only a
/// number.
pub fn name_code(kind: TlvType) -> u8 {
    match kind {
        TlvType::Reserved(_) | TlvType::Legacy(_) | TlvType::Experimental(_) => 0x00,
        TlvType::Management => 0x01,
        TlvType::ManagementErrorStatus => 0x02,
        TlvType::OrganizationExtension => 0x03,
        TlvType::RequestUnicastTransmission => 0x04,
        TlvType::GrantUnicastTransmission => 0x05,
        TlvType::CancelUnicastTransmission => 0x06,
        TlvType::AcknowledgeCancelUnicastTransmission => 0x07,
        TlvType::PathTrace => 0x08,
        TlvType::AlternateTimeOffsetIndicator => 0x09,
        TlvType::OrganizationExtensionPropagate => 0x0a,
        TlvType::EnhancedAccuracyMetrics => 0x0b,
        TlvType::OrganizationExtensionDoNotPropagate => 0x0c,
        TlvType::L1Sync => 0x0d,
        TlvType::PortCommunicationAvailability => 0x0e,
        TlvType::ProtocolAddress => 0x0f,
        TlvType::SlaveRxSyncTimingData => 0x10,
        TlvType::SlaveRxSyncComputedData => 0x11,
        TlvType::SlaveTxEventTimestamps => 0x12,
        TlvType::CumulativeRateRatio => 0x13,
        TlvType::Pad => 0x14,
        TlvType::Authentication => 0x15,
    }
}
