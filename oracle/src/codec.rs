// The subcommand codec: what the crate reads from a frame, and what it writes of that again.

use crate::datastructures::messages::{AnnounceMessage, DeserializedHeader, Header, MessageType};
use crate::datastructures::WireFormatError;
use crate::lines::{hex, sign};

/// The answer to one frame.
pub fn answer(frame: &[u8]) -> String {
    let read = match Header::deserialize_header(frame) {
        Ok(read) => read,
        Err(error) => return refusal(error).to_string(),
    };
    let mut target = [0xa5; 64];
    let content_length = (read.message_length as usize).saturating_sub(34);
    read.header
        .serialize_header(read.message_type, content_length, &mut target)
        .expect("a header of 34 bytes fits into 64");
    let mut tokens = vec!["00".to_string()];
    tokens.extend(header_tokens(&read));
    tokens.push(hex(&target[..34]));

    if read.message_type == MessageType::Announce {
        match AnnounceMessage::deserialize_content(read.header, &frame[34..]) {
            Ok(message) => {
                message
                    .serialize_content(&mut target[34..])
                    .expect("an announce of 30 bytes fits into 30");
                tokens.push("00".to_string());
                tokens.extend(announce_tokens(&message));
                tokens.push(hex(&target[34..]));
            }
            Err(error) => tokens.push(refusal(error).to_string()),
        }
    }
    tokens.join(" ")
}

fn refusal(error: WireFormatError) -> &'static str {
    match error {
        WireFormatError::BufferTooShort => "01",
        WireFormatError::EnumConversionError => "02",
        other => panic!("neither header nor announce is refused so: {other}"),
    }
}

fn header_tokens(read: &DeserializedHeader) -> Vec<String> {
    let header = &read.header;
    let mut tokens = vec![
        format!("{:02x}", read.message_type as u8),
        format!("{:04x}", read.message_length),
        format!("{:04x}", u16::from(header.sdo_id)),
        format!("{:02x}", header.version.major),
        format!("{:02x}", header.version.minor),
        format!("{:02x}", header.domain_number),
    ];
    let flags = [
        header.alternate_master_flag,
        header.two_step_flag,
        header.unicast_flag,
        header.ptp_profile_specific_1,
        header.ptp_profile_specific_2,
        header.leap61,
        header.leap59,
        header.current_utc_offset_valid,
        header.ptp_timescale,
        header.time_tracable,
        header.frequency_tracable,
        header.synchronization_uncertain,
    ];
    tokens.extend(flags.map(sign));
    let correction = header.correction_field.0.to_bits();
    let source = header.source_port_identity;
    tokens.extend([
        sign(correction < 0),
        format!("{correction:016x}"),
        hex(&source.clock_identity.0),
        format!("{:04x}", source.port_number),
        format!("{:04x}", header.sequence_id),
        sign(header.log_message_interval < 0),
        format!("{:02x}", header.log_message_interval),
    ]);
    tokens
}

fn announce_tokens(message: &AnnounceMessage) -> [String; 12] {
    let quality = message.grandmaster_clock_quality;
    [
        format!("{:012x}", message.origin_timestamp.seconds),
        format!("{:08x}", message.origin_timestamp.nanos),
        sign(message.current_utc_offset < 0),
        format!("{:04x}", message.current_utc_offset),
        format!("{:02x}", message.grandmaster_priority_1),
        format!("{:02x}", quality.clock_class),
        format!("{:02x}", quality.clock_accuracy.to_primitive()),
        format!("{:04x}", quality.offset_scaled_log_variance),
        format!("{:02x}", message.grandmaster_priority_2),
        hex(&message.grandmaster_identity.0),
        format!("{:04x}", message.steps_removed),
        format!("{:02x}", message.time_source.to_primitive()),
    ]
}
