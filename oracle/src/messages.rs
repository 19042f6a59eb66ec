// The subcommand messages: what the crate reads from a frame as a whole message with its TLVs, and what it writes of that again.

use crate::datastructures::common::{Tlv, TlvSetBuilder};
use crate::datastructures::messages::{Header, Message, MessageType};
use crate::datastructures::WireFormatError;
use crate::kinds::name_code;
use crate::lines::{hex, sign, MAX_FRAME};

/// What lies where entries and messages are written to.
const UNWRITTEN: u8 = 0xa5;

/// The answer to one frame.
pub fn answer(frame: &[u8]) -> String {
    match read(frame) {
        Ok(message) => tokens(&message).join(" "),
        Err(refusal) => refusal.to_string(),
    }
}

/// The announce that a frame holds with its TLVs, or the number of the refusal.
pub fn read(frame: &[u8]) -> Result<Message<'_>, &'static str> {
    if is_other_message(frame) {
        return Err("05");
    }
    Message::deserialize(frame).map_err(|error| refusal(frame, error))
}

/// Whether a frame passes the checks before the body and is no announce. The crate reads the body
/// of such a frame; the paper refuses it.
fn is_other_message(frame: &[u8]) -> bool {
    Header::deserialize_header(frame).is_ok_and(|read| {
        read.message_type != MessageType::Announce
            && (34..=frame.len()).contains(&read.message_length.into())
    })
}

/// The paper's number of a refusal. Invalid stands for two: a length field below 34, and an odd
/// TLV length.
fn refusal(frame: &[u8], error: WireFormatError) -> &'static str {
    match error {
        WireFormatError::BufferTooShort => "01",
        WireFormatError::EnumConversionError => "02",
        WireFormatError::Invalid if u16::from_be_bytes([frame[2], frame[3]]) < 34 => "03",
        WireFormatError::Invalid => "04",
        other => panic!("no message is refused so: {other}"),
    }
}

/// The tokens of a message: those of its entries, and the message written again.
fn tokens(message: &Message) -> Vec<String> {
    let mut tokens = vec!["00".to_string()];
    let mut buffer = [UNWRITTEN; MAX_FRAME];
    let mut builder = TlvSetBuilder::new(&mut buffer);
    for entry in message.suffix.tlv() {
        tokens.extend(entry_tokens(&entry));
        builder
            .add(entry)
            .expect("the entries of a frame fit into the longest frame");
    }
    let again = Message {
        header: message.header,
        body: message.body.clone(),
        suffix: builder.build(),
    };
    let mut target = vec![UNWRITTEN; message.wire_size() + 2];
    again
        .serialize(&mut target)
        .expect("a message fits into its own size");
    tokens.push(hex(&target));
    tokens
}

/// An entry: its type, the code of the type's name, whether it is passed on, and its length.
fn entry_tokens(entry: &Tlv) -> [String; 4] {
    [
        format!("{:04x}", entry.tlv_type.to_primitive()),
        format!("{:02x}", name_code(entry.tlv_type)),
        sign(entry.tlv_type.announce_propagate()),
        format!("{:04x}", entry.value.len()),
    ]
}
