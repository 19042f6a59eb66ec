//! Frames, good, damaged and random, against the crate statime: read, their TLVs, and written again.
use crate::oracle::{compare, hex};
use crate::random::{scaled, Random};
use crate::worlds::{announce, frame, list, written};
use rillarch::{tlvs, Announce, Tlv};

/// What lies where a message is written to.
const UNWRITTEN: u8 = 0xa5;

fn frames(random: &mut Random) -> Vec<Vec<u8>> {
    let frame = |index| match index % 4 {
        0 => {
            let (announce, list) = (announce(random), list(random));
            written(&announce, &list, random)
        }
        _ => frame(random),
    };
    (0..scaled(20_000)).map(frame).collect()
}

/// A message written again, with the two bytes behind it.
fn again(announce: &Announce, list: &[u8]) -> Vec<u8> {
    let mut target = vec![UNWRITTEN; 64 + list.len() + 2];
    let length = announce.write(list, &mut target);
    assert_eq!(length, Ok(target.len() - 2));
    target
}

/// A signed number as the oracle tells it: whether it is negative, and its bits.
fn signed(is_negative: bool, bits: String) -> String {
    format!("{} {bits}", u8::from(is_negative))
}

/// All fields as the oracle's command codec tells them, and both parts written again.
fn told(announce: &Announce, length: usize, again: &[u8]) -> String {
    let a = announce;
    let flags = [
        a.alternate_master_flag,
        a.two_step_flag,
        a.unicast_flag,
        a.ptp_profile_specific_1,
        a.ptp_profile_specific_2,
        a.leap61,
        a.leap59,
        a.current_utc_offset_valid,
        a.ptp_timescale,
        a.time_tracable,
        a.frequency_tracable,
        a.synchronization_uncertain,
    ];
    let quality = a.grandmaster_clock_quality;
    let (correction, interval, offset) = (
        a.correction_field,
        a.log_message_interval,
        a.current_utc_offset,
    );
    [
        format!("00 0b {length:04x} {:04x}", a.sdo_id),
        format!("{:02x} {:02x}", a.version_major, a.version_minor),
        format!("{:02x}", a.domain_number),
        flags.map(|flag| u8::from(flag).to_string()).join(" "),
        signed(correction < 0, format!("{correction:016x}")),
        format!("{:016x}", a.source_port_identity.clock_identity),
        format!("{:04x}", a.source_port_identity.port_number),
        format!("{:04x}", a.sequence_id),
        signed(interval < 0, format!("{interval:02x}")),
        hex(&again[..34]),
        format!("00 {:012x}", a.origin_timestamp.seconds),
        format!("{:08x}", a.origin_timestamp.nanos),
        signed(offset < 0, format!("{offset:04x}")),
        format!(
            "{:02x} {:02x}",
            a.grandmaster_priority_1, quality.clock_class
        ),
        format!("{:02x}", quality.clock_accuracy),
        format!("{:04x}", quality.offset_scaled_log_variance),
        format!("{:02x}", a.grandmaster_priority_2),
        format!("{:016x} {:04x}", a.grandmaster_identity, a.steps_removed),
        format!("{:02x}", a.time_source),
        hex(&again[34..64]),
    ]
    .join(" ")
}

#[test]
fn fields_are_read_and_written_as_by_statime() {
    let mut random = Random::new();
    let frames = frames(&mut random);
    let mut read = 0;
    compare("codec", &frames, |place, answer| {
        let frame = &frames[place];
        if let Ok((announce, range)) = Announce::read(frame) {
            let again = again(&announce, &frame[range.clone()]);
            let told = told(&announce, range.end, &again);
            assert_eq!(told, answer, "frame {place}: {}", hex(frame));
            read += 1;
        }
    });
    println!("fields: {read} of {} frames are read", frames.len());
}

#[test]
fn frames_are_refused_and_their_tlvs_read_as_by_statime() {
    let mut random = Random::new();
    let frames = frames(&mut random);
    let mut numbers = [0; 6];
    let mut entries_read = 0;
    for frame in &frames {
        let number = Announce::read(frame).map_or_else(|refusal| refusal.number(), |_| 0);
        numbers[usize::from(number)] += 1;
    }
    assert!(numbers.iter().all(|count| *count > 0), "{numbers:?}");
    compare("messages", &frames, |place, answer| {
        let frame = &frames[place];
        let tokens: Vec<&str> = answer.split(' ').collect();
        let (announce, range) = match Announce::read(frame) {
            Ok(read) => read,
            Err(refusal) => {
                let number = format!("{:02x}", refusal.number());
                assert_eq!(tokens, [number], "frame {place}: {}", hex(frame));
                return;
            }
        };
        let list = &frame[range];
        let entries: Result<Vec<Tlv>, _> = tlvs(list).collect();
        let entries = entries.expect("the list of a frame that is read is good");
        entries_read += entries.len();
        // of an entry the oracle also tells what its type is, which is not asked here
        let mut told = vec!["00".to_string()];
        for (entry, tokens) in entries.iter().zip(tokens[1..].chunks(4)) {
            told.push(format!("{:04x}", entry.tlv_type));
            told.extend(tokens[1..3].iter().map(|token| token.to_string()));
            told.push(format!("{:04x}", entry.value.len()));
        }
        told.push(hex(&again(&announce, list)));
        assert_eq!(told, tokens, "frame {place}: {}", hex(frame));
        let built = entries
            .iter()
            .flat_map(|tlv| crate::worlds::entry(tlv.tlv_type, tlv.value.len() as u16, tlv.value));
        assert!(built.eq(list.iter().copied()), "frame {place}: {entries:?}");
    });
    println!("frames: {numbers:?} done and refused 1 to 5, {entries_read} TLVs");
}
