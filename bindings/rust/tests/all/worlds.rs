//! What the tests are made of: announces, lists of TLVs, frames, candidates, and clocks with what they hear.
use crate::random::Random;
use rillarch::{Announce, Candidate, ClockQuality, OwnData, PortIdentity, Timestamp};
use std::collections::BTreeMap;

/// A second, in units of 2^-16 ns.
pub const SECOND: u64 = 1_000_000_000 << 16;

/// The bytes of an announce without TLVs.
const ANNOUNCE_BYTES: usize = 64;

/// An accuracy that the crate statime keeps: it reads the reserved 01-16, 32-7F and FF as 00.
fn kept(byte: u8) -> u8 {
    match byte {
        0x00 | 0x17..=0x31 | 0x80..=0xfe => byte,
        _ => (byte | 0x80).min(0xfe),
    }
}

fn quality(random: &mut Random) -> ClockQuality {
    ClockQuality {
        clock_class: random.bits(8) as u8,
        clock_accuracy: kept(random.bits(8) as u8),
        offset_scaled_log_variance: random.bits(16) as u16,
    }
}

fn port_identity(random: &mut Random) -> PortIdentity {
    PortIdentity {
        clock_identity: random.bits(64),
        port_number: random.bits(16) as u16,
    }
}

/// Any announce that fits the wire.
pub fn announce(random: &mut Random) -> Announce {
    let flags = random.bits(12);
    let flag = |place: u32| flags >> place & 1 == 1;
    Announce {
        sdo_id: random.bits(12) as u16,
        version_major: random.bits(4) as u8,
        version_minor: random.bits(4) as u8,
        domain_number: random.bits(8) as u8,
        alternate_master_flag: flag(0),
        two_step_flag: flag(1),
        unicast_flag: flag(2),
        ptp_profile_specific_1: flag(3),
        ptp_profile_specific_2: flag(4),
        leap61: flag(5),
        leap59: flag(6),
        current_utc_offset_valid: flag(7),
        ptp_timescale: flag(8),
        time_tracable: flag(9),
        frequency_tracable: flag(10),
        synchronization_uncertain: flag(11),
        correction_field: random.bits(64) as i64,
        source_port_identity: port_identity(random),
        sequence_id: random.bits(16) as u16,
        log_message_interval: random.bits(8) as i8,
        origin_timestamp: Timestamp {
            seconds: random.bits(48),
            nanos: random.bits(32) as u32,
        },
        current_utc_offset: random.bits(16) as i16,
        grandmaster_priority_1: random.bits(8) as u8,
        grandmaster_clock_quality: quality(random),
        grandmaster_priority_2: random.bits(8) as u8,
        grandmaster_identity: random.bits(64),
        steps_removed: random.bits(16) as u16,
        time_source: random.bits(8) as u8,
    }
}

/// An entry of a list of TLVs, whatever its length field says.
pub fn entry(tlv_type: u16, length: u16, value: &[u8]) -> Vec<u8> {
    [&tlv_type.to_be_bytes(), &length.to_be_bytes(), value].concat()
}

/// A good list of TLVs: values are even, and the last is not empty.
pub fn list(random: &mut Random) -> Vec<u8> {
    let mut list = Vec::new();
    for left in (0..random.below(6)).rev() {
        let least = if left == 0 { 2 } else { 0 };
        let length = random.of(&[0, 2, 4, 8, 16, 80]).max(least);
        let value = random.bytes(length);
        let any = random.next() as u16;
        let tlv_type = random.of(&[0x0003, 0x0008, 0x4000, 0x8008, any]);
        list.extend(entry(tlv_type, length as u16, &value));
    }
    list
}

/// A list of TLVs that has a fault behind good entries.
fn faulty_list(random: &mut Random) -> Vec<u8> {
    let mut list = list(random);
    let some = 2 * random.below(9);
    let value = random.bytes(some);
    list.extend(match random.below(5) {
        // an empty last entry
        0 => entry(8, 0, &[]),
        // an odd length, with as many bytes or others
        1 => entry(8, random.of(&[some, 9]) as u16 | 1, &value),
        // a length past the end
        2 => entry(8, (some + random.of(&[1, 2, 3, 4, 60000])) as u16, &value),
        // an odd length before one that is past the end
        3 => [entry(8, 3, &[0; 3]), entry(8, 500, &value)].concat(),
        // bytes left over
        _ => {
            let count = 1 + random.below(4);
            random.bytes(count)
        }
    });
    list
}

/// An announce as it stands on the wire, all that is ignored at random too.
fn message(list: &[u8], random: &mut Random) -> Vec<u8> {
    let mut frame = random.bytes(ANNOUNCE_BYTES);
    frame[49] = kept(frame[49]);
    frame.extend(list);
    set_type(&mut frame, 0xb);
    let length = frame.len() as u16;
    set_length(&mut frame, length);
    frame
}

fn set_type(frame: &mut [u8], message_type: u8) {
    if let Some(byte) = frame.first_mut() {
        *byte = *byte & 0xf0 | message_type;
    }
}

fn set_length(frame: &mut [u8], length: u16) {
    if let Some(bytes) = frame.get_mut(2..4) {
        bytes.copy_from_slice(&length.to_be_bytes());
    }
}

/// A frame of any kind: good, damaged, or random bytes.
pub fn frame(random: &mut Random) -> Vec<u8> {
    let good = list(random);
    let mut frame = message(&good, random);
    match random.below(12) {
        0..=2 => {}
        3 => return written(&announce(random), &good, random),
        4 => {
            frame = vec![0; ANNOUNCE_BYTES];
            frame[0] = 0x0b;
            frame[3] = ANNOUNCE_BYTES as u8;
            frame[6 + random.below(2)] = 1 << random.below(8);
        }
        5 => frame = message(&faulty_list(random), random),
        6 => {
            let any = random.next() as u16;
            let near = frame.len() as u16;
            let lengths = [0, 33, 34, 63, 64, near - 1, near + 1, near - 2, any];
            set_length(&mut frame, random.of(&lengths));
        }
        7 => {
            let count = 1 + random.below(9);
            frame.extend(random.bytes(count));
        }
        8 => set_type(&mut frame, random.byte() & 15),
        9 => {
            let length = random.below(frame.len());
            frame.truncate(random.of(&[33, 34, 63, 64, length, length]));
            if random.once_in(2) {
                let length = frame.len() as u16;
                set_length(&mut frame, length);
            }
        }
        10 => {
            for _ in 0..=random.below(3) {
                let bit = random.below(8 * frame.len());
                frame[bit / 8] ^= 1 << (bit % 8);
            }
        }
        _ => {
            let count = random.below(120);
            frame = random.bytes(count);
            if random.once_in(2) {
                set_type(&mut frame, 0xb);
                set_length(&mut frame, count as u16);
            }
        }
    }
    if let Some(accuracy) = frame.get_mut(49) {
        *accuracy = kept(*accuracy);
    }
    frame
}

/// An announce written over random bytes.
pub fn written(announce: &Announce, list: &[u8], random: &mut Random) -> Vec<u8> {
    let mut frame = random.bytes(ANNOUNCE_BYTES + list.len());
    let length = announce.write(list, &mut frame);
    assert_eq!(length, Ok(frame.len()), "{announce:?} {list:?}");
    frame
}

/// What a grandmaster says of itself.
type Profile = (u8, ClockQuality, u8);

/// A few clocks, and a few profiles of them, some of which differ in one field alone.
pub struct World {
    pub clocks: [u64; 4],
    profiles: [Profile; 4],
}

impl World {
    pub fn new(random: &mut Random) -> Self {
        let any = random.bits(64);
        let clocks = [
            any,
            any ^ 1 << random.below(64),
            random.next(),
            random.below(4) as u64,
        ];
        let first = (random.byte(), quality(random), random.byte());
        let profiles = [first; 4].map(|profile| near(profile, random));
        Self { clocks, profiles }
    }

    /// What the clock at a place says of itself: most often the same.
    fn profile(&self, place: usize, random: &mut Random) -> Profile {
        match random.below(4) {
            0 => random.of(&self.profiles),
            _ => self.profiles[place],
        }
    }

    /// A candidate, close to others of this world.
    pub fn candidate(&self, random: &mut Random) -> Candidate {
        let place = random.below(4);
        let (gm_priority_1, gm_clock_quality, gm_priority_2) = self.profile(place, random);
        Candidate {
            gm_priority_1,
            gm_clock_quality,
            gm_priority_2,
            gm_identity: self.clocks[place],
            steps_removed: match random.below(8) {
                0 => random.bits(16) as u16,
                _ => random.below(4) as u16,
            },
            sender: random.of(&self.clocks),
            receiver: PortIdentity {
                clock_identity: random.of(&self.clocks),
                port_number: 1 + random.below(3) as u16,
            },
            age: match random.below(8) {
                0 => random.bits(62),
                _ => random.below(3) as u64,
            },
            place: random.next(),
        }
    }

    /// Our own data, close to those of the world.
    pub fn own_data(&self, random: &mut Random) -> OwnData {
        let (priority_1, mut clock_quality, priority_2) = near(random.of(&self.profiles), random);
        if !random.once_in(4) {
            clock_quality.clock_class = random.of(&[0, 1, 6, 127, 128, 248, 255]);
        }
        OwnData {
            priority_1,
            clock_quality,
            priority_2,
        }
    }
}

/// A profile that differs in at most one field.
fn near(mut profile: Profile, random: &mut Random) -> Profile {
    let (priority_1, quality, priority_2) = &mut profile;
    match random.below(6) {
        0 => *priority_1 = random.byte(),
        1 => quality.clock_class = random.byte(),
        2 => quality.clock_accuracy = kept(random.byte()),
        3 => quality.offset_scaled_log_variance = random.bits(16) as u16,
        4 => *priority_2 = random.byte(),
        _ => {}
    }
    profile
}

/// A boundary clock and what it hears: frames of a few senders at its ports, each with its sequence.
pub struct Clock {
    pub world: World,
    pub own: u64,
    pub intervals: Vec<u64>,
    senders: Vec<PortIdentity>,
    /// How many grandmasters are told of.
    grandmasters: usize,
    /// The newest sequence that a port heard of a sender.
    newest: BTreeMap<(u16, u64, u16), u16>,
}

impl Clock {
    pub fn new(random: &mut Random) -> Self {
        let world = World::new(random);
        let own = world.clocks[0];
        let ports = random.of(&[1, 2, 2, 2, 3, 3, 8]);
        let intervals = (0..ports)
            .map(|_| random.of(&[SECOND, SECOND, 1, 7, (1 << 60) - 1]))
            .collect();
        let count = random.of(&[2, 3, 4, 4, 11]);
        let senders = (0..count)
            .map(|place| PortIdentity {
                clock_identity: random.of(&world.clocks[1..]),
                port_number: 1 + place as u16 / 2,
            })
            .collect();
        Self {
            world,
            own,
            intervals,
            senders,
            grandmasters: random.of(&[1, 2, 4]),
            newest: BTreeMap::new(),
        }
    }

    pub fn ports(&self) -> u16 {
        self.intervals.len() as u16
    }

    /// A port of the clock; the first most often.
    pub fn port(&self, random: &mut Random) -> u16 {
        match random.below(3) {
            0 => 1 + random.below(self.intervals.len()) as u16,
            _ => 1,
        }
    }

    /// A frame that a port hears: most often an announce that is news, of a sender that is known.
    pub fn frame(&mut self, port: u16, random: &mut Random) -> Vec<u8> {
        if random.once_in(16) {
            return frame(random);
        }
        let sender = match random.below(24) {
            // the receiver itself, and another port of our clock
            0 => PortIdentity {
                clock_identity: self.own,
                port_number: port,
            },
            1 => PortIdentity {
                clock_identity: self.own,
                port_number: port + 1,
            },
            _ => random.of(&self.senders),
        };
        let grandmaster = 3 - random.below(self.grandmasters);
        let (grandmaster_priority_1, grandmaster_clock_quality, grandmaster_priority_2) =
            self.world.profile(grandmaster, random);
        let announce = Announce {
            source_port_identity: sender,
            sequence_id: self.sequence(port, sender, random),
            grandmaster_priority_1,
            grandmaster_clock_quality,
            grandmaster_priority_2,
            grandmaster_identity: self.world.clocks[grandmaster],
            steps_removed: match random.below(16) {
                0 => random.of(&[254, 255, 256, 65535]),
                _ => random.below(4) as u16,
            },
            ..announce(random)
        };
        let list = match random.below(4) {
            0 => list(random),
            _ => Vec::new(),
        };
        written(&announce, &list, random)
    }

    /// The next sequence of a sender most often, or one at or past the limit.
    fn sequence(&mut self, port: u16, sender: PortIdentity, random: &mut Random) -> u16 {
        let any = random.next() as u16;
        let key = (port, sender.clock_identity, sender.port_number);
        let newest = self.newest.entry(key).or_insert(any);
        let sequence = newest.wrapping_add(match random.below(16) {
            0 => 0,
            1 => random.of(&[32766, 32767, 65535, any]),
            _ => 1,
        });
        if sequence.wrapping_sub(*newest) < 32767 {
            *newest = sequence;
        }
        sequence
    }

    /// A step of age: a part of an interval most often, or at the limit of four.
    pub fn step(&self, random: &mut Random) -> u64 {
        let interval = random.of(&self.intervals);
        match random.below(8) {
            0 => random.of(&[0, 1, 4 * interval, 4 * interval - 1, (1 << 62) - 1]),
            1 => random.of(&[interval, 2 * interval]),
            _ => random.next() % interval,
        }
    }
}
