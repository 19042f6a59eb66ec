// The records of a question: how they stand in a line, and what they are in the crate.

use crate::bmc::bmca::BestAnnounceMessage;
use crate::bmc::dataset_comparison::ComparisonDataset;
use crate::datastructures::common::{
    ClockAccuracy, ClockIdentity, ClockQuality, PortIdentity, TimeInterval,
};
use crate::datastructures::datasets::InternalDefaultDS;
use crate::datastructures::messages::{AnnounceMessage, Header, MessageType, SdoId};
use crate::time::Duration;
use fixed::types::I48F16;

/// The size of a header, of an announce's content, and of both.
const HEADER: usize = 34;
const CONTENT: usize = 30;
const FRAME: usize = HEADER + CONTENT;

/// The most candidates of a line.
const MAX_CANDIDATES: u16 = 48;

/// Every age and every step of it is below this, and every interval below that.
const AGE_LIMIT: i64 = 1 << 62;
const INTERVAL_LIMIT: i64 = 1 << 60;

/// What is left of a line.
pub struct Rest<'a>(pub &'a [u8]);

impl Rest<'_> {
    fn take<const N: usize>(&mut self) -> Option<[u8; N]> {
        let (first, rest) = self.0.split_first_chunk()?;
        self.0 = rest;
        Some(*first)
    }

    pub fn byte(&mut self) -> Option<u8> {
        self.take().map(|[byte]| byte)
    }

    /// A byte that says no or yes.
    pub fn flag(&mut self) -> Option<bool> {
        match self.byte()? {
            0 => Some(false),
            1 => Some(true),
            _ => None,
        }
    }

    fn number(&mut self) -> Option<u16> {
        self.take().map(u16::from_be_bytes)
    }

    pub fn identity(&mut self) -> Option<ClockIdentity> {
        self.take().map(ClockIdentity)
    }

    fn quality(&mut self) -> Option<ClockQuality> {
        Some(ClockQuality {
            clock_class: self.byte()?,
            clock_accuracy: ClockAccuracy::from_primitive(self.byte()?),
            offset_scaled_log_variance: self.number()?,
        })
    }

    fn port_identity(&mut self) -> Option<PortIdentity> {
        Some(PortIdentity {
            clock_identity: self.identity()?,
            port_number: self.number()?,
        })
    }

    /// A number of units of 2^-16 ns from a least one up to a limit.
    fn units(&mut self, least: i64, limit: i64) -> Option<TimeInterval> {
        let units = self.take().map(i64::from_be_bytes)?;
        let interval = TimeInterval(I48F16::from_bits(units));
        (least..limit).contains(&units).then_some(interval)
    }

    /// An age, or a step of it, in units of 2^-16 ns.
    pub fn age(&mut self) -> Option<Duration> {
        self.units(0, AGE_LIMIT).map(Duration::from)
    }

    /// The interval of a port in units of 2^-16 ns.
    pub fn interval(&mut self) -> Option<TimeInterval> {
        self.units(1, INTERVAL_LIMIT)
    }

    /// Our own data: identity, priority 1, quality, priority 2.
    pub fn own(&mut self) -> Option<InternalDefaultDS> {
        let identity = self.identity()?;
        self.own_of(identity)
    }

    /// Our own data but for the identity, which is known.
    pub fn own_of(&mut self, clock_identity: ClockIdentity) -> Option<InternalDefaultDS> {
        Some(InternalDefaultDS {
            clock_identity,
            number_ports: 0,
            priority_1: self.byte()?,
            clock_quality: self.quality()?,
            priority_2: self.byte()?,
            domain_number: 0,
            slave_only: false,
            sdo_id: SdoId::default(),
        })
    }

    /// What the comparison reads of an announce with this sequence id, and who received it: priority
    /// 1, quality, priority 2, grandmaster, steps removed, sender, receiver.
    fn announce(&mut self, sequence_id: u16) -> Option<(AnnounceMessage, PortIdentity)> {
        let mut header = Header::new(0);
        header.sequence_id = sequence_id;
        let mut message = AnnounceMessage::deserialize_content(header, &[0; CONTENT]).ok()?;
        message.grandmaster_priority_1 = self.byte()?;
        message.grandmaster_clock_quality = self.quality()?;
        message.grandmaster_priority_2 = self.byte()?;
        message.grandmaster_identity = self.identity()?;
        message.steps_removed = self.number()?;
        message.header.source_port_identity.clock_identity = self.identity()?;
        Some((message, self.port_identity()?))
    }

    /// An announce as a comparison set.
    pub fn set(&mut self) -> Option<ComparisonDataset> {
        self.announce(0).map(|(message, receiver)| {
            ComparisonDataset::from_announce_message(&message, &receiver)
        })
    }

    /// Candidates up to the end of the line: an announce and its age. The sequence id tells the place.
    pub fn candidates(&mut self) -> Option<Vec<BestAnnounceMessage>> {
        let mut candidates = Vec::new();
        for place in 0..MAX_CANDIDATES {
            if self.0.is_empty() {
                break;
            }
            let (message, identity) = self.announce(place)?;
            candidates.push(best(message, self.age()?, identity));
        }
        Some(candidates)
    }

    /// A whole message with its age and receiver, if there is one.
    pub fn option(&mut self) -> Option<Option<BestAnnounceMessage>> {
        if !self.flag()? {
            return Some(None);
        }
        let frame = self.take::<FRAME>()?;
        let read = Header::deserialize_header(&frame).ok()?;
        let message = AnnounceMessage::deserialize_content(read.header, &frame[HEADER..]).ok()?;
        let whole =
            read.message_type == MessageType::Announce && usize::from(read.message_length) == FRAME;
        let (age, identity) = (self.age()?, self.port_identity()?);
        whole.then(|| Some(best(message, age, identity)))
    }
}

fn best(message: AnnounceMessage, age: Duration, identity: PortIdentity) -> BestAnnounceMessage {
    BestAnnounceMessage {
        header: message.header,
        message,
        age,
        identity,
    }
}

/// Our own data as it stands in a line.
pub fn own_bytes(own: &InternalDefaultDS) -> Vec<u8> {
    let quality = own.clock_quality;
    let mut bytes = own.clock_identity.0.to_vec();
    bytes.extend([own.priority_1, quality.clock_class]);
    bytes.push(quality.clock_accuracy.to_primitive());
    bytes.extend(quality.offset_scaled_log_variance.to_be_bytes());
    bytes.push(own.priority_2);
    bytes
}

/// A message as it stands in a frame, written over zeros.
pub fn message_bytes(message: &AnnounceMessage) -> Vec<u8> {
    let mut frame = vec![0; FRAME];
    message
        .header
        .serialize_header(MessageType::Announce, CONTENT, &mut frame)
        .expect("a header of 34 bytes fits into 64");
    message
        .serialize_content(&mut frame[HEADER..])
        .expect("an announce of 30 bytes fits into 30");
    frame
}
