//! An announce with its header, read from a frame and written into one.
use crate::calls::{self, ANNOUNCE_WORDS};
use crate::Refusal;
use std::ops::Range;

/// A port of a clock.
#[derive(Clone, Copy, Debug, Default, PartialEq, Eq, Hash)]
pub struct PortIdentity {
    /// The identity of the clock.
    pub clock_identity: u64,
    /// The number of the port.
    pub port_number: u16,
}

/// How good a clock says that it is; lower is better.
#[derive(Clone, Copy, Debug, Default, PartialEq, Eq, Hash)]
pub struct ClockQuality {
    /// The class.
    pub clock_class: u8,
    /// The accuracy, reserved numbers too.
    pub clock_accuracy: u8,
    /// The variance.
    pub offset_scaled_log_variance: u16,
}

/// A time of the origin.
#[derive(Clone, Copy, Debug, Default, PartialEq, Eq, Hash)]
pub struct Timestamp {
    /// Seconds, of 48 bits.
    pub seconds: u64,
    /// Nanoseconds, any value.
    pub nanos: u32,
}

/// An announce message with its header. The names are those of the crate statime.
#[derive(Clone, Copy, Debug, Default, PartialEq, Eq, Hash)]
pub struct Announce {
    /// The sdo id, of 12 bits.
    pub sdo_id: u16,
    /// The major version, of 4 bits.
    pub version_major: u8,
    /// The minor version, of 4 bits.
    pub version_minor: u8,
    /// The domain.
    pub domain_number: u8,
    /// Byte 6, bit 0 of the flags.
    pub alternate_master_flag: bool,
    /// Byte 6, bit 1.
    pub two_step_flag: bool,
    /// Byte 6, bit 2.
    pub unicast_flag: bool,
    /// Byte 6, bit 5.
    pub ptp_profile_specific_1: bool,
    /// Byte 6, bit 6.
    pub ptp_profile_specific_2: bool,
    /// Byte 7, bit 0.
    pub leap61: bool,
    /// Byte 7, bit 1.
    pub leap59: bool,
    /// Byte 7, bit 2.
    pub current_utc_offset_valid: bool,
    /// Byte 7, bit 3.
    pub ptp_timescale: bool,
    /// Byte 7, bit 4.
    pub time_tracable: bool,
    /// Byte 7, bit 5.
    pub frequency_tracable: bool,
    /// Byte 7, bit 6.
    pub synchronization_uncertain: bool,
    /// The correction, in units of 2^-16 ns.
    pub correction_field: i64,
    /// The port that sent the message.
    pub source_port_identity: PortIdentity,
    /// The sequence number.
    pub sequence_id: u16,
    /// The interval of messages, as a power of two of seconds.
    pub log_message_interval: i8,
    /// When the message was sent.
    pub origin_timestamp: Timestamp,
    /// The offset of UTC, in seconds.
    pub current_utc_offset: i16,
    /// Priority 1 of the grandmaster.
    pub grandmaster_priority_1: u8,
    /// The quality of the grandmaster.
    pub grandmaster_clock_quality: ClockQuality,
    /// Priority 2 of the grandmaster.
    pub grandmaster_priority_2: u8,
    /// The identity of the grandmaster.
    pub grandmaster_identity: u64,
    /// How many steps the sender is away from the grandmaster.
    pub steps_removed: u16,
    /// The time source, reserved numbers too.
    pub time_source: u8,
}

/// The bytes of an announce without TLVs.
const ANNOUNCE_BYTES: usize = 64;

/// The bits of the flags in the order of the fields; byte 6 is the upper byte.
const FLAG_BITS: [u32; 12] = [8, 9, 10, 13, 14, 0, 1, 2, 3, 4, 5, 6];

impl Announce {
    /// Reads a frame: the announce, and where its TLVs stand in the frame.
    ///
    /// ```
    /// use rillarch::{Announce, Refusal};
    /// let mut frame = [0; 66];
    /// frame[0] = 0x0B;
    /// frame[3] = 64; // the length; two bytes of padding follow
    /// frame[62] = 3;
    /// let (announce, tlvs) = Announce::read(&frame)?;
    /// assert_eq!((announce.steps_removed, tlvs), (3, 64..64));
    /// assert_eq!(Announce::read(&frame[..63]), Err(Refusal::Short));
    /// # Ok::<(), Refusal>(())
    /// ```
    pub fn read(frame: &[u8]) -> Result<(Self, Range<usize>), Refusal> {
        let answer = calls::read_frame(frame)?;
        let (announce, tlvs) = answer.split_at(ANNOUNCE_WORDS);
        let range = tlvs[0] as usize..tlvs[1] as usize;
        Ok((Self::from_words(announce), range))
    }

    /// Writes the announce and its TLVs to the start of a buffer, and gives the length of the message. Byte 46 and the bytes behind
    /// the message stay as they were.
    ///
    /// ```
    /// use rillarch::{Announce, Refusal};
    /// let announce = Announce { current_utc_offset: -37, ..Announce::default() };
    /// let path_trace = [0, 8, 0, 8, 1, 2, 3, 4, 5, 6, 7, 8];
    /// let mut frame = [0; 100];
    /// let length = announce.write(&path_trace, &mut frame)?;
    /// assert_eq!(Announce::read(&frame[..length])?, (announce, 64..76));
    /// assert_eq!(announce.write(&[], &mut frame[..63]), Err(Refusal::Short));
    /// # Ok::<(), Refusal>(())
    /// ```
    pub fn write(&self, tlvs: &[u8], buffer: &mut [u8]) -> Result<usize, Refusal> {
        calls::write_announce(&self.words(), tlvs, buffer)?;
        Ok(ANNOUNCE_BYTES + tlvs.len())
    }

    fn flags(&self) -> [bool; 12] {
        [
            self.alternate_master_flag,
            self.two_step_flag,
            self.unicast_flag,
            self.ptp_profile_specific_1,
            self.ptp_profile_specific_2,
            self.leap61,
            self.leap59,
            self.current_utc_offset_valid,
            self.ptp_timescale,
            self.time_tracable,
            self.frequency_tracable,
            self.synchronization_uncertain,
        ]
    }

    /// The words of the header's struct rillarch_announce.
    pub(crate) fn words(&self) -> [u64; ANNOUNCE_WORDS] {
        let flags = self.flags().into_iter().zip(FLAG_BITS);
        let quality = self.grandmaster_clock_quality;
        [
            self.sdo_id.into(),
            self.version_major.into(),
            self.version_minor.into(),
            self.domain_number.into(),
            flags.map(|(flag, bit)| u64::from(flag) << bit).sum(),
            self.correction_field as u64,
            self.source_port_identity.clock_identity,
            self.source_port_identity.port_number.into(),
            self.sequence_id.into(),
            (self.log_message_interval as u8).into(),
            self.origin_timestamp.seconds,
            self.origin_timestamp.nanos.into(),
            (self.current_utc_offset as u16).into(),
            self.grandmaster_priority_1.into(),
            quality.clock_class.into(),
            quality.clock_accuracy.into(),
            quality.offset_scaled_log_variance.into(),
            self.grandmaster_priority_2.into(),
            self.grandmaster_identity,
            self.steps_removed.into(),
            self.time_source.into(),
        ]
    }

    /// The announce of the words, which fit their fields.
    pub(crate) fn from_words(words: &[u64]) -> Self {
        let flag = |place: usize| words[4] >> FLAG_BITS[place] & 1 == 1;
        Self {
            sdo_id: words[0] as u16,
            version_major: words[1] as u8,
            version_minor: words[2] as u8,
            domain_number: words[3] as u8,
            alternate_master_flag: flag(0),
            two_step_flag: flag(1),
            unicast_flag: flag(2),
            ptp_profile_specific_1: flag(3),
            ptp_profile_specific_2: flag(4),
            leap61: flag(5),
            leap59: flag(6),
            current_utc_offset_valid: flag(7),
            ptp_timescale: flag(8),
            time_tracable: flag(9),
            frequency_tracable: flag(10),
            synchronization_uncertain: flag(11),
            correction_field: words[5] as i64,
            source_port_identity: PortIdentity {
                clock_identity: words[6],
                port_number: words[7] as u16,
            },
            sequence_id: words[8] as u16,
            log_message_interval: words[9] as i8,
            origin_timestamp: Timestamp {
                seconds: words[10],
                nanos: words[11] as u32,
            },
            current_utc_offset: words[12] as i16,
            grandmaster_priority_1: words[13] as u8,
            grandmaster_clock_quality: ClockQuality {
                clock_class: words[14] as u8,
                clock_accuracy: words[15] as u8,
                offset_scaled_log_variance: words[16] as u16,
            },
            grandmaster_priority_2: words[17] as u8,
            grandmaster_identity: words[18],
            steps_removed: words[19] as u16,
            time_source: words[20] as u8,
        }
    }
}
