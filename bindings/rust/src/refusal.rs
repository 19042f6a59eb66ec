//! Why a call is turned away.
use std::error::Error;
use std::fmt;

/// Why a call was turned away, by the number of the paper's table. What was lent is then as it was.
#[derive(Clone, Copy, Debug, PartialEq, Eq, Hash)]
#[repr(u8)]
pub enum Refusal {
    /// Too few bytes, or words of a store, to read or to write.
    Short = 1,
    /// A reserved message type.
    ReservedType = 2,
    /// A length field below 34.
    LengthField = 3,
    /// An odd TLV length.
    OddTlv = 4,
    /// Another type than announce.
    NoAnnounce = 5,
    /// Port 0, or one above the count.
    NoPort = 6,
    /// A message of the port that received it.
    OwnPort = 7,
    /// A sender that is not acceptable.
    NotAcceptable = 8,
    /// A message of our own clock.
    OwnClock = 9,
    /// A sequence number that is too far from that of the last message held.
    Sequence = 10,
    /// Steps removed of 255 or more.
    Steps = 11,
    /// A ninth master of a port.
    NinthMaster = 12,
    /// A step of 2^62 or more.
    LongStep = 13,
    /// A port count, an interval or a list's length that is out of range.
    OutOfRange = 14,
    /// What will not fit the wire.
    Unfit = 15,
    /// A book that is not sound.
    Unsound = 16,
}

/// All of them, by number.
const ALL: [Refusal; 16] = [
    Refusal::Short,
    Refusal::ReservedType,
    Refusal::LengthField,
    Refusal::OddTlv,
    Refusal::NoAnnounce,
    Refusal::NoPort,
    Refusal::OwnPort,
    Refusal::NotAcceptable,
    Refusal::OwnClock,
    Refusal::Sequence,
    Refusal::Steps,
    Refusal::NinthMaster,
    Refusal::LongStep,
    Refusal::OutOfRange,
    Refusal::Unfit,
    Refusal::Unsound,
];

impl Refusal {
    /// The number of the paper's table, 1 to 16.
    ///
    /// ```
    /// assert_eq!(rillarch::Refusal::NinthMaster.number(), 12);
    /// ```
    pub fn number(self) -> u8 {
        self as u8
    }

    /// The refusal with this number, if there is one.
    ///
    /// ```
    /// use rillarch::Refusal;
    /// assert_eq!(Refusal::from_number(12), Some(Refusal::NinthMaster));
    /// assert_eq!(Refusal::from_number(0), None);
    /// ```
    pub fn from_number(number: u8) -> Option<Self> {
        ALL.into_iter().find(|refusal| refusal.number() == number)
    }

    /// The words of the paper's table.
    fn text(self) -> &'static str {
        match self {
            Self::Short => "too few bytes, to read or to write",
            Self::ReservedType => "reserved type",
            Self::LengthField => "length field below 34",
            Self::OddTlv => "odd TLV length",
            Self::NoAnnounce => "another type than announce",
            Self::NoPort => "port 0 or above the count",
            Self::OwnPort => "own port identity",
            Self::NotAcceptable => "sender not acceptable",
            Self::OwnClock => "own clock",
            Self::Sequence => "sequence",
            Self::Steps => "steps 255 or more",
            Self::NinthMaster => "ninth master",
            Self::LongStep => "step of 2^62 or more",
            Self::OutOfRange => "port count, interval or list length out of range",
            Self::Unfit => "won't fit the wire",
            Self::Unsound => "unsound book",
        }
    }
}

impl fmt::Display for Refusal {
    fn fmt(&self, formatter: &mut fmt::Formatter<'_>) -> fmt::Result {
        formatter.write_str(self.text())
    }
}

impl Error for Refusal {}
