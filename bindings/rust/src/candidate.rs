//! Candidates: how two compare, and which one of a list is chosen.
use crate::calls::{self, CANDIDATE_WORDS, FOUND_WORDS};
use crate::{ClockQuality, PortIdentity, Refusal};

/// A message that a master offers, as far as the choice reads it, and a place, which it does not read.
#[derive(Clone, Copy, Debug, Default, PartialEq, Eq, Hash)]
pub struct Candidate {
    /// Priority 1 of the grandmaster.
    pub gm_priority_1: u8,
    /// The quality of the grandmaster.
    pub gm_clock_quality: ClockQuality,
    /// Priority 2 of the grandmaster.
    pub gm_priority_2: u8,
    /// The identity of the grandmaster.
    pub gm_identity: u64,
    /// How many steps the sender is away from the grandmaster.
    pub steps_removed: u16,
    /// The clock that sent the message.
    pub sender: u64,
    /// The port that received it.
    pub receiver: PortIdentity,
    /// The age, in units of 2^-16 ns.
    pub age: u64,
    /// A place of the caller's; of a book's candidate its place among the candidates.
    pub place: u64,
}

/// The verdict on the left of two candidates. `Better` and `BetterByTopology` rank above.
#[derive(Clone, Copy, Debug, PartialEq, Eq, Hash)]
#[repr(u8)]
pub enum Verdict {
    /// By the data of the grandmasters, or two steps nearer.
    Better = 0,
    /// By the way from one grandmaster.
    BetterByTopology = 1,
    /// A message that came back to its sender.
    Error1 = 2,
    /// Nothing tells them apart.
    Error2 = 3,
    /// The mirror of `BetterByTopology`.
    WorseByTopology = 4,
    /// The mirror of `Better`.
    Worse = 5,
}

impl Verdict {
    pub(crate) fn from_number(number: u64) -> Self {
        match number {
            0 => Self::Better,
            1 => Self::BetterByTopology,
            2 => Self::Error1,
            3 => Self::Error2,
            4 => Self::WorseByTopology,
            5 => Self::Worse,
            _ => panic!("{number} is no number of a verdict"),
        }
    }
}

/// Why a candidate is never refused: its words fit their fields, since these have the widths of the types.
const FITS: &str = "the words of a candidate fit its fields";

impl Candidate {
    /// The verdict on this one beside another.
    ///
    /// ```
    /// use rillarch::{Candidate, Verdict};
    /// let near = Candidate { gm_identity: 1, steps_removed: 1, ..Candidate::default() };
    /// let far = Candidate { gm_identity: 1, steps_removed: 3, ..Candidate::default() };
    /// assert_eq!(near.compare(&far), Verdict::Better);
    /// assert_eq!(far.compare(&near), Verdict::Worse);
    /// ```
    pub fn compare(&self, other: &Self) -> Verdict {
        let [number] = calls::compare(&self.words(), &other.words()).expect(FITS);
        Verdict::from_number(number)
    }

    /// The words of the header's struct rillarch_candidate.
    pub(crate) fn words(&self) -> [u64; CANDIDATE_WORDS] {
        let quality = self.gm_clock_quality;
        [
            self.gm_priority_1.into(),
            quality.clock_class.into(),
            quality.clock_accuracy.into(),
            quality.offset_scaled_log_variance.into(),
            self.gm_priority_2.into(),
            self.gm_identity,
            self.steps_removed.into(),
            self.sender,
            self.receiver.clock_identity,
            self.receiver.port_number.into(),
            self.age,
            self.place,
        ]
    }

    /// The candidate of the words, which fit their fields.
    pub(crate) fn from_words(words: &[u64]) -> Self {
        Self {
            gm_priority_1: words[0] as u8,
            gm_clock_quality: ClockQuality {
                clock_class: words[1] as u8,
                clock_accuracy: words[2] as u8,
                offset_scaled_log_variance: words[3] as u16,
            },
            gm_priority_2: words[4] as u8,
            gm_identity: words[5],
            steps_removed: words[6] as u16,
            sender: words[7],
            receiver: PortIdentity {
                clock_identity: words[8],
                port_number: words[9] as u16,
            },
            age: words[10],
            place: words[11],
        }
    }

    /// The candidate of the words of the header's struct rillarch_found, if there is one.
    pub(crate) fn found(words: &[u64; FOUND_WORDS]) -> Option<Self> {
        let [found, candidate @ ..] = words;
        (*found != 0).then(|| Self::from_words(candidate))
    }
}

/// The choice over a list of candidates, from left to right, the last of equals; none of an empty list.
///
/// ```
/// use rillarch::{choose, Candidate};
/// let old = Candidate { age: 7, place: 0, ..Candidate::default() };
/// let new = Candidate { age: 3, place: 1, ..Candidate::default() };
/// assert_eq!(choose(&[new, old]), Some(new));
/// assert_eq!(choose(&[]), None);
/// ```
pub fn choose(candidates: &[Candidate]) -> Option<Candidate> {
    let words: Vec<u64> = candidates.iter().flat_map(Candidate::words).collect();
    let answer: Result<_, Refusal> = calls::choose(&words);
    Candidate::found(&answer.expect(FITS))
}
