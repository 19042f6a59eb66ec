//! The book of all ports: set up, changed by what happens, and decided over.
use crate::calls::{self, ANNOUNCE_WORDS, DECISION_WORDS, PORT_WORDS, TALLIES_WORDS};
use crate::{Announce, Candidate, ClockQuality, Refusal};

/// Which masters are acceptable.
#[derive(Clone, Copy, Debug, PartialEq, Eq)]
pub enum Acceptable<'a> {
    /// Any.
    Any,
    /// Those whose clock identity is listed; at most 16.
    Listed(&'a [u64]),
}

/// What our own clock says of itself; lower is better.
#[derive(Clone, Copy, Debug, Default, PartialEq, Eq, Hash)]
pub struct OwnData {
    /// Our priority 1.
    pub priority_1: u8,
    /// Our quality.
    pub clock_quality: ClockQuality,
    /// Our priority 2.
    pub priority_2: u8,
}

/// How many messages a call put out, let age out and consumed.
#[derive(Clone, Copy, Debug, Default, PartialEq, Eq, Hash)]
pub struct Tallies {
    /// Put out by the ninth of a master.
    pub evicted: u64,
    /// Dropped at four intervals or more.
    pub aged_out: u64,
    /// Offered, and not chosen for their port.
    pub consumed: u64,
}

impl Tallies {
    /// The tallies of the words of the header's struct rillarch_tallies.
    pub(crate) fn from_words(words: &[u64]) -> Self {
        Self {
            evicted: words[0],
            aged_out: words[1],
            consumed: words[2],
        }
    }
}

/// The state that is recommended to a port, with the message or the own data that it rests on.
#[derive(Clone, Copy, Debug, PartialEq, Eq, Hash)]
pub enum State {
    /// No recommendation: the port stays as it is.
    Stay,
    /// Master, our clock being of class 1 to 127.
    M1(OwnData),
    /// Master, our clock being the grandmaster.
    M2(OwnData),
    /// Master, by the best message of all ports.
    M3(Announce),
    /// Passive, our clock being of class 1 to 127; by the port's message.
    P1(Announce),
    /// Passive, another port being nearer; by the port's message.
    P2(Announce),
    /// Slave: the clock follows the sender of this message.
    S1(Announce),
}

impl State {
    /// The number of the state: 0 to 6, as they stand.
    pub fn number(&self) -> u8 {
        match self {
            Self::Stay => 0,
            Self::M1(_) => 1,
            Self::M2(_) => 2,
            Self::M3(_) => 3,
            Self::P1(_) => 4,
            Self::P2(_) => 5,
            Self::S1(_) => 6,
        }
    }

    /// The state of the words of a port, by our own data.
    fn from_words(words: &[u64], own: OwnData) -> Self {
        let message = Announce::from_words(&words[1..=ANNOUNCE_WORDS]);
        match words[0] {
            0 => Self::Stay,
            1 => Self::M1(own),
            2 => Self::M2(own),
            3 => Self::M3(message),
            4 => Self::P1(message),
            5 => Self::P2(message),
            6 => Self::S1(message),
            number => panic!("{number} is no number of a state"),
        }
    }
}

/// What was decided.
#[derive(Clone, Debug, PartialEq, Eq, Hash)]
pub struct Decision {
    /// The state of each port, port 1 first.
    pub states: Vec<State>,
    /// What the decision consumed.
    pub tallies: Tallies,
}

impl Decision {
    /// The decision of the words of the header's struct rillarch_decision, by our own data.
    pub(crate) fn from_words(words: &[u64; DECISION_WORDS], own: OwnData) -> Self {
        let (tallies, rest) = words.split_at(TALLIES_WORDS);
        let ports = rest[1..].chunks_exact(PORT_WORDS).take(rest[0] as usize);
        Self {
            states: ports.map(|port| State::from_words(port, own)).collect(),
            tallies: Tallies::from_words(tallies),
        }
    }
}

/// What the ports of a clock have heard. It is sound at every moment.
#[derive(Clone, Debug, PartialEq, Eq)]
pub struct Book {
    store: Vec<u64>,
}

impl Book {
    /// A fresh book: our own clock identity, the acceptable masters, and an interval of 1 to 2^60 - 1 units for each of 1 to 8
    /// ports. Refused: [`OutOfRange`](Refusal::OutOfRange).
    ///
    /// ```
    /// use rillarch::{Acceptable, Book, Refusal};
    /// let second = 1_000_000_000 << 16;
    /// assert!(Book::new(0xA, Acceptable::Listed(&[1, 2]), &[second]).is_ok());
    /// assert_eq!(Book::new(0xA, Acceptable::Any, &[]), Err(Refusal::OutOfRange));
    /// ```
    pub fn new(own_clock: u64, acceptable: Acceptable, intervals: &[u64]) -> Result<Self, Refusal> {
        let mut book = Self {
            store: vec![0; calls::store_words()],
        };
        book.fresh_start(own_clock, acceptable, intervals)?;
        Ok(book)
    }

    /// A book out of the words of another. Refused: [`Short`](Refusal::Short), [`Unsound`](Refusal::Unsound).
    ///
    /// ```
    /// use rillarch::{Acceptable, Book, Refusal};
    /// let book = Book::new(0xA, Acceptable::Any, &[1])?;
    /// assert_eq!(Book::from_words(book.words().to_vec()), Ok(book));
    /// assert_eq!(Book::from_words(vec![0; 8]), Err(Refusal::Short));
    /// # Ok::<(), Refusal>(())
    /// ```
    pub fn from_words(words: Vec<u64>) -> Result<Self, Refusal> {
        let book = Self { store: words };
        book.check()?;
        Ok(book)
    }

    /// The words of the book.
    pub fn words(&self) -> &[u64] {
        &self.store
    }

    /// The words of the book, which is gone.
    pub fn into_words(self) -> Vec<u64> {
        self.store
    }

    /// Checks that the book is sound, as every call does before all else.
    pub fn check(&self) -> Result<(), Refusal> {
        calls::check(&self.store)
    }

    /// Starts afresh, as [`Book::new`] does; where that is refused the book stays as it was.
    pub fn fresh_start(
        &mut self,
        own_clock: u64,
        acceptable: Acceptable,
        intervals: &[u64],
    ) -> Result<(), Refusal> {
        let (any, listed): (bool, &[u64]) = match acceptable {
            Acceptable::Any => (true, &[]),
            Acceptable::Listed(listed) => (false, listed),
        };
        calls::fresh_start(&mut self.store, own_clock, any, listed, intervals)
    }

    /// Registers the frame that a port received. Refused: [`NoPort`](Refusal::NoPort), what [`Announce::read`] refuses, then
    /// [`OwnPort`](Refusal::OwnPort) to [`NinthMaster`](Refusal::NinthMaster).
    pub fn register(&mut self, port: u16, frame: &[u8]) -> Result<Tallies, Refusal> {
        let tallies = calls::register(&mut self.store, port, frame)?;
        Ok(Tallies::from_words(&tallies))
    }

    /// Makes every message older by a step, and drops those of four intervals or more. Refused: [`LongStep`](Refusal::LongStep).
    ///
    /// ```
    /// use rillarch::{Acceptable, Announce, Book, Refusal};
    /// let mut book = Book::new(0xA, Acceptable::Any, &[1000])?;
    /// let mut frame = [0; 64];
    /// Announce::default().write(&[], &mut frame)?;
    /// book.register(1, &frame)?;
    /// assert_eq!(book.age(3999)?.aged_out, 0);
    /// assert_eq!(book.age(1)?.aged_out, 1);
    /// # Ok::<(), Refusal>(())
    /// ```
    pub fn age(&mut self, step: u64) -> Result<Tallies, Refusal> {
        let tallies = calls::age(&mut self.store, step)?;
        Ok(Tallies::from_words(&tallies))
    }

    /// Decides for all ports, by our own data. Bit k - 1 of `listening` is set if port k listens; bits above the count are ignored.
    /// The page of the crate has an example.
    pub fn decide(&mut self, own: &OwnData, listening: u8) -> Result<Decision, Refusal> {
        let answer = calls::decide(&mut self.store, own, listening)?;
        Ok(Decision::from_words(&answer, *own))
    }

    /// The candidate at a place of the book's candidates, from 0: port 1 first, in a port the last master first; none where there
    /// are no more.
    pub fn candidate(&self, place: u64) -> Result<Option<Candidate>, Refusal> {
        let answer = calls::candidate(&self.store, place)?;
        Ok(Candidate::found(&answer))
    }

    /// All candidates of the book, so that [`choose`](crate::choose) can be asked for the best of all ports at once.
    pub fn candidates(&self) -> Result<Vec<Candidate>, Refusal> {
        (0..)
            .map_while(|place| self.candidate(place).transpose())
            .collect()
    }
}
