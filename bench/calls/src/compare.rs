//! Both sides compared on random inputs: the number, every word of answer and store, every byte of a buffer.
use crate::inputs::*;
use crate::plain::store::STORE_WORDS;
use crate::plain::*;
use crate::proved;

const BOOKS: u64 = 60_000;
const FRAMES: u64 = 1_000_000;

/// How often a call answered each number, and what else it must have done.
struct Counts {
    call: &'static str,
    numbers: [u64; 17],
    further: Vec<(&'static str, u64)>,
}

impl Counts {
    fn new(call: &'static str, further: &[&'static str]) -> Self {
        Counts {
            call,
            numbers: [0; 17],
            further: further.iter().map(|name| (*name, 0)).collect(),
        }
    }

    /// Counts what both answered, or tells that they differ.
    fn same<T: PartialEq>(
        &mut self,
        turn: u64,
        left: (u32, T),
        right: (u32, T),
    ) -> Result<u32, String> {
        if left != right {
            return Err(format!(
                "{} differs on input {turn}: {} by the library, {} by the Rust",
                self.call, left.0, right.0
            ));
        }
        self.numbers[left.0 as usize] += 1;
        Ok(left.0)
    }

    fn add(&mut self, place: usize, count: u64) {
        self.further[place].1 += count;
    }

    /// Tells the counts; each of these numbers and all the rest must have occurred.
    fn tell(&self, expected: &[u32]) -> Result<(), String> {
        let told: Vec<String> = (0..17)
            .filter(|number| expected.contains(number))
            .map(|number| format!("{number}: {}", self.numbers[number as usize]))
            .chain(
                self.further
                    .iter()
                    .map(|(name, count)| format!("{name}: {count}")),
            )
            .collect();
        println!("{}: {}", self.call, told.join(", "));
        let missing = told.iter().find(|entry| entry.ends_with(": 0"));
        match missing {
            Some(entry) => Err(format!("{} never saw {entry}", self.call)),
            None => Ok(()),
        }
    }
}

/// An answer of random words: most often of the length that a call asks, else shorter or longer.
fn answer(random: &mut Random, length: usize) -> Vec<u64> {
    let length = match random.below(20) {
        0 => random.below(length as u64) as usize,
        1 => length + 3,
        _ => length,
    };
    random.words(length)
}

/// A book of any size, now and then damaged, too short or too long.
fn some_book(random: &mut Random, turn: u64) -> Vec<u64> {
    let kind = Kind {
        ports: 1 + random.below(8),
        masters: random.below(9),
        messages: 1 + random.below(8),
        free: turn % 3 != 0,
        listed: random.once_in(2),
        alike: !random.once_in(3),
    };
    let mut store = book(random, kind);
    if turn % 10 == 0 {
        damage(random, &mut store);
    }
    match random.below(50) {
        0 => store.truncate(random.one_of(&[0, 1, STORE_WORDS - 1])),
        1 => store.extend([7, 8, 9]),
        _ => (),
    }
    store
}

/// What a call does to copies of the words that it is lent.
fn on_copies(
    store: &[u64],
    answer: &[u64],
    call: impl FnOnce(&mut [u64], &mut [u64]) -> u32,
) -> (u32, (Vec<u64>, Vec<u64>)) {
    let (mut store, mut answer) = (store.to_vec(), answer.to_vec());
    let number = call(&mut store, &mut answer);
    (number, (store, answer))
}

const STATES: [&str; 7] = ["Stay", "M1", "M2", "M3", "P1", "P2", "S1"];

/// The calls over a store.
fn books(random: &mut Random) -> Result<(), String> {
    let mut checks = Counts::new("soundness", &[]);
    let mut decisions = Counts::new("decide", &STATES);
    let mut registrations = Counts::new("register", &["put out", "new master"]);
    let mut ageings = Counts::new("age", &["aged out", "master gone"]);
    for turn in 0..BOOKS {
        let store = some_book(random, turn);
        let left = (proved::check(&store), ());
        checks.same(turn, left, (plain_check(&store), ()))?;

        let own = some_own(random);
        let lent = answer(random, DECISION_WORDS);
        let left = on_copies(&store, &lent, |s, a| proved::decide(s, &own, a));
        let right = on_copies(&store, &lent, |s, a| plain_decide(s, &own, a));
        let (_, told) = left.1.clone();
        if decisions.same(turn, left, right)? == DONE {
            for port in told[4..DECISION_WORDS]
                .chunks(STATE_WORDS)
                .take(store[0] as usize)
            {
                decisions.add(port[0] as usize, 1);
            }
        }

        let most = store.first().map_or(1, |count| *count as u16 % 9);
        let port = match random.below(20) {
            0 => random.one_of(&[0, most + 1, 9, 65535]),
            _ => 1 + random.below(most.max(1) as u64) as u16,
        };
        let sound = store.len() >= STORE_WORDS && plain_check(&store) == DONE;
        let mut frame = match sound {
            true => heard(random, &store, port),
            false => some_frame(random),
        };
        if random.once_in(5) {
            damage_frame(random, &mut frame);
        }
        let lent = answer(random, TALLY_WORDS);
        let left = on_copies(&store, &lent, |s, a| proved::register(s, port, &frame, a));
        let right = on_copies(&store, &lent, |s, a| plain_register(s, port, &frame, a));
        let (after, told) = left.1.clone();
        if registrations.same(turn, left, right)? == DONE {
            registrations.add(0, told[0]);
            registrations.add(1, held(&after).0 - held(&store).0);
        }

        let step = match random.below(4) {
            0 => random.one_of(&[0, 1, (1 << 62) - 1, 1 << 62, u64::MAX]),
            1 => 2 * INTERVAL - 10 + random.below(20),
            _ => random.below(4 * INTERVAL),
        };
        let lent = answer(random, TALLY_WORDS);
        let left = on_copies(&store, &lent, |s, a| proved::age(s, step, a));
        let right = on_copies(&store, &lent, |s, a| plain_age(s, step, a));
        let (after, told) = left.1.clone();
        if ageings.same(turn, left, right)? == DONE {
            ageings.add(0, told[1]);
            ageings.add(1, held(&store).0 - held(&after).0);
        }
    }
    checks.tell(&[DONE, SHORT, UNSOUND])?;
    decisions.tell(&[DONE, SHORT, UNSOUND])?;
    registrations.tell(&[0, 1, 2, 3, 4, 5, 6, 7, 8, 9, 10, 11, 12, 16])?;
    ageings.tell(&[DONE, SHORT, LONG_STEP, UNSOUND])
}

/// How many masters and messages a sound store holds.
pub fn held(store: &[u64]) -> (u64, u64) {
    let masters = store::ports(store).iter().flat_map(store::masters);
    masters.fold((0, 0), |(masters, messages), master| {
        (masters + 1, messages + master[3])
    })
}

/// Frames read.
fn reads(random: &mut Random) -> Result<(), String> {
    let mut counts = Counts::new("read", &["with TLVs"]);
    for turn in 0..FRAMES {
        let mut frame = some_frame(random);
        if random.once_in(2) {
            damage_frame(random, &mut frame);
        }
        let lent = answer(random, FRAME_WORDS);
        let mut left = lent.clone();
        let mut right = lent;
        let numbers = (
            proved::read_frame(&frame, &mut left),
            plain_read_frame(&frame, &mut right),
        );
        let entries = left.get(22).is_some_and(|end| *end > 64);
        if counts.same(turn, (numbers.0, left), (numbers.1, right))? == DONE {
            counts.add(0, entries as u64);
        }
    }
    counts.tell(&[0, 1, 2, 3, 4, 5])
}

/// Announces written, over random bytes.
fn writes(random: &mut Random) -> Result<(), String> {
    let mut counts = Counts::new("write", &["with TLVs", "of 65,500 bytes or more"]);
    let long = random.bytes(65_536);
    for turn in 0..FRAMES {
        let mut words = announce(random).to_vec();
        if random.once_in(8) {
            // Too many bits somewhere, by one or by many.
            let place = random.below(21) as usize;
            let bits = [words[place] << 1 | 1, 1 << random.below(64), random.next()];
            words[place] = random.one_of(&bits);
        }
        if random.once_in(20) {
            words.truncate(random.below(21) as usize);
        }
        let entries = random.below(4);
        let mut tlvs = tlvs(random, entries, false);
        if random.once_in(8) {
            let any = random.below(tlvs.len() as u64 + 1) as usize;
            match tlvs.get_mut(any) {
                Some(byte) if random.once_in(2) => *byte ^= 1 << random.below(3),
                _ => tlvs.truncate(any),
            }
        }
        if random.once_in(2_000) {
            // One entry up to the most that a message holds, and past it.
            let length = random.one_of(&[65_464, 65_466, 65_468, 65_470]) as usize;
            tlvs = vec![0, 3];
            tlvs.extend((length as u16).to_be_bytes());
            tlvs.extend(&long[..length]);
        }
        let whole = 64 + tlvs.len();
        let room = match random.below(10) {
            0 => random.below(whole as u64) as usize,
            1 => whole - 1,
            2 => whole,
            _ => whole + 5,
        };
        let buffer = random.next().to_ne_bytes().repeat(room / 8 + 1)[..room].to_vec();
        let mut left = buffer.clone();
        let mut right = buffer;
        let numbers = (
            proved::write_announce(&words, &tlvs, &mut left),
            plain_write_announce(&words, &tlvs, &mut right),
        );
        if counts.same(turn, (numbers.0, left), (numbers.1, right))? == DONE {
            counts.add(0, !tlvs.is_empty() as u64);
            counts.add(1, (whole >= 65_500) as u64);
        }
    }
    counts.tell(&[DONE, SHORT, UNFIT])
}

pub fn compare() -> Result<(), String> {
    let words = proved::store_words();
    if words != STORE_WORDS {
        return Err(format!("a store of the library has {words} words"));
    }
    println!("how often both answered each number, and what else occurred:");
    let mut random = Random(0x1234_5678_9ABC_DEF1);
    books(&mut random)?;
    reads(&mut random)?;
    writes(&mut random)
}
