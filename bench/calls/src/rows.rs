//! What is timed: calls on prepared inputs.
use crate::inputs::*;
use crate::plain::store::*;
use crate::plain::*;
use crate::proved;
use std::cell::RefCell;
use std::hint::black_box;
use std::rc::Rc;

/// One call on input i of a row, after what it is to be lent was made ready; its number.
pub type Side = Box<dyn FnMut(usize) -> u32>;

#[derive(Clone, Copy, PartialEq)]
pub enum Call {
    Decide,
    Register,
    Age,
    Soundness,
    Read,
    Write,
}

/// A kind of book, or how many TLVs a frame has.
#[derive(Clone, Copy)]
enum Of {
    Book(Kind),
    Tlvs(u64),
}

const fn book_of(ports: u64, masters: u64, messages: u64, listed: bool, alike: bool) -> Of {
    Of::Book(Kind {
        ports,
        masters,
        messages,
        free: false,
        listed,
        alike,
    })
}

const FULL: Of = book_of(8, 8, 8, false, true);
const LIST: Of = book_of(8, 8, 8, true, false);
const SMALL: Of = book_of(1, 2, 3, false, false);

/// The rows of the table.
const ROWS: [(Call, &str, Of); 16] = [
    (Call::Decide, "full", FULL),
    (Call::Decide, "full, list", LIST),
    (Call::Decide, "small", SMALL),
    (Call::Register, "full", FULL),
    (Call::Register, "full, list", LIST),
    (Call::Register, "small", SMALL),
    (Call::Age, "full", FULL),
    (Call::Age, "full, list", LIST),
    (Call::Age, "small", SMALL),
    (Call::Soundness, "full", FULL),
    (Call::Soundness, "full, list", LIST),
    (Call::Soundness, "small", SMALL),
    (Call::Read, "no TLV", Of::Tlvs(0)),
    (Call::Read, "3 TLVs", Of::Tlvs(3)),
    (Call::Write, "no TLV", Of::Tlvs(0)),
    (Call::Write, "3 TLVs", Of::Tlvs(3)),
];

pub const COUNT: usize = ROWS.len();

/// Worse than every message, and of a class that reads Ebest: so every state carries a message. No port listens.
pub const LAST: Own = Own {
    priority_1: 255,
    class: 255,
    accuracy: 254,
    variance: 65535,
    priority_2: 255,
    listening: 0,
};

/// How many inputs a row has.
const INPUTS: usize = 16;

/// The inputs of a row.
pub struct Inputs {
    /// Books, and how many words of each port are in use.
    pub books: Vec<Vec<u64>>,
    used: usize,
    /// Where a frame arrives: ports from 1 on.
    pub ports: Vec<u16>,
    pub frames: Vec<Vec<u8>>,
    /// The announces and TLVs of the frames.
    pub announces: Vec<[u64; ANNOUNCE_WORDS]>,
    pub tlvs: Vec<Vec<u8>>,
    /// A step by which half of the messages go, or none where they are alike.
    pub step: u64,
}

pub struct Row {
    pub call: Call,
    pub of: &'static str,
    pub inputs: &'static Inputs,
    /// The calls of one slice, some tens of microseconds.
    pub calls: usize,
}

/// An accuracy that the crate keeps: it reads reserved ones as 0.
fn kept(accuracy: u64) -> u64 {
    (accuracy | 0x80).min(0xFE)
}

fn keep_accuracies(store: &mut [u64]) {
    for port in ports_mut(store) {
        for master in masters_mut(port) {
            for slot in master[4..].as_chunks_mut::<SLOT_WORDS>().0 {
                slot[5] = slot[5] & !(0xFF << 40) | kept(slot[5] >> 40 & 0xFF) << 40;
            }
        }
    }
}

/// The middle one of all ages.
fn median_age(books: &[Vec<u64>]) -> u64 {
    let masters = books
        .iter()
        .flat_map(|store| ports(store))
        .flat_map(masters);
    let ages = masters.flat_map(|master| (0..master[3]).map(|k| slot(master, k)[2]));
    let mut ages: Vec<u64> = ages.collect();
    ages.sort();
    ages[ages.len() / 2]
}

impl Inputs {
    fn new(of: Of) -> Self {
        let mut random = Random(0xFEDC_BA98_7654_3211);
        let mut inputs = Inputs {
            books: Vec::new(),
            used: 0,
            ports: Vec::new(),
            frames: Vec::new(),
            announces: Vec::new(),
            tlvs: Vec::new(),
            step: 0,
        };
        for _ in 0..INPUTS {
            let entries = match of {
                Of::Tlvs(entries) => entries,
                Of::Book(_) => 0,
            };
            let list = tlvs(&mut random, entries, true);
            let mut frame = frame(&mut random, &list, 0);
            frame[49] = kept(frame[49] as u64) as u8;
            if let Of::Book(kind) = of {
                let mut store = book(&mut random, kind);
                keep_accuracies(&mut store);
                inputs.used = 4 + kind.masters as usize * MASTER_WORDS;
                // The next message of one of the masters.
                let port = random.below(kind.ports) as usize;
                let master = random.below(kind.masters) as usize;
                let master = &masters(&ports(&store)[port])[master];
                let next = sequence(slot(master, master[3] - 1)).wrapping_add(1);
                set_sender(&mut frame, master[0], master[1] as u16, next, 1);
                inputs.ports.push(port as u16 + 1);
                inputs.books.push(store);
            }
            let mut words = [0; FRAME_WORDS];
            plain_read_frame(&frame, &mut words);
            inputs
                .announces
                .push(*words.first_chunk().expect("a frame has an announce"));
            inputs.frames.push(frame);
            inputs.tlvs.push(list);
        }
        inputs.step = match of {
            Of::Book(kind) if !kind.alike => 4 * INTERVAL - median_age(&inputs.books),
            _ => 1000,
        };
        inputs
    }

    /// A fresh copy of a book: its head and of each port what is in use.
    fn copy(&self, i: usize, store: &mut [u64]) {
        let book = &self.books[i];
        store[..HEAD_WORDS].copy_from_slice(&book[..HEAD_WORDS]);
        for (port, words) in ports_mut(store).iter_mut().zip(ports(book)) {
            port[..self.used].copy_from_slice(&words[..self.used]);
        }
    }
}

/// The store and the bytes that the calls of a row are lent: the sides share them.
#[derive(Clone)]
struct Lent {
    inputs: &'static Inputs,
    store: Rc<RefCell<Vec<u64>>>,
    answer: Rc<RefCell<[u64; DECISION_WORDS]>>,
    buffer: Rc<RefCell<[u8; 256]>>,
}

impl Lent {
    /// A call on a fresh copy of a book.
    fn on_copy(&self, call: fn(&Inputs, usize, &mut [u64], &mut [u64]) -> u32) -> Side {
        let Lent {
            inputs,
            store,
            answer,
            ..
        } = self.clone();
        let call = black_box(call);
        Box::new(move |i| {
            let store = &mut *store.borrow_mut();
            inputs.copy(i, store);
            let answer = &mut *answer.borrow_mut();
            call(inputs, i, black_box(store), black_box(answer))
        })
    }

    /// A call that is lent no book.
    fn alone(&self, call: fn(&Inputs, usize, &mut [u64], &mut [u8]) -> u32) -> Side {
        let Lent {
            inputs,
            answer,
            buffer,
            ..
        } = self.clone();
        let call = black_box(call);
        Box::new(move |i| {
            let answer = &mut *answer.borrow_mut();
            let buffer = &mut *buffer.borrow_mut();
            call(inputs, i, black_box(answer), black_box(buffer))
        })
    }
}

impl Row {
    pub fn new(place: usize) -> Self {
        let (call, of, input) = ROWS[place];
        let calls = match input {
            Of::Book(kind) if kind.ports > 1 => 16,
            Of::Book(_) => 512,
            Of::Tlvs(_) => 1024,
        };
        let inputs = Box::leak(Box::new(Inputs::new(input)));
        Row {
            call,
            of,
            inputs,
            calls,
        }
    }

    pub fn name(&self) -> &'static str {
        match self.call {
            Call::Decide => "decide",
            Call::Register => "register",
            Call::Age => "age",
            Call::Soundness => "soundness",
            Call::Read => "read",
            Call::Write => "write",
        }
    }

    /// How the functions end: rillarch_, plain_ and crate_ stand before it.
    pub fn symbol(&self) -> &'static str {
        match self.call {
            Call::Soundness => "check",
            Call::Read => "read_frame",
            Call::Write => "write_announce",
            _ => self.name(),
        }
    }

    /// What is made ready alone, which is a fresh copy of the book or nothing; then the proved call, then the Rust.
    pub fn sides(&self) -> [Side; 3] {
        let lent = Lent {
            inputs: self.inputs,
            store: Rc::new(RefCell::new(
                self.inputs.books.first().cloned().unwrap_or_default(),
            )),
            answer: Rc::new(RefCell::new([0; DECISION_WORDS])),
            buffer: Rc::new(RefCell::new([0; 256])),
        };
        match self.call {
            Call::Decide => [
                lent.on_copy(|_, _, _, _| 0),
                lent.on_copy(|_, _, store, answer| proved::decide(store, &LAST, answer)),
                lent.on_copy(|_, _, store, answer| plain_decide(store, &LAST, answer)),
            ],
            Call::Register => [
                lent.on_copy(|_, _, _, _| 0),
                lent.on_copy(|inputs, i, store, answer| {
                    proved::register(store, inputs.ports[i], &inputs.frames[i], answer)
                }),
                lent.on_copy(|inputs, i, store, answer| {
                    plain_register(store, inputs.ports[i], &inputs.frames[i], answer)
                }),
            ],
            Call::Age => [
                lent.on_copy(|_, _, _, _| 0),
                lent.on_copy(|inputs, _, store, answer| proved::age(store, inputs.step, answer)),
                lent.on_copy(|inputs, _, store, answer| plain_age(store, inputs.step, answer)),
            ],
            Call::Soundness => [
                lent.on_copy(|_, _, _, _| 0),
                lent.on_copy(|_, _, store, _| proved::check(store)),
                lent.on_copy(|_, _, store, _| plain_check(store)),
            ],
            Call::Read => [
                lent.alone(|_, _, _, _| 0),
                lent.alone(|inputs, i, answer, _| proved::read_frame(&inputs.frames[i], answer)),
                lent.alone(|inputs, i, answer, _| plain_read_frame(&inputs.frames[i], answer)),
            ],
            Call::Write => [
                lent.alone(|_, _, _, _| 0),
                lent.alone(|inputs, i, _, buffer| {
                    proved::write_announce(&inputs.announces[i], &inputs.tlvs[i], buffer)
                }),
                lent.alone(|inputs, i, _, buffer| {
                    plain_write_announce(&inputs.announces[i], &inputs.tlvs[i], buffer)
                }),
            ],
        }
    }
}
