//! Each refusal of the paper's table, by a concrete case.
use crate::worlds::{entry, SECOND};
use rillarch::{tlvs, Acceptable, Announce, Book, OwnData, PortIdentity, Refusal, Tallies};

/// Our own clock, and one that is acceptable where a list is kept.
const OWN: u64 = 0xA;
const LISTED: u64 = 0xB;

fn book() -> Book {
    let book = Book::new(OWN, Acceptable::Any, &[SECOND, SECOND]);
    book.expect("all is in range")
}

/// The announce of a port with a sequence.
fn message(clock_identity: u64, port_number: u16, sequence_id: u16) -> Announce {
    Announce {
        source_port_identity: PortIdentity {
            clock_identity,
            port_number,
        },
        sequence_id,
        ..Announce::default()
    }
}

fn frame(announce: Announce) -> Vec<u8> {
    let mut frame = vec![0; 64];
    assert_eq!(announce.write(&[], &mut frame), Ok(64));
    frame
}

/// A frame with one byte changed.
fn changed(place: usize, byte: u8) -> Vec<u8> {
    let mut frame = frame(message(1, 1, 1));
    frame[place] = byte;
    frame
}

fn with_list(list: &[u8]) -> Vec<u8> {
    let mut frame = [frame(message(1, 1, 1)), list.to_vec()].concat();
    frame[3] = frame.len() as u8;
    frame
}

/// What a call is refused with; it changes no word.
fn refused<T: std::fmt::Debug>(
    book: &mut Book,
    call: impl FnOnce(&mut Book) -> Result<T, Refusal>,
) -> Refusal {
    let before = book.clone();
    let refusal = call(book).expect_err("the call is refused");
    assert_eq!(*book, before, "{refusal}");
    refusal
}

/// What a frame at port 1 of a fresh book is refused with.
fn refused_frame(frame: &[u8]) -> Refusal {
    refused(&mut book(), |book| book.register(1, frame))
}

fn short() -> Refusal {
    refused_frame(&frame(message(1, 1, 1))[..63])
}

fn reserved_type() -> Refusal {
    refused_frame(&changed(0, 0x04))
}

fn length_field() -> Refusal {
    refused_frame(&changed(3, 33))
}

fn odd_tlv() -> Refusal {
    refused_frame(&with_list(&entry(8, 1, &[1, 2])))
}

fn no_announce() -> Refusal {
    refused_frame(&changed(0, 0x00))
}

fn no_port() -> Refusal {
    let frame = frame(message(1, 1, 1));
    assert_eq!(
        refused(&mut book(), |book| book.register(0, &frame)),
        Refusal::NoPort
    );
    refused(&mut book(), |book| book.register(3, &frame))
}

fn own_port() -> Refusal {
    refused_frame(&frame(message(OWN, 1, 1)))
}

fn not_acceptable() -> Refusal {
    let mut book = Book::new(OWN, Acceptable::Listed(&[LISTED]), &[SECOND]).expect("in range");
    let listed = book.register(1, &frame(message(LISTED, 1, 1)));
    assert_eq!(listed, Ok(Tallies::default()));
    refused(&mut book, |book| book.register(1, &frame(message(1, 1, 1))))
}

fn own_clock() -> Refusal {
    refused_frame(&frame(message(OWN, 2, 1)))
}

fn sequence() -> Refusal {
    let mut book = book();
    for sequence in [1, 32767] {
        let taken = book.register(1, &frame(message(1, 1, sequence)));
        assert_eq!(taken, Ok(Tallies::default()));
    }
    let late = frame(message(1, 1, 65534));
    refused(&mut book, |book| book.register(1, &late))
}

fn steps() -> Refusal {
    let with_steps = |steps_removed| {
        frame(Announce {
            steps_removed,
            ..message(1, 1, 1)
        })
    };
    let taken = book().register(1, &with_steps(254));
    assert_eq!(taken, Ok(Tallies::default()));
    refused_frame(&with_steps(255))
}

fn ninth_master() -> Refusal {
    let mut book = book();
    for clock in 1..=8 {
        let taken = book.register(1, &frame(message(clock << 8, 1, 1)));
        assert_eq!(taken, Ok(Tallies::default()));
    }
    let ninth = frame(message(9 << 8, 1, 1));
    refused(&mut book, |book| book.register(1, &ninth))
}

fn long_step() -> Refusal {
    assert_eq!(book().age((1 << 62) - 1), Ok(Tallies::default()));
    refused(&mut book(), |book| book.age(1 << 62))
}

fn out_of_range() -> Refusal {
    let any = Acceptable::Any;
    let refusals = [
        Book::new(OWN, any, &[]),
        Book::new(OWN, any, &[SECOND; 9]),
        Book::new(OWN, any, &[0]),
        Book::new(OWN, any, &[1 << 60]),
        Book::new(OWN, Acceptable::Listed(&[1; 17]), &[SECOND]),
    ];
    for refusal in refusals {
        assert_eq!(refusal, Err(Refusal::OutOfRange));
    }
    assert!(Book::new(OWN, Acceptable::Listed(&[1; 16]), &[(1 << 60) - 1; 8]).is_ok());
    refused(&mut book(), |book| book.fresh_start(OWN, any, &[0]))
}

fn unfit() -> Refusal {
    let announce = Announce {
        sdo_id: 0x1000,
        ..message(1, 1, 1)
    };
    let mut target = [0xA5; 64];
    let refusal = announce.write(&[], &mut target);
    assert_eq!(target, [0xA5; 64]);
    let odd = message(1, 1, 1).write(&[0, 8, 0, 1, 7], &mut [0; 100]);
    assert_eq!(odd, Err(Refusal::Unfit));
    refusal.expect_err("an sdo id has 12 bits")
}

fn unsound() -> Refusal {
    let words = vec![u64::MAX; book().words().len()];
    Book::from_words(words).expect_err("no book has so many ports")
}

/// A number and the words of the paper's table, and a case.
type Row = (u8, &'static str, fn() -> Refusal);

const TABLE: [Row; 16] = [
    (1, "too few bytes, to read or to write", short),
    (2, "reserved type", reserved_type),
    (3, "length field below 34", length_field),
    (4, "odd TLV length", odd_tlv),
    (5, "another type than announce", no_announce),
    (6, "port 0 or above the count", no_port),
    (7, "own port identity", own_port),
    (8, "sender not acceptable", not_acceptable),
    (9, "own clock", own_clock),
    (10, "sequence", sequence),
    (11, "steps 255 or more", steps),
    (12, "ninth master", ninth_master),
    (13, "step of 2^62 or more", long_step),
    (
        14,
        "port count, interval or list length out of range",
        out_of_range,
    ),
    (15, "won't fit the wire", unfit),
    (16, "unsound book", unsound),
];

#[test]
fn every_refusal_has_a_case() {
    for (number, text, case) in TABLE {
        let refusal = case();
        assert_eq!((refusal.number(), &*refusal.to_string()), (number, text));
        assert_eq!(Refusal::from_number(number), Some(refusal));
    }
}

#[test]
fn words_that_are_too_few_are_refused() {
    let words = book().into_words();
    let short = words[..words.len() - 1].to_vec();
    assert_eq!(Book::from_words(short), Err(Refusal::Short));
    assert_eq!(Book::from_words(Vec::new()), Err(Refusal::Short));
}

/// Nothing at all is a slice too, and its pointer is not null.
#[test]
fn empty_slices_are_taken() {
    assert_eq!(Announce::read(&[]), Err(Refusal::Short));
    assert_eq!(tlvs(&[]).next(), None);
    assert_eq!(message(1, 1, 1).write(&[], &mut []), Err(Refusal::Short));
    assert_eq!(refused_frame(&[]), Refusal::Short);
    let mut none = Book::new(OWN, Acceptable::Listed(&[]), &[SECOND]).expect("in range");
    let refusal = refused(&mut none, |book| book.register(1, &frame(message(1, 1, 1))));
    assert_eq!(refusal, Refusal::NotAcceptable);
}

/// A fresh book has no candidate, and decides that our clock is the grandmaster.
#[test]
fn a_fresh_book_is_decided() {
    let own = OwnData {
        priority_1: 128,
        ..OwnData::default()
    };
    let mut book = book();
    assert_eq!(book.candidate(0), Ok(None));
    assert_eq!(book.candidates(), Ok(Vec::new()));
    let decision = book.decide(&own, 0b10).expect("the book is sound");
    assert_eq!(
        decision.states,
        [rillarch::State::M2(own), rillarch::State::Stay]
    );
    assert_eq!(decision.tallies, Tallies::default());
}
