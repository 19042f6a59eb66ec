//! What include/rillarch.h says of lengths and words that the types of the crate rule out.
use super::*;
use crate::{Acceptable, Announce, Book, Candidate};

const SECOND: u64 = 1_000_000_000 << 16;

/// What lies where an answer is written to.
const UNWRITTEN: u64 = 0xA5A5_A5A5_A5A5_A5A5;

/// The announce of port 1 of a clock, with a sequence.
fn announce(clock_identity: u64, sequence_id: u16) -> Announce {
    Announce {
        source_port_identity: crate::PortIdentity {
            clock_identity,
            port_number: 1,
        },
        sequence_id,
        ..Announce::default()
    }
}

fn frame(announce: Announce) -> Vec<u8> {
    let mut frame = vec![0; 64];
    assert_eq!(announce.write(&[], &mut frame), Ok(64));
    frame
}

/// The words of a book with two masters that offer a message, and some words behind it.
fn store() -> Vec<u64> {
    let mut book = Book::new(0xA, Acceptable::Any, &[SECOND; 2]).expect("all is in range");
    for (clock, sequence) in [(1, 1), (2, 1), (1, 2), (2, 2)] {
        let frame = frame(announce(clock, sequence));
        assert!(book.register(1, &frame).is_ok());
    }
    let mut words = book.into_words();
    words.extend([UNWRITTEN; 3]);
    words
}

/// A call over a store and an answer; those that have no store leave it aside.
type Call = fn(&mut [u64], &mut [u64]) -> u32;

/// The calls over a store that answer words: how many, and the call.
const OVER_A_STORE: [(usize, Call); 4] = [
    (TALLIES_WORDS, |store, answer| {
        register_into(store, 1, &frame(announce(1, 3)), answer)
    }),
    (TALLIES_WORDS, |store, answer| age_into(store, 1, answer)),
    (DECISION_WORDS, |store, answer| {
        let ((store, words), (answer, room)) = (lent(store), lent(answer));
        // SAFETY: pointers and counts are those of slices that outlive the call and are lent to it alone.
        unsafe { rillarch_decide(store, words, 128, 248, 0xFE, 0xFFFF, 128, 0, answer, room) }
    }),
    (FOUND_WORDS, |store, answer| {
        let ((store, words), (answer, room)) = (read(store), lent(answer));
        // SAFETY: pointers and counts are those of slices that outlive the call, and the answer is lent to it alone.
        unsafe { rillarch_candidate(store, words, 1, answer, room) }
    }),
];

/// The calls that answer words without a store.
const WITHOUT_A_STORE: [(usize, Call); 4] = [
    (1, |_, answer| {
        let candidate = Candidate::default().words();
        compare_into(&candidate, &candidate, answer)
    }),
    (FOUND_WORDS, |_, answer| choose_into(&[0; 24], answer)),
    (FRAME_WORDS, |_, answer| {
        read_frame_into(&frame(announce(1, 1)), answer)
    }),
    (TLV_WORDS, |_, answer| {
        tlv_entry_into(&[0, 8, 0, 2, 1, 2], answer)
    }),
];

fn register_into(store: &mut [u64], port: u16, frame: &[u8], answer: &mut [u64]) -> u32 {
    let ((store, words), (answer, room)) = (lent(store), lent(answer));
    let (frame, bytes) = read(frame);
    // SAFETY: pointers and counts are those of slices that outlive the call; store and answer are lent to it alone.
    unsafe { rillarch_register(store, words, port, frame, bytes, answer, room) }
}

fn age_into(store: &mut [u64], step: u64, answer: &mut [u64]) -> u32 {
    let ((store, words), (answer, room)) = (lent(store), lent(answer));
    // SAFETY: pointers and counts are those of slices that outlive the call and are lent to it alone.
    unsafe { rillarch_age(store, words, step, answer, room) }
}

fn read_frame_into(frame: &[u8], answer: &mut [u64]) -> u32 {
    let ((frame, bytes), (answer, room)) = (read(frame), lent(answer));
    // SAFETY: pointers and counts are those of slices that outlive the call, and the answer is lent to it alone.
    unsafe { rillarch_read_frame(frame, bytes, answer, room) }
}

fn tlv_entry_into(list: &[u8], answer: &mut [u64]) -> u32 {
    let ((list, bytes), (answer, room)) = (read(list), lent(answer));
    // SAFETY: pointers and counts are those of slices that outlive the call, and the answer is lent to it alone.
    unsafe { rillarch_tlv_entry(list, bytes, 0, answer, room) }
}

fn compare_into(left: &[u64], right: &[u64], answer: &mut [u64]) -> u32 {
    let ((left, left_words), (right, right_words)) = (read(left), read(right));
    let (answer, room) = lent(answer);
    // SAFETY: pointers and counts are those of slices that outlive the call, and the answer is lent to it alone.
    unsafe { rillarch_compare(left, left_words, right, right_words, answer, room) }
}

fn choose_into(candidates: &[u64], answer: &mut [u64]) -> u32 {
    let ((candidates, words), (answer, room)) = (read(candidates), lent(answer));
    // SAFETY: pointers and counts are those of slices that outlive the call, and the answer is lent to it alone.
    unsafe { rillarch_choose(candidates, words, answer, room) }
}

/// Makes a call that is refused, which changes neither store nor answer.
fn refused(call: Call, store: &[u64], room: usize) -> u32 {
    let (mut words, mut answer) = (store.to_vec(), vec![UNWRITTEN; room]);
    let number = call(&mut words, &mut answer);
    assert!(words == store, "the store is as it was");
    assert_eq!(answer, vec![UNWRITTEN; room]);
    number
}

#[test]
fn answers_take_their_words_and_no_more() {
    let store = store();
    for (words, call) in OVER_A_STORE.into_iter().chain(WITHOUT_A_STORE) {
        for room in 0..words {
            assert_eq!(refused(call, &store, room), 1, "{room} of {words} words");
        }
        let mut exact = vec![0; words];
        let mut longer = vec![UNWRITTEN; words + 3];
        let (mut left, mut right) = (store.clone(), store.clone());
        assert_eq!(call(&mut left, &mut exact), 0);
        assert_eq!(call(&mut right, &mut longer), 0);
        assert_eq!(longer[..words], exact);
        assert_eq!(longer[words..], [UNWRITTEN; 3]);
        assert!(left == right, "the room of the answer does not matter");
        assert_eq!(right[right.len() - 3..], [UNWRITTEN; 3]);
    }
}

#[test]
fn an_answer_is_checked_first_then_the_store() {
    let unsound = vec![u64::MAX; store_words()];
    let short = &unsound[..store_words() - 1];
    for (words, call) in OVER_A_STORE {
        assert_eq!(refused(call, &unsound, words - 1), 1);
        assert_eq!(refused(call, short, words), 1);
        assert_eq!(refused(call, &[], words), 1);
        assert_eq!(refused(call, &unsound, words), 16);
    }
    assert_eq!(check(&store()), Ok(()));
    assert_eq!(check(&unsound), Err(Refusal::Unsound));
    assert_eq!(check(short), Err(Refusal::Short));
}

#[test]
fn a_refusal_leaves_the_answer_and_the_store() {
    let registered = [
        (6, 0, announce(1, 3)),
        (7, 1, announce(0xA, 1)),
        (9, 2, announce(0xA, 1)),
        (10, 1, announce(1, 1)),
        (
            11,
            1,
            Announce {
                steps_removed: 255,
                ..announce(1, 3)
            },
        ),
    ];
    let (before, mut store) = (store(), store());
    let mut answer = [UNWRITTEN; FRAME_WORDS];
    for (number, port, announce) in registered {
        let frame = frame(announce);
        assert_eq!(register_into(&mut store, port, &frame, &mut answer), number);
    }
    assert_eq!(age_into(&mut store, 1 << 62, &mut answer), 13);
    // too short, a reserved type, a length field of 33, another type
    let frame = frame(announce(1, 3));
    let frames = [
        (1, 63, 0x0B, 64),
        (2, 64, 4, 64),
        (3, 64, 0x0B, 33),
        (5, 64, 0, 64),
    ];
    for (number, bytes, message_type, length) in frames {
        let mut frame = frame.clone();
        (frame[0], frame[3]) = (message_type, length);
        let frame = &frame[..bytes];
        assert_eq!(read_frame_into(frame, &mut answer), number);
        assert_eq!(register_into(&mut store, 1, frame, &mut answer), number);
    }
    let odd = [0, 8, 0, 1, 1];
    assert_eq!(tlv_entry_into(&odd, &mut answer), 4);
    assert_eq!(tlv_entry_into(&odd[..4], &mut answer), 1);
    let mut frame = [frame, odd.to_vec()].concat();
    frame[3] = 69;
    assert_eq!(read_frame_into(&frame, &mut answer), 4);
    assert_eq!(register_into(&mut store, 1, &frame, &mut answer), 4);
    assert_eq!(answer, [UNWRITTEN; FRAME_WORDS]);
    assert!(store == before, "the store is as it was");
}

#[test]
fn flags_without_a_name_are_read_as_zeros() {
    let mut frame = frame(announce(1, 1));
    frame[6..8].fill(0xFF);
    assert_eq!(read_frame(&frame).map(|words| words[4]), Ok(0x677F));
}

#[test]
fn a_fresh_start_checks_the_room_first() {
    let start = |room: usize, intervals: &[u64]| {
        let mut store = vec![UNWRITTEN; room];
        let result = fresh_start(&mut store, 0xA, true, &[], intervals);
        if result.is_err() {
            assert_eq!(store, vec![UNWRITTEN; room]);
        }
        result
    };
    let words = store_words();
    assert_eq!(start(words - 1, &[0]), Err(Refusal::Short));
    assert_eq!(start(words, &[0]), Err(Refusal::OutOfRange));
    assert_eq!(start(words, &[SECOND]), Ok(()));

    // any number but 0 says that any master is acceptable
    let mut store = vec![0; words];
    let ((pointer, room), (intervals, ports)) = (lent(&mut store), read(&[SECOND]));
    let (listed, count) = read(&[]);
    // SAFETY: pointers and counts are those of slices that outlive the call, and the store is lent to it alone.
    let number =
        unsafe { rillarch_fresh_start(pointer, room, 0xA, 255, listed, count, intervals, ports) };
    assert_eq!(number, 0);
    assert!(register(&mut store, 1, &frame(announce(1, 1))).is_ok());
}

/// The most that the words of a candidate hold.
const CANDIDATE_LIMITS: [u64; CANDIDATE_WORDS] = {
    const ANY: u64 = u64::MAX;
    [
        0xFF, 0xFF, 0xFF, 0xFFFF, 0xFF, ANY, 0xFFFF, ANY, ANY, 0xFFFF, ANY, ANY,
    ]
};

#[test]
fn words_above_their_field_are_unfit() {
    let most = CANDIDATE_LIMITS;
    assert_eq!(compare(&most, &most), Ok([3]));
    let twice = [most, most].concat();
    assert_eq!(choose(&twice).map(|found| found[0]), Ok(1));
    for (place, limit) in most.into_iter().enumerate() {
        let Some(above) = limit.checked_add(1) else {
            continue;
        };
        let mut unfit = most;
        unfit[place] = above;
        let mut answer = [UNWRITTEN; FOUND_WORDS];
        assert_eq!(compare_into(&unfit, &most, &mut answer), 15, "{place}");
        assert_eq!(compare_into(&most, &unfit, &mut answer), 15, "{place}");
        let lists = [[unfit, most], [most, unfit]];
        for list in lists {
            assert_eq!(choose_into(&list.concat(), &mut answer), 15, "{place}");
        }
        assert_eq!(answer, [UNWRITTEN; FOUND_WORDS]);
    }
}

#[test]
fn candidates_are_whole() {
    let most = CANDIDATE_LIMITS;
    let mut answer = [UNWRITTEN; FOUND_WORDS];
    for words in 0..CANDIDATE_WORDS {
        assert_eq!(compare_into(&most[..words], &most, &mut answer), 1);
        assert_eq!(compare_into(&most, &most[..words], &mut answer), 1);
        if words > 0 {
            let list = [&most, &most[..words]].concat();
            assert_eq!(choose_into(&list, &mut answer), 1, "{words}");
        }
    }
    assert_eq!(answer, [UNWRITTEN; FOUND_WORDS]);
    assert_eq!(choose(&[]), Ok([0; FOUND_WORDS]));
}

#[test]
fn an_announce_is_checked_before_the_buffer() {
    const ANY: u64 = u64::MAX;
    let most: [u64; ANNOUNCE_WORDS] = [
        0xFFF,
        0xF,
        0xF,
        0xFF,
        0xFFFF,
        ANY,
        ANY,
        0xFFFF,
        0xFFFF,
        0xFF,
        0xFFFF_FFFF_FFFF,
        0xFFFF_FFFF,
        0xFFFF,
        0xFF,
        0xFF,
        0xFF,
        0xFFFF,
        0xFF,
        ANY,
        0xFFFF,
        0xFF,
    ];
    let write = |words: &[u64], room: usize| {
        let mut buffer = vec![0xA5; room];
        let result = write_announce(words, &[], &mut buffer);
        if result.is_err() {
            assert_eq!(buffer, vec![0xA5; room]);
        }
        result.map(|()| buffer)
    };
    // the flags without a name are written as zeros
    let written = write(&most, 64).expect("all fields fit");
    assert_eq!(written[6..8], [0x67, 0x7F]);
    for (place, limit) in most.into_iter().enumerate() {
        let mut words = most;
        if let Some(above) = limit.checked_add(1) {
            words[place] = above;
            assert_eq!(write(&words, 64), Err(Refusal::Unfit), "{place}");
            assert_eq!(write(&words, 0), Err(Refusal::Unfit), "{place}");
        }
        assert_eq!(write(&words[..place], 64), Err(Refusal::Short), "{place}");
    }
    assert_eq!(write(&most, 63), Err(Refusal::Short));
}

/// A place past the candidates has none, and bits past the ports are ignored.
#[test]
fn places_and_bits_past_the_end_are_taken() {
    assert_eq!(candidate(&store(), u64::MAX), Ok([0; FOUND_WORDS]));
    let own = OwnData::default();
    let decision = decide(&mut store(), &own, 0b10);
    assert_eq!(decision.map(|words| words[3]), Ok(2));
    assert_eq!(decide(&mut store(), &own, 0b1111_1110), decision);
}
