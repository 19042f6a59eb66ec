//! Laws that need no oracle.
use crate::random::{scaled, Random};
use crate::worlds::{announce, frame, list, Clock, World};
use rillarch::{choose, tlvs, Acceptable, Announce, Book, Candidate, Refusal, Tlv, Verdict};

#[test]
fn what_is_written_is_read() {
    let mut random = Random::new();
    for _ in 0..scaled(20_000) {
        let mut announce = announce(&mut random);
        announce.grandmaster_clock_quality.clock_accuracy = random.byte();
        let list = list(&mut random);
        let length = 64 + list.len();
        let behind = random.below(9);
        let before = random.bytes(length + behind);
        let mut target = before.clone();
        assert_eq!(announce.write(&list, &mut target), Ok(length));
        assert_eq!(Announce::read(&target), Ok((announce, 64..length)));
        assert_eq!(target[64..length], list);
        // byte 46 and what lies behind stay as they were
        assert_eq!(target[46], before[46]);
        assert_eq!(target[length..], before[length..]);
    }
}

#[test]
fn a_refused_write_changes_nothing() {
    let mut random = Random::new();
    for _ in 0..scaled(2_000) {
        let mut announce = announce(&mut random);
        let list = list(&mut random);
        let mut room = 64 + list.len();
        let refusal = match random.below(4) {
            0 => {
                announce.sdo_id |= 0x1000;
                Refusal::Unfit
            }
            1 => {
                announce.version_minor |= 0x10;
                Refusal::Unfit
            }
            2 => {
                announce.origin_timestamp.seconds |= 1 << 48;
                Refusal::Unfit
            }
            _ => {
                room = random.below(room);
                Refusal::Short
            }
        };
        let before = random.bytes(room);
        let mut target = before.clone();
        assert_eq!(announce.write(&list, &mut target), Err(refusal));
        assert_eq!(target, before);
    }
}

/// The entries of a list up to its first fault, and the fault, by the paper: while more than four bytes remain an odd length is
/// refused 4, then a value past the end 1; bytes left over are refused 1.
fn by_the_paper(list: &[u8]) -> (Vec<Tlv<'_>>, Option<Refusal>) {
    let mut entries = Vec::new();
    let mut rest = list;
    while let [t0, t1, l0, l1, value @ ..] = rest {
        let length = usize::from(u16::from_be_bytes([*l0, *l1]));
        if value.is_empty() {
            break;
        }
        if length % 2 == 1 {
            return (entries, Some(Refusal::OddTlv));
        }
        let Some((value, behind)) = value.split_at_checked(length) else {
            return (entries, Some(Refusal::Short));
        };
        let tlv_type = u16::from_be_bytes([*t0, *t1]);
        entries.push(Tlv { tlv_type, value });
        rest = behind;
    }
    (entries, (!rest.is_empty()).then_some(Refusal::Short))
}

/// What would be the TLVs of a frame of any kind.
fn some_list(random: &mut Random) -> Vec<u8> {
    let frame = frame(random);
    frame.get(64..).unwrap_or(&frame).to_vec()
}

#[test]
fn entries_make_up_their_list() {
    let mut random = Random::new();
    let (mut good, mut faulty) = (0, 0);
    for _ in 0..scaled(20_000) {
        let list = some_list(&mut random);
        let (entries, fault) = by_the_paper(&list);
        let mut read = tlvs(&list);
        match fault {
            None => {
                let read: Result<Vec<Tlv>, Refusal> = read.by_ref().collect();
                assert_eq!(read, Ok(entries), "{list:?}");
                good += u64::from(!list.is_empty());
            }
            Some(refusal) => {
                let told = read.find_map(Result::err);
                assert_eq!(told, Some(refusal), "{list:?}");
                faulty += 1;
            }
        }
        assert_eq!(read.next(), None, "{list:?}");
    }
    assert!(good > 0 && faulty > 0);
}

/// "One entry is read by the same rule at its place": a fault further on does not hide it.
#[test]
fn entries_before_a_fault_are_read() {
    let mut random = Random::new();
    let mut before = 0;
    for _ in 0..scaled(20_000) {
        let list = some_list(&mut random);
        let (entries, fault) = by_the_paper(&list);
        if fault.is_some() {
            let read: Vec<Tlv> = tlvs(&list).map_while(Result::ok).collect();
            assert_eq!(read, entries, "{list:?}");
            before += entries.len();
        }
    }
    assert!(before > 0);
}

/// The verdict with the sides swapped.
fn mirrored(verdict: Verdict) -> Verdict {
    match verdict {
        Verdict::Better => Verdict::Worse,
        Verdict::BetterByTopology => Verdict::WorseByTopology,
        Verdict::Error1 => Verdict::Error1,
        Verdict::Error2 => Verdict::Error2,
        Verdict::WorseByTopology => Verdict::BetterByTopology,
        Verdict::Worse => Verdict::Better,
    }
}

#[test]
fn swapping_the_sides_mirrors_the_verdict() {
    let mut random = Random::new();
    let mut seen = [0; 6];
    for _ in 0..scaled(20_000) {
        let world = World::new(&mut random);
        let [left, right] = [(); 2].map(|()| world.candidate(&mut random));
        let verdict = left.compare(&right);
        assert_eq!(
            right.compare(&left),
            mirrored(verdict),
            "{left:?} {right:?}"
        );
        seen[verdict as usize] += 1;
    }
    assert!(seen.iter().all(|count| *count > 0), "{seen:?}");
}

/// The one that is held stays only if it ranks above the next, or is as good and younger.
fn better(held: Candidate, next: Candidate) -> Candidate {
    match held.compare(&next) {
        Verdict::Better | Verdict::BetterByTopology => held,
        Verdict::Error1 | Verdict::Error2 if held.age < next.age => held,
        _ => next,
    }
}

#[test]
fn the_choice_is_made_from_left_to_right() {
    let mut random = Random::new();
    let mut other_way = 0;
    for _ in 0..scaled(20_000) {
        let world = World::new(&mut random);
        let count = random.below(8);
        let list: Vec<Candidate> = (0..count).map(|_| world.candidate(&mut random)).collect();
        let chosen = choose(&list);
        assert_eq!(chosen, list.iter().copied().reduce(better), "{list:?}");
        other_way += u64::from(chosen != list.iter().copied().rev().reduce(better));
    }
    assert!(other_way > 0);
}

#[test]
fn a_book_goes_on_from_its_words() {
    let mut random = Random::new();
    let mut decided = 0;
    for _ in 0..scaled(200) {
        let mut clock = Clock::new(&mut random);
        let book = Book::new(clock.own, Acceptable::Any, &clock.intervals);
        let mut book = book.expect("all is in range");
        for _ in 0..20 {
            let port = clock.port(&mut random);
            let _ = book.register(port, &clock.frame(port, &mut random));
        }
        let mut other = Book::from_words(book.words().to_vec()).expect("the book is sound");
        let own = clock.world.own_data(&mut random);
        let decision = book.decide(&own, 0);
        assert_eq!(other.decide(&own, 0), decision);
        decided += decision.expect("the book is sound").tallies.consumed;
        assert_eq!(other.into_words(), book.words());
    }
    assert!(decided > 0);
}
