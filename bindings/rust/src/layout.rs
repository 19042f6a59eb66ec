//! Holds what the crate says of the calls to include/rillarch.h: sizes, places, numbers and declarations.
use crate::book::Tallies;
use crate::calls::*;
use crate::*;

const HEADER: &str = include_str!("../../../include/rillarch.h");
const CALLS: &str = include_str!("calls.rs");

/// The header without its comments.
fn header() -> String {
    let mut parts = HEADER.split("/*");
    let first = parts.next().unwrap_or_default().to_string();
    parts.fold(first, |text, part| {
        text + part.split_once("*/").expect("a comment has an end").1
    })
}

/// What stands in braces at the start of a text, and what follows them.
fn braced(text: &str) -> (&str, &str) {
    let mut depth = 0;
    for (place, letter) in text.char_indices() {
        match letter {
            '{' => depth += 1,
            '}' if depth == 1 => return (&text[1..place], &text[place + 1..]),
            '}' => depth -= 1,
            _ => {}
        }
    }
    panic!("no end of the braces: {text}");
}

/// What a struct or an enum of the header holds.
fn body(header: &str, kind: &str, name: &str) -> String {
    let opening = format!("{kind} {name} ");
    let place = header
        .find(&(opening.clone() + "{"))
        .unwrap_or_else(|| panic!("the header has no {kind} {name}"));
    braced(&header[place + opening.len()..]).0.to_string()
}

/// The words of a struct's members, by name, one after the other.
fn members(header: &str, body: &str) -> Vec<String> {
    let mut names = Vec::new();
    let mut rest = body.trim();
    while !rest.is_empty() {
        if let Some(inner) = rest.strip_prefix("struct ").filter(|r| r.starts_with('{')) {
            let (inner, behind) = braced(inner);
            let (name, behind) = behind.split_once("[8];").expect("it is a list of eight");
            for place in 0..8 {
                let inner = members(header, inner).into_iter();
                names.extend(inner.map(|member| format!("{}[{place}].{member}", name.trim())));
            }
            rest = behind.trim();
            continue;
        }
        let (member, behind) = rest.split_once(';').expect("a member has an end");
        if let Some(words) = member.strip_prefix("uint64_t ") {
            names.extend(words.split(',').map(|name| name.trim().to_string()));
        } else {
            let member = member.strip_prefix("struct ").expect("words or a struct");
            let (inner, name) = member.split_once(' ').expect("a struct has a name");
            let inner = members(header, &self::body(header, "struct", inner)).into_iter();
            names.extend(inner.map(|member| format!("{name}.{member}")));
        }
        rest = behind.trim();
    }
    names
}

/// The names of the words of a struct.
fn words_of(name: &str) -> Vec<String> {
    let header = header();
    members(&header, &body(&header, "struct", name))
}

/// The names and numbers of an enum.
fn numbers_of(name: &str) -> Vec<(String, u64)> {
    let body = body(&header(), "enum", name);
    let entries = body.split(',').map(|entry| entry.trim());
    entries
        .map(|entry| {
            let (name, number) = entry.split_once(" = ").expect("each has its number");
            let name = name.strip_prefix("RILLARCH_").expect("each has the prefix");
            (name.to_string(), number.parse().expect("a decimal number"))
        })
        .collect()
}

/// An announce of which every field is another number, and these by the header's names, the flags aside.
fn announce() -> (Announce, Vec<(&'static str, u64)>) {
    let announce = Announce {
        sdo_id: 0xFED,
        version_major: 1,
        version_minor: 2,
        domain_number: 3,
        correction_field: -4,
        source_port_identity: PortIdentity {
            clock_identity: 5,
            port_number: 6,
        },
        sequence_id: 7,
        log_message_interval: -8,
        origin_timestamp: Timestamp {
            seconds: 9,
            nanos: 10,
        },
        current_utc_offset: -11,
        grandmaster_priority_1: 12,
        grandmaster_clock_quality: ClockQuality {
            clock_class: 13,
            clock_accuracy: 14,
            offset_scaled_log_variance: 15,
        },
        grandmaster_priority_2: 16,
        grandmaster_identity: 17,
        steps_removed: 18,
        time_source: 19,
        ..Announce::default()
    };
    let numbers = vec![
        ("sdo_id", 0xFED),
        ("version_major", 1),
        ("version_minor", 2),
        ("domain", 3),
        ("flags", 0),
        ("correction", 0xFFFF_FFFF_FFFF_FFFC),
        ("source_clock", 5),
        ("source_port", 6),
        ("sequence", 7),
        ("log_interval", 0xF8),
        ("seconds", 9),
        ("nanoseconds", 10),
        ("utc_offset", 0xFFF5),
        ("priority_1", 12),
        ("class_", 13),
        ("accuracy", 14),
        ("variance", 15),
        ("priority_2", 16),
        ("grandmaster", 17),
        ("steps_removed", 18),
        ("time_source", 19),
    ];
    (announce, numbers)
}

/// The words of a struct, each the number that its name has.
fn laid(names: &[String], numbers: &[(&str, u64)]) -> Vec<u64> {
    let number = |name: &String| {
        let found = numbers.iter().find(|(other, _)| name == other);
        found.unwrap_or_else(|| panic!("no number for {name}")).1
    };
    names.iter().map(number).collect()
}

#[test]
fn blocks_have_the_sizes_of_the_header() {
    let sizes = [
        ("rillarch_tallies", TALLIES_WORDS),
        ("rillarch_announce", ANNOUNCE_WORDS),
        ("rillarch_frame", FRAME_WORDS),
        ("rillarch_decision", DECISION_WORDS),
        ("rillarch_candidate", CANDIDATE_WORDS),
        ("rillarch_found", FOUND_WORDS),
        ("rillarch_tlv", TLV_WORDS),
    ];
    for (name, words) in sizes {
        assert_eq!(words_of(name).len(), words, "{name}");
    }
    let port = |name: &&String| name.starts_with("ports[0].");
    let ports = words_of("rillarch_decision");
    assert_eq!(ports.iter().filter(port).count(), PORT_WORDS);
    assert_eq!(HEADER.matches("\nstruct rillarch_").count(), sizes.len());
}

#[test]
fn an_announce_stands_where_the_header_says() {
    let (announce, numbers) = announce();
    let words = laid(&words_of("rillarch_announce"), &numbers);
    assert_eq!(announce.words()[..], words);
    assert_eq!(Announce::from_words(&words), announce);
}

#[test]
fn each_flag_has_its_bit() {
    type Flag = fn(&mut Announce) -> &mut bool;
    let flags: [(Flag, u8, u32); 12] = [
        (|a| &mut a.alternate_master_flag, 6, 0),
        (|a| &mut a.two_step_flag, 6, 1),
        (|a| &mut a.unicast_flag, 6, 2),
        (|a| &mut a.ptp_profile_specific_1, 6, 5),
        (|a| &mut a.ptp_profile_specific_2, 6, 6),
        (|a| &mut a.leap61, 7, 0),
        (|a| &mut a.leap59, 7, 1),
        (|a| &mut a.current_utc_offset_valid, 7, 2),
        (|a| &mut a.ptp_timescale, 7, 3),
        (|a| &mut a.time_tracable, 7, 4),
        (|a| &mut a.frequency_tracable, 7, 5),
        (|a| &mut a.synchronization_uncertain, 7, 6),
    ];
    for (flag, byte, bit) in flags {
        let mut announce = Announce::default();
        *flag(&mut announce) = true;
        let word = (1 << bit) * if byte == 6 { 256 } else { 1 };
        let mut words = [0; ANNOUNCE_WORDS];
        words[4] = word;
        assert_eq!(announce.words(), words, "byte {byte}, bit {bit}");
        assert_eq!(
            Announce::from_words(&words),
            announce,
            "byte {byte}, bit {bit}"
        );
    }
}

#[test]
fn a_candidate_stands_where_the_header_says() {
    let candidate = Candidate {
        gm_priority_1: 1,
        gm_clock_quality: ClockQuality {
            clock_class: 2,
            clock_accuracy: 3,
            offset_scaled_log_variance: 4,
        },
        gm_priority_2: 5,
        gm_identity: 6,
        steps_removed: 7,
        sender: 8,
        receiver: PortIdentity {
            clock_identity: 9,
            port_number: 10,
        },
        age: 11,
        place: 12,
    };
    let numbers = [
        ("priority_1", 1),
        ("class_", 2),
        ("accuracy", 3),
        ("variance", 4),
        ("priority_2", 5),
        ("grandmaster", 6),
        ("steps_removed", 7),
        ("sender", 8),
        ("receiver_clock", 9),
        ("receiver_port", 10),
        ("age", 11),
        ("place", 12),
    ];
    let words = laid(&words_of("rillarch_candidate"), &numbers);
    assert_eq!(candidate.words()[..], words);
    assert_eq!(Candidate::from_words(&words), candidate);

    let found = numbers.map(|(name, number)| (format!("candidate.{name}"), number));
    let mut numbers = vec![("found", 1)];
    numbers.extend(found.iter().map(|(name, number)| (name.as_str(), *number)));
    let words = laid(&words_of("rillarch_found"), &numbers);
    let words = words.try_into().expect("it has that many words");
    assert_eq!(Candidate::found(&words), Some(candidate));
    assert_eq!(Candidate::found(&[0; FOUND_WORDS]), None);
}

#[test]
fn tallies_frames_and_tlvs_stand_where_the_header_says() {
    let numbers = [("evicted", 1), ("aged_out", 2), ("consumed", 3)];
    let tallies = Tallies {
        evicted: 1,
        aged_out: 2,
        consumed: 3,
    };
    let words = laid(&words_of("rillarch_tallies"), &numbers);
    assert_eq!(Tallies::from_words(&words), tallies);

    let frame = words_of("rillarch_frame");
    let announce = words_of("rillarch_announce");
    let inner = frame
        .iter()
        .map_while(|name| name.strip_prefix("announce."));
    assert!(inner.eq(announce.iter().map(String::as_str)));
    assert_eq!(frame[ANNOUNCE_WORDS..], ["tlv_start", "tlv_end"]);

    let tlv = ["found", "type", "start", "length", "next"];
    assert_eq!(words_of("rillarch_tlv"), tlv);
}

#[test]
fn a_decision_stands_where_the_header_says() {
    let own = OwnData {
        priority_1: 1,
        ..OwnData::default()
    };
    let (first, numbers) = announce();
    let names = words_of("rillarch_decision");
    let mut words = [0; DECISION_WORDS];
    let mut put = |name: &str, number: u64| {
        let place = names.iter().position(|other| other == name);
        words[place.unwrap_or_else(|| panic!("no {name}"))] = number;
    };
    put("tallies.evicted", 21);
    put("tallies.aged_out", 22);
    put("tallies.consumed", 23);
    put("count", 7);
    for port in 0..7 {
        put(&format!("ports[{port}].state"), port);
        for (name, number) in &numbers {
            put(&format!("ports[{port}].message.{name}"), *number);
        }
        put(&format!("ports[{port}].message.time_source"), 100 + port);
    }
    let message = |port: u8| Announce {
        time_source: 100 + port,
        ..first
    };
    let decision = Decision::from_words(&words, own);
    let states = [
        State::Stay,
        State::M1(own),
        State::M2(own),
        State::M3(message(3)),
        State::P1(message(4)),
        State::P2(message(5)),
        State::S1(message(6)),
    ];
    assert_eq!(decision.states, states);
    assert_eq!(
        decision.tallies,
        Tallies {
            evicted: 21,
            aged_out: 22,
            consumed: 23
        }
    );
    let names = ["STAY", "M1", "M2", "M3", "P1", "P2", "S1"];
    let numbered = states.iter().map(|state| u64::from(state.number()));
    let numbered: Vec<_> = names.map(String::from).into_iter().zip(numbered).collect();
    assert_eq!(numbered, numbers_of("rillarch_state"));
}

#[test]
fn refusals_and_verdicts_have_the_numbers_of_the_header() {
    /// A name of Rust as one of the header: `OddTlv` is `ODD_TLV`.
    fn spelled(name: &str) -> String {
        let mut spelled = String::new();
        for (place, letter) in name.char_indices() {
            let is_start = letter.is_uppercase() || letter.is_numeric();
            if place > 0 && is_start {
                spelled.push('_');
            }
            spelled.extend(letter.to_uppercase());
        }
        spelled
    }

    let mut numbers = vec![("DONE".to_string(), 0)];
    for number in 1..=u8::MAX {
        if let Some(refusal) = Refusal::from_number(number) {
            numbers.push((spelled(&format!("{refusal:?}")), u64::from(number)));
        }
    }
    assert_eq!(numbers, numbers_of("rillarch_number"));

    let verdicts = numbers_of("rillarch_verdict");
    assert_eq!(verdicts.len(), 6);
    for (name, number) in verdicts {
        let verdict = Verdict::from_number(number);
        assert_eq!(spelled(&format!("{verdict:?}")), name);
        assert_eq!(verdict as u64, number);
    }
}

/// A declaration of the header as Rust spells it.
fn in_rust(declaration: &str) -> String {
    let (name, parameters) = declaration.split_once('(').expect("a call has parameters");
    let parameters = parameters.split(',').map(str::trim);
    let parameters = parameters.filter(|parameter| *parameter != "void");
    let parameters: Vec<String> = parameters
        .map(|parameter| {
            let (kind, name) = parameter.rsplit_once(' ').expect("it has type and name");
            let number = kind
                .trim_start_matches("const ")
                .trim_start_matches("uint")
                .trim_end_matches("_t");
            let pointer = match (name.starts_with('*'), kind.starts_with("const ")) {
                (false, _) => "",
                (true, false) => "*mut ",
                (true, true) => "*const ",
            };
            format!("{}: {pointer}u{number}", name.trim_start_matches('*'))
        })
        .collect();
    format!("fn {name}({}) -> u32;", parameters.join(", "))
}

#[test]
fn calls_are_declared_as_in_the_header() {
    let header = header();
    let declared = header
        .split(';')
        .filter_map(|part| part.trim().strip_prefix("uint32_t rillarch_"))
        .map(|part| in_rust(&format!("rillarch_{}", part.trim_end_matches(')'))));
    let declared: Vec<String> = declared.collect();
    let ours = CALLS.lines().map(str::trim);
    let ours: Vec<&str> = ours
        .filter(|line| line.starts_with("fn rillarch_"))
        .collect();
    assert_eq!(declared.len(), 12);
    assert_eq!(ours, declared);
}
