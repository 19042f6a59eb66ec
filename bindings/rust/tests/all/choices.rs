//! Comparisons and choices against the crate statime.
use crate::oracle::{compare, hex};
use crate::random::{scaled, Random};
use crate::worlds::World;
use rillarch::{choose, Candidate};

/// A candidate as the oracle takes it, without its age.
fn set(candidate: &Candidate) -> Vec<u8> {
    let c = candidate;
    let quality = c.gm_clock_quality;
    [
        &[c.gm_priority_1, quality.clock_class, quality.clock_accuracy][..],
        &quality.offset_scaled_log_variance.to_be_bytes(),
        &[c.gm_priority_2],
        &c.gm_identity.to_be_bytes(),
        &c.steps_removed.to_be_bytes(),
        &c.sender.to_be_bytes(),
        &c.receiver.clock_identity.to_be_bytes(),
        &c.receiver.port_number.to_be_bytes(),
    ]
    .concat()
}

#[test]
fn candidates_compare_as_by_statime() {
    let mut random = Random::new();
    let pairs: Vec<[Candidate; 2]> = (0..scaled(20_000))
        .map(|_| {
            let world = World::new(&mut random);
            [(); 2].map(|()| world.candidate(&mut random))
        })
        .collect();
    let line = |[left, right]: &[Candidate; 2]| [vec![0], set(left), set(right)].concat();
    let lines: Vec<Vec<u8>> = pairs.iter().map(line).collect();
    let verdicts: Vec<_> = pairs.iter().map(|[l, r]| l.compare(r)).collect();
    let mut counts = [0; 6];
    for verdict in &verdicts {
        counts[*verdict as usize] += 1;
    }
    assert!(counts.iter().all(|count| *count > 0), "{counts:?}");
    compare("decisions", &lines, |place, answer| {
        let told = format!("{:02x}", verdicts[place] as u8);
        assert_eq!(told, answer, "pair {place}: {}", hex(&lines[place]));
    });
    println!("verdicts: {counts:?}");
}

#[test]
fn candidates_are_chosen_as_by_statime() {
    let mut random = Random::new();
    let lists: Vec<Vec<Candidate>> = (0..scaled(20_000))
        .map(|_| {
            let world = World::new(&mut random);
            let count = match random.below(64) {
                0 => random.below(49),
                _ => random.below(6),
            };
            (0..count).map(|_| world.candidate(&mut random)).collect()
        })
        .collect();
    let line = |list: &Vec<Candidate>| {
        let candidate = |c: &Candidate| [set(c), c.age.to_be_bytes().to_vec()].concat();
        [vec![2], list.iter().flat_map(candidate).collect()].concat()
    };
    let lines: Vec<Vec<u8>> = lists.iter().map(line).collect();
    let chosen: Vec<Option<Candidate>> = lists.iter().map(|list| choose(list)).collect();
    let (mut first, mut last) = (0, 0);
    compare("decisions", &lines, |place, answer| {
        let list = &lists[place];
        let expected = match answer {
            "-" => None,
            index => {
                let index = usize::from_str_radix(index, 16).expect("it is a place");
                first += u64::from(index == 0);
                last += u64::from(index + 1 == list.len());
                Some(list[index])
            }
        };
        assert_eq!(chosen[place], expected, "list {place}: {list:?}");
    });
    println!(
        "choices: {first} first, {last} last of {} lists",
        lists.len()
    );
}
