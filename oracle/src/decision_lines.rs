// The subcommand decision-lines: comparisons, choices and decisions, the same for the same seed.

use crate::candidates::*;
use crate::random::Random;
use crate::state_lines::state;

/// The ports of a decision, and the most candidates of a line.
const PORTS: usize = 8;
const MAX_CANDIDATES: usize = 48;

/// How many fields of a set tell different grandmasters apart: the first of them, in their order.
const FIGURE_34: usize = 6;

/// A line: the kinds take turns.
pub fn line(index: u64, random: &mut Random) -> Vec<u8> {
    let turn = (index / 16) as usize;
    let world = World::new(random);
    match index % 16 {
        0 => comparison(figure_34(turn, &world, random)),
        1 => comparison(figure_35(turn, &world, random)),
        2 => own_comparison(turn, &world, random),
        3 | 4 => choice(&tie(turn, &world, random)),
        5 => choice(&circle(turn, &world, random)),
        6 | 7 => choice(&list(&world, random)),
        8..=13 => decision(turn, &world, random),
        _ => state(2 * turn + index as usize % 2, &world, random),
    }
}

fn comparison(pair: [Candidate; 2]) -> Vec<u8> {
    [&[0], &pair[0][..SET_SIZE], &pair[1][..SET_SIZE]].concat()
}

fn choice(candidates: &[Candidate]) -> Vec<u8> {
    [&[2], candidates.concat().as_slice()].concat()
}

/// A pair in one order or the other.
fn either(mut pair: [Candidate; 2], random: &mut Random) -> [Candidate; 2] {
    if random.below(2) == 0 {
        pair.swap(0, 1);
    }
    pair
}

/// Two sets of different grandmasters that first differ in each field in turn; what comes after it
/// is equal, or anything.
fn figure_34(turn: usize, world: &World, random: &mut Random) -> [Candidate; 2] {
    let first = world.anywhere(random);
    let mut second = first;
    let decides = turn % FIGURE_34;
    if turn / FIGURE_34 % 2 == 0 {
        second = World::new(random).anywhere(random);
    }
    for field in &SET[..=decides] {
        put(&mut second, *field, get(&first, *field));
    }
    change(&mut second, SET[decides], random);
    if get(&first, GRANDMASTER) == get(&second, GRANDMASTER) {
        change(&mut second, GRANDMASTER, random);
    }
    either([first, second], random)
}

/// Two sets of one grandmaster: each difference of steps in turn, senders and receivers of every
/// order; or two that differ in one field only.
fn figure_35(turn: usize, world: &World, random: &mut Random) -> [Candidate; 2] {
    let mut first = world.anywhere(random);
    let mut second = world.anywhere(random);
    put(&mut second, GRANDMASTER, get(&first, GRANDMASTER));
    let steps = get(&first, STEPS);
    let apart = match turn % 8 {
        difference @ 0..=2 => steps + difference as u64,
        3 => steps + 1,
        4 => steps,
        5 => {
            put(&mut first, STEPS, 0);
            65535
        }
        6 => steps ^ 1 << random.below(16),
        _ => {
            second = first;
            change(&mut second, random.of(&SET), random);
            get(&second, STEPS)
        }
    };
    put(&mut second, STEPS, apart.min(65535));
    if turn % 8 == 4 {
        put(&mut second, SENDER, get(&first, SENDER));
    }
    either([first, second], random)
}

/// Our own data against a set: one that first differs in each field in turn, one of which we are the
/// grandmaster, our own data again, or any.
fn own_comparison(turn: usize, world: &World, random: &mut Random) -> Vec<u8> {
    let mut set = world.anywhere(random);
    let mut own = world.own_data(random);
    match turn % 4 {
        0 => {
            let [first, second] = figure_34(turn / 4, world, random);
            own[..8].copy_from_slice(&get(&first, GRANDMASTER).to_be_bytes());
            own[8..].copy_from_slice(&first[..6]);
            set = second;
        }
        1 => {
            put(&mut set, GRANDMASTER, world.own());
            put(&mut set, STEPS, (turn / 4 % 4) as u64);
        }
        2 => {
            set = world.ours(&own);
            if turn / 4 % 2 == 0 {
                change(&mut set, random.of(&SET), random);
            }
        }
        _ => {}
    }
    [&[1], &own[..], &set[..SET_SIZE]].concat()
}

/// Two candidates of which neither ranks above the other, with equal ages, the second younger, or the
/// first younger; some among others.
fn tie(turn: usize, world: &World, random: &mut Random) -> Vec<Candidate> {
    let mut first = world.anywhere(random);
    let mut second = first;
    match turn % 4 {
        // Equal records but for the age.
        0 => {}
        // Error2: what differs is not asked for.
        1 => change(&mut second, random.of(&PROFILE), random),
        2 => change(&mut second, RECEIVER, random),
        // Error1: one step apart, and the sender of the farther one is its receiver.
        _ => {
            second = world.anywhere(random);
            let steps = get(&first, STEPS).min(65534);
            put(&mut first, STEPS, steps);
            put(&mut second, STEPS, steps + 1);
            put(&mut second, GRANDMASTER, get(&first, GRANDMASTER));
            let sender = get(&second, SENDER);
            put(&mut second, RECEIVER, sender);
        }
    }
    let age = world.age(random);
    put(&mut first, AGE, age);
    put(&mut second, AGE, age);
    if turn / 4 % 3 > 0 {
        change(&mut second, AGE, random);
    }
    let mut candidates = either([first, second], random).to_vec();
    if random.below(3) == 0 {
        for _ in 0..=random.below(2) {
            let place = random.below(candidates.len() + 1);
            candidates.insert(place, world.anywhere(random));
        }
    }
    candidates
}

/// Three candidates that beat each other in a circle, in each order: a of one grandmaster with the
/// least priority 1, b of another, c of the first with the greatest and with fewer steps by 2 or 3.
pub fn circle(turn: usize, world: &World, random: &mut Random) -> Vec<Candidate> {
    let mut circle = [0; 3].map(|_| world.anywhere(random));
    let least = random.below(250) as u64;
    let steps = random.below(250) as u64;
    for (place, candidate) in circle.iter_mut().enumerate() {
        put(candidate, PRIORITY_1, least + place as u64);
        put(candidate, GRANDMASTER, world.clocks[place % 2]);
    }
    put(&mut circle[0], STEPS, steps + 2 + random.below(2) as u64);
    put(&mut circle[2], STEPS, steps);
    circle.rotate_left(turn % 3);
    if turn / 3 % 2 == 0 {
        circle.swap(0, 1);
    }
    circle.to_vec()
}

/// Any candidates: none, a few, or many.
fn list(world: &World, random: &mut Random) -> Vec<Candidate> {
    let count = match random.below(60) {
        0 | 1 => 0,
        2 | 3 => random.below(MAX_CANDIDATES),
        4 => MAX_CANDIDATES,
        _ => 1 + random.below(5),
    };
    (0..count).map(|_| world.anywhere(random)).collect()
}

/// A decision: a few candidates at a few ports, or as `rare` says.
fn decision(turn: usize, world: &World, random: &mut Random) -> Vec<u8> {
    let own = world.own_data(random);
    let mut candidates = match random.below(16) {
        0 => rare(&own, world, random),
        1 | 2 => at_ports(PORTS, 1, world, random),
        3..=5 => circle_at_ports(turn, world, random),
        6..=8 => at_ports(2, 3, world, random),
        9..=11 => at_ports(4, 2, world, random),
        _ => at_ports(3, 1, world, random),
    };
    if random.below(8) == 0 {
        for candidate in &mut candidates {
            put(candidate, RECEIVER, random.of(&world.clocks));
        }
    }
    let listening = match random.below(8) {
        0 => 0xff,
        1..=3 => 0,
        _ => random.byte(),
    };
    [&[3], &own[..], &[listening], candidates.concat().as_slice()].concat()
}

/// No candidates; our own data come back, from no or a few steps away; many candidates at one port;
/// as many as there can be.
fn rare(own: &[u8; 14], world: &World, random: &mut Random) -> Vec<Candidate> {
    match random.below(8) {
        0 | 1 => Vec::new(),
        2..=4 => {
            let mut candidate = world.ours(own);
            put(&mut candidate, PORT, 1 + random.below(PORTS) as u64);
            put(&mut candidate, STEPS, random.of(&[0, 1, 1, 2]));
            vec![candidate]
        }
        5 | 6 => at_ports(1, MAX_CANDIDATES, world, random),
        _ => (0..MAX_CANDIDATES)
            .map(|place| world.candidate((1 + place / 6) as u64, random))
            .collect(),
    }
}

/// Candidates at one to so many ports, each with one to so many.
fn at_ports(ports: usize, most: usize, world: &World, random: &mut Random) -> Vec<Candidate> {
    let mut numbers: Vec<usize> = (1..=PORTS).collect();
    let ports = 1 + random.below(ports);
    while numbers.len() > ports {
        numbers.remove(random.below(numbers.len()));
    }
    let mut candidates = Vec::new();
    for port in numbers {
        for _ in 0..=random.below(most) {
            candidates.push(world.candidate(port as u64, random));
        }
    }
    candidates
}

/// A circle of candidates that our clock received, at ports that do not fall.
fn circle_at_ports(turn: usize, world: &World, random: &mut Random) -> Vec<Candidate> {
    let mut candidates = circle(turn, world, random);
    let mut ports = [0; 3].map(|_| 1 + random.below(PORTS) as u64);
    if random.below(2) == 0 {
        ports[0] = ports[1];
    }
    ports.sort();
    for (candidate, port) in candidates.iter_mut().zip(ports) {
        put(candidate, PORT, port);
        put(candidate, RECEIVER, world.own());
    }
    candidates
}
