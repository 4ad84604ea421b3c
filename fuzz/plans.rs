//! Random plans that are made to hurt: small numbers so that times are equal, legs that take no time, stand in any
//! order or do not run, long changes where one may stay, walks both ways; near the bounds now and then; damaged ones.

use crate::chance::Chance;
use crate::rules::{Leg, MOST_LEGS, MOST_PIERS, MOST_WALKS, NAME_END, Plan, TIME_END, Walk};

struct Size {
    piers: u64,
    legs: u64,
    walks: u64,
    runs: u64,
    /// Boats leave in so many minutes from the first on.
    span: u64,
}

fn size(chance: &mut Chance) -> Size {
    match chance.below(1_000) {
        0 => Size {
            piers: 64,
            legs: chance.between(1_023, 1_024),
            walks: chance.between(200, 256),
            runs: 200,
            span: 600,
        },
        1..=5 => Size {
            piers: chance.between(1, 64),
            legs: chance.between(0, 300),
            walks: chance.between(0, 100),
            runs: 60,
            span: 300,
        },
        6..=99 => Size {
            piers: chance.between(1, 12),
            legs: chance.between(0, 40),
            walks: chance.between(0, 12),
            runs: 10,
            span: 60,
        },
        _ => Size {
            piers: chance.between(1, 5),
            legs: chance.between(0, 11),
            walks: chance.between(0, 5),
            runs: 4,
            span: 20,
        },
    }
}

fn legs(chance: &mut Chance, size: &Size, first: u64) -> Vec<Leg> {
    let mut legs: Vec<Leg> = Vec::new();
    let mut names = std::collections::HashSet::new();
    let first_run = if chance.one_in(8) { NAME_END - size.runs } else { 0 };
    while (legs.len() as u64) < size.legs {
        let run = first_run + chance.below(size.runs);
        let mut number = if chance.one_in(16) { NAME_END - 3 } else { chance.below(6 + size.legs / 2) };
        let mut pier = chance.below(size.piers);
        let mut time = first + chance.below(size.span);
        // One voyage, mostly leg after leg.
        for _ in 0..chance.between(1, 5) {
            let leaves = time + chance.of_these(&[0, 0, 0, 1, 2, 4]);
            let comes = leaves + chance.of_these(&[0, 0, 1, 2, 5, 9]);
            let comes = if chance.one_in(12) { leaves.saturating_sub(chance.below(4)) } else { comes };
            let to = chance.below(size.piers);
            let leg =
                Leg { run, number, from: pier, to, leaves: leaves.min(TIME_END - 1), comes: comes.min(TIME_END - 1) };
            if number < NAME_END && names.insert(leg.name()) && (legs.len() as u64) < size.legs {
                legs.push(leg);
            }
            number += if chance.one_in(12) { 2 } else { 1 };
            pier = if chance.one_in(12) { chance.below(size.piers) } else { to };
            time = if chance.one_in(12) { leaves } else { comes };
        }
    }
    if chance.one_in(2) {
        chance.shuffle(&mut legs);
    } else if chance.one_in(2) {
        legs.reverse();
    }
    legs
}

/// One voyage of many legs that leaves the first pier once and comes to the last one once: only all of it is a journey.
fn long_voyage(chance: &mut Chance) -> Plan {
    let piers = chance.between(3, 9);
    let many = if chance.one_in(20) { chance.between(1_000, MOST_LEGS) } else { chance.between(2, 60) };
    let mut legs = Vec::new();
    let (mut pier, mut time) = (0, chance.below(5));
    for number in 0..many {
        let to = if number + 1 == many { piers - 1 } else { chance.between(1, piers - 2) };
        let comes = time + chance.of_these(&[0, 0, 1, 2]);
        legs.push(Leg { run: 7, number, from: pier, to, leaves: time, comes });
        (pier, time) = (to, comes + chance.of_these(&[0, 0, 1]));
    }
    if chance.one_in(2) {
        chance.shuffle(&mut legs);
    }
    Plan { change: vec![chance.of_these(&[0, 1, 9, 9]); piers as usize], legs, walks: Vec::new() }
}

/// From the first pier to the last: the more boats one takes, the earlier one is there.
fn ladder(chance: &mut Chance) -> Plan {
    let rungs = chance.between(1, 9);
    let mut legs = Vec::new();
    let mut pier = 0;
    let last = 1 + rungs * (rungs - 1) / 2;
    for boats in 1..=rungs {
        let mut from = 0;
        for i in 0..boats {
            let is_last = i + 1 == boats;
            pier += u64::from(!is_last);
            let to = if is_last { last } else { pier };
            let leaves = 10 + 2 * i;
            let comes = if is_last { 60 - 3 * boats } else { leaves + chance.below(2) };
            legs.push(Leg { run: chance.between(0, 9) * 10 + boats, number: 2 * i, from, to, leaves, comes });
            from = to;
        }
    }
    let mut walks = vec![Walk { from: 0, to: last, takes: 90 }];
    if chance.one_in(2) {
        walks.push(Walk { from: chance.below(last), to: chance.below(last), takes: chance.below(5) });
    }
    chance.shuffle(&mut legs);
    Plan { change: vec![chance.below(2); last as usize + 1], legs, walks }
}

fn any_plan(chance: &mut Chance) -> Plan {
    let size = size(chance);
    let first = if chance.one_in(10) { TIME_END - 1 - chance.below(2 * size.span) } else { chance.below(3) };
    let minutes = |chance: &mut Chance, these: &[u64]| {
        if chance.one_in(100) { TIME_END - 1 - chance.below(2) } else { chance.of_these(these) }
    };
    let change = (0..size.piers).map(|_| minutes(chance, &[0, 0, 1, 2, 3, 5, 10, 30])).collect();
    let legs = legs(chance, &size, first);
    let mut walks: Vec<Walk> = Vec::new();
    while (walks.len() as u64) < size.walks {
        let walk = Walk {
            from: chance.below(size.piers),
            to: chance.below(size.piers),
            takes: minutes(chance, &[0, 1, 1, 2, 4, 8, 20]),
        };
        walks.push(walk);
        if chance.one_in(2) && (walks.len() as u64) < size.walks {
            walks.push(Walk { from: walk.to, to: walk.from, takes: walk.takes });
        }
    }
    Plan { change, legs, walks }
}

pub fn plan(chance: &mut Chance) -> Plan {
    match chance.below(400) {
        0 => Plan { change: Vec::new(), legs: Vec::new(), walks: Vec::new() },
        1..=4 => long_voyage(chance),
        5..=14 => ladder(chance),
        _ => any_plan(chance),
    }
}

/// Some number of a leg, a walk or a change is the last that is within its bound, or one or two more.
fn number_at_its_bound(chance: &mut Chance, plan: &Plan, words: &mut [u64]) {
    let (piers, legs, walks) = (plan.change.len(), plan.legs.len(), plan.walks.len());
    let pier_end = piers as u64;
    let leg_ends = [NAME_END, NAME_END, pier_end, pier_end, TIME_END, TIME_END];
    let walk_ends = [pier_end, pier_end, TIME_END];
    let (at, end) = match chance.below(4) {
        0 | 1 if legs > 0 => {
            let field = chance.index(6);
            (3 + piers + 6 * chance.index(legs) + field, leg_ends[field])
        }
        2 if walks > 0 => {
            let field = chance.index(3);
            (3 + piers + 6 * legs + 3 * chance.index(walks) + field, walk_ends[field])
        }
        _ => (3 + chance.index(piers), TIME_END),
    };
    if let Some(word) = words.get_mut(at) {
        *word = end.wrapping_sub(1) + chance.below(3);
    }
}

fn damage(chance: &mut Chance, plan: &Plan, words: &mut Vec<u64>) {
    let legs = plan.legs.len();
    let first_leg = 3 + plan.change.len();
    match chance.below(7) {
        0 => words.truncate(chance.index(words.len() + 1)),
        1 => {
            let count = chance.index(3);
            words[count] = words[count].wrapping_add(chance.of_these(&[1, 2, u64::MAX]));
        }
        // One too many of something, and memory enough for it.
        2 => {
            let count = chance.index(3);
            words[count] = [MOST_PIERS, MOST_LEGS, MOST_WALKS][count] + chance.below(2);
            let value = chance.below(3);
            words.resize(8_000, value);
        }
        3 => words[chance.index(3)] = chance.about_a_bound(),
        4 if legs >= 2 => {
            let (a, b) = (first_leg + 6 * chance.index(legs), first_leg + 6 * chance.index(legs));
            words[a] = words[b];
            words[a + 1] = words[b + 1];
        }
        5 if words.len() > 3 => {
            let at = 3 + chance.index(words.len() - 3);
            words[at] = chance.about_a_bound();
        }
        _ => number_at_its_bound(chance, plan, words),
    }
}

/// The numbers of a plan; about one in eight is damaged.
pub fn words(chance: &mut Chance) -> Vec<u64> {
    let plan = plan(chance);
    let mut words = plan.words();
    if chance.one_in(8) {
        for _ in 0..chance.between(1, 2) {
            if words.len() >= 3 + plan.change.len() + 6 * plan.legs.len() {
                damage(chance, &plan, &mut words);
            }
        }
    }
    words
}

/// A plan in memory, with room behind it or none.
pub fn memory(chance: &mut Chance) -> Vec<u64> {
    let mut words = words(chance);
    if !chance.one_in(3) {
        for _ in 0..chance.below(30) {
            let value = if chance.one_in(2) { chance.below(40) } else { chance.next() };
            words.push(value);
        }
    }
    words
}
