//! Random requests for a plan: mostly such that something comes of them.

use crate::chance::Chance;
use crate::requests::{Book, Request};
use crate::rules::{ANSWER_ROW, JOURNEY_ROW, Leg, Mark, Plan, TIME_END};

/// What requests of a refused plan are drawn for.
static NO_PLAN: Plan = Plan { change: Vec::new(), legs: Vec::new(), walks: Vec::new() };

fn any_leg(chance: &mut Chance, plan: &Plan) -> Option<Leg> {
    (!plan.legs.is_empty()).then(|| plan.legs[chance.index(plan.legs.len())])
}

fn pier(chance: &mut Chance, plan: &Plan) -> u64 {
    chance.below(plan.change.len() as u64)
}

/// A time about which a leg leaves or comes.
fn time(chance: &mut Chance, plan: &Plan) -> u64 {
    let Some(leg) = any_leg(chance, plan) else {
        return chance.below(20);
    };
    let about = chance.of_these(&[leg.leaves, leg.comes]);
    about.saturating_sub(chance.of_these(&[0, 0, 1, 3, 10, 30]))
}

pub fn question(chance: &mut Chance, plan: &Plan) -> Vec<u64> {
    let most = chance.of_these(&[0, 1, 2, 3, 3, 4, 5, 8, 8]);
    let mut question = vec![pier(chance, plan), time(chance, plan), pier(chance, plan), most];
    if chance.one_in(6) {
        question[..3].copy_from_slice(&[0, chance.below(9), (plan.change.len() as u64).saturating_sub(1)]);
    }
    if chance.one_in(12) {
        question[chance.index(4)] = chance.of_these(&[plan.change.len() as u64, 9, TIME_END, u64::MAX, 64]);
    }
    if chance.one_in(24) {
        question[chance.index(4)] = chance.about_a_bound();
    }
    if chance.one_in(24) {
        question.truncate(chance.index(4));
    } else {
        for _ in 0..chance.of_these(&[0, 0, 1, 3]) {
            question.push(chance.next());
        }
    }
    question
}

fn row(chance: &mut Chance, least: usize) -> Vec<u64> {
    let length = match chance.below(24) {
        0 => chance.index(least),
        1 => least - 1,
        2..=4 => least + chance.index(20),
        _ => least,
    };
    let (first, step) = (chance.next(), chance.next());
    (0..length as u64).map(|i| first.wrapping_add(i.wrapping_mul(step))).collect()
}

pub fn answer(chance: &mut Chance, question: Vec<u64>) -> Request {
    Request::Answer { question, row: row(chance, ANSWER_ROW) }
}

pub fn journey(chance: &mut Chance, question: Vec<u64>, mark: Mark) -> Request {
    let mut mark = mark;
    if chance.one_in(6) {
        match chance.below(5) {
            0 => mark.arrival = mark.arrival.wrapping_add(1),
            1 => mark.arrival = mark.arrival.wrapping_sub(1),
            2 => mark.boats = mark.boats.wrapping_add(1),
            3 => mark.boats = mark.boats.wrapping_sub(1),
            _ => mark.boats = chance.about_a_bound(),
        }
    }
    Request::Journey { question, mark, row: row(chance, JOURNEY_ROW) }
}

fn delay(chance: &mut Chance, plan: &Plan) -> Request {
    let leg = any_leg(chance, plan);
    let (run, number) = leg.map_or((chance.below(4), chance.below(4)), Leg::name);
    let number = number.saturating_sub(chance.of_these(&[0, 0, 1, 3])) + chance.of_these(&[0, 0, 0, 1]);
    let up_to_the_end = leg.map_or(0, |a| TIME_END - a.leaves.max(a.comes));
    let minutes = match chance.below(10) {
        0 => chance.about_a_bound(),
        1 => up_to_the_end.saturating_sub(chance.below(3)),
        _ => chance.of_these(&[0, 1, 2, 5, 13]),
    };
    let run = if chance.one_in(20) { chance.about_a_bound() } else { run };
    Request::Delay { run, number, minutes }
}

fn cancel(chance: &mut Chance, plan: &Plan) -> Request {
    match any_leg(chance, plan) {
        Some(leg) if !chance.one_in(5) => Request::Cancel { run: leg.run, number: leg.number },
        Some(leg) => Request::Cancel { run: leg.run, number: chance.about_a_bound() },
        None => Request::Cancel { run: chance.below(4), number: chance.about_a_bound() },
    }
}

fn extra(chance: &mut Chance, plan: &Plan) -> Request {
    let leaves = time(chance, plan);
    // Often a leg that one can stay aboard for.
    let before = any_leg(chance, plan).filter(|_| chance.one_in(2));
    let (run, number) = before.map_or((chance.below(5), chance.below(20)), |a| (a.run, a.number + 1));
    let from = before.map_or(pier(chance, plan), |a| a.to);
    let to = pier(chance, plan);
    let mut leg = Leg { run, number, from, to, leaves, comes: leaves + chance.of_these(&[0, 0, 1, 4, 9]) };
    if chance.one_in(10) {
        leg.comes = leaves.saturating_sub(2);
    }
    if chance.one_in(8) {
        let value = if chance.one_in(2) { plan.change.len() as u64 } else { chance.about_a_bound() };
        let numbers = [&mut leg.run, &mut leg.number, &mut leg.from, &mut leg.to, &mut leg.leaves, &mut leg.comes];
        *numbers.into_iter().nth(chance.index(6)).expect("six") = value;
    }
    if let Some(a) = any_leg(chance, plan).filter(|_| chance.one_in(12)) {
        (leg.run, leg.number) = a.name();
    }
    Request::Extra(leg)
}

/// An itinerary that was given before, or some legs in a row; a little changed now and then.
fn still(chance: &mut Chance, plan: &Plan, kept: &[Vec<u64>]) -> Request {
    let mut given = if !kept.is_empty() && !chance.one_in(4) {
        kept[chance.index(kept.len())].clone()
    } else {
        let legs: Vec<Leg> = (0..chance.below(3)).filter_map(|_| any_leg(chance, plan)).collect();
        let mut given = vec![pier(chance, plan), time(chance, plan), legs.len() as u64];
        given.extend(legs.iter().flat_map(|leg| [leg.run, leg.number]));
        given
    };
    match chance.below(24) {
        0 => given.truncate(chance.index(given.len() + 1)),
        1 => given[2] = chance.about_a_bound(),
        2 => given[2] = given[2].wrapping_add(chance.of_these(&[1, u64::MAX])),
        3 => given[0] = chance.about_a_bound(),
        4 | 5 => given[1] = given[1].wrapping_add(chance.of_these(&[1, 2, u64::MAX, 1 << 40, 1 << 63])),
        6 => {
            let at = chance.index(given.len());
            given[at] = given[at].wrapping_add(1);
        }
        7 => given.push(chance.next()),
        // As many legs as there may be, or one more; all of them given.
        8 if chance.one_in(40) => {
            let count = 1_024 + chance.below(2);
            given[2] = count;
            given.resize(3 + 2 * count as usize, 0);
        }
        _ => {}
    }
    Request::Still { given, word: chance.next() }
}

/// A request that is no question.
pub fn other(chance: &mut Chance, book: &Book, kept: &[Vec<u64>]) -> Request {
    let plan = book.opened.as_ref().unwrap_or(&NO_PLAN);
    match chance.below(10) {
        0..=2 => delay(chance, plan),
        3 => cancel(chance, plan),
        4..=5 => extra(chance, plan),
        _ => still(chance, plan, kept),
    }
}

pub fn any_question(chance: &mut Chance, book: &Book) -> Vec<u64> {
    question(chance, book.opened.as_ref().unwrap_or(&NO_PLAN))
}
