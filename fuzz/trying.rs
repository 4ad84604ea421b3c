//! Answers and itineraries for tiny plans, by trying all journeys: the rules word for word.

use crate::rules::{Leg, Mark, Plan, Question, comes_before, worth_telling};

pub struct Journey {
    pub legs: Vec<Leg>,
    pub mark: Mark,
}

/// All journeys of at most so many boats; none where there are too many to try.
pub fn all_journeys(plan: &Plan, q: Question, too_many: usize) -> Option<Vec<Journey>> {
    let mut all = Vec::new();
    for arrival in plan.arrivals(q.from, q.time, q.to) {
        all.push(Journey { legs: Vec::new(), mark: Mark { arrival, boats: 0 } });
    }
    let mut tried: Vec<(Vec<Leg>, u64)> = Vec::new();
    for leg in &plan.legs {
        if leg.runs() && plan.begins(q.from, q.time, *leg) {
            tried.push((vec![*leg], 1));
        }
    }
    let mut left = too_many;
    while let Some((legs, boats)) = tried.pop() {
        if boats > q.most {
            continue;
        }
        left = left.checked_sub(1)?;
        let last = legs[legs.len() - 1];
        for arrival in plan.arrivals(last.to, last.comes, q.to) {
            all.push(Journey { legs: legs.clone(), mark: Mark { arrival, boats } });
        }
        for leg in &plan.legs {
            if leg.runs()
                && let Some(more) = plan.boats_more(last, *leg)
            {
                let mut longer = legs.clone();
                longer.push(*leg);
                tried.push((longer, boats + more));
            }
        }
    }
    Some(all)
}

pub fn answer(journeys: &[Journey]) -> Vec<Mark> {
    let marks: Vec<Mark> = journeys.iter().map(|journey| journey.mark).collect();
    worth_telling(&marks)
}

/// The legs of the journey that comes first of all that reach the mark.
pub fn itinerary(journeys: &[Journey], mark: Mark) -> Option<&[Leg]> {
    let reach = journeys.iter().filter(|journey| journey.mark == mark).map(|journey| &journey.legs[..]);
    reach.reduce(|a, b| if comes_before(b, a) { b } else { a })
}
