//! Answers and itineraries for plans of any size: for each leg every count of boats with which a journey can end with
//! it, found by following each leg to all that follow it until nothing new is found.

use crate::rules::{Leg, Mark, Plan, Question, is_first, worth_telling};

/// A plan, and of each of its legs the legs that follow it, with the boats that they take more.
pub struct Ways {
    pub plan: Plan,
    next: Vec<Vec<(usize, u64)>>,
}

/// For each leg a set of counts of boats, one bit for each.
type Counts = Vec<u16>;

impl Ways {
    pub fn of(plan: Plan) -> Ways {
        let follow = |a: &Leg| {
            let each = plan.legs.iter().enumerate().filter(|(_, b)| a.runs() && b.runs());
            each.filter_map(|(j, b)| plan.boats_more(*a, *b).map(|more| (j, more))).collect()
        };
        let next = plan.legs.iter().map(follow).collect();
        Ways { plan, next }
    }

    fn counts(&self, q: Question) -> Counts {
        let may = (1u16 << (q.most + 1)) - 1;
        let mut counts = vec![0; self.plan.legs.len()];
        let mut open = Vec::new();
        for (i, leg) in self.plan.legs.iter().enumerate() {
            if q.most > 0 && leg.runs() && self.plan.begins(q.from, q.time, *leg) {
                counts[i] = 1 << 1;
                open.push(i);
            }
        }
        while let Some(i) = open.pop() {
            for (j, more) in &self.next[i] {
                let found = counts[*j] | (counts[i] << more) & may;
                if found != counts[*j] {
                    counts[*j] = found;
                    open.push(*j);
                }
            }
        }
        counts
    }

    pub fn answer(&self, q: Question) -> Vec<Mark> {
        let counts = self.counts(q);
        let on_foot = self.plan.arrivals(q.from, q.time, q.to).into_iter().min();
        let mut all: Vec<Mark> = on_foot.map(|arrival| Mark { arrival, boats: 0 }).into_iter().collect();
        // Of the journeys of so many boats only the earliest can be worth telling.
        for boats in 1..=q.most {
            let last = self.plan.legs.iter().zip(&counts).filter(|(_, set)| *set >> boats & 1 == 1);
            let there = last.filter_map(|(leg, _)| self.plan.arrivals(leg.to, leg.comes, q.to).into_iter().min());
            all.extend(there.min().map(|arrival| Mark { arrival, boats }));
        }
        worth_telling(&all)
    }

    /// The legs of the itinerary for a mark that is reached, chosen from the last to the first: of all legs with which
    /// the journey can go on backwards, the one that comes first. To have no more legs comes before all.
    pub fn itinerary(&self, q: Question, mark: Mark) -> Vec<Leg> {
        if mark.boats == 0 {
            return Vec::new();
        }
        let counts = self.counts(q);
        let can_end = |i: usize, boats: u64| counts[i] >> boats & 1 == 1;
        let ends = |leg: Leg| self.plan.arrivals(leg.to, leg.comes, q.to).contains(&mark.arrival);
        let last = self.first(|i| can_end(i, mark.boats) && ends(self.plan.legs[i]));
        let mut at = last.expect("the mark is reached");
        let mut boats = mark.boats;
        let mut legs = vec![self.plan.legs[at]];
        while !(boats == 1 && self.plan.begins(q.from, q.time, self.plan.legs[at])) {
            let b = self.plan.legs[at];
            let before =
                |i: usize| self.plan.boats_more(self.plan.legs[i], b).is_some_and(|more| can_end(i, boats - more));
            let chosen = self.first(before).expect("each leg that is reached begins or follows one");
            boats -= self.plan.boats_more(self.plan.legs[chosen], b).expect("it follows");
            legs.push(self.plan.legs[chosen]);
            at = chosen;
        }
        legs.reverse();
        legs
    }

    fn first(&self, may: impl Fn(usize) -> bool) -> Option<usize> {
        let among = (0..self.plan.legs.len()).filter(|i| may(*i));
        among.reduce(|x, y| if is_first(self.plan.legs[y], self.plan.legs[x]) { y } else { x })
    }
}
