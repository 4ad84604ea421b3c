//! The rules of docs/RULES.md once more, written to be read: nothing here is clever, nothing is shared with the office.

use std::collections::HashSet;

pub const MOST_PIERS: u64 = 64;
pub const MOST_LEGS: u64 = 1_024;
pub const MOST_WALKS: u64 = 256;
pub const NAME_END: u64 = 65_536;
pub const TIME_END: u64 = 1 << 32;
pub const MOST_BOATS: u64 = 8;
pub const ANSWER_ROW: usize = 19;
pub const JOURNEY_ROW: usize = 2_049;

#[derive(Clone, Copy, Debug, PartialEq, Eq)]
pub struct Leg {
    pub run: u64,
    pub number: u64,
    pub from: u64,
    pub to: u64,
    pub leaves: u64,
    pub comes: u64,
}

#[derive(Clone, Copy, Debug, PartialEq, Eq)]
pub struct Walk {
    pub from: u64,
    pub to: u64,
    pub takes: u64,
}

#[derive(Clone, Debug, PartialEq, Eq)]
pub struct Plan {
    pub change: Vec<u64>,
    pub legs: Vec<Leg>,
    pub walks: Vec<Walk>,
}

#[derive(Clone, Copy, Debug, PartialEq, Eq)]
pub struct Question {
    pub from: u64,
    pub time: u64,
    pub to: u64,
    pub most: u64,
}

#[derive(Clone, Copy, Debug, PartialEq, Eq)]
pub struct Mark {
    pub arrival: u64,
    pub boats: u64,
}

#[derive(Clone, Copy, Debug, PartialEq, Eq)]
pub struct Refusal {
    pub number: u64,
    pub place: u64,
}

pub fn refused<T>(number: u64, place: u64) -> Result<T, Refusal> {
    Err(Refusal { number, place })
}

impl Leg {
    pub fn name(self) -> (u64, u64) {
        (self.run, self.number)
    }

    pub fn runs(self) -> bool {
        self.comes >= self.leaves
    }

    fn is_within(self, piers: u64) -> bool {
        self.run < NAME_END
            && self.number < NAME_END
            && self.from < piers
            && self.to < piers
            && self.leaves < TIME_END
            && self.comes < TIME_END
    }
}

impl Walk {
    fn is_within(self, piers: u64) -> bool {
        self.from < piers && self.to < piers && self.takes < TIME_END
    }
}

impl Mark {
    pub fn is_no_worse(self, than: Mark) -> bool {
        self.arrival <= than.arrival && self.boats <= than.boats
    }
}

impl Plan {
    /// The plan that the words hold, or the first refusal that applies.
    pub fn opened(words: &[u64]) -> Result<Plan, Refusal> {
        let &[piers, legs, walks, ref rest @ ..] = words else {
            return refused(1, 3);
        };
        if piers > MOST_PIERS {
            return refused(1, 0);
        }
        if legs > MOST_LEGS {
            return refused(1, 1);
        }
        if walks > MOST_WALKS {
            return refused(1, 2);
        }
        if (rest.len() as u64) < piers + 6 * legs + 3 * walks {
            return refused(1, 3);
        }
        let (change, rest) = rest.split_at(piers as usize);
        let (legs, rest) = rest.split_at(6 * legs as usize);
        let walks = &rest[..3 * walks as usize];
        let plan = Plan {
            change: change.to_vec(),
            legs: legs
                .chunks(6)
                .map(|w| Leg { run: w[0], number: w[1], from: w[2], to: w[3], leaves: w[4], comes: w[5] })
                .collect(),
            walks: walks.chunks(3).map(|w| Walk { from: w[0], to: w[1], takes: w[2] }).collect(),
        };
        plan.checked()
    }

    fn checked(self) -> Result<Plan, Refusal> {
        let piers = self.change.len() as u64;
        let mut names = HashSet::new();
        for (i, leg) in self.legs.iter().enumerate() {
            let is_new = names.insert(leg.name());
            if !leg.is_within(piers) || !is_new {
                return refused(2, i as u64);
            }
        }
        for (j, walk) in self.walks.iter().enumerate() {
            if !walk.is_within(piers) {
                return refused(2, 1_024 + j as u64);
            }
        }
        for (s, minutes) in self.change.iter().enumerate() {
            if *minutes >= TIME_END {
                return refused(2, 1_280 + s as u64);
            }
        }
        Ok(self)
    }

    /// The numbers of the plan in memory.
    pub fn words(&self) -> Vec<u64> {
        let mut words = vec![self.change.len() as u64, self.legs.len() as u64, self.walks.len() as u64];
        words.extend(&self.change);
        for leg in &self.legs {
            words.extend([leg.run, leg.number, leg.from, leg.to, leg.leaves, leg.comes]);
        }
        for walk in &self.walks {
            words.extend([walk.from, walk.to, walk.takes]);
        }
        words
    }

    pub fn find(&self, name: (u64, u64)) -> Option<usize> {
        self.legs.iter().position(|leg| leg.name() == name)
    }

    pub fn question(&self, numbers: &[u64]) -> Result<Question, Refusal> {
        let &[from, time, to, most, ..] = numbers else {
            return refused(3, numbers.len() as u64);
        };
        let piers = self.change.len() as u64;
        if from >= piers {
            return refused(3, 0);
        }
        if time >= TIME_END {
            return refused(3, 1);
        }
        if to >= piers {
            return refused(3, 2);
        }
        if most > MOST_BOATS {
            return refused(3, 3);
        }
        Ok(Question { from, time, to, most })
    }

    pub fn delayed(&self, run: u64, number: u64, minutes: u64) -> Result<Plan, Refusal> {
        let mut plan = self.clone();
        for (i, leg) in plan.legs.iter_mut().enumerate() {
            if leg.run == run && leg.number >= number {
                let room = TIME_END - leg.leaves.max(leg.comes);
                if minutes >= room {
                    return refused(6, i as u64);
                }
                leg.leaves += minutes;
                leg.comes += minutes;
            }
        }
        Ok(plan)
    }

    pub fn without(&self, run: u64, number: u64) -> Result<Plan, Refusal> {
        let Some(i) = self.find((run, number)) else {
            return refused(8, number);
        };
        let mut plan = self.clone();
        plan.legs.remove(i);
        Ok(plan)
    }

    /// With a leg more, where the lent memory has so many numbers.
    pub fn with(&self, leg: Leg, room: usize) -> Result<Plan, Refusal> {
        if !leg.is_within(self.change.len() as u64) {
            return refused(2, self.legs.len() as u64);
        }
        if self.find(leg.name()).is_some() {
            return refused(7, leg.number);
        }
        if self.legs.len() as u64 >= MOST_LEGS {
            return refused(7, MOST_LEGS);
        }
        let mut plan = self.clone();
        plan.legs.push(leg);
        if plan.words().len() > room {
            return refused(1, 3);
        }
        Ok(plan)
    }

    pub fn stays(&self, a: Leg, b: Leg) -> bool {
        a.run == b.run && b.number == a.number + 1 && b.from == a.to && b.leaves >= a.comes
    }

    fn changes(&self, a: Leg, b: Leg) -> bool {
        b.from == a.to && b.leaves >= a.comes + self.change[a.to as usize]
    }

    fn walks(&self, a: Leg, b: Leg) -> bool {
        self.is_walked(a.to, a.comes, b)
    }

    /// From the pier at the time there is a walk to where the leg goes from, before it leaves.
    fn is_walked(&self, from: u64, time: u64, b: Leg) -> bool {
        let in_time = |takes: u64| time.checked_add(takes).is_some_and(|there| b.leaves >= there);
        self.walks.iter().any(|w| w.from == from && w.to == b.from && in_time(w.takes))
    }

    /// How many boats more one leg after the other takes, if it follows.
    pub fn boats_more(&self, a: Leg, b: Leg) -> Option<u64> {
        if self.stays(a, b) {
            Some(0)
        } else if self.changes(a, b) || self.walks(a, b) {
            Some(1)
        } else {
            None
        }
    }

    /// A journey from the pier at the time can begin with the leg. No change is made before the first boat.
    pub fn begins(&self, from: u64, time: u64, leg: Leg) -> bool {
        leg.from == from && leg.leaves >= time || self.is_walked(from, time, leg)
    }

    /// When one can be at the pier who is at another at the time: in a moment, or after a walk. No change is made.
    pub fn arrivals(&self, from: u64, time: u64, to: u64) -> Vec<u64> {
        let there = (from == to).then_some(time);
        let walked = self.walks.iter().filter(|w| w.from == from && w.to == to).map(|w| time + w.takes);
        there.into_iter().chain(walked).collect()
    }

    /// The word on an itinerary: 1 if it still goes, 0 if it is gone.
    pub fn still(&self, given: &[u64]) -> Result<u64, Refusal> {
        let &[pier, time, count, ref names @ ..] = given else {
            return refused(9, 0);
        };
        if count > MOST_LEGS || (names.len() as u64) < 2 * count {
            return refused(9, count);
        }
        let mut before: Option<Leg> = None;
        for name in names.chunks(2).take(count as usize) {
            let Some(i) = self.find((name[0], name[1])) else {
                return Ok(0);
            };
            let leg = self.legs[i];
            let is_reached = match before {
                None => self.begins(pier, time, leg),
                Some(a) => self.boats_more(a, leg).is_some(),
            };
            if !leg.runs() || !is_reached {
                return Ok(0);
            }
            before = Some(leg);
        }
        Ok(1)
    }
}

/// The marks that are worth telling, by rising boats.
pub fn worth_telling(all: &[Mark]) -> Vec<Mark> {
    let mut marks: Vec<Mark> =
        all.iter().copied().filter(|m| !all.iter().any(|other| other != m && other.is_no_worse(*m))).collect();
    marks.sort_by_key(|m| m.boats);
    marks.dedup();
    marks
}

/// Whether the first leg comes first, where itineraries are compared.
pub fn is_first(a: Leg, b: Leg) -> bool {
    if a.leaves != b.leaves {
        return a.leaves > b.leaves;
    }
    if a.run != b.run {
        return a.run < b.run;
    }
    a.number < b.number
}

/// Whether the first journey comes before the second: leg by leg from the last to the first.
pub fn comes_before(a: &[Leg], b: &[Leg]) -> bool {
    let (mut a, mut b) = (a, b);
    loop {
        match (a, b) {
            (_, []) => return false,
            ([], _) => return true,
            ([a_rest @ .., x], [b_rest @ .., y]) => {
                if x != y {
                    return is_first(*x, *y);
                }
                (a, b) = (a_rest, b_rest);
            }
        }
    }
}
