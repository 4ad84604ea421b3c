//! A request, and what came of it by the rules and by the office.

use crate::lent::Lent;
use crate::rules::{ANSWER_ROW, JOURNEY_ROW, Leg, Mark, Plan, Refusal, refused};
use crate::ways::Ways;

unsafe extern "C" {
    fn yew_answer(
        plan: *const u64,
        plan_len: usize,
        question: *const u64,
        question_len: usize,
        out: *mut u64,
        out_len: usize,
    ) -> u64;
    fn yew_journey(
        plan: *const u64,
        plan_len: usize,
        question: *const u64,
        question_len: usize,
        arrival: u64,
        boats: u64,
        out: *mut u64,
        out_len: usize,
    ) -> u64;
    fn yew_delay(plan: *mut u64, plan_len: usize, run: u64, number: u64, minutes: u64) -> u64;
    fn yew_cancel(plan: *mut u64, plan_len: usize, run: u64, number: u64) -> u64;
    fn yew_extra(
        plan: *mut u64,
        plan_len: usize,
        run: u64,
        number: u64,
        from: u64,
        to: u64,
        leaves: u64,
        comes: u64,
    ) -> u64;
    fn yew_still(plan: *const u64, plan_len: usize, given: *const u64, given_len: usize, word: *mut u64) -> u64;
}

/// The rows are as they are lent.
#[derive(Clone, Debug)]
pub enum Request {
    Answer { question: Vec<u64>, row: Vec<u64> },
    Journey { question: Vec<u64>, mark: Mark, row: Vec<u64> },
    Delay { run: u64, number: u64, minutes: u64 },
    Cancel { run: u64, number: u64 },
    Extra(Leg),
    Still { given: Vec<u64>, word: u64 },
}

/// What is told, and all lent memory afterwards: the plan, what was asked with, and the row or word that is written.
#[derive(Clone, Debug, PartialEq, Eq)]
pub struct Outcome {
    pub code: u64,
    pub plan: Vec<u64>,
    pub asked: Vec<u64>,
    pub row: Vec<u64>,
    pub is_guarded: bool,
}

/// A reply in one number: 0, or the refusal's number above forty bits of its place.
fn code(reply: Result<(), Refusal>) -> u64 {
    match reply {
        Ok(()) => 0,
        Err(refusal) => (refusal.number << 40) + refusal.place.min((1 << 40) - 1),
    }
}

/// The words with others over their beginning.
fn over(front: &[u64], words: &[u64]) -> Vec<u64> {
    let mut after = words.to_vec();
    after[..front.len()].copy_from_slice(front);
    after
}

/// A plan in memory, and what the rules make of it.
pub struct Book {
    pub words: Vec<u64>,
    pub opened: Result<Plan, Refusal>,
    ways: Option<Ways>,
}

impl Book {
    pub fn of(words: Vec<u64>) -> Book {
        let opened = Plan::opened(&words);
        Book { words, opened, ways: None }
    }

    /// The ways through the plan, found out when they are first asked for.
    fn ways(&mut self) -> Result<&Ways, Refusal> {
        let plan = self.opened.as_ref().map_err(|refusal| *refusal)?;
        Ok(self.ways.get_or_insert_with(|| Ways::of(plan.clone())))
    }

    pub fn marks(&mut self, question: &[u64]) -> Result<Vec<Mark>, Refusal> {
        let ways = self.ways()?;
        let q = ways.plan.question(question)?;
        Ok(ways.answer(q))
    }

    fn answer(&mut self, question: &[u64], row: &[u64]) -> Result<Vec<u64>, Refusal> {
        let marks = self.marks(question)?;
        if row.len() < ANSWER_ROW {
            return refused(4, row.len() as u64);
        }
        let mut told = vec![marks.len() as u64];
        told.extend(marks.iter().flat_map(|m| [m.arrival, m.boats]));
        Ok(over(&told, row))
    }

    /// The legs of the itinerary for a mark, where the lent row has so many numbers.
    pub fn itinerary(&mut self, question: &[u64], mark: Mark, room: usize) -> Result<Vec<Leg>, Refusal> {
        let ways = self.ways()?;
        let q = ways.plan.question(question)?;
        if room < JOURNEY_ROW {
            return refused(4, room as u64);
        }
        if !ways.answer(q).contains(&mark) {
            return refused(5, mark.boats);
        }
        Ok(ways.itinerary(q, mark))
    }

    fn journey(&mut self, question: &[u64], mark: Mark, row: &[u64]) -> Result<Vec<u64>, Refusal> {
        let legs = self.itinerary(question, mark, row.len())?;
        let mut told = vec![legs.len() as u64];
        told.extend(legs.iter().flat_map(|leg| [leg.run, leg.number]));
        Ok(over(&told, row))
    }

    /// The word on an itinerary: 1 if it still goes, 0 if it is gone.
    pub fn still(&self, given: &[u64]) -> Result<u64, Refusal> {
        let plan = self.opened.as_ref().map_err(|refusal| *refusal)?;
        plan.still(given)
    }

    /// The words after an update.
    pub fn updated(&self, request: &Request) -> Result<Vec<u64>, Refusal> {
        let plan = self.opened.as_ref().map_err(|refusal| *refusal)?;
        let after = match *request {
            Request::Delay { run, number, minutes } => plan.delayed(run, number, minutes)?,
            Request::Cancel { run, number } => plan.without(run, number)?,
            Request::Extra(leg) => plan.with(leg, self.words.len())?,
            _ => unreachable!("not an update"),
        };
        Ok(over(&after.words(), &self.words))
    }

    /// What comes of the request by the rules.
    pub fn by_rules(&mut self, request: &Request) -> Outcome {
        let (asked, row) = request.lends();
        let mut outcome =
            Outcome { code: 0, plan: self.words.clone(), asked: asked.to_vec(), row: row.to_vec(), is_guarded: true };
        let reply = match request {
            Request::Answer { question, row } => self.answer(question, row).map(|after| outcome.row = after),
            Request::Journey { question, mark, row } => {
                self.journey(question, *mark, row).map(|after| outcome.row = after)
            }
            Request::Still { given, .. } => self.still(given).map(|word| outcome.row = vec![word]),
            _ => self.updated(request).map(|after| outcome.plan = after),
        };
        outcome.code = code(reply);
        outcome
    }

    /// What comes of the request in the office.
    pub fn by_office(&self, request: &Request) -> Outcome {
        let (asked, row) = request.lends();
        let (mut plan, mut asked, mut row) = (Lent::of(&self.words), Lent::of(asked), Lent::of(row));
        let (p, p_len) = plan.part();
        let (q, q_len) = asked.part();
        let (r, r_len) = row.part();
        // Safe: each pointer is to that many numbers, and no two of them to the same.
        let code = unsafe {
            match *request {
                Request::Answer { .. } => yew_answer(p, p_len, q, q_len, r, r_len),
                Request::Journey { mark, .. } => yew_journey(p, p_len, q, q_len, mark.arrival, mark.boats, r, r_len),
                Request::Delay { run, number, minutes } => yew_delay(p, p_len, run, number, minutes),
                Request::Cancel { run, number } => yew_cancel(p, p_len, run, number),
                Request::Extra(a) => yew_extra(p, p_len, a.run, a.number, a.from, a.to, a.leaves, a.comes),
                Request::Still { .. } => yew_still(p, p_len, q, q_len, r),
            }
        };
        Outcome {
            code,
            plan: plan.words().to_vec(),
            asked: asked.words().to_vec(),
            row: row.words().to_vec(),
            is_guarded: plan.is_guarded() && asked.is_guarded() && row.is_guarded(),
        }
    }
}

impl Request {
    /// What is lent beside the plan: to ask with, and to be written.
    fn lends(&self) -> (&[u64], &[u64]) {
        match self {
            Request::Answer { question, row } | Request::Journey { question, row, .. } => (question, row),
            Request::Still { given, word } => (given, std::slice::from_ref(word)),
            _ => (&[], &[]),
        }
    }
}
