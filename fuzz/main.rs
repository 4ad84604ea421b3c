//! Drives the C interface with random plans and requests, and compares all that comes of them with the rules.

mod asking;
mod chance;
mod files;
mod lent;
mod office;
mod plans;
mod requests;
mod rules;
mod trying;
mod ways;

use chance::Chance;
use requests::{Book, Outcome, Request};
use rules::{Leg, Mark};
use std::collections::BTreeMap;
use std::process::ExitCode;

const HELP: &str = "usage: fuzz REQUESTS [SEED]
       fuzz --files FOLDER COUNT [SEED]

Makes so many requests of random plans through the C interface, the same ones for
the same seed, and compares every reply and all lent memory with the rules. The
first difference is printed, and the status is then 1.

With --files it writes so many random files of requests for the office program,
FOLDER/N.requests, and by the rules what has to be printed and the status,
FOLDER/N.stdout and FOLDER/N.status.
";

/// Journeys are tried out in plans of so few legs, where they are so few.
const FEW_LEGS: usize = 8;
const FEW_JOURNEYS: usize = 400;

const KINDS: [&str; 6] = ["answer", "journey", "delay", "cancel", "extra", "still"];

struct Round {
    chance: Chance,
    made: u64,
    tried: u64,
    /// How often each reply came: what was asked, and the refusal's number.
    replies: BTreeMap<(&'static str, u64), u64>,
    /// How many itineraries still went.
    went: u64,
    most_marks: usize,
    longest: usize,
}

struct Difference {
    request: Request,
    plan: Vec<u64>,
    rules: String,
    office: String,
}

impl Round {
    /// Makes the request of the office and of the rules; the outcome, where they are one.
    fn compare(&mut self, book: &mut Book, request: Request) -> Result<Outcome, Box<Difference>> {
        self.made += 1;
        let rules = book.by_rules(&request);
        let office = book.by_office(&request);
        if rules != office {
            return Err(difference(book, request, text(&rules, &office), text(&office, &rules)));
        }
        if matches!(request, Request::Still { .. }) && rules.code == 0 {
            self.went += rules.row[0];
        }
        *self.replies.entry((kind(&request), rules.code >> 40)).or_default() += 1;
        Ok(rules)
    }

    /// In a tiny plan what was told is compared with trying all journeys too.
    fn compare_with_trying(
        &mut self,
        book: &Book,
        request: &Request,
        outcome: &Outcome,
    ) -> Result<(), Box<Difference>> {
        let (Ok(plan), true) = (&book.opened, outcome.code == 0) else {
            return Ok(());
        };
        let (Request::Answer { question, .. } | Request::Journey { question, .. }) = request else {
            return Ok(());
        };
        if plan.legs.len() > FEW_LEGS {
            return Ok(());
        }
        let q = plan.question(question).expect("it was answered");
        let Some(journeys) = trying::all_journeys(plan, q, FEW_JOURNEYS) else {
            return Ok(());
        };
        self.tried += 1;
        let told = pairs(&outcome.row);
        let tried: Vec<(u64, u64)> = match request {
            Request::Journey { mark, .. } => {
                let legs = trying::itinerary(&journeys, *mark).expect("the mark is reached");
                legs.iter().map(|leg| leg.name()).collect()
            }
            _ => trying::answer(&journeys).iter().map(|m| (m.arrival, m.boats)).collect(),
        };
        if told != tried {
            return Err(difference(
                book,
                request.clone(),
                format!("trying all journeys: {tried:?}"),
                format!("{told:?}"),
            ));
        }
        Ok(())
    }

    fn request(&mut self, book: &mut Book, request: Request) -> Result<Outcome, Box<Difference>> {
        let outcome = self.compare(book, request.clone())?;
        self.compare_with_trying(book, &request, &outcome)?;
        Ok(outcome)
    }

    /// A question, the itinerary of each of its marks and of one more; those that were given are kept.
    fn ask(&mut self, book: &mut Book, kept: &mut Vec<Vec<u64>>) -> Result<(), Box<Difference>> {
        let question = asking::any_question(&mut self.chance, book);
        let request = asking::answer(&mut self.chance, question.clone());
        self.request(book, request)?;
        let mut marks = book.marks(&question).unwrap_or_default();
        self.most_marks = self.most_marks.max(marks.len());
        if self.chance.one_in(4) {
            marks.push(Mark { arrival: self.chance.below(30), boats: self.chance.below(4) });
        }
        for mark in marks {
            let request = asking::journey(&mut self.chance, question.clone(), mark);
            let outcome = self.request(book, request)?;
            if outcome.code == 0 {
                let count = outcome.row[0] as usize;
                self.longest = self.longest.max(count);
                let mut given = vec![question[0], question[1]];
                given.extend(&outcome.row[..1 + 2 * count]);
                kept.push(given);
            }
        }
        Ok(())
    }

    /// Requests one after the other of one plan, which updates change.
    fn day(&mut self) -> Result<(), Box<Difference>> {
        let mut book = Book::of(plans::memory(&mut self.chance));
        let mut kept = Vec::new();
        for _ in 0..self.chance.between(1, 12) {
            self.ask(&mut book, &mut kept)?;
            for _ in 0..self.chance.below(4) {
                let request = asking::other(&mut self.chance, &book, &kept);
                let outcome = self.request(&mut book, request)?;
                if outcome.plan != book.words {
                    book = Book::of(outcome.plan);
                }
            }
        }
        Ok(())
    }
}

fn kind(request: &Request) -> &'static str {
    match request {
        Request::Answer { .. } => "answer",
        Request::Journey { .. } => "journey",
        Request::Delay { .. } => "delay",
        Request::Cancel { .. } => "cancel",
        Request::Extra(_) => "extra",
        Request::Still { .. } => "still",
    }
}

/// The count, and so many pairs.
fn pairs(row: &[u64]) -> Vec<(u64, u64)> {
    row[1..].chunks_exact(2).take(row[0] as usize).map(|pair| (pair[0], pair[1])).collect()
}

/// What was told, and where what was told and the other's differ.
fn text(outcome: &Outcome, other: &Outcome) -> String {
    let reply = match outcome.code {
        0 => "done".to_string(),
        code => format!("refused {} at {}", code >> 40, code & ((1 << 40) - 1)),
    };
    let mut text = format!("{reply}, the row begins {:?}", &outcome.row[..outcome.row.len().min(19)]);
    let lent = [("plan", &outcome.plan, &other.plan), ("asked", &outcome.asked, &other.asked)];
    for (name, words, others) in lent.into_iter().chain([("row", &outcome.row, &other.row)]) {
        let places = (0..words.len()).filter(|i| words[*i] != others[*i]).take(10);
        text.extend(places.map(|i| format!(", {name}[{i}] is {}", words[i])));
    }
    if !outcome.is_guarded {
        text.push_str(", and memory around what is lent was written");
    }
    text
}

fn difference(book: &Book, request: Request, rules: String, office: String) -> Box<Difference> {
    Box::new(Difference { request, plan: book.words.clone(), rules, office })
}

impl Difference {
    fn print(&self) {
        println!("plan in memory: {:?}", self.plan);
        match rules::Plan::opened(&self.plan) {
            Ok(plan) => {
                println!("changes: {:?}", plan.change);
                for Leg { run, number, from, to, leaves, comes } in plan.legs {
                    println!("leg {run}.{number} from {from} to {to} at {leaves} to {comes}");
                }
                for walk in plan.walks {
                    println!("walk from {} to {} in {}", walk.from, walk.to, walk.takes);
                }
            }
            Err(refusal) => println!("by the rules it is refused with {} at {}", refusal.number, refusal.place),
        }
        println!("request: {:?}", self.request);
        println!("rules:  {}", self.rules);
        println!("office: {}", self.office);
    }
}

/// What the program is asked for.
enum Task {
    Compare { requests: u64, seed: u64 },
    Write { folder: String, files: u64, seed: u64 },
}

fn task() -> Option<Task> {
    let words: Vec<String> = std::env::args().skip(1).collect();
    let words: Vec<&str> = words.iter().map(String::as_str).collect();
    let (words, seed) = match words[..] {
        [_, seed] | ["--files", _, _, seed] => (&words[..words.len() - 1], seed.parse().ok()?),
        _ => (&words[..], 1),
    };
    match *words {
        ["--files", folder, files] => {
            Some(Task::Write { folder: folder.to_string(), files: files.parse().ok()?, seed })
        }
        [requests] => Some(Task::Compare { requests: requests.parse().ok()?, seed }),
        _ => None,
    }
}

impl Round {
    fn of(seed: u64) -> Round {
        Round {
            chance: Chance::of(seed),
            made: 0,
            tried: 0,
            replies: BTreeMap::new(),
            went: 0,
            most_marks: 0,
            longest: 0,
        }
    }

    /// How often each request was done, and refused with which number.
    fn print(&self) {
        for asked in KINDS {
            let replies = self.replies.iter().filter(|((kind, _), _)| *kind == asked);
            let told = replies.map(|((_, number), times)| match number {
                0 => format!("{times} done"),
                _ => format!("{times} refused with {number}"),
            });
            println!("{asked}: {}", told.collect::<Vec<_>>().join(", "));
        }
        println!("{} itineraries still went", self.went);
        println!("at most {} marks, and {} legs of an itinerary", self.most_marks, self.longest);
        println!("{} of these answers and itineraries also beside trying all journeys", self.tried);
    }
}

fn compare_all(requests: u64, seed: u64) -> ExitCode {
    let mut round = Round::of(seed);
    while round.made < requests {
        if let Err(found) = round.day() {
            found.print();
            println!("request {} of seed {seed}: the office differs from the rules", round.made);
            return ExitCode::FAILURE;
        }
    }
    round.print();
    println!("{} requests, seed {seed}: 0 differ", round.made);
    ExitCode::SUCCESS
}

fn main() -> ExitCode {
    match task() {
        Some(Task::Compare { requests, seed }) => compare_all(requests, seed),
        Some(Task::Write { folder, files, seed }) => match files::write_all(&folder, files, seed) {
            Ok(()) => ExitCode::SUCCESS,
            Err(error) => {
                eprintln!("fuzz: cannot write to {folder}: {error}");
                ExitCode::FAILURE
            }
        },
        None => {
            eprint!("{HELP}");
            ExitCode::FAILURE
        }
    }
}
