//! The race: the proved code beside plain Rust that does the same, and beside a textbook Dijkstra. Every plan and
//! every question is asked of all three first, and the answers must be equal; then the time is taken in turns.

#![allow(improper_ctypes)] // A slice goes to the archive as rustc passes it: a pointer and a length.

mod dijkstra;
mod plain;

use dijkstra::Graph;
use plain::Office;
use std::hint::black_box;

#[link(name = "race", kind = "static")]
unsafe extern "C" {
    fn race_cold(plan: &[u64], question: &[u64], out: &mut [u64]) -> u64;
    fn race_opened(plan: &[u64], questions: &[u64], out: &mut [u64]) -> u64;
}

/// The answer of the proved code, with check and layout; the refusal's number or 0.
fn proved_cold(plan: &[u64], question: &[u64], out: &mut [u64]) -> u64 {
    // SAFETY: the archive is compiled from this signature, and the proved code asks nothing of its caller.
    unsafe { race_cold(plan, question, out) }
}

/// The same for many questions on a plan that is opened once, in rows of `ROW` numbers.
fn proved_opened(plan: &[u64], questions: &[u64], out: &mut [u64]) -> u64 {
    // SAFETY: as above.
    unsafe { race_opened(plan, questions, out) }
}

/// The numbers that an answer takes at most: the count, and two for each of nine marks.
const ROW: usize = 19;

#[repr(C)]
struct Timespec {
    seconds: i64,
    nanoseconds: i64,
}

unsafe extern "C" {
    fn clock_gettime(clock: i32, time: *mut Timespec) -> i32;
}

/// The time that this thread has had on a processor, in nanoseconds: others that use the machine do not count.
fn thread_time() -> u64 {
    let mut now = Timespec { seconds: 0, nanoseconds: 0 };
    // SAFETY: 3 is CLOCK_THREAD_CPUTIME_ID, and `now` is ours to write.
    unsafe { clock_gettime(3, &mut now) };
    now.seconds as u64 * 1_000_000_000 + now.nanoseconds as u64
}

struct Chance(u64);

impl Chance {
    fn below(&mut self, n: u64) -> u64 {
        self.0 ^= self.0 << 13;
        self.0 ^= self.0 >> 7;
        self.0 ^= self.0 << 17;
        self.0 % n
    }
}

#[derive(Clone, Copy)]
enum Order {
    Shuffled,
    Sorted,
    Reversed,
    OrganPipe,
    Sawtooth,
}

#[derive(Clone, Copy)]
struct Size {
    piers: u64,
    legs: u64,
    walks: u64,
    per_run: u64,
    order: Order,
}

/// A random plan of a day: boats that leave between 0 and 1,200 and take 3 to 25 minutes a leg.
fn make_plan(chance: &mut Chance, size: Size) -> Vec<u64> {
    let mut words = vec![size.piers, size.legs, size.walks];
    words.extend((0..size.piers).map(|_| 1 + chance.below(5)));
    let mut legs: Vec<[u64; 6]> = Vec::new();
    let (mut pier, mut time) = (0, 0);
    for i in 0..size.legs {
        let (run, number) = (i / size.per_run, i % size.per_run);
        if number == 0 {
            pier = chance.below(size.piers);
            time = chance.below(1200);
        }
        let to = (pier + 1 + chance.below(size.piers - 1)) % size.piers;
        let comes = time + 3 + chance.below(23);
        legs.push([run, number, pier, to, time, comes]);
        pier = to;
        time = comes + chance.below(4);
    }
    match size.order {
        Order::Sorted => {}
        Order::Reversed => legs.reverse(),
        Order::Shuffled => {
            for i in (1..legs.len()).rev() {
                legs.swap(i, chance.below(i as u64 + 1) as usize);
            }
        }
        Order::OrganPipe => {
            let (up, down): (Vec<_>, Vec<_>) = legs.iter().partition(|a| (a[0] * size.per_run + a[1]) % 2 == 0);
            legs = up.into_iter().chain(down.into_iter().rev()).collect();
        }
        Order::Sawtooth => legs.sort_by_key(|a| (a[0] * size.per_run + a[1]) % 32),
    }
    words.extend(legs.iter().flatten());
    for _ in 0..size.walks {
        words.extend([chance.below(size.piers), chance.below(size.piers), 2 + chance.below(20)]);
    }
    words
}

fn make_questions(chance: &mut Chance, piers: u64, count: usize) -> Vec<u64> {
    (0..count).flat_map(|_| [chance.below(piers), chance.below(900), chance.below(piers), 8]).collect()
}

/// Asks every question of all and compares: the answers, and for the plan's faults the refusals.
fn compare(plan: &[u64], questions: &[u64]) {
    let mut office = Office::default();
    office.open(plan).expect("a plan that may be used");
    let graph = Graph::of(plan);
    let mut opened = vec![0; questions.len() / 4 * ROW];
    assert_eq!(proved_opened(plan, questions, &mut opened), 0);
    for (question, opened) in questions.chunks_exact(4).zip(opened.chunks_exact(ROW)) {
        let mut rows = [[0; ROW]; 3];
        let [plain, dijkstra, cold] = &mut rows;
        office.answer(question, plain).expect("a question that may be asked");
        graph.answer(question, dijkstra);
        assert_eq!(proved_cold(plan, question, cold), 0);
        assert_eq!(plain, dijkstra, "plain Rust and Dijkstra: {question:?}");
        assert_eq!(plain, cold, "plain Rust and the proved code: {question:?}");
        assert_eq!(plain, opened, "plain Rust and the proved code, opened: {question:?}");
    }
}

/// Spoils a plan in many places, one at a time: it must be refused by both or by neither.
fn compare_refusals(chance: &mut Chance, plan: &[u64]) {
    let mut office = Office::default();
    for _ in 0..2000 {
        let mut spoilt = plan.to_vec();
        let at = chance.below(plan.len() as u64) as usize;
        spoilt[at] = [0, 1, 64, 65, 65536, u32::MAX as u64, 1 << 32, u64::MAX][chance.below(8) as usize];
        let question = [0, 0, 1, 8];
        let (mut plain, mut proved) = ([0; ROW], [0; ROW]);
        let refused = office.open(&spoilt).and_then(|()| office.answer(&question, &mut plain)).err().unwrap_or(0);
        assert_eq!(proved_cold(&spoilt, &question, &mut proved), refused);
        assert_eq!(plain, proved);
    }
}

/// Best and median of the turns, in microseconds a question.
#[derive(Clone, Copy)]
struct Time {
    best: f64,
    median: f64,
}

struct Turns {
    nanoseconds: Vec<u64>,
    questions: usize,
}

impl Turns {
    fn new(questions: usize) -> Turns {
        Turns { nanoseconds: Vec::new(), questions }
    }

    fn take(&mut self, work: impl FnOnce()) {
        let start = thread_time();
        work();
        self.nanoseconds.push(thread_time() - start);
    }

    fn time(mut self) -> Time {
        self.nanoseconds.sort_unstable();
        let micros = |n: u64| n as f64 / 1000.0 / self.questions as f64;
        Time { best: micros(self.nanoseconds[0]), median: micros(self.nanoseconds[self.nanoseconds.len() / 2]) }
    }
}

struct Race {
    opened: [Time; 2],
    cold: [Time; 2],
    dijkstra: Time,
}

/// Takes the time of each side, in turn, so that what slows the machine for a while slows all.
fn race(plan: &[u64], questions: &[u64], turns: usize) -> Race {
    let count = questions.len() / 4;
    let few = &questions[..questions.len() / 10];
    let mut office = Office::default();
    let graph = Graph::of(plan);
    let mut out = vec![0; count * ROW];
    let mut sides: [Turns; 5] = [count, count, count / 10, count / 10, count / 10].map(Turns::new);
    for _ in 0..turns {
        let [plain_opened, opened, plain_cold, cold, dijkstra] = &mut sides;
        plain_opened.take(|| {
            office.open(plan).expect("a plan");
            for (question, row) in questions.chunks_exact(4).zip(out.chunks_exact_mut(ROW)) {
                black_box(office.answer(question, row)).expect("a question");
            }
        });
        opened.take(|| {
            black_box(proved_opened(plan, questions, &mut out));
        });
        plain_cold.take(|| {
            for (question, row) in few.chunks_exact(4).zip(out.chunks_exact_mut(ROW)) {
                office.open(plan).expect("a plan");
                black_box(office.answer(question, row)).expect("a question");
            }
        });
        cold.take(|| {
            for (question, row) in few.chunks_exact(4).zip(out.chunks_exact_mut(ROW)) {
                black_box(proved_cold(plan, question, row));
            }
        });
        dijkstra.take(|| {
            for (question, row) in few.chunks_exact(4).zip(out.chunks_exact_mut(ROW)) {
                graph.answer(question, row);
                black_box(&row);
            }
        });
    }
    let [plain_opened, opened, plain_cold, cold, dijkstra] = sides.map(Turns::time);
    Race { opened: [plain_opened, opened], cold: [plain_cold, cold], dijkstra }
}

/// Runs the race on some plans of a size, and writes a line of the table with the mean of each.
fn line(name: &str, size: Size, turns: usize) {
    let plans = 3;
    let mut races = Vec::new();
    for seed in 1..=plans {
        let mut chance = Chance(0x9e37_79b9_7f4a_7c15 ^ seed * 0x1234_5678_9abc);
        let plan = make_plan(&mut chance, size);
        let questions = make_questions(&mut chance, size.piers, 500);
        compare(&plan, &questions);
        compare_refusals(&mut chance, &plan);
        races.push(race(&plan, &questions, turns));
    }
    let mean = |get: &dyn Fn(&Race) -> f64| races.iter().map(get).sum::<f64>() / plans as f64;
    let cells = |get: &dyn Fn(&Race) -> [Time; 2]| {
        let [plain, proved] = [0, 1].map(|i| mean(&|r| get(r)[i].best));
        let [plain_median, proved_median] = [0, 1].map(|i| mean(&|r| get(r)[i].median));
        format!(
            "{plain:.2} | {proved:.2} | **{:.2}** ({:.2})",
            proved / plain,
            proved_median / plain_median
        )
    };
    let dijkstra = mean(&|r| r.dijkstra.best);
    println!(
        "| {name} | {} | {} | {dijkstra:.0} | {:.0} |",
        cells(&|r| r.opened),
        cells(&|r| r.cold),
        dijkstra / mean(&|r| r.opened[1].best),
    );
}

fn main() {
    let turns = std::env::args().nth(1).and_then(|n| n.parse().ok()).unwrap_or(40);
    let size = |piers, legs, walks, per_run| Size { piers, legs, walks, per_run, order: Order::Shuffled };
    println!("Microseconds a question, best of {turns} turns; ratios of the best, and of the medians in brackets.\n");
    println!("| plan | opened: plain | proved | ratio | cold: plain | proved | ratio | Dijkstra, opened | its ratio |");
    println!("|---|---|---|---|---|---|---|---|---|");
    line("41 piers, 512 legs in runs of 8, 40 walks", size(41, 512, 40, 8), turns);
    line("64 piers, 1,024 legs in runs of 8, 256 walks", size(64, 1024, 256, 8), turns);
    line("64 piers, 1,024 legs in runs of 1, 256 walks", size(64, 1024, 256, 1), turns);
    if turns < 10 {
        return;
    }
    for legs in [128, 256, 512, 1024] {
        line(&format!("growth: 64 piers, {legs} legs in runs of 8, 256 walks"), size(64, legs, 256, 8), turns);
    }
    line("small: 5 piers, 18 legs in runs of 3, 4 walks", size(5, 18, 4, 3), turns);
    let orders = [
        ("sorted", Order::Sorted),
        ("reversed", Order::Reversed),
        ("organ pipe", Order::OrganPipe),
        ("sawtooth", Order::Sawtooth),
    ];
    for (name, order) in orders {
        let size = Size { order, ..size(64, 1024, 256, 8) };
        line(&format!("legs {name}: 64 piers, 1,024 legs in runs of 8, 256 walks"), size, turns);
    }
}
