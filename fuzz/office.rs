//! The office program by the rules: what it prints for a file. docs/FORMAT.md has the file.

use crate::requests::{Book, Request};
use crate::rules::{JOURNEY_ROW, Leg, MOST_LEGS, MOST_PIERS, MOST_WALKS, Plan, Refusal};

/// The office keeps the plan in memory that has room for any.
pub const PLAN_ROOM: usize = (3 + MOST_PIERS + 6 * MOST_LEGS + 3 * MOST_WALKS) as usize;

/// The bytes that are left.
struct Rest<'a>(&'a [u8]);

impl Rest<'_> {
    /// The next numbers, at most so many. So many are passed over, there or not.
    fn numbers(&mut self, most: u64) -> Vec<u64> {
        let there = self.0.chunks_exact(4).take(most as usize);
        let numbers = there.map(|b| u64::from(u32::from_le_bytes([b[0], b[1], b[2], b[3]]))).collect();
        self.0 = self.0.get(4 * most as usize..).unwrap_or(&[]);
        numbers
    }

    fn plan(&mut self) -> Vec<u64> {
        let mut words = self.numbers(3);
        if let [piers, legs, walks] = words[..] {
            words.extend(self.numbers(piers + 6 * legs + 3 * walks));
        }
        words
    }

    fn itinerary(&mut self) -> Vec<u64> {
        let mut given = self.numbers(3);
        if let [_, _, count] = given[..] {
            given.extend(self.numbers(2 * count));
        }
        given
    }

    /// The update of that kind, unless it is cut short.
    fn update(&mut self, kind: u8) -> Option<Request> {
        let numbers = self.numbers([0, 3, 2, 6][kind as usize]);
        match (kind, &numbers[..]) {
            (1, &[run, number, minutes]) => Some(Request::Delay { run, number, minutes }),
            (2, &[run, number]) => Some(Request::Cancel { run, number }),
            (3, &[run, number, from, to, leaves, comes]) => {
                Some(Request::Extra(Leg { run, number, from, to, leaves, comes }))
            }
            _ => None,
        }
    }
}

fn joined(parts: impl Iterator<Item = String>) -> String {
    parts.collect::<Vec<_>>().join(" ")
}

fn answer(book: &mut Book, question: &[u64]) -> Result<String, Refusal> {
    let marks = book.marks(question)?;
    let mut text = joined(marks.iter().map(|m| format!("{}/{}", m.arrival, m.boats))) + "\n";
    for mark in marks {
        let legs = book.itinerary(question, mark, JOURNEY_ROW)?;
        text += &(joined(legs.iter().map(|leg| format!("{}.{}", leg.run, leg.number))) + "\n");
    }
    Ok(text)
}

fn said(text: Result<String, Refusal>) -> String {
    text.unwrap_or_else(|refusal| format!("refused {} at {}\n", refusal.number, refusal.place))
}

/// What is printed, and the status.
pub fn office(bytes: &[u8]) -> (String, u8) {
    let mut rest = Rest(bytes);
    let mut words = rest.plan();
    if let Err(refusal) = Plan::opened(&words) {
        return (said(Err(refusal)), 0);
    }
    words.resize(PLAN_ROOM, 0);
    let mut book = Book::of(words);
    let mut printed = String::new();
    while let Some((kind, behind)) = rest.0.split_first() {
        rest.0 = behind;
        let text = match kind {
            0 => answer(&mut book, &rest.numbers(4)),
            1..=3 => {
                let Some(update) = rest.update(*kind) else {
                    return (printed, 1);
                };
                book.updated(&update).map(|after| {
                    book = Book::of(after);
                    String::new()
                })
            }
            4 => book.still(&rest.itinerary()).map(|word| ["gone\n", "still\n"][word as usize].to_string()),
            _ => return (printed, 1),
        };
        printed += &said(text);
    }
    (printed, 0)
}
