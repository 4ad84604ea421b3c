//! Random files of requests for the office program, and what has to be printed for them.

use crate::asking;
use crate::chance::Chance;
use crate::office::{PLAN_ROOM, office};
use crate::plans;
use crate::requests::{Book, Request};
use crate::rules::JOURNEY_ROW;

/// Four bytes a number, the low one first; the file has no others.
fn bytes(numbers: &[u64]) -> impl Iterator<Item = u8> {
    numbers.iter().flat_map(|number| (*number as u32).to_le_bytes())
}

fn write_request(file: &mut Vec<u8>, request: &Request) {
    let (kind, numbers) = match request {
        Request::Answer { question, .. } | Request::Journey { question, .. } => {
            (0, question[..question.len().min(4)].to_vec())
        }
        Request::Delay { run, number, minutes } => (1, vec![*run, *number, *minutes]),
        Request::Cancel { run, number } => (2, vec![*run, *number]),
        Request::Extra(a) => (3, vec![a.run, a.number, a.from, a.to, a.leaves, a.comes]),
        Request::Still { given, .. } => (4, given.clone()),
    };
    file.push(kind);
    file.extend(bytes(&numbers));
}

/// The itineraries that a traveller is given for a question.
fn itineraries(book: &mut Book, question: &[u64]) -> Vec<Vec<u64>> {
    let mut all = Vec::new();
    for mark in book.marks(question).unwrap_or_default() {
        let legs = book.itinerary(question, mark, JOURNEY_ROW).expect("the mark was told");
        let mut given = vec![question[0], question[1], legs.len() as u64];
        given.extend(legs.iter().flat_map(|leg| [leg.run, leg.number]));
        all.push(given);
    }
    all
}

fn requests(chance: &mut Chance) -> Vec<u8> {
    let mut words = plans::words(chance);
    let mut file: Vec<u8> = bytes(&words).collect();
    words.resize(words.len().max(PLAN_ROOM), 0);
    let mut book = Book::of(words);
    let mut kept = Vec::new();
    for _ in 0..chance.below(30) {
        if chance.one_in(2) {
            let question = asking::any_question(chance, &book);
            kept.extend(itineraries(&mut book, &question));
            write_request(&mut file, &asking::answer(chance, question));
            continue;
        }
        let request = asking::other(chance, &book, &kept);
        write_request(&mut file, &request);
        if let Request::Delay { .. } | Request::Cancel { .. } | Request::Extra(_) = request
            && let Ok(after) = book.updated(&request)
        {
            book = Book::of(after);
        }
    }
    match chance.below(8) {
        0 => file.truncate(chance.index(file.len() + 1)),
        1 => file.truncate(file.len() - file.len().min(chance.index(30))),
        2 => file.push(chance.next() as u8),
        _ => {}
    }
    file
}

pub fn write_all(folder: &str, files: u64, seed: u64) -> std::io::Result<()> {
    let mut chance = Chance::of(seed);
    for n in 1..=files {
        let file = requests(&mut chance);
        let (printed, status) = office(&file);
        std::fs::write(format!("{folder}/{n}.requests"), file)?;
        std::fs::write(format!("{folder}/{n}.stdout"), printed)?;
        std::fs::write(format!("{folder}/{n}.status"), format!("{status}\n"))?;
    }
    Ok(())
}
