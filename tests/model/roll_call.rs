//! The evening roll call, read from request T-03 of document 02.

use std::collections::BTreeMap;

use crate::{Leave, Message, Reason, Table, copies, read_table};

/// "One call takes up to 64 station numbers."
pub const MOST_QUESTIONS: usize = 64;

/// What the other stations say of one: how often they mention it, and the smallest of them that does.
#[derive(Clone, Copy, Debug, PartialEq, Eq)]
pub struct Mentions {
    pub times: usize,
    pub smallest: u32,
}

/// "Mentions are counted once from the table": as a left, as a right, and by every copy of an introduction. The station's own bag does not
/// mention it, and no station is its own neighbour. One that nobody mentions has no entry.
pub fn mentions(table: &Table) -> BTreeMap<u32, Mentions> {
    let mut all = BTreeMap::new();
    for (&other, station) in table {
        let mut mention = |named: u32, times: usize| {
            if named == other {
                return;
            }
            let smallest = other;
            let found = all.entry(named).or_insert(Mentions { times: 0, smallest });
            found.times += times;
            found.smallest = found.smallest.min(other);
        };
        for neighbour in [station.left, station.right].into_iter().flatten() {
            mention(neighbour, 1);
        }
        for (&message, &held) in &station.bag {
            if let Message::Introduction(named) = message {
                mention(named, held);
            }
        }
    }
    all
}

/// One record, from these counts: "an unknown number gets 11 in its own record only"; the bag is looked at first (T-02).
fn record(table: &Table, mentions: &BTreeMap<u32, Mentions>, asked: u32) -> Result<Leave, u32> {
    let station = table.get(&asked).ok_or(11u32)?;
    if copies(station) > 0 {
        return Ok(Leave::No(Reason::OwnBag));
    }
    let holder = mentions.get(&asked).map(|found| found.smallest);
    Ok(holder.map_or(Leave::Yes, |q| Leave::No(Reason::HeldBy(q))))
}

/// "Fills a lent list of answer records, one record per question", in the order of the questions, "repeats included". "It refuses with 1 to
/// 7, then 17 for more than 64 questions, then 9 for a list shorter than the questions."
pub fn roll_call(
    table: &[u8],
    questions: &[u32],
    records: usize,
) -> Result<Vec<Result<Leave, u32>>, u32> {
    let table = read_table(table)?;
    if questions.len() > MOST_QUESTIONS {
        return Err(17);
    }
    if records < questions.len() {
        return Err(9);
    }
    let mentions = mentions(&table);
    let answer = |&asked: &u32| record(&table, &mentions, asked);
    Ok(questions.iter().map(answer).collect())
}
