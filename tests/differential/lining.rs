//! The line question (document 02, T-04) compared with the model, how often each cause of its answer was met, and that a table in line lasts
//! when an introduction is delivered.

use model::{Action, Message, Step, Table, write_step};

use crate::archive::{self, Lent, Told};
use crate::counts::Counts;
use crate::random::Random;
use crate::tables::BLOCK;

/// What is to be met of the tables asked about, and of the deliveries in those that are in line.
const MET: [&str; 12] = [
    "yes, no station",
    "yes, no message waits",
    "yes, introductions wait",
    "no, for its neighbours alone",
    "no, for remove-lefts alone",
    "no, for remove-rights alone",
    "no, for one removal alone, the last of 32 messages",
    "no, for one leaving station alone",
    "no, for neighbours, removals and leaving stations",
    "in line, an introduction of a neighbour or itself delivered",
    "in line, an introduction passed on",
    "in line, an introduction refused for a full bag",
];
const DELIVERED: usize = 9;

#[derive(Default)]
pub struct Lines {
    /// The answers by number.
    answers: [u64; 8],
    met: [u64; MET.len()],
}

impl Counts for Lines {
    const OF: &'static str = "line question";
    const TITLE: &'static str = "answers of the line question, and what it found";

    fn named(&self) -> Vec<(String, u64)> {
        let answers = self.answers.iter().enumerate();
        let answers = answers.map(|(number, &count)| (number.to_string(), count));
        let met = MET.iter().zip(self.met);
        let met = met.map(|(name, count)| (format!("0, {name}"), count));
        answers.chain(met).collect()
    }
}

fn long(bytes: &[u8], at: usize) -> u32 {
    u32::from_le_bytes([bytes[at], bytes[at + 1], bytes[at + 2], bytes[at + 3]])
}

/// How many messages of this kind are counted in a block.
fn kinds(block: &[u8], kind: u8) -> usize {
    (0..usize::from(block[16]))
        .filter(|place| block[20 + 8 * place] == kind)
        .count()
}

/// Document 01: "each station's left is the next smaller station present, none for the smallest, and likewise its right", of the bytes of an
/// accepted table and with no help from the model.
pub fn neighbours_in_line(table: &[u8]) -> bool {
    let mut blocks: Vec<&[u8]> = table.chunks_exact(BLOCK).collect();
    blocks.sort_by_key(|block| long(block, 4));
    let number = |k: usize| blocks.get(k).map_or(0, |block| long(block, 4));
    (0..blocks.len()).all(|k| {
        let smaller = if k == 0 { 0 } else { number(k - 1) };
        long(blocks[k], 8) == smaller && long(blocks[k], 12) == number(k + 1)
    })
}

/// Counts what is met of an accepted table, from its bytes and not from the model.
fn count(met: &mut [u64; MET.len()], table: &[u8]) {
    let blocks: Vec<&[u8]> = table.chunks_exact(BLOCK).collect();
    let of_kind = |kind| -> usize { blocks.iter().map(|block| kinds(block, kind)).sum() };
    let (introductions, left, right) = (of_kind(1), of_kind(2), of_kind(3));
    let leaving = blocks.iter().filter(|block| block[2] == 1).count();
    let at_the_end = |block: &&&[u8]| block[16] == 32 && block[20 + 8 * 31] != 1;
    let last = blocks.iter().filter(at_the_end).count();
    let tidy = neighbours_in_line(table);
    let removals = left + right;
    let quiet = removals == 0;
    let yes = tidy && quiet && leaving == 0;
    let removals_alone = tidy && leaving == 0 && !quiet;
    let found = [
        blocks.is_empty(),
        yes && !blocks.is_empty() && introductions == 0,
        yes && introductions > 0,
        !tidy && quiet && leaving == 0,
        removals_alone && right == 0,
        removals_alone && left == 0,
        removals_alone && removals == 1 && last == 1,
        tidy && quiet && leaving == 1,
        !tidy && !quiet && leaving > 0,
    ];
    for (count, found) in met.iter_mut().zip(found) {
        *count += u64::from(found);
    }
}

/// The number, and yes or no.
pub fn same_line(
    random: &mut Random,
    lent: &Lent,
    table: &[u8],
    lines: &mut Lines,
) -> Result<(), String> {
    let (line, answer) = (archive::in_line(lent), model::in_line(table));
    // "A question returns the number alone": yes is 0 beside it.
    let wanted = Told {
        answer: answer.err().unwrap_or(0),
        yes: u32::from(answer == Ok(true)),
    };
    lines.answers[wanted.answer as usize] += 1;
    if wanted.answer == 0 {
        count(&mut lines.met, table);
    }
    if line != wanted {
        return Err(format!(
            "in line: the archive gives {line:?}, the model {wanted:?}"
        ));
    }
    match model::read_table(table) {
        Ok(stations) if wanted.yes == 1 => lasts(random, table, &stations, lines),
        _ => Ok(()),
    }
}

/// "Introductions may still wait, since none of them can change a neighbour in such a table": one that waits is delivered by the archive, and
/// every block has its number, its neighbours and its mark as before, and the table is in line again.
fn lasts(
    random: &mut Random,
    table: &[u8],
    stations: &Table,
    lines: &mut Lines,
) -> Result<(), String> {
    let waiting: Vec<(u32, Message)> = stations
        .iter()
        .flat_map(|(&number, station)| station.bag.keys().map(move |&message| (number, message)))
        .collect();
    if waiting.is_empty() {
        return Ok(());
    }
    let (station, message) = *random.pick(&waiting);
    let action = Action::Deliver(message);
    let (ran, written) = archive::receive(table, &write_step(Step { station, action }));
    let sent = written
        .chunks_exact(BLOCK)
        .map(|block| usize::from(block[16]))
        .sum::<usize>()
        == stations.values().flat_map(|s| s.bag.values()).sum();
    let end = match ran.answer {
        0 if !sent => 0,
        0 => 1,
        _ => 2,
    };
    lines.met[DELIVERED + end] += 1;
    if ran.answer != 0 && ran.answer != 15 {
        return Err(format!(
            "in line: {station} is refused {message:?} with {}",
            ran.answer
        ));
    }
    let mut heads: Vec<&[u8]> = table.chunks_exact(BLOCK).map(|b| &b[..16]).collect();
    heads.sort_by_key(|head| long(head, 4));
    let kept = written.chunks_exact(BLOCK).map(|b| &b[..16]).eq(heads);
    let again = archive::in_line(&Lent::copy(&written, 0, false));
    if kept && again == (Told { answer: 0, yes: 1 }) {
        return Ok(());
    }
    Err(format!(
        "in line: after {message:?} at {station} the stations are kept: {kept}, and {again:?}"
    ))
}
