//! The two lasting facts (document 02, T-07), tried on the run of the case and on lists drawn for the premises. Whether a table is in line
//! and who may leave is asked of the archive, about the table read and about the table written; the exits and the stations of a list are
//! read from its bytes. It is also counted how often each premise was met, and what came of it where one was missing.

use std::collections::BTreeSet;

use model::{Action, STEP, Step, write_step};

use crate::archive::{self, Leave, Lent, Ran, Told};
use crate::cases::Case;
use crate::counts::Counts;
use crate::leaving::stored;
use crate::lining::neighbours_in_line;
use crate::random::Random;
use crate::reasons::{HELD_BY, MAY_LEAVE};
use crate::roll_call::OneByOne;
use crate::steps::{RULES, lively, lively_but};
use crate::tables::{BLOCK, get16, get32};

/// What is to be met of the first fact: runs over tables in line, and over tables that are not.
const LINE: [&str; 9] = [
    "in line, no step",
    "in line, 10 or more steps",
    "in line, timeouts and deliveries",
    "in line, stopped with 13",
    "in line, stopped with another number",
    "not in line, and in line afterwards",
    "not in line, an exit",
    "not in line for a removal or a mark alone, and its neighbours lost",
    "not in line for its neighbours alone, and not afterwards",
];

/// What is to be met of the second fact: stations that may leave, with no step at them, and with one.
const LEAVE: [&str; 8] = [
    "staying",
    "leaving",
    "no step at all",
    "10 or more steps",
    "a step at a neighbour of it",
    "another station's exit",
    "its own timeout, and then held by another",
    "its own exit, and then absent",
];

/// What is to be met where a station that may leave is let go after a drawn list.
const LATER: [&str; 3] = ["done", "staying", "a full bag"];

#[derive(Default)]
pub struct Lasting {
    line: [u64; LINE.len()],
    leave: [u64; LEAVE.len()],
    later: [u64; LATER.len()],
}

impl Counts for Lasting {
    const OF: &'static str = "lasting facts";
    const TITLE: &'static str = "the two lasting facts, and what came of it without their premises";

    fn named(&self) -> Vec<(String, u64)> {
        let parts: [(&str, &[&str], &[u64]); 3] = [
            ("a table", &LINE, &self.line),
            ("a station that may leave", &LEAVE, &self.leave),
            ("its exit after a list without it", &LATER, &self.later),
        ];
        let named = parts.iter().flat_map(|(of, names, counts)| {
            let named = names.iter().zip(*counts);
            named.map(move |(name, &count)| (format!("{of}: {name}"), count))
        });
        named.collect()
    }
}

fn add<const N: usize>(counts: &mut [u64; N], met: [bool; N]) {
    for (count, met) in counts.iter_mut().zip(met) {
        *count += u64::from(met);
    }
}

/// An accepted table, with what the archive answers about it: whether it is in line, and the stations that may leave.
struct Start<'a> {
    table: &'a [u8],
    in_line: bool,
    free: Vec<u32>,
}

/// The records of a step list, by their bytes: how many there are, the stations that they name, and those of each action.
struct List {
    steps: usize,
    named: BTreeSet<u32>,
    timeouts: BTreeSet<u32>,
    deliveries: BTreeSet<u32>,
    exits: BTreeSet<u32>,
}

impl List {
    fn read(bytes: &[u8]) -> List {
        let of = |wanted: fn(u16) -> bool| {
            let records = bytes.chunks_exact(STEP);
            let records = records.filter(|record| wanted(get16(record, 0)));
            records.map(|record| get32(record, 4)).collect()
        };
        List {
            steps: bytes.len() / STEP,
            named: of(|_| true),
            timeouts: of(|action| action == 1),
            deliveries: of(|action| action == 2),
            exits: of(|action| action == 3),
        }
    }
}

/// A run over such a table that has written one: its list, its numbers and the bytes written.
struct End<'a> {
    list: List,
    ran: Ran,
    written: &'a [u8],
}

impl<'a> End<'a> {
    fn new(steps: &[u8], ran: Ran, written: &'a [u8]) -> End<'a> {
        let list = List::read(steps);
        End { list, ran, written }
    }
}

impl Lasting {
    fn count_line(&mut self, start: &Start, end: &End, after: bool) {
        let (list, answer) = (&end.list, end.ran.answer);
        let lasts = start.in_line && answer == 0;
        let out = !start.in_line && answer == 0;
        let tidy = out && neighbours_in_line(start.table);
        let settled = |block: &[u8]| {
            let places = usize::from(get16(block, 16));
            get16(block, 2) == 0 && (0..places).all(|k| get16(block, 20 + 8 * k) == 1)
        };
        let met = [
            lasts && list.steps == 0,
            lasts && list.steps >= 10,
            lasts && !list.timeouts.is_empty() && !list.deliveries.is_empty(),
            start.in_line && answer == 13,
            start.in_line && answer != 0 && answer != 13,
            out && after,
            out && !list.exits.is_empty(),
            tidy && !neighbours_in_line(end.written),
            out && !after && list.steps > 0 && start.table.chunks_exact(BLOCK).all(settled),
        ];
        add(&mut self.line, met);
    }

    /// Of a station that may leave, whose block this is, after a run answered 0.
    fn count_leave(&mut self, block: &[u8], list: &List, after: Leave) {
        let p = get32(block, 4);
        let apart = !list.named.contains(&p);
        let leaving = get16(block, 2) == 1;
        let beside = [8, 12].map(|at| get32(block, at));
        let met = [
            apart && !leaving,
            apart && leaving,
            apart && list.steps == 0,
            apart && list.steps >= 10,
            apart && beside.iter().any(|q| list.named.contains(q)),
            apart && !list.exits.is_empty(),
            list.timeouts.contains(&p) && after.reason == HELD_BY,
            list.exits.contains(&p) && after.answer == 11,
        ];
        add(&mut self.leave, met);
    }
}

fn in_line(table: &[u8]) -> Told {
    archive::in_line(&Lent::copy(table, 0, false))
}

/// Both facts of one run.
fn lasts(start: &Start, end: &End, lasting: &mut Lasting) -> Result<(), String> {
    line_lasts(start, end, lasting)?;
    leave_lasts(start, end, lasting)
}

/// "A table that is in line by T-04 is in line after every run answered 0, and no such run holds an exit."
fn line_lasts(start: &Start, end: &End, lasting: &mut Lasting) -> Result<(), String> {
    let after = in_line(end.written);
    lasting.count_line(start, end, after.yes == 1);
    if !start.in_line || end.ran.answer != 0 {
        return Ok(());
    }
    let exits = &end.list.exits;
    if exits.is_empty() && after == (Told { answer: 0, yes: 1 }) {
        return Ok(());
    }
    Err(format!(
        "lasting: in line, and after a run answered 0 the archive gives {after:?}; the exits of its list: {exits:?}"
    ))
}

/// "Once NIDEC holds for a station, it still holds after any run answered 0 with no step at that station."
fn leave_lasts(start: &Start, end: &End, lasting: &mut Lasting) -> Result<(), String> {
    if end.ran.answer != 0 {
        return Ok(());
    }
    let written = Lent::copy(end.written, 0, false);
    for block in start.table.chunks_exact(BLOCK) {
        let p = get32(block, 4);
        if !start.free.contains(&p) {
            continue;
        }
        let after = archive::may_leave(&written, p);
        lasting.count_leave(block, &end.list, after);
        let still = (after.answer, after.reason) == (0, MAY_LEAVE);
        if !still && !end.list.named.contains(&p) {
            return Err(format!(
                "lasting: {p} may leave, and after a run answered 0 with no step at it the archive gives {after:?}"
            ));
        }
    }
    Ok(())
}

/// Both facts of the run of a case, and at times of lists drawn for its table: `ran` and `written` are what the run has given, and `asked`
/// has what the archive answers to the leave question about every station of the table.
pub fn same_lasting(
    random: &mut Random,
    case: &Case,
    ran: Ran,
    written: &[u8],
    asked: &OneByOne,
    lasting: &mut Lasting,
) -> Result<(), String> {
    let told = in_line(&case.table);
    if told.answer != 0 {
        return Ok(());
    }
    let free = asked.iter().filter(|(_, leave)| leave.reason == MAY_LEAVE);
    let start = Start {
        table: &case.table,
        in_line: told.yes == 1,
        free: free.map(|(&station, _)| station).collect(),
    };
    if !(1..=9).contains(&ran.answer) {
        lasts(&start, &End::new(&case.steps, ran, written), lasting)?;
    }
    if start.in_line && random.percent(60) {
        try_line(random, &start, lasting)?;
    }
    if !start.free.is_empty() && random.percent(40) {
        try_leave(random, &start, lasting)?;
    }
    Ok(())
}

fn read(start: &Start) -> Result<model::Table, String> {
    model::read_table(start.table)
        .map_err(|number| format!("lasting: the model refuses with {number}"))
}

/// A list of steps that are done over a table in line, at times with an exit put in at any place, which must not be done.
fn try_line(random: &mut Random, start: &Start, lasting: &mut Lasting) -> Result<(), String> {
    let mut now = read(start)?;
    let most = random.from_to(0, 40);
    let mut steps = lively(random, &mut now, most, &mut [0; RULES.len()]);
    if !start.table.is_empty() && random.percent(25) {
        let station = *random.pick(&stored(start.table));
        let at = STEP * random.from_to(0, steps.len() / STEP);
        steps.splice(at..at, exit(station));
    }
    let (ran, written) = archive::receive(start.table, &steps);
    lasts(start, &End::new(&steps, ran, &written), lasting)
}

fn exit(station: u32) -> [u8; STEP] {
    let action = Action::Exit;
    write_step(Step { station, action })
}

/// "So a desk may ask now and let the truck go later": of the stations that may leave one is picked; then come steps that are done, none of
/// them at that station, and at last its exit. A bag that is full may still refuse the exit, and so may a mark that says staying.
fn try_leave(random: &mut Random, start: &Start, lasting: &mut Lasting) -> Result<(), String> {
    let p = *random.pick(&start.free);
    let mut now = read(start)?;
    let most = random.from_to(0, 40);
    let steps = lively_but(random, &mut now, most, &mut [0; RULES.len()], Some(p));
    let (ran, written) = archive::receive(start.table, &steps);
    if ran.answer != 0 {
        return Err(format!("lasting: steps that are done give {ran:?}"));
    }
    lasts(start, &End::new(&steps, ran, &written), lasting)?;
    let answer = archive::receive(&written, &exit(p)).0.answer;
    let kind = match (now[&p].leaving, answer) {
        (true, 0) => 0,
        (false, 13) => 1,
        (true, 15) => 2,
        _ => {
            return Err(format!(
                "lasting: {p} may leave, and its exit later is answered {answer}"
            ));
        }
    };
    lasting.later[kind] += 1;
    Ok(())
}
