//! The leave question and the reason of a run that stops with 14 (document 02, T-02), compared with the model, and how often each
//! thing about them was met.

use model::{Message, STEP, Station, Table};

use crate::archive::{self, Leave, Lent, Ran};
use crate::cases::Case;
use crate::counts::Counts;
use crate::random::Random;
use crate::reasons;
use crate::roll_call::OneByOne;
use crate::tables::BLOCK;

/// What is to be met of the stations asked about; of those that a run stops at too, which never may leave.
const MET: [&str; 7] = [
    "may leave",
    "own bag, held by nobody else",
    "own bag, held by others too",
    "own bag that introduces its own station",
    "held by a neighbour",
    "held by an introduction alone",
    "held by the smallest of several, another one stored before it",
];

#[derive(Default)]
pub struct Leaves {
    /// The question's answers by number.
    answers: [u64; 16],
    asked: [u64; MET.len()],
    stopped: [u64; MET.len()],
}

impl Counts for Leaves {
    const OF: &'static str = "leave question";
    const TITLE: &'static str = "answers of the leave question, and what it found";

    fn named(&self) -> Vec<(String, u64)> {
        let numbers = (0..=7).chain([11]);
        let answers = numbers.map(|number| (number.to_string(), self.answers[number]));
        let asked = MET.iter().zip(self.asked);
        let asked = asked.map(|(name, count)| (format!("0, {name}"), count));
        let stopped = MET.iter().zip(self.stopped).skip(1);
        let stopped = stopped.map(|(name, count)| (format!("a run's 14, {name}"), count));
        answers.chain(asked).chain(stopped).collect()
    }
}

/// The station numbers as they are stored.
pub fn stored(table: &[u8]) -> Vec<u32> {
    table
        .chunks_exact(BLOCK)
        .map(|block| u32::from_le_bytes([block[4], block[5], block[6], block[7]]))
        .collect()
}

/// Counts what is met of a station of an accepted table, whose blocks are stored in this order.
fn count(met: &mut [u64; MET.len()], table: &Table, stored: &[u32], p: u32) {
    let introduction = Message::Introduction(p);
    let beside = |s: &Station| s.left == Some(p) || s.right == Some(p);
    let is_holder = |q: &&u32| {
        **q != p
            && table
                .get(q)
                .is_some_and(|s| beside(s) || s.bag.contains_key(&introduction))
    };
    let holders: Vec<u32> = stored.iter().filter(is_holder).copied().collect();
    let smallest = holders.iter().min();
    let own = &table[&p].bag;
    let held = own.is_empty() && smallest.is_some();
    let by_neighbour = smallest.is_some_and(|q| beside(&table[q]));
    let found = [
        own.is_empty() && holders.is_empty(),
        !own.is_empty() && holders.is_empty(),
        !own.is_empty() && !holders.is_empty(),
        own.contains_key(&introduction),
        held && by_neighbour,
        held && !by_neighbour,
        held && holders.first() != smallest,
    ];
    for (count, found) in met.iter_mut().zip(found) {
        *count += u64::from(found);
    }
}

/// The model's answer in the three numbers of the C interface.
pub fn wanted(answer: Result<model::Leave, u32>) -> Leave {
    let (reason, holder) = answer.map_or((reasons::NO_REASON, 0), reasons::of_leave);
    Leave {
        answer: answer.err().unwrap_or(0),
        reason,
        holder,
    }
}

/// The number, the reason and the holder for every station of the table and for some that are absent. What the archive answers is kept.
pub fn same_leave(
    random: &mut Random,
    lent: &Lent,
    table: &[u8],
    one_by_one: &mut OneByOne,
    leaves: &mut Leaves,
) -> Result<(), String> {
    let stations = model::read_table(table);
    let stored = stored(table);
    for station in asked(random, &stored, stations.is_ok()) {
        let answer = match &stations {
            Ok(stations) => model::leave(stations, station),
            Err(number) => Err(*number),
        };
        let (leave, wanted) = (archive::may_leave(lent, station), wanted(answer));
        one_by_one.insert(station, leave);
        leaves.answers[wanted.answer as usize] += 1;
        if let (Ok(stations), Ok(_)) = (&stations, answer) {
            count(&mut leaves.asked, stations, &stored, station);
        }
        if leave != wanted {
            return Err(format!(
                "may {station} leave: the archive gives {leave:?}, the model {wanted:?}"
            ));
        }
    }
    Ok(())
}

/// Every station that is present, or two of a table that is refused; their nearest numbers, and numbers that no station can have.
fn asked(random: &mut Random, present: &[u32], accepted: bool) -> Vec<u32> {
    let mut asked = Vec::new();
    if present.is_empty() || random.percent(30) {
        asked.push(*random.pick(&[0, 1, 999_999, 1_000_000, u32::MAX]));
    }
    if present.is_empty() {
        return asked;
    }
    if accepted {
        asked.extend(present);
    } else {
        asked.extend([*random.pick(present), *random.pick(present)]);
    }
    let near = *random.pick(present);
    let anywhere = random.next() as u32;
    asked.push(*random.pick(&[
        near.wrapping_add(1),
        near.wrapping_sub(1),
        near ^ 0x1_0000,
        near ^ 0x0100_0000,
        anywhere,
    ]));
    asked
}

/// Where a run has stopped with 14, its reason and holder are what the leave question finds in the table that it wrote, for the
/// station of the refused step.
pub fn same_reason(
    case: &Case,
    ran: Ran,
    written: &[u8],
    leaves: &mut Leaves,
) -> Result<(), String> {
    let step = &case.steps[STEP * ran.done as usize..][..STEP];
    let station = u32::from_le_bytes([step[4], step[5], step[6], step[7]]);
    if let Ok(table) = model::read_table(written) {
        count(&mut leaves.stopped, &table, &stored(&case.table), station);
    }
    let leave = archive::may_leave(&Lent::copy(written, 0, false), station);
    let told = Leave {
        answer: 0,
        reason: ran.reason,
        holder: ran.holder,
    };
    if leave == told {
        return Ok(());
    }
    Err(format!(
        "{station} may not leave: the run gives {told:?}, the question {leave:?}"
    ))
}

/// A table and the same one in another stored order give the same answer about a station.
pub fn same_of_alike(random: &mut Random, table: &[u8], other: &[u8]) -> Result<(), String> {
    let stored = stored(table);
    if stored.is_empty() {
        return Ok(());
    }
    let tables = [table, other].map(|bytes| Lent::copy(bytes, 0, false));
    for _ in 0..4 {
        let station = *random.pick(&stored);
        let [here, there] = [0, 1].map(|k| archive::may_leave(&tables[k], station));
        if here != there {
            return Err(format!(
                "two receivers: may {station} leave: one gives {here:?}, the other {there:?}"
            ));
        }
    }
    Ok(())
}
