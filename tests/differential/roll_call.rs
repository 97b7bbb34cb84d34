//! The roll call (document 02, T-03), compared with the model's and with the archive's own answers one by one, over lists of questions and
//! of records of several lengths, and how often each thing about it was met.

use std::collections::BTreeMap;

use model::{Leave, MOST_QUESTIONS, Message, Table, mentions};

use crate::archive::{self, Filled, Lent};
use crate::compare::same_room;
use crate::counts::Counts;
use crate::leaving::{stored, wanted};
use crate::random::Random;

/// Bytes of a question and of a record.
const QUESTION: usize = 4;
const RECORD: usize = 12;

/// What is to be met of the calls.
const MET: [&str; 18] = [
    "no question",
    "no question, of a table that is refused",
    "64 questions",
    "65 questions",
    "more than 65 questions",
    "a station asked about twice",
    "stations asked about in another order than rising",
    "an unknown number between known ones",
    "0 and a number above 999,999",
    "records one too few",
    "fewer records by more",
    "as many records as questions",
    "more records than questions",
    "too many questions and too few records",
    "a refused table and too many questions",
    "a refused table and too few records",
    "a station that several mention, or one several times",
    "a station that its own bag alone introduces",
];

#[derive(Default)]
pub struct RollCalls {
    /// By number; only 1 to 7, 9 and 17 refuse a roll call.
    answers: [u64; 18],
    met: [u64; MET.len()],
    /// The records: may leave, own bag, held by another, absent.
    records: [u64; 4],
}

const RECORDS: [&str; 4] = ["may leave", "own bag", "held by another", "absent"];

impl RollCalls {
    fn count(&mut self, call: &Call, table: &Result<Table, u32>) {
        let (asked, room) = (call.questions.len(), call.records);
        let (refused, many, short) = (table.is_err(), asked > MOST_QUESTIONS, room < asked);
        let questions = &call.questions[..];
        let [unknown, mentioned, itself] = table.as_ref().map_or([false; 3], |t| found(t, call));
        let met = [
            asked == 0 && !refused,
            asked == 0 && refused,
            asked == MOST_QUESTIONS,
            asked == MOST_QUESTIONS + 1,
            asked > MOST_QUESTIONS + 1,
            (1..asked).any(|k| questions[..k].contains(&questions[k])),
            !questions.is_sorted(),
            unknown,
            questions.contains(&0) && questions.iter().any(|&n| n > model::LARGEST_NUMBER),
            room + 1 == asked && !refused && !many,
            room + 1 < asked && !refused && !many,
            room == asked && asked > 0,
            room > asked,
            many && short && !refused,
            refused && many,
            refused && short,
            mentioned,
            itself,
        ];
        for (count, met) in self.met.iter_mut().zip(met) {
            *count += u64::from(met);
        }
    }

    fn count_answer(&mut self, answer: &Result<Vec<Result<Leave, u32>>, u32>) {
        self.answers[answer.as_ref().err().copied().unwrap_or(0) as usize] += 1;
        for record in answer.iter().flatten() {
            self.records[match record {
                Ok(Leave::Yes) => 0,
                Ok(Leave::No(model::Reason::OwnBag)) => 1,
                Ok(Leave::No(model::Reason::HeldBy(_))) => 2,
                Err(_) => 3,
            }] += 1;
        }
    }
}

impl Counts for RollCalls {
    const OF: &'static str = "roll call";
    const TITLE: &'static str = "roll calls, answers, questions and records";

    fn named(&self) -> Vec<(String, u64)> {
        let numbers = (0..=7).chain([9, 17]);
        let answers = numbers.map(|number| (number.to_string(), self.answers[number]));
        let names = MET.iter().chain(&RECORDS).map(ToString::to_string);
        let counts = self.met.iter().chain(&self.records).copied();
        answers.chain(names.zip(counts)).collect()
    }
}

/// Of an accepted table: whether a question that nobody can answer stands between two that have an answer, whether a station asked about is
/// mentioned more than once, and whether one is introduced by its own bag and mentioned by nobody else.
fn found(table: &Table, call: &Call) -> [bool; 3] {
    let is_known = |number: &u32| table.contains_key(number);
    let questions = &call.questions[..];
    let unknown = questions
        .windows(3)
        .any(|three| is_known(&three[0]) && !is_known(&three[1]) && is_known(&three[2]));
    let counted = mentions(table);
    let several = |number: &u32| counted.get(number).is_some_and(|m| m.times > 1);
    let itself = |number: &u32| {
        let own = table.get(number);
        own.is_some_and(|s| s.bag.contains_key(&Message::Introduction(*number)))
            && !counted.contains_key(number)
    };
    [
        unknown,
        questions.iter().any(several),
        questions.iter().any(itself),
    ]
}

/// The questions of a call, and how many records are lent for their answers.
struct Call {
    questions: Vec<u32>,
    records: usize,
}

/// How many stations are asked about, where the table has so many.
fn how_many(random: &mut Random, present: usize) -> usize {
    match random.weighted(&[6, 30, 30, 14, 8, 8, 4]) {
        0 => 0,
        1 => random.from_to(1, 8),
        2 => present.min(MOST_QUESTIONS),
        3 => random.from_to(1, MOST_QUESTIONS),
        4 => MOST_QUESTIONS,
        5 => MOST_QUESTIONS + 1,
        _ => random.from_to(MOST_QUESTIONS + 2, 300),
    }
}

/// A station of the table as a rule; at times its nearest number, a number that no station can have, or any number.
fn question(random: &mut Random, present: &[u32]) -> u32 {
    let near = if present.is_empty() {
        5
    } else {
        *random.pick(present)
    };
    match random.weighted(&[86, 3, 3, 4, 2, 2]) {
        0 => near,
        1 => near.wrapping_add(1),
        2 => near.wrapping_sub(1),
        3 => *random.pick(&[0, 1, 999_999, 1_000_000, u32::MAX]),
        4 => near ^ *random.pick(&[0x1_0000, 0x0100_0000]),
        _ => random.next() as u32,
    }
}

/// Every station of the table in turn, or any of them, with repeats.
fn draw(random: &mut Random, present: &[u32]) -> Call {
    let asked = how_many(random, present.len());
    let mut questions = Vec::new();
    if asked == present.len() && random.percent(70) {
        questions.extend(present);
        random.shuffle(&mut questions);
    }
    while questions.len() < asked {
        questions.push(question(random, present));
    }
    let records = match random.weighted(&[50, 20, 10, 10, 10]) {
        0 => asked,
        1 => asked + random.from_to(1, 70),
        2 => asked.saturating_sub(1),
        3 => 0,
        _ => random.below(asked + 1),
    };
    Call { questions, records }
}

/// The answers of the archive to the leave question about this table, each asked once.
pub type OneByOne = BTreeMap<u32, archive::Leave>;

/// The answer, the records filled and every byte of the records lent, and what lies around them, of one drawn call.
pub fn same_roll_call(
    random: &mut Random,
    lent: &Lent,
    table: &[u8],
    asked: &mut OneByOne,
    calls: &mut RollCalls,
) -> Result<(), String> {
    let call = draw(random, &stored(table));
    let answer = model::roll_call(table, &call.questions, call.records);
    calls.count(&call, &model::read_table(table));
    calls.count_answer(&answer);
    let numbers: Vec<u8> = call
        .questions
        .iter()
        .flat_map(|n| n.to_le_bytes())
        .collect();
    let null = random.percent(50);
    let questions = Lent::copy(&numbers, QUESTION * random.below(4), null);
    let mut records = Lent::room(RECORD * call.records, QUESTION * random.below(4), null);
    let filled = archive::roll_call(lent, &questions, &mut records);
    let same = same_records(filled, &records, &answer)
        .and_then(|()| same_one_by_one(lent, &call.questions, &records, filled, asked));
    same.map_err(|what| {
        format!(
            "a roll call of {:?} into {} records: {what}",
            call.questions, call.records
        )
    })?;
    if questions.bytes() != numbers || !questions.guards_whole() || !records.guards_whole() {
        return Err("the roll call changed the questions, or a byte around them".to_string());
    }
    Ok(())
}

/// Every record as the model has it, and the rest as it was.
fn same_records(
    filled: Filled,
    records: &Lent,
    answer: &Result<Vec<Result<Leave, u32>>, u32>,
) -> Result<(), String> {
    let list = answer.as_deref().unwrap_or(&[]);
    let numbers = Filled {
        answer: answer.as_ref().err().copied().unwrap_or(0),
        filled: list.len() as u32,
    };
    if filled != numbers {
        return Err(format!(
            "the archive gives {filled:?}, the model {numbers:?}"
        ));
    }
    let bytes = list.iter().flat_map(|&record| wanted(record).bytes());
    same_room(records, &bytes.collect::<Vec<u8>>())
}

/// "Equals asking one by one": each record is what the archive answers to that question alone.
fn same_one_by_one(
    lent: &Lent,
    questions: &[u32],
    records: &Lent,
    filled: Filled,
    asked: &mut OneByOne,
) -> Result<(), String> {
    let records = records.bytes().chunks(RECORD).take(filled.filled as usize);
    for (&station, record) in questions.iter().zip(records) {
        let alone = asked
            .entry(station)
            .or_insert_with(|| archive::may_leave(lent, station));
        if record != alone.bytes() {
            return Err(format!(
                "asked alone, the archive says {alone:?} of {station}, in the call {record:?}"
            ));
        }
    }
    Ok(())
}
