//! The list of allowed steps, compared with the model's in rooms of several lengths, and how often each thing about it was met.

use model::{Action, MOST_MESSAGES, STEP, Step, Table, copies};

use crate::archive::{self, Filled, Lent};
use crate::compare::same_room;
use crate::counts::Counts;
use crate::random::Random;
use crate::steps;

/// The longest list.
pub const MOST: usize = 2112;

/// What is to be met of the tables that are accepted, and of the rooms for their lists.
const TABLES: [&str; 8] = [
    "the empty table",
    "an empty list of stations that are there",
    "the longest list",
    "a list with an exit",
    "a step left out since its receiver holds 32",
    "a bag of 31",
    "a bag of 32",
    "copies of a message",
];
const ROOMS: [&str; 5] = [
    "no room for a list",
    "a room one byte short",
    "a room shorter by more",
    "an exact room",
    "a longer room",
];

#[derive(Default)]
pub struct Lists {
    /// By number; the list is never refused with 8.
    answers: [u64; 10],
    tables: [u64; TABLES.len()],
    rooms: [u64; ROOMS.len()],
    steps: u64,
    longest: usize,
}

impl Lists {
    fn count_table(&mut self, table: &Table, listed: &[Step]) {
        let some_bag = |count| table.values().any(|station| copies(station) == count);
        let met = [
            table.is_empty(),
            listed.is_empty() && !table.is_empty(),
            listed.len() == MOST,
            listed.iter().any(|step| step.action == Action::Exit),
            !steps::at_full_bags(table).is_empty(),
            some_bag(MOST_MESSAGES - 1),
            some_bag(MOST_MESSAGES),
            table.values().any(|s| s.bag.values().any(|&held| held > 1)),
        ];
        for (count, met) in self.tables.iter_mut().zip(met) {
            *count += u64::from(met);
        }
        self.steps += listed.len() as u64;
        self.longest = self.longest.max(listed.len());
    }

    fn count_room(&mut self, room: usize, list: usize) {
        let kind = match room {
            0 if list > 0 => 0,
            _ if room + 1 == list => 1,
            _ if room < list => 2,
            _ if room == list => 3,
            _ => 4,
        };
        self.rooms[kind] += 1;
    }

    pub fn print_steps(&self) {
        println!("allowed steps: {}, most {}", self.steps, self.longest);
    }
}

impl Counts for Lists {
    const OF: &'static str = "allowed steps";
    const TITLE: &'static str = "the list of allowed steps, answers, tables and rooms";

    fn named(&self) -> Vec<(String, u64)> {
        let answers = self.answers.iter().enumerate();
        let answers = answers.filter(|(number, _)| *number != 8);
        let answers = answers.map(|(number, &count)| (number.to_string(), count));
        let names = TABLES.iter().chain(&ROOMS).map(ToString::to_string);
        let counts = self.tables.iter().chain(&self.rooms).copied();
        answers.chain(names.zip(counts)).collect()
    }
}

/// Two lengths of rooms for a list of so many bytes.
fn rooms(random: &mut Random, list: usize) -> [usize; 2] {
    let mut room = || match random.weighted(&[10, 20, 10, 35, 15, 10]) {
        0 => 0,
        1 => list.saturating_sub(1),
        2 => random.below(list + 1),
        3 => list,
        4 => list + random.from_to(1, 100),
        _ => STEP * MOST + random.below(STEP),
    };
    [room(), room()]
}

/// The answer, the steps filled and every byte of each room, and what lies around it.
pub fn same_allowed(
    random: &mut Random,
    lent: &Lent,
    table: &[u8],
    lists: &mut Lists,
) -> Result<(), String> {
    let listed = model::allowed(table);
    if let (Ok(stations), Ok(steps)) = (model::read_table(table), &listed) {
        lists.count_table(&stations, steps);
    }
    let list = STEP * listed.as_ref().map_or(0, Vec::len);
    for len in rooms(random, list) {
        let wanted = match &listed {
            Ok(steps) => model::fill(steps, len),
            Err(number) => Err(*number),
        };
        lists.answers[wanted.as_ref().err().copied().unwrap_or(0) as usize] += 1;
        if listed.is_ok() {
            lists.count_room(len, list);
        }
        let mut room = Lent::room(len, random.below(16), random.percent(50));
        let filled = archive::allowed(lent, &mut room);
        same_list(filled, &room, &wanted).map_err(|what| {
            format!("allowed steps, a list of {list} bytes, a room of {len}: {what}")
        })?;
    }
    Ok(())
}

fn same_list(filled: Filled, room: &Lent, wanted: &Result<Vec<u8>, u32>) -> Result<(), String> {
    let list = wanted.as_deref().unwrap_or(&[]);
    let numbers = Filled {
        answer: wanted.as_ref().err().copied().unwrap_or(0),
        filled: (list.len() / STEP) as u32,
    };
    if filled != numbers {
        return Err(format!(
            "the archive gives {filled:?}, the model {numbers:?}"
        ));
    }
    if !room.guards_whole() {
        return Err("a byte around the room was changed".to_string());
    }
    same_room(room, list)
}

/// Prints both lists, for a replay.
pub fn show(lent: &Lent, table: &[u8]) {
    println!("allowed steps, the model: {:?}", model::allowed(table));
    let mut room = Lent::room(STEP * MOST, 0, false);
    let filled = archive::allowed(lent, &mut room);
    let steps = room.bytes().chunks(STEP).take(filled.filled as usize);
    let steps: Vec<_> = steps.map(model::read_step).collect();
    println!("the archive: {filled:?} {steps:?}");
}
