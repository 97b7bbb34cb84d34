//! A second reading of document 01 and of the requests of document 02, to compare the receiver with.
//!
//! It was written from these papers, without the crates, and is built differently on purpose: a table is a map from station numbers to
//! stations, a bag is a map from messages to the number of their copies, and the bytes are dealt with at the two ends only.
//! The comments name the section of document 01, or the request, that each part follows. The delivery of an introduction is there once more,
//! as the report has it (lemma3.rs).
#![deny(warnings)]

mod allowed;
mod bytes;
#[cfg(test)]
mod first_steps;
#[cfg(test)]
mod in_line;
#[cfg(test)]
mod lasting;
mod lemma3;
mod listing;
#[cfg(test)]
mod reasons;
mod roll_call;
#[cfg(test)]
mod roll_calls;
mod rules;
#[cfg(test)]
mod sites;
#[cfg(test)]
mod situations;

use std::collections::BTreeMap;

pub use allowed::{allowed, fill};
pub use bytes::{read_step, read_table, write_step, write_table};
pub use lemma3::introduce_to;
pub use listing::{listing, program};
pub use roll_call::{MOST_QUESTIONS, Mentions, mentions, roll_call};
pub use rules::{Effect, Refusal, apply, copies, effect, held, nidec};

/// The sizes of "What the engine holds", "The block" and "The step list".
pub const BLOCK: usize = 512;
pub const STEP: usize = 12;
pub const LARGEST_NUMBER: u32 = 999_999;
pub const MOST_STATIONS: usize = 64;
pub const MOST_MESSAGES: usize = 32;
pub const MOST_STEPS: usize = 4096;

/// "A site code, 0 to 9,999, with 0 for none" (document 02, T-05).
pub const LARGEST_SITE: u16 = 9_999;

/// "What the engine holds": the three messages. Their order here, by kind and then by number, is the order of writing.
#[derive(Clone, Copy, Debug, PartialEq, Eq, PartialOrd, Ord)]
pub enum Message {
    Introduction(u32),
    RemoveLeft,
    RemoveRight,
}

/// "A bag may hold equal messages and every copy counts": each message with the number of its copies, never 0.
pub type Bag = BTreeMap<Message, usize>;

#[derive(Clone, Debug, Default, PartialEq, Eq)]
pub struct Station {
    pub left: Option<u32>,
    pub right: Option<u32>,
    pub leaving: bool,
    /// The site code, where it has one (document 02, T-05). No rule looks at it, and "every step carries it unchanged".
    pub site: Option<u16>,
    pub bag: Bag,
}

/// The stations by their numbers. "A station that has gone has no block": it has no entry.
pub type Table = BTreeMap<u32, Station>;

/// "The step list": what is done, and at which station.
#[derive(Clone, Copy, Debug, PartialEq, Eq)]
pub struct Step {
    pub station: u32,
    pub action: Action,
}

#[derive(Clone, Copy, Debug, PartialEq, Eq)]
pub enum Action {
    Timeout,
    Deliver(Message),
    Exit,
}

/// Why a station may not leave (document 02, T-02): "own bag not empty", or the station that holds it.
#[derive(Clone, Copy, Debug, PartialEq, Eq)]
pub enum Reason {
    OwnBag,
    HeldBy(u32),
}

/// "The leave question now returns yes", or why not (document 02, T-02).
#[derive(Clone, Copy, Debug, PartialEq, Eq)]
pub enum Leave {
    Yes,
    No(Reason),
}

/// "The numbers a crew may see", and at 14 the reason. The table after the steps done is there where it is written: at 0 and at 10 to 15.
#[derive(Clone, Debug, PartialEq, Eq)]
pub struct Ran {
    pub answer: u32,
    pub reason: Option<Reason>,
    pub done: usize,
    pub table: Option<Table>,
}

impl Ran {
    /// "Stations now": the blocks written, or 0 where nothing is.
    pub fn stations(&self) -> usize {
        self.table.as_ref().map_or(0, Table::len)
    }

    /// What the beginning of the room holds afterwards; the bytes past it are not touched.
    pub fn written(&self) -> Vec<u8> {
        self.table.as_ref().map_or(Vec::new(), write_table)
    }

    fn nothing(answer: u32) -> Ran {
        Ran {
            answer,
            reason: None,
            done: 0,
            table: None,
        }
    }
}

/// "The check returns its number alone": 0, or 1 to 7.
pub fn check(table: &[u8]) -> u32 {
    match read_table(table) {
        Ok(_) => 0,
        Err(number) => number,
    }
}

/// "The whole run", for a room of the given length.
pub fn run(table: &[u8], steps: &[u8], room: usize) -> Ran {
    let mut now = match read_table(table) {
        Ok(stations) => stations,
        Err(number) => return Ran::nothing(number),
    };
    if steps.len() % STEP != 0 || steps.len() / STEP > MOST_STEPS {
        return Ran::nothing(8);
    }
    if room < table.len() {
        return Ran::nothing(9);
    }
    let mut end = Refusal::from(0);
    let mut done = 0;
    for twelve in steps.chunks(STEP) {
        let step = read_step(twelve).map_err(Refusal::from);
        match step.and_then(|step| effect(&now, step)) {
            Ok(effect) => {
                apply(&mut now, effect);
                done += 1;
            }
            Err(refusal) => {
                end = refusal;
                break;
            }
        }
    }
    Ran {
        answer: end.number,
        reason: end.reason,
        done,
        table: Some(now),
    }
}

/// "Ask whether a station may leave, which is yes exactly when NIDEC holds for it, leaving mark or not"; 11 where it is absent. Of a no it
/// tells why (document 02, T-02).
pub fn may_leave(table: &[u8], station: u32) -> Result<Leave, u32> {
    leave(&read_table(table)?, station)
}

/// The same of a table that is read already.
pub fn leave(stations: &Table, station: u32) -> Result<Leave, u32> {
    if !stations.contains_key(&station) {
        return Err(11);
    }
    Ok(held(stations, station).map_or(Leave::Yes, Leave::No))
}

/// Document 01: "each station's left is the next smaller station present, none for the smallest, and likewise its right."
fn neighbours_in_line(stations: &Table) -> bool {
    stations.iter().all(|(&number, station)| {
        let smaller = stations.range(..number).next_back().map(|(&n, _)| n);
        let larger = stations.range(number + 1..).next().map(|(&n, _)| n);
        station.left == smaller && station.right == larger
    })
}

/// Document 02, T-04: "a table is in line when the neighbours are as before, no bag holds a remove-left or remove-right, and no station is
/// leaving."
pub fn in_line(table: &[u8]) -> Result<bool, u32> {
    let stations = read_table(table)?;
    let removal = |station: &Station| {
        [Message::RemoveLeft, Message::RemoveRight]
            .iter()
            .any(|message| station.bag.contains_key(message))
    };
    Ok(neighbours_in_line(&stations)
        && !stations.values().any(removal)
        && !stations.values().any(|station| station.leaving))
}

/// "A console view holds the caller's table and walks it block by block without a copy": the check's number and no block, "else the blocks
/// in stored order, each being those 512 bytes of the caller's table, then the end".
pub fn view(table: &[u8]) -> Result<Vec<&[u8]>, u32> {
    read_table(table)?;
    Ok(table.chunks(BLOCK).collect())
}
