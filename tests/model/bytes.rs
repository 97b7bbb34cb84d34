//! "The block" and "The step list": bytes to stations and steps, and back.

use std::collections::BTreeSet;

use crate::{
    Action, BLOCK, Bag, LARGEST_NUMBER, LARGEST_SITE, MOST_MESSAGES, MOST_STATIONS, Message, STEP,
    Station, Step, Table,
};

fn word(bytes: &[u8], at: usize) -> u16 {
    u16::from_le_bytes([bytes[at], bytes[at + 1]])
}

fn long(bytes: &[u8], at: usize) -> u32 {
    u32::from_le_bytes([bytes[at], bytes[at + 1], bytes[at + 2], bytes[at + 3]])
}

fn is_station_number(number: u32) -> bool {
    1 <= number && number <= LARGEST_NUMBER
}

fn all_zero(bytes: &[u8]) -> bool {
    bytes.iter().all(|&byte| byte == 0)
}

/// The rule of a message place, which a delivery follows too: "1 to 999,999 for kind 1, 0 for kinds 2 and 3".
fn message(kind: u16, number: u32) -> Option<Message> {
    match kind {
        1 if is_station_number(number) => Some(Message::Introduction(number)),
        2 if number == 0 => Some(Message::RemoveLeft),
        3 if number == 0 => Some(Message::RemoveRight),
        _ => None,
    }
}

fn kind_and_number(message: Message) -> (u16, u32) {
    match message {
        Message::Introduction(number) => (1, number),
        Message::RemoveLeft => (2, 0),
        Message::RemoveRight => (3, 0),
    }
}

fn neighbour(number: u32) -> Option<u32> {
    if number == 0 { None } else { Some(number) }
}

/// "A site code, 0 to 9,999, with 0 for none. It stands in bytes 18-19" (document 02, T-05).
fn site(code: u16) -> Option<u16> {
    if code == 0 { None } else { Some(code) }
}

/// "The 256 words of 16 bits, added with wrap at 65,536, give 65,535."
fn check_holds(block: &[u8]) -> bool {
    let sum: u64 = (0..BLOCK / 2).map(|k| u64::from(word(block, 2 * k))).sum();
    sum % 65_536 == 65_535
}

/// The messages of a block whose places keep to the layout; None where one does not, or where a place from the count on is
/// not all zero.
fn bag(block: &[u8]) -> Option<Bag> {
    let count = usize::from(word(block, 16));
    if count > MOST_MESSAGES {
        return None;
    }
    let mut bag = Bag::new();
    for k in 0..MOST_MESSAGES {
        let place = &block[20 + 8 * k..28 + 8 * k];
        if k < count {
            if !all_zero(&place[2..4]) {
                return None;
            }
            *bag.entry(message(word(place, 0), long(place, 4))?)
                .or_insert(0) += 1;
        } else if !all_zero(place) {
            return None;
        }
    }
    Some(bag)
}

/// The table of the block layout, field by field: the station and its number, or None for a field outside of it.
fn station(block: &[u8]) -> Option<(u32, Station)> {
    let number = long(block, 4);
    let left = neighbour(long(block, 8));
    let right = neighbour(long(block, 12));
    let inside = word(block, 0) == 1
        && word(block, 2) <= 1
        && is_station_number(number)
        && left.is_none_or(is_station_number)
        && right.is_none_or(is_station_number)
        && word(block, 18) <= LARGEST_SITE
        && all_zero(&block[276..510]);
    if !inside {
        return None;
    }
    let station = Station {
        left,
        right,
        leaving: word(block, 2) == 1,
        site: site(word(block, 18)),
        bag: bag(block)?,
    };
    Some((number, station))
}

/// "A table is accepted when none of 1 to 7 applies. A table with several faults gets the smallest number that applies to any
/// of its blocks": each number is looked for in the whole table before the next one is.
pub fn read_table(table: &[u8]) -> Result<Table, u32> {
    if table.len() % BLOCK != 0 {
        return Err(1);
    }
    let blocks: Vec<&[u8]> = table.chunks(BLOCK).collect();
    if blocks.len() > MOST_STATIONS {
        return Err(2);
    }
    if !blocks.iter().all(|block| check_holds(block)) {
        return Err(3);
    }
    let read: Option<Vec<(u32, Station)>> = blocks.iter().map(|block| station(block)).collect();
    let Some(read) = read else {
        return Err(4);
    };
    let sides_right = read.iter().all(|(number, station)| {
        station.left.is_none_or(|left| left < *number)
            && station.right.is_none_or(|right| right > *number)
    });
    if !sides_right {
        return Err(5);
    }
    let numbers: BTreeSet<u32> = read.iter().map(|(number, _)| *number).collect();
    if numbers.len() < read.len() {
        return Err(6);
    }
    let named = read.iter().flat_map(|(_, station)| {
        let introduced = station.bag.keys().filter_map(|message| match message {
            Message::Introduction(number) => Some(*number),
            _ => None,
        });
        introduced.chain(station.left).chain(station.right)
    });
    for number in named {
        if !numbers.contains(&number) {
            return Err(7);
        }
    }
    Ok(read.into_iter().collect())
}

/// "Writing is in one order only: blocks by rising station number, messages by kind and then by number."
pub fn write_table(table: &Table) -> Vec<u8> {
    table.iter().flat_map(|(&n, s)| write_block(n, s)).collect()
}

fn write_block(number: u32, station: &Station) -> Vec<u8> {
    let messages: Vec<Message> = station
        .bag
        .iter()
        .flat_map(|(&message, &copies)| std::iter::repeat_n(message, copies))
        .collect();
    let mut block = Vec::with_capacity(BLOCK);
    block.extend(1u16.to_le_bytes());
    block.extend(u16::from(station.leaving).to_le_bytes());
    block.extend(number.to_le_bytes());
    block.extend(station.left.unwrap_or(0).to_le_bytes());
    block.extend(station.right.unwrap_or(0).to_le_bytes());
    block.extend((messages.len() as u16).to_le_bytes());
    block.extend(station.site.unwrap_or(0).to_le_bytes());
    for message in messages {
        let (kind, number) = kind_and_number(message);
        block.extend(kind.to_le_bytes());
        block.extend([0, 0]);
        block.extend(number.to_le_bytes());
    }
    block.resize(BLOCK - 2, 0);
    // The check word is what the other 255 words lack of 65,535, counted around 65,536.
    let sum: u64 = (0..BLOCK / 2 - 1)
        .map(|k| u64::from(word(&block, 2 * k)))
        .sum();
    let check = (65_535 + 65_536 - sum % 65_536) % 65_536;
    block.extend((check as u16).to_le_bytes());
    block
}

/// "Reading one step gives either the step or its refusal", which is 10.
pub fn read_step(bytes: &[u8]) -> Result<Step, u32> {
    let (action, kind) = (word(bytes, 0), word(bytes, 2));
    let (station, number) = (long(bytes, 4), long(bytes, 8));
    let action = match action {
        1 if kind == 0 && number == 0 => Action::Timeout,
        2 => Action::Deliver(message(kind, number).ok_or(10u32)?),
        3 if kind == 0 && number == 0 => Action::Exit,
        _ => return Err(10),
    };
    if is_station_number(station) {
        Ok(Step { station, action })
    } else {
        Err(10)
    }
}

pub fn write_step(step: Step) -> [u8; STEP] {
    let (action, kind, number) = match step.action {
        Action::Timeout => (1u16, 0, 0),
        Action::Deliver(message) => {
            let (kind, number) = kind_and_number(message);
            (2, kind, number)
        }
        Action::Exit => (3, 0, 0),
    };
    let mut bytes = [0; STEP];
    bytes[0..2].copy_from_slice(&action.to_le_bytes());
    bytes[2..4].copy_from_slice(&kind.to_le_bytes());
    bytes[4..8].copy_from_slice(&step.station.to_le_bytes());
    bytes[8..12].copy_from_slice(&number.to_le_bytes());
    bytes
}
