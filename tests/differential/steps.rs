//! Step lists: mostly done, refused in a wished way, or any bytes.

use std::ops::Range;

use model::Action::{Deliver, Exit, Timeout};
use model::Message::{Introduction, RemoveLeft, RemoveRight};
use model::{Effect, Message, STEP, Step, Table, apply, effect, nidec, write_step};

use crate::random::Random;

/// What each step that is done comes to, for counting how often every rule is met.
pub const RULES: [&str; 29] = [
    "timeout, staying, no neighbour",
    "timeout, staying, left only",
    "timeout, staying, right only",
    "timeout, staying, both",
    "timeout, leaving, no neighbour",
    "timeout, leaving, left only",
    "timeout, leaving, right only",
    "timeout, leaving, both",
    "introduction above, no right",
    "introduction above, below right",
    "introduction above, equal to right",
    "introduction above, above right",
    "introduction below, no left",
    "introduction below, above left",
    "introduction below, equal to left",
    "introduction below, below left",
    "introduction of itself",
    "remove-left, staying, no left",
    "remove-left, staying, a left",
    "remove-left, leaving, no left",
    "remove-left, leaving, a left",
    "remove-right, staying, no right",
    "remove-right, staying, a right",
    "remove-right, leaving, no right",
    "remove-right, leaving, a right",
    "exit, no neighbour",
    "exit, left only",
    "exit, right only",
    "exit, both",
];

/// The places in RULES of a delivery of an introduction.
pub const INTRODUCTIONS: Range<usize> = 8..17;

/// The place in RULES of a step at a station that is present.
pub fn rule(table: &Table, step: Step) -> usize {
    let p = step.station;
    let station = &table[&p];
    let leaving = usize::from(station.leaving);
    let (left, right) = (station.left, station.right);
    let sides = usize::from(left.is_some()) + 2 * usize::from(right.is_some());
    match step.action {
        Timeout => 4 * leaving + sides,
        Deliver(Introduction(q)) if q > p => {
            8 + right.map_or(0, |r| {
                if q < r {
                    1
                } else if q == r {
                    2
                } else {
                    3
                }
            })
        }
        Deliver(Introduction(q)) if q < p => {
            12 + left.map_or(0, |l| {
                if q > l {
                    1
                } else if q == l {
                    2
                } else {
                    3
                }
            })
        }
        Deliver(Introduction(_)) => 16,
        Deliver(RemoveLeft) => 17 + 2 * leaving + usize::from(left.is_some()),
        Deliver(RemoveRight) => 21 + 2 * leaving + usize::from(right.is_some()),
        Exit => 25 + sides,
    }
}

/// How often deliveries, timeouts and exits are tried.
#[derive(Clone, Copy)]
struct Mood {
    deliver: usize,
    timeout: usize,
    exit: usize,
}

fn mood(random: &mut Random) -> Mood {
    let (deliver, timeout, exit) = *random.pick(&[
        (70, 20, 10),
        (50, 50, 0),
        (85, 10, 5),
        (40, 20, 40),
        (5, 95, 0),
    ]);
    Mood {
        deliver,
        timeout,
        exit,
    }
}

fn any_station(random: &mut Random, table: &Table) -> u32 {
    *table
        .keys()
        .nth(random.below(table.len()))
        .expect("it is there")
}

fn any_message(random: &mut Random, table: &Table, station: u32) -> Option<Message> {
    let bag = &table[&station].bag;
    if bag.is_empty() {
        None
    } else {
        bag.keys().nth(random.below(bag.len())).copied()
    }
}

/// The first leaving station from this one on, and then from the smallest on, that may go; not the station `but`, where one is named.
fn next_to_go(table: &Table, from: u32, but: Option<u32>) -> Option<u32> {
    let mut around = table.range(from..).chain(table.range(..from));
    around
        .find(|(number, held)| held.leaving && Some(**number) != but && nidec(table, **number))
        .map(|(&number, _)| number)
}

/// A step that is done, and what it comes to; it is not at the station `but`, where one is named. None where none was found in a few tries.
fn likely(
    random: &mut Random,
    table: &Table,
    mood: Mood,
    but: Option<u32>,
) -> Option<(Step, Effect)> {
    if table.is_empty() {
        return None;
    }
    for _ in 0..16 {
        let mut station = any_station(random, table);
        let action = match random.weighted(&[mood.deliver, mood.timeout, mood.exit]) {
            0 => match any_message(random, table, station) {
                Some(message) => Deliver(message),
                None => continue,
            },
            1 => {
                // The timeout of a station without neighbours does nothing: seldom.
                let held = &table[&station];
                if held.left.is_none() && held.right.is_none() && random.percent(90) {
                    continue;
                }
                Timeout
            }
            _ => {
                match next_to_go(table, station, but) {
                    Some(number) => station = number,
                    None => continue,
                }
                Exit
            }
        };
        if Some(station) == but {
            continue;
        }
        let step = Step { station, action };
        if let Ok(effect) = effect(table, step) {
            return Some((step, effect));
        }
    }
    None
}

/// Up to so many steps that are done, chosen against the model as it runs; the table is left as it is after them.
pub fn lively(
    random: &mut Random,
    table: &mut Table,
    most: usize,
    met: &mut [u64; RULES.len()],
) -> Vec<u8> {
    lively_but(random, table, most, met, None)
}

/// The same with no step at this station, where one is named.
pub fn lively_but(
    random: &mut Random,
    table: &mut Table,
    most: usize,
    met: &mut [u64; RULES.len()],
    but: Option<u32>,
) -> Vec<u8> {
    let mut list = Vec::with_capacity(STEP * most);
    let first = mood(random);
    for _ in 0..most {
        let found = likely(random, table, first, but).or_else(|| {
            let other = mood(random);
            likely(random, table, other, but)
        });
        let Some((step, effect)) = found else {
            break;
        };
        met[rule(table, step)] += 1;
        apply(table, effect);
        list.extend(write_step(step));
    }
    list
}

/// The length of a list: mostly short, at times the longest.
pub fn length(random: &mut Random) -> usize {
    match random.weighted(&[40, 200, 560, 190, 9, 1]) {
        0 => 0,
        1 => 1,
        2 => random.from_to(2, 20),
        3 => random.from_to(21, 120),
        4 => random.from_to(121, 1000),
        _ => *random.pick(&[4096, 4095, 3000, 1001]),
    }
}

fn is_refused(table: &Table, step: Step, number: u32) -> bool {
    effect(table, step).is_err_and(|refusal| refusal.number == number)
}

/// A step that is refused with this number, 10 to 15, at this table; None where the table has none that was found.
pub fn refused(random: &mut Random, table: &Table, number: u32) -> Option<[u8; STEP]> {
    if number == 10 {
        return Some(malformed(random, table));
    }
    let fits = |step: &Step| is_refused(table, *step, number);
    if number == 15 {
        return full(random, table).map(write_step);
    }
    if number == 14 {
        return held(random, table).map(write_step);
    }
    for _ in 0..40 {
        let step = candidate(random, table, number);
        if fits(&step) {
            return Some(write_step(step));
        }
    }
    None
}

fn candidate(random: &mut Random, table: &Table, number: u32) -> Step {
    let station = if number == 11 || table.is_empty() {
        absent(random, table)
    } else {
        any_station(random, table)
    };
    let message = match random.below(4) {
        0 => RemoveLeft,
        1 => RemoveRight,
        2 => Introduction(absent(random, table)),
        _ if table.is_empty() => Introduction(station),
        _ => Introduction(any_station(random, table)),
    };
    let action = match number {
        12 => Deliver(message),
        13 => Exit,
        _ => *random.pick(&[Timeout, Deliver(message), Exit]),
    };
    Step { station, action }
}

/// Every step that is refused since a bag that must receive is full.
pub fn at_full_bags(table: &Table) -> Vec<Step> {
    let mut found = Vec::new();
    if !table
        .values()
        .any(|station| model::copies(station) == model::MOST_MESSAGES)
    {
        return found;
    }
    for (&station, held) in table {
        let mut try_step = |action| {
            let step = Step { station, action };
            if is_refused(table, step, 15) {
                found.push(step);
            }
        };
        try_step(Exit);
        try_step(Timeout);
        for &message in held.bag.keys() {
            try_step(Deliver(message));
        }
    }
    found
}

/// A step that finds a full bag: the exits are looked at first, since they are the rarest.
fn full(random: &mut Random, table: &Table) -> Option<Step> {
    let found = at_full_bags(table);
    let exits: Vec<Step> = found
        .iter()
        .copied()
        .filter(|step| step.action == Exit)
        .collect();
    if !exits.is_empty() && random.percent(50) {
        Some(*random.pick(&exits))
    } else if found.is_empty() {
        None
    } else {
        Some(*random.pick(&found))
    }
}

/// An exit of a leaving station that may not go: half of the time one that another station holds, since a bag that is not empty is the
/// commoner reason.
fn held(random: &mut Random, table: &Table) -> Option<Step> {
    let leaving = table.iter().filter(|(_, station)| station.leaving);
    let (in_bag, by_others): (Vec<_>, Vec<_>) = leaving
        .filter(|(station, _)| !nidec(table, **station))
        .partition(|(_, held)| !held.bag.is_empty());
    let found = if in_bag.is_empty() || (!by_others.is_empty() && random.percent(50)) {
        by_others
    } else {
        in_bag
    };
    if found.is_empty() {
        return None;
    }
    let (&station, _) = *random.pick(&found);
    Some(Step {
        station,
        action: Exit,
    })
}

/// A station number without a block.
pub fn absent(random: &mut Random, table: &Table) -> u32 {
    loop {
        let number = if table.is_empty() || random.percent(30) {
            random.from_to(1, 999_999) as u32
        } else {
            let near = any_station(random, table);
            *random.pick(&[
                near + 1,
                near - 1,
                near ^ 0x1_0000,
                near ^ 0x100,
                near ^ 0x8_0000,
            ])
        };
        if (1..=999_999).contains(&number) && !table.contains_key(&number) {
            return number;
        }
    }
}

fn fields(action: u16, kind: u16, station: u32, number: u32) -> [u8; STEP] {
    let mut bytes = [0; STEP];
    bytes[0..2].copy_from_slice(&action.to_le_bytes());
    bytes[2..4].copy_from_slice(&kind.to_le_bytes());
    bytes[4..8].copy_from_slice(&station.to_le_bytes());
    bytes[8..12].copy_from_slice(&number.to_le_bytes());
    bytes
}

fn wrong_number(random: &mut Random) -> u32 {
    match random.below(5) {
        0 => 0,
        1 => 1_000_000,
        2 => u32::MAX,
        3 => 0x0100_0000 + random.from_to(1, 999_999) as u32,
        _ => random.from_to(1_000_000, 0xFFFF_FFFF) as u32,
    }
}

/// A malformed step: one field wrong, the others as they would be in a step that may well be done.
fn malformed(random: &mut Random, table: &Table) -> [u8; STEP] {
    let station = if table.is_empty() {
        5
    } else {
        any_station(random, table)
    };
    let simple = *random.pick(&[1, 3]);
    let high = 256 * random.from_to(1, 255) as u16;
    let kind = random.from_to(1, 3) as u16;
    let number = if kind == 1 { station } else { 0 };
    let bytes = match random.below(14) {
        0 => fields(*random.pick(&[0, 4, 5, 65_535]), 0, station, 0),
        1 => fields(high + simple, 0, station, 0),
        2 => fields(high + 2, kind, station, number),
        3 => fields(*random.pick(&[0, 4]), kind, station, number),
        4 => fields(simple, kind, station, 0),
        5 => fields(simple, high, station, 0),
        6 => fields(simple, 0, station, random.from_to(1, 0xFFFF_FFFF) as u32),
        7 => fields(
            2,
            *random.pick(&[0, 4, 65_535]),
            station,
            *random.pick(&[0, station]),
        ),
        8 => fields(2, high + kind, station, number),
        9 => fields(2, 1, station, wrong_number(random)),
        10 => fields(
            2,
            random.from_to(2, 3) as u16,
            station,
            random.from_to(1, 0xFFFF_FFFF) as u32,
        ),
        11 => fields(simple, 0, wrong_number(random), 0),
        12 => fields(2, kind, wrong_number(random), number),
        _ => *random.pick(&[[0; STEP], [0xFF; STEP]]),
    };
    debug_assert_eq!(model::read_step(&bytes), Err(10));
    bytes
}

/// A step of fields drawn from small sets, so that it is at times right: any station and any message.
pub fn loose(random: &mut Random, table: &Table) -> [u8; STEP] {
    let number = |random: &mut Random| match random.below(8) {
        0 => 0,
        1 => wrong_number(random),
        2 => absent(random, table),
        _ if table.is_empty() => 5,
        _ => any_station(random, table),
    };
    let station = number(random);
    let (action, kind) = (random.below(5) as u16, random.below(5) as u16);
    let of = if random.percent(40) {
        0
    } else {
        number(random)
    };
    match random.below(4) {
        0 => fields(action, kind, station, of),
        1 => fields(*random.pick(&[1, 3]), 0, station, 0),
        2 => fields(2, random.from_to(2, 3) as u16, station, 0),
        _ => fields(2, 1, station, of),
    }
}
