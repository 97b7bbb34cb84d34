//! The archive, the plain model of tests/model and the tuned version side by side, in one run.
//!
//!   bench                       checks the three against each other, then prints the table of times
//!   bench --line K WHO CALLS    only so many calls of line K (0 to 12) by archive, model or tuned: for counting instructions
//!   bench --save DIRECTORY      the table of every line that is a run, with its step list, a list of allowed steps, or a roll call, with
//!                               its questions, as files: for measuring the stack
//!   bench --names               the names of the lines
#![deny(warnings)]

mod archive;
mod inputs;
#[allow(dead_code)]
#[path = "../tests/differential/random.rs"]
mod random;
#[allow(dead_code)]
#[path = "../tests/differential/reasons.rs"]
mod reasons;
#[allow(dead_code)]
#[path = "../tests/differential/steps.rs"]
mod steps;
#[allow(dead_code)]
#[path = "../tests/differential/tables.rs"]
mod tables;
mod tuned;

use std::hint::black_box;
use std::process::ExitCode;
use std::time::Instant;

use inputs::{Call, Input, LINES, ROLL_CALLS};
use random::Random;
use tuned::Leave;

const WHO: [&str; 3] = ["archive", "model", "tuned"];
const ROUNDS: usize = 400;
const CASES: u64 = 20_000;
const PATTERN: u8 = 0xA5;

fn main() -> ExitCode {
    let words: Vec<String> = std::env::args().skip(1).collect();
    let words: Vec<&str> = words.iter().map(String::as_str).collect();
    match words[..] {
        [] => {
            compare();
            measure();
        }
        ["--names"] => {
            for k in 0..LINES {
                println!("{}", inputs::line(k).name);
            }
        }
        ["--save", directory] => {
            for k in 0..LINES {
                save(&inputs::line(k), &format!("{directory}/{k}"));
            }
        }
        ["--line", line, who, calls] => {
            let who = WHO.iter().position(|name| *name == who);
            match (line.parse(), who, calls.parse::<usize>()) {
                (Ok(line), Some(who), Ok(calls)) if line < LINES => {
                    let input = inputs::line(line);
                    let mut room = vec![PATTERN; input.table.len()];
                    for _ in 0..calls {
                        call(who, &input, &mut room);
                    }
                }
                _ => return usage(),
            }
        }
        _ => return usage(),
    }
    ExitCode::SUCCESS
}

/// The files of one line, whose names begin so.
fn save(input: &Input, path: &str) {
    let write = |what: &str, bytes: &[u8]| {
        std::fs::write(format!("{path}.{what}"), bytes).expect("written");
    };
    if let Call::Run | Call::Allowed | Call::RollCall = input.call {
        write("table", &input.table);
    }
    if let Call::Run = input.call {
        write("steps", &input.steps);
    }
    if let Call::RollCall = input.call {
        let numbers = input.stations.iter().flat_map(|n| n.to_le_bytes());
        write("questions", &numbers.collect::<Vec<u8>>());
    }
}

fn usage() -> ExitCode {
    eprintln!(
        "bench [--names] [--save DIRECTORY] [--line K WHO CALLS]; WHO is archive, model or tuned"
    );
    ExitCode::from(2)
}

/// One call of one line. The model hands back its bytes; the other two write them to the room.
fn call(who: usize, input: &Input, room: &mut [u8]) {
    let (table, steps) = (black_box(&input.table[..]), black_box(&input.steps[..]));
    let station = black_box(input.station);
    let stations = black_box(&input.stations[..]);
    let mut records = [Leave::default(); inputs::STATIONS];
    match (input.call, who) {
        (Call::Check, 0) => drop(black_box(archive::check(table))),
        (Call::Check, 1) => drop(black_box(model::check(table))),
        (Call::Check, _) => drop(black_box(tuned::check(table))),
        (Call::Run, 0) => drop(black_box(archive::run(table, steps, room))),
        (Call::Run, 1) => drop(black_box(model::run(table, steps, room.len()).written())),
        (Call::Run, _) => drop(black_box(tuned::run(table, steps, room))),
        (Call::Allowed, 0) => drop(black_box(archive::allowed(table, room))),
        (Call::Allowed, 1) => drop(black_box(listed(table, room.len()))),
        (Call::Allowed, _) => drop(black_box(tuned::allowed(table, room))),
        (Call::MayLeave, 0) => drop(black_box(archive::may_leave(table, station))),
        (Call::MayLeave, 1) => drop(black_box(model::may_leave(table, station))),
        (Call::MayLeave, _) => drop(black_box(tuned::may_leave(table, station))),
        (Call::InLine, 0) => drop(black_box(archive::in_line(table))),
        (Call::InLine, 1) => drop(black_box(model::in_line(table))),
        (Call::InLine, _) => drop(black_box(tuned::in_line(table))),
        (Call::RollCall, 0) => drop(black_box(archive::roll_call(table, stations, &mut records))),
        (Call::RollCall, 1) => drop(black_box(model::roll_call(table, stations, records.len()))),
        (Call::RollCall, _) => drop(black_box(tuned::roll_call(table, stations, &mut records))),
        (Call::OneByOne, _) => one_by_one(who, table, stations),
    }
    black_box((room, records));
}

fn one_by_one(who: usize, table: &[u8], stations: &[u32]) {
    for &station in stations {
        match who {
            0 => drop(black_box(archive::may_leave(table, station))),
            1 => drop(black_box(model::may_leave(table, station))),
            _ => drop(black_box(tuned::may_leave(table, station))),
        }
    }
}

/// The model's list of allowed steps as it goes to a room of this length.
fn listed(table: &[u8], room: usize) -> Result<Vec<u8>, u32> {
    model::fill(&model::allowed(table)?, room)
}

/// The archive and the tuned version give what the model gives, on the inputs that are measured and on random ones.
fn compare() {
    for k in 0..LINES {
        let input = inputs::line(k);
        alike(&input.table, &input.steps, input.table.len(), input.station);
        alike_calls(&input.table, &input.stations, input.stations.len());
        goes_all_the_way(&input);
    }
    let (mut met, mut called, mut coded) = ([0u64; 16], [0u64; 18], 0u64);
    for case in 0..CASES {
        let random = &mut Random::of_case(7, case);
        let (table, steps, room, station) = any_case(random);
        let answer = alike(&table, &steps, room, station);
        met[answer as usize] += 1;
        coded += u64::from(!(1..=9).contains(&answer) && has_code(&table));
        let (stations, records) = any_call(random, &table, station);
        called[alike_calls(&table, &stations, records) as usize] += 1;
    }
    assert!(met.iter().all(|&times| times > 0), "never met: {met:?}");
    assert!(coded > 0, "no run has carried a site code");
    assert!(
        [0, 1, 2, 3, 4, 5, 6, 7, 9, 17]
            .iter()
            .all(|&k| called[k] > 0)
    );
    println!(
        "the three agree on the inputs below and on {CASES} random cases with every answer from 0 to 15, and 17 of a roll call"
    );
    println!("{coded} of these cases are runs that carry site codes");
}

/// Whether some station has a site code (document 02, T-05); the inputs that are measured have none, since no function does less for a 0.
fn has_code(table: &[u8]) -> bool {
    let mut blocks = table.chunks_exact(model::BLOCK);
    blocks.any(|block| block[18..20] != [0, 0])
}

/// Every step of a measured list is done, both questions are answered with yes, a roll call with yes for every station whose bag is empty, and
/// every message of a bag may be delivered: nothing ends early.
fn goes_all_the_way(input: &Input) {
    let table = &input.table[..];
    let ran = model::run(table, &input.steps, table.len());
    assert_eq!((ran.answer, ran.done), (0, input.steps.len() / model::STEP));
    let messages = table
        .chunks(model::BLOCK)
        .map(|block| usize::from(block[16]));
    match input.call {
        Call::MayLeave => {
            let leave = model::may_leave(table, input.station);
            assert_eq!(leave, Ok(model::Leave::Yes));
        }
        Call::InLine => assert_eq!(model::in_line(table), Ok(true)),
        Call::Allowed => {
            let steps = messages.map(|count| 1 + count).sum();
            assert_eq!(model::allowed(table).map(|list| list.len()), Ok(steps));
        }
        Call::RollCall | Call::OneByOne => {
            let empty = messages.filter(|&count| count == 0).count();
            let records = model::roll_call(table, &input.stations, 64).expect("64 records");
            let yes = records.iter().filter(|r| **r == Ok(model::Leave::Yes));
            assert_eq!((yes.count(), records.len()), (empty, 64));
        }
        Call::Check | Call::Run => {}
    }
}

/// Up to 67 questions, most of them about stations of the table, and how many records there are for them.
fn any_call(random: &mut Random, table: &[u8], station: u32) -> (Vec<u32>, usize) {
    let blocks: Vec<&[u8]> = table.chunks_exact(model::BLOCK).collect();
    let stations: Vec<u32> = (0..random.below(68))
        .map(|_| match blocks.is_empty() || random.percent(10) {
            true => station,
            false => {
                let block = random.pick(&blocks);
                u32::from_le_bytes([block[4], block[5], block[6], block[7]])
            }
        })
        .collect();
    let records = match random.below(8) {
        0 => stations.len().saturating_sub(1),
        1 => stations.len() + 3,
        _ => stations.len(),
    };
    (stations, records)
}

fn any_case(random: &mut Random) -> (Vec<u8>, Vec<u8>, usize, u32) {
    let wish = tables::Wish {
        most_stations: *random.pick(&[6, 12, 64]),
        full_bags: random.percent(20),
        departures: random.percent(30),
    };
    let mut blocks = tables::accepted(random, wish);
    tables::shuffle(random, &mut blocks);
    let mut table = tables::bytes(&blocks);
    let mut now = model::read_table(&table).expect("it is accepted");
    let most = steps::length(random);
    let mut list = steps::lively(random, &mut now, most, &mut [0; steps::RULES.len()]);
    if random.percent(50) {
        let number = random.from_to(10, 15) as u32;
        let refused = steps::refused(random, &now, number);
        list.extend(refused.into_iter().flatten());
    } else if random.percent(20) {
        list.extend(steps::loose(random, &now));
    }
    if random.percent(25) {
        for _ in 0..random.from_to(1, 2) {
            let fault = random.from_to(1, 7);
            tables::damage(random, fault, &mut table);
        }
    }
    match random.below(30) {
        0 => list.push(0),
        1 => list.resize(12 * 4097, 0),
        _ => {}
    }
    let room = match random.below(20) {
        0 => table.len().saturating_sub(1),
        1 => table.len() + 700,
        _ => table.len(),
    };
    let station = match blocks.is_empty() || random.percent(10) {
        true => random.from_to(0, 1_000_001) as u32,
        false => random.pick(&blocks).station,
    };
    (table, list, room, station)
}

/// All functions but the roll call on one input; the number the run answers.
fn alike(table: &[u8], steps: &[u8], room: usize, station: u32) -> u32 {
    let ran = model::run(table, steps, room);
    let (reason, holder) = reasons::of_run(ran.reason);
    let expected = tuned::Ran {
        answer: ran.answer,
        done: ran.done as u32,
        stations: ran.stations() as u32,
        reason,
        holder,
    };
    let mut after = ran.written();
    after.resize(room, PATTERN);
    let mut rooms = [vec![PATTERN; room], vec![PATTERN; room]];
    assert_eq!(archive::run(table, steps, &mut rooms[0]), expected);
    assert_eq!(tuned::run(table, steps, &mut rooms[1]), expected);
    assert!(rooms[0] == after && rooms[1] == after, "other bytes");
    let short = listed(table, usize::MAX).map_or(7, |list| list.len().saturating_sub(1));
    alike_lists(table, room);
    alike_lists(table, short);
    let check = model::check(table);
    assert_eq!((archive::check(table), tuned::check(table)), (check, check));
    let leave = model::may_leave(table, station).map(reasons::of_leave);
    assert_eq!(archive::may_leave(table, station), leave);
    assert_eq!(tuned::may_leave(table, station), leave);
    let line = model::in_line(table);
    assert_eq!(archive::in_line(table), line);
    assert_eq!(tuned::in_line(table), line);
    ran.answer
}

/// The list of allowed steps in a room of this length.
fn alike_lists(table: &[u8], room: usize) {
    let list = listed(table, room);
    let mut after = list.clone().unwrap_or_default();
    after.resize(room, PATTERN);
    let filled = list.map(|list| list.len() / model::STEP);
    let mut rooms = [vec![PATTERN; room], vec![PATTERN; room]];
    assert_eq!(archive::allowed(table, &mut rooms[0]), filled);
    assert_eq!(tuned::allowed(table, &mut rooms[1]), filled);
    assert!(rooms[0] == after && rooms[1] == after, "other bytes");
}

/// A roll call into so many records, and what it answers.
fn alike_calls(table: &[u8], stations: &[u32], records: usize) -> u32 {
    let untouched = Leave {
        answer: u32::MAX,
        reason: u32::MAX,
        holder: u32::MAX,
    };
    let called = model::roll_call(table, stations, records);
    let told = called.iter().flatten().map(|record| {
        let (reason, holder) = record.map_or((reasons::NO_REASON, 0), reasons::of_leave);
        let answer = record.err().unwrap_or(0);
        Leave {
            answer,
            reason,
            holder,
        }
    });
    let mut after: Vec<Leave> = told.collect();
    after.resize(records, untouched);
    let filled = called.map(|records| records.len());
    let mut rooms = [vec![untouched; records], vec![untouched; records]];
    assert_eq!(archive::roll_call(table, stations, &mut rooms[0]), filled);
    assert_eq!(tuned::roll_call(table, stations, &mut rooms[1]), filled);
    assert!(rooms[0] == after && rooms[1] == after, "other records");
    filled.err().unwrap_or(0)
}

/// The best time of a call in many rounds, in which the three take turns, in microseconds. A round times enough calls for the clock.
fn best(input: &Input) -> [f64; 3] {
    let mut room = vec![PATTERN; input.table.len()];
    let mut best = [f64::INFINITY; 3];
    let mut calls = [1usize; 3];
    for round in 0..ROUNDS {
        for who in 0..3 {
            let started = Instant::now();
            for _ in 0..calls[who] {
                call(who, input, &mut room);
            }
            let one = started.elapsed().as_secs_f64() * 1e6 / calls[who] as f64;
            best[who] = best[who].min(one);
            if round < 10 {
                calls[who] = ((100.0 / best[who]) as usize).clamp(1, 1000);
            }
        }
    }
    best
}

fn measure() {
    println!();
    println!(
        "{:<42} {:>10} {:>10} {:>10} {:>8} {:>8}",
        "microseconds, best of many", "archive", "model", "tuned", "a/model", "a/tuned"
    );
    let mut times = Vec::new();
    for k in 0..LINES {
        let input = inputs::line(k);
        let [archive, model, tuned] = best(&input);
        println!(
            "{:<42} {archive:>10.2} {model:>10.2} {tuned:>10.2} {:>8.2} {:>8.2}",
            input.name,
            archive / model,
            archive / tuned
        );
        times.push([archive, model, tuned]);
    }
    println!();
    for k in ROLL_CALLS {
        let in_questions = |who: usize| times[k][who] * 64.0 / times[k + 1][who];
        println!(
            "{}: as long as {:.2} single questions of the archive, {:.2} of the model, {:.2} of the tuned version",
            inputs::line(k).name,
            in_questions(0),
            in_questions(1),
            in_questions(2)
        );
    }
}
