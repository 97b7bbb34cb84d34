//! Compares the archive, through its C interface, with the model of tests/model on random tables and step lists. Before these, and not in a
//! replay, every delivery of an introduction on five stations is compared with the proof of lemma 3 of the report (lemma3.rs).
//!
//! `--seed N` the seed (else taken from the clock), `--cases N` how many cases, `--seconds N` how long, with progress on the
//! screen, `--case K` only case K of the seed, with both results shown. The last line is `N passed, M failed`, counting what is compared
//! over all cases (tally.rs) and not the cases, and the eleven kinds of delivery.
#![deny(warnings)]

mod allowed;
mod archive;
mod cases;
mod compare;
mod counts;
mod crowded;
mod joined;
mod lasting;
mod leaving;
mod lemma3;
mod lining;
mod random;
mod reasons;
mod roll_call;
mod sites;
mod steps;
mod tables;
mod tally;
mod tidy;

use std::process::ExitCode;
use std::sync::atomic::{AtomicU64, Ordering};
use std::time::{Duration, Instant, SystemTime, UNIX_EPOCH};

use random::Random;
use tally::Tally;

struct Options {
    seed: u64,
    cases: Option<u64>,
    seconds: Option<u64>,
    only: Option<u64>,
}

fn options() -> Result<Options, String> {
    let clock = SystemTime::now()
        .duration_since(UNIX_EPOCH)
        .map_or(1, |d| d.as_secs());
    let mut options = Options {
        seed: clock,
        cases: None,
        seconds: None,
        only: None,
    };
    let mut words = std::env::args().skip(1);
    while let Some(word) = words.next() {
        let value = words.next().ok_or(format!("{word} needs a number"))?;
        let number: u64 = value
            .parse()
            .map_err(|_| format!("{value} is not a number"))?;
        match word.as_str() {
            "--seed" => options.seed = number,
            "--cases" => options.cases = Some(number),
            "--seconds" => options.seconds = Some(number),
            "--case" => options.only = Some(number),
            _ => return Err(format!("unknown: {word}")),
        }
    }
    Ok(options)
}

/// From this many cases on, an outcome that was never met is a failure of the comparison itself.
const ENOUGH: u64 = 40_000;
const DIFFERENCES_SHOWN: u64 = 10;

/// The case at hand, told if the comparison itself stops.
static AT_HAND: AtomicU64 = AtomicU64::new(0);

fn main() -> ExitCode {
    let options = match options() {
        Ok(options) => options,
        Err(what) => {
            eprintln!("{what}");
            eprintln!("differential [--seed N] [--cases N] [--seconds N] [--case K]");
            return ExitCode::from(2);
        }
    };
    let seed = options.seed;
    println!("seed {seed}");
    let introductions = match options.only {
        Some(_) => (0, 0),
        None => lemma3::compare(),
    };
    std::panic::set_hook(Box::new(move |what| {
        let number = AT_HAND.load(Ordering::Relaxed);
        eprintln!("stopped at seed {seed}, case {number}: {what}");
    }));
    let started = Instant::now();
    let mut tally = Tally::default();
    let (tried, different) = match options.only {
        Some(number) => replay(seed, number, &mut tally),
        None => many(&options, started, &mut tally),
    };
    println!("{:.1} s, seed {seed}", started.elapsed().as_secs_f64());
    let (passed, failed) = verdict(&tally, tried, introductions);
    println!("{tried} random cases compared, {different} with a difference");
    println!("{passed} passed, {failed} failed");
    if failed == 0 && different == 0 && tried > 0 {
        ExitCode::SUCCESS
    } else {
        ExitCode::FAILURE
    }
}

/// What passed and what failed, these two of the introductions included.
fn verdict(tally: &Tally, tried: u64, introductions: (u64, u64)) -> (u64, u64) {
    let (mut passed, mut failed) = tally.verdict();
    passed += introductions.0;
    failed += introductions.1;
    if tried >= ENOUGH {
        let missing = tally.missing();
        for what in &missing {
            println!("never met: {what}");
        }
        passed += u64::from(missing.is_empty());
        failed += u64::from(!missing.is_empty());
    }
    (passed, failed)
}

/// One case alone, with both results shown: how many were tried and how many differed.
fn replay(seed: u64, number: u64, tally: &mut Tally) -> (u64, u64) {
    compare::show(&cases::draw(&mut Random::of_case(seed, number), number));
    (1, u64::from(!one(seed, number, tally, true)))
}

/// The cases of a seed from the first one on: how many were tried and how many differed.
fn many(options: &Options, started: Instant, tally: &mut Tally) -> (u64, u64) {
    let timed = options.seconds.is_some();
    let cases = options
        .cases
        .unwrap_or(if timed { u64::MAX } else { 60_000 });
    let limit = options.seconds.map(Duration::from_secs);
    let mut next_report = Duration::from_secs(10);
    let (mut tried, mut different) = (0, 0);
    while tried < cases {
        if !one(options.seed, tried, tally, different < DIFFERENCES_SHOWN) {
            different += 1;
        }
        tried += 1;
        if tried % 64 == 0 && timed {
            let gone = started.elapsed();
            if Some(gone) >= limit {
                break;
            }
            if gone >= next_report {
                println!("{} s: {tried} cases, {different} differ", gone.as_secs());
                next_report = gone + Duration::from_secs(10);
            }
        }
    }
    tally.print();
    (tried, different)
}

/// One case; false where the archive and the model differ.
fn one(seed: u64, number: u64, tally: &mut Tally, show: bool) -> bool {
    AT_HAND.store(number, Ordering::Relaxed);
    let mut random = Random::of_case(seed, number);
    let case = cases::draw(&mut random, number);
    let Err(what) = compare::compare(&mut random, &case, tally) else {
        return true;
    };
    if show {
        println!(
            "difference: seed {seed}, case {number} ({}): {what}",
            cases::KINDS[case.kind]
        );
        println!("replay it with --seed {seed} --case {number}");
    }
    false
}
