//! Every delivery of an introduction on five stations, the archive compared with the proof of lemma 3 of the report (source 000): the
//! sentences stand in tests/model/lemma3.rs, and the model's own rules have no part in what is wanted. Nothing is random.

use std::ops::Range;
use std::time::Instant;

use model::Message::Introduction;
use model::{Action, MOST_MESSAGES, Ran, Step, Table, copies, introduce_to, write_step};

use crate::DIFFERENCES_SHOWN;
use crate::archive::{self, Lent};
use crate::compare::{ran, same_numbers, same_room, show_ran, show_table};
use crate::counts::print_compared;
use crate::steps::{INTRODUCTIONS, RULES, rule};
use crate::tables::{self, BLOCK, Block};

/// Both ends of the numbers, with stations next to each other and far apart.
const STATIONS: [u32; 5] = [1, 7, 500_000, 999_998, 999_999];

/// How many messages the bags of the other stations hold. A choice of one of these for each of the four is a number of four digits to the
/// base 3; in the alike ones all four have the same.
const SIZES: [usize; 3] = [0, 31, 32];
const CHOICES: Range<usize> = 0..81;
const ALIKE: [usize; 3] = [0, 40, 80];

/// The deliveries that are refused; those that are done are told apart by their rule.
const REFUSED: [&str; 2] = [
    "refused with 15, the receiver's bag holding 32",
    "refused with 12, the introduction not in the bag",
];
const KINDS: usize = INTRODUCTIONS.end - INTRODUCTIONS.start + REFUSED.len();

/// How often each kind was met, and how often the archive did something else.
#[derive(Default)]
struct Compared {
    met: [u64; KINDS],
    different: [u64; KINDS],
}

/// Compares them all; how many of the kinds were met with no difference, and how many were not.
pub fn compare() -> (u64, u64) {
    let started = Instant::now();
    let mut compared = Compared::default();
    for (k, &station) in STATIONS.iter().enumerate() {
        for left in none_or(&STATIONS[..k]) {
            for right in none_or(&STATIONS[k + 1..]) {
                for leaving in [false, true] {
                    compared.at(&block(station, left, right, leaving));
                }
            }
        }
    }
    compared.print(started);
    compared.verdict()
}

fn none_or(stations: &[u32]) -> impl Iterator<Item = u32> {
    [0].into_iter().chain(stations.iter().copied())
}

/// A station with an empty bag. Its site code plays no part, and is there so that its bytes are compared too.
fn block(station: u32, left: u32, right: u32, leaving: bool) -> Block {
    Block {
        station,
        left,
        right,
        leaving,
        site: (station % 10_000) as u16,
        bag: Vec::new(),
    }
}

/// The other stations: each names those next to it and has the other mark. They are stored by falling number, so not in the order of
/// writing.
fn others(p: &Block, mut sizes: usize) -> Vec<Block> {
    let mut blocks = Vec::new();
    for (k, &station) in STATIONS.iter().enumerate().rev() {
        if station != p.station {
            let left = STATIONS[..k].last().copied().unwrap_or(0);
            let right = STATIONS[k + 1..].first().copied().unwrap_or(0);
            let mut other = block(station, left, right, !p.leaving);
            other.bag = messages().take(SIZES[sizes % 3]).collect();
            blocks.push(other);
            sizes /= 3;
        }
    }
    blocks
}

/// The seven messages that the table may hold, again and again, and not in the order of writing.
fn messages() -> impl Iterator<Item = (u16, u32)> {
    let introductions = STATIONS.into_iter().rev().map(|number| (1, number));
    [(3, 0), (2, 0)].into_iter().chain(introductions).cycle()
}

type Bag = Vec<(u16, u32)>;

/// The introduction alone, and with 31 further messages, copies of it among them.
fn bags_with(id: u32) -> [Bag; 2] {
    let further = messages().take(31);
    [vec![(1, id)], further.chain([(1, id)]).collect()]
}

/// No message, and 32 that are not this introduction.
fn bags_without(id: u32) -> [Bag; 2] {
    let others = messages().filter(|&message| message != (1, id));
    [vec![], others.take(32).collect()]
}

/// The kind of a delivery, and what the text says of it. The two refusals are those of document 01, and change nothing.
fn wanted(before: &Table, p: u32, id: u32) -> (usize, Ran) {
    let refused = |number, place| (INTRODUCTIONS.len() + place, ran(number, 0, before.clone()));
    let mut after = before.clone();
    let station = after.get_mut(&p).expect("it is one of the five");
    match station.bag.get_mut(&Introduction(id)) {
        None => return refused(12, 1),
        Some(held) => *held -= 1,
    }
    station.bag.retain(|_, held| *held > 0);
    if let Some((to, message)) = introduce_to(p, station, id) {
        if copies(&before[&to]) == MOST_MESSAGES {
            return refused(15, 0);
        }
        let receiver = after.get_mut(&to).expect("it is one of the five");
        *receiver.bag.entry(message).or_insert(0) += 1;
    }
    let kind = rule(before, delivery(p, id)) - INTRODUCTIONS.start;
    (kind, ran(0, 1, after))
}

fn delivery(station: u32, id: u32) -> Step {
    let action = Action::Deliver(Introduction(id));
    Step { station, action }
}

impl Compared {
    /// The deliveries to this station: what is in its bag among bags of all sizes, and what is not among bags of one size.
    fn at(&mut self, p: &Block) {
        for sizes in CHOICES {
            self.among(p, sizes, bags_with);
        }
        for sizes in ALIKE {
            self.among(p, sizes, bags_without);
        }
    }

    /// Each number, delivered to this station with each of these bags, among the other stations with bags of these sizes.
    fn among(&mut self, p: &Block, sizes: usize, bags: fn(u32) -> [Bag; 2]) {
        let mut p = p.clone();
        let others = tables::bytes(&others(&p, sizes));
        for id in STATIONS {
            for bag in bags(id) {
                p.bag = bag;
                self.one(&[&others[..], &p.bytes()].concat(), p.station, id);
            }
        }
    }

    /// One delivery: the numbers of the run and every byte of the room.
    fn one(&mut self, table: &[u8], p: u32, id: u32) {
        let before = model::read_table(table).expect("it is accepted");
        let (kind, wanted) = wanted(&before, p, id);
        let mut room = Lent::room(table.len() + BLOCK, 0, false);
        let ran = archive::run(
            &Lent::copy(table, 0, false),
            &Lent::copy(&write_step(delivery(p, id)), 0, false),
            &mut room,
        );
        let same = same_numbers(ran, &wanted).and_then(|()| same_room(&room, &wanted.written()));
        self.met[kind] += 1;
        if let Err(what) = same {
            if self.differences() < DIFFERENCES_SHOWN {
                println!("difference: introduction of {id} delivered to {p}: {what}");
                show_table(before);
                print!("the text:\n{}", model::listing(&wanted));
                show_ran(ran, &room);
            }
            self.different[kind] += 1;
        }
    }

    fn differences(&self) -> u64 {
        self.different.iter().sum()
    }

    fn verdict(&self) -> (u64, u64) {
        let kinds = self.met.iter().zip(self.different);
        let passed = kinds.filter(|&(&met, different)| met > 0 && different == 0);
        let passed = passed.count();
        (passed as u64, (KINDS - passed) as u64)
    }

    fn print(&self, started: Instant) {
        let title = "deliveries of an introduction on five stations, beside the proof of lemma 3";
        let names = [&RULES[INTRODUCTIONS], &REFUSED].concat();
        print_compared(title, &names, &self.met, &self.different);
        println!(
            "{} deliveries compared with lemma 3, {} with a difference, {:.1} s",
            self.met.iter().sum::<u64>(),
            self.differences(),
            started.elapsed().as_secs_f64()
        );
    }
}
