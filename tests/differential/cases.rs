//! One case: a table, a step list and a room of one kind.

use model::{STEP, Table};

use crate::crowded::crowded;
use crate::random::Random;
use crate::steps::{self, RULES};
use crate::tables::{self, ANY, BLOCK, Block, Wish};
use crate::tidy::tidy;

pub const KINDS: [&str; 15] = [
    "steps that are done",
    "a step refused by 10 to 15",
    "loose steps and any bytes as steps",
    "a table with one fault",
    "a table with several faults",
    "a table with a byte or word changed",
    "any bytes as a table",
    "a step list of bad length",
    "a short room",
    "departures",
    "two receivers, long runs",
    "full bags",
    "in line, or not for one cause",
    "one bit of a block turned",
    "one bit of a step turned",
];
pub const RECEIVERS: usize = 10;
const CROWDED: usize = 11;
const TIDY: usize = 12;
const BLOCK_BIT: usize = 13;
const STEP_BIT: usize = 14;
const WEIGHTS: [usize; 13] = [25, 24, 8, 15, 8, 8, 2, 3, 3, 3, 1, 1, 3];

/// Among the first cases every fourth one turns one bit: each bit of a block with the check word set right again and not, and
/// each bit of a step several times.
const BLOCK_BITS: usize = 8 * BLOCK * 2;
const STEP_BITS: usize = 8 * STEP * 8;

const FEW: Wish = Wish {
    most_stations: 5,
    full_bags: false,
    departures: false,
};

pub struct Case {
    pub kind: usize,
    pub table: Vec<u8>,
    pub steps: Vec<u8>,
    pub room: usize,
    /// The steps that were chosen against the model and are done if the run begins, by rule.
    rules: [u64; RULES.len()],
}

/// Draws a case; its number counts only for the bits to be turned.
pub fn draw(random: &mut Random, number: u64) -> Case {
    let turn = (number / 4) as usize;
    let kind = match number % 4 {
        3 if turn < BLOCK_BITS => BLOCK_BIT,
        3 if turn < BLOCK_BITS + STEP_BITS => STEP_BIT,
        _ => random.weighted(&WEIGHTS),
    };
    let mut case = Case {
        kind,
        table: Vec::new(),
        steps: Vec::new(),
        room: 0,
        rules: [0; RULES.len()],
    };
    match case.kind {
        0 => with_steps(random, &mut case, ANY, None),
        1 => {
            let number = *random.pick(&[10, 11, 12, 13, 14, 15, 15]);
            let wish = Wish {
                most_stations: if number == 15 { 12 } else { 64 },
                full_bags: number == 15,
                departures: number >= 14 && random.percent(50),
            };
            with_steps(random, &mut case, wish, Some(number));
        }
        2 => with_loose_steps(random, &mut case),
        3 => with_faults(random, &mut case, 1),
        4 => {
            let faults = random.from_to(2, 4);
            with_faults(random, &mut case, faults);
        }
        5 => {
            with_steps(random, &mut case, ANY, None);
            for _ in 0..random.from_to(1, 2) {
                tables::disturb(random, &mut case.table);
            }
        }
        6 => with_any_bytes(random, &mut case),
        7 => {
            with_steps(random, &mut case, ANY, None);
            case.steps = bad_list(random, &case.steps);
        }
        8 => with_steps(random, &mut case, ANY, None),
        9 => {
            let wish = Wish {
                most_stations: 12,
                full_bags: false,
                departures: true,
            };
            let mut stations = with_table(random, &mut case, wish);
            let most = random.from_to(50, 400);
            case.steps = steps::lively(random, &mut stations, most, &mut case.rules);
        }
        RECEIVERS => {
            let mut stations = with_table(random, &mut case, ANY);
            let most = *random.pick(&[300, 1000, 2000, 4096]);
            case.steps = steps::lively(random, &mut stations, most, &mut case.rules);
        }
        CROWDED => {
            let blocks = crowded(random);
            let mut stations = with_blocks(random, &mut case, blocks);
            let most = random.from_to(0, 12);
            case.steps = steps::lively(random, &mut stations, most, &mut case.rules);
        }
        TIDY => {
            let blocks = tidy(random);
            let mut stations = with_blocks(random, &mut case, blocks);
            let most = random.from_to(0, 40);
            case.steps = steps::lively(random, &mut stations, most, &mut case.rules);
        }
        BLOCK_BIT => {
            while case.table.is_empty() {
                with_table(random, &mut case, FEW);
            }
            let at = BLOCK * random.below(case.table.len() / BLOCK);
            let block = &mut case.table[at..at + BLOCK];
            tables::turn_bit(block, turn / 2, turn % 2 == 0);
        }
        _ => {
            while case.steps.is_empty() {
                let mut stations = with_table(random, &mut case, FEW);
                case.steps = steps::lively(random, &mut stations, 4, &mut [0; RULES.len()]);
            }
            let at = STEP * random.below(case.steps.len() / STEP);
            let bit = (turn - BLOCK_BITS) / 8;
            case.steps[at + bit / 8] ^= 1 << (bit % 8);
        }
    }
    // A table changed after its steps were chosen may not do them.
    if matches!(case.kind, 3..=5) {
        case.rules = [0; RULES.len()];
    }
    // At times there is a second fault in what comes after the table.
    if case.kind < 7 && random.percent(2) {
        case.steps = bad_list(random, &case.steps);
    }
    case.room = room(random, case.table.len(), case.kind == 8);
    case
}

/// An accepted table, mostly in no order; it is handed back as the model reads it.
fn with_table(random: &mut Random, case: &mut Case, wish: Wish) -> Table {
    let blocks = tables::accepted(random, wish);
    with_blocks(random, case, blocks)
}

fn with_blocks(random: &mut Random, case: &mut Case, mut blocks: Vec<Block>) -> Table {
    if random.percent(75) {
        tables::shuffle(random, &mut blocks);
    }
    case.table = tables::bytes(&blocks);
    model::read_table(&case.table).expect("the table is made to be accepted")
}

/// An accepted table with steps that are done, then perhaps one that is refused and some that must no longer count.
fn with_steps(random: &mut Random, case: &mut Case, wish: Wish, refusal: Option<u32>) {
    let mut stations = with_table(random, case, wish);
    let most = match refusal {
        // A long run would empty the full bags or fill them all.
        Some(15) => random.from_to(0, 12),
        _ => steps::length(random),
    };
    case.steps = steps::lively(random, &mut stations, most, &mut case.rules);
    if let Some(number) = refusal {
        if case.steps.len() == STEP * model::MOST_STEPS {
            case.steps.truncate(STEP * (model::MOST_STEPS - 1));
        }
        if let Some(step) = steps::refused(random, &stations, number) {
            case.steps.extend(step);
        }
        let later = random
            .from_to(0, 5)
            .min(model::MOST_STEPS - case.steps.len() / STEP);
        let mut not_counted = [0; RULES.len()];
        case.steps.extend(steps::lively(
            random,
            &mut stations,
            later,
            &mut not_counted,
        ));
    }
}

fn with_loose_steps(random: &mut Random, case: &mut Case) {
    let mut stations = with_table(random, case, ANY);
    let most = random.from_to(0, 5);
    case.steps = steps::lively(random, &mut stations, most, &mut case.rules);
    for _ in 0..random.from_to(1, 20) {
        if random.percent(20) {
            let mut step = [0; STEP];
            random.fill(&mut step);
            case.steps.extend(step);
        } else {
            case.steps.extend(steps::loose(random, &stations));
        }
    }
}

fn with_faults(random: &mut Random, case: &mut Case, faults: usize) {
    with_steps(random, case, ANY, None);
    // A length that is no multiple of 512 hides every other fault, so it comes last if at all.
    let mut chosen: Vec<usize> = (0..faults)
        .map(|_| {
            if faults == 1 {
                random.from_to(1, 7)
            } else {
                random.from_to(2, 7)
            }
        })
        .collect();
    if faults > 1 && random.percent(8) {
        chosen.push(1);
    }
    for fault in chosen {
        if fault == 2 && faults > 1 && random.percent(80) {
            continue;
        }
        tables::damage(random, fault, &mut case.table);
    }
    if random.percent(50) {
        case.table = tables::shuffle_bytes(random, &case.table);
    }
}

fn with_any_bytes(random: &mut Random, case: &mut Case) {
    let blocks = random.from_to(0, 5);
    let length = match random.below(4) {
        0 => random.from_to(0, 2000),
        1 => BLOCK * random.from_to(65, 67),
        _ => BLOCK * blocks,
    };
    case.table = vec![0; length];
    random.fill(&mut case.table);
    case.steps = vec![0; random.from_to(0, 100)];
    random.fill(&mut case.steps);
}

/// A list that is no multiple of 12 bytes, or longer than 4,096 steps, or both.
fn bad_list(random: &mut Random, steps: &[u8]) -> Vec<u8> {
    let mut list = steps.to_vec();
    match random.below(4) {
        0 if list.len() >= STEP => list.truncate(list.len() - random.from_to(1, 11)),
        1 => {
            let step = model::write_step(model::Step {
                station: random.from_to(1, 999_999) as u32,
                action: model::Action::Timeout,
            });
            let wanted = STEP * *random.pick(&[4097, 4097, 4098, 5000, 65_536, 65_537]);
            while list.len() < wanted {
                list.extend(step);
            }
        }
        2 => list.resize(STEP * model::MOST_STEPS + random.from_to(1, 11), 0),
        _ => list.resize(list.len() + random.from_to(1, 11), random.next() as u8),
    }
    list
}

/// The length of a room for a table of this length: mostly equal, at times longer by any number of bytes or shorter.
fn room(random: &mut Random, table: usize, short: bool) -> usize {
    let shorter = |random: &mut Random| match random.below(4) {
        0 => table - 1,
        1 => 0,
        2 => table.saturating_sub(BLOCK),
        _ => random.below(table),
    };
    match random.weighted(&[45, 15, 15, 17, 8]) {
        _ if short && table > 0 => shorter(random),
        0 => table,
        1 => table + random.from_to(1, 100),
        2 => table + BLOCK * random.from_to(1, 4),
        3 => table + random.from_to(101, 4000),
        _ if table > 0 => shorter(random),
        _ => random.from_to(0, 600),
    }
}

impl Case {
    pub fn count_rules(&self, rules: &mut [u64; RULES.len()]) {
        for (sum, count) in rules.iter_mut().zip(&self.rules) {
            *sum += count;
        }
    }
}
