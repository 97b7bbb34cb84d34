//! What is measured: thirteen lines, each with a table, a step list and questions, all drawn from one fixed seed.

use model::Action::{Deliver, Exit, Timeout};
use model::{MOST_MESSAGES, Step, Table, apply, effect, nidec, read_table, write_step};

use crate::random::Random;
use crate::tables::{Block, bytes, shuffle};

pub const STATIONS: usize = 64;
pub const STEPS: usize = 4096;

#[derive(Clone, Copy)]
pub enum Call {
    Check,
    Run,
    Allowed,
    MayLeave,
    InLine,
    RollCall,
    /// The questions of a roll call, each in a call of its own.
    OneByOne,
}

pub struct Input {
    pub name: &'static str,
    pub call: Call,
    pub table: Vec<u8>,
    pub steps: Vec<u8>,
    /// What the leave question is asked about, and the roll call.
    pub station: u32,
    pub stations: Vec<u32>,
}

impl Input {
    /// With no steps, and no station to ask about.
    fn of(name: &'static str, call: Call, blocks: &[Block]) -> Input {
        Input {
            name,
            call,
            table: bytes(blocks),
            steps: Vec::new(),
            station: 0,
            stations: Vec::new(),
        }
    }
}

pub const LINES: usize = 13;

/// The lines with a roll call; the one behind each has the same questions about the same table, asked one by one.
pub const ROLL_CALLS: [usize; 2] = [9, 11];

/// One line, drawn without those before it.
pub fn line(number: usize) -> Input {
    let same_table = number > 0 && ROLL_CALLS.contains(&(number - 1));
    let drawn = number - usize::from(same_table);
    let random = &mut Random::of_case(2026, drawn as u64);
    match number {
        0 => plain(random, "check, 64 full blocks", Call::Check, messages),
        1 => run_of(random, "run, 4,096 steps, mixed", [594, 400, 6]),
        2 => run_of(
            random,
            "run, 4,096 steps, timeouts and deliveries",
            [600, 400, 0],
        ),
        3 => exits(random),
        4 => unnamed(random),
        5 => plain(
            random,
            "in_line, 64 full blocks in line",
            Call::InLine,
            introductions,
        ),
        6 => plain(
            random,
            "run, 64 full blocks, empty list",
            Call::Run,
            messages,
        ),
        7 => different(random, "allowed, 64 full bags", 32),
        8 => different(random, "allowed, 64 bags of 31 in line", 31),
        9 => called(random, "roll_call, 64 full blocks", Call::RollCall, 64),
        10 => called(
            random,
            "may_leave 64 times, 64 full blocks",
            Call::OneByOne,
            64,
        ),
        11 => called(
            random,
            "roll_call, 32 full blocks, 32 yes",
            Call::RollCall,
            32,
        ),
        _ => called(
            random,
            "may_leave 64 times, 32 full blocks",
            Call::OneByOne,
            32,
        ),
    }
}

/// 64 stations in line with empty bags, numbers all over the range.
fn in_line(random: &mut Random) -> Vec<Block> {
    let mut numbers = std::collections::BTreeSet::new();
    while numbers.len() < STATIONS {
        numbers.insert(random.from_to(1, 999_999) as u32);
    }
    let numbers: Vec<u32> = numbers.into_iter().collect();
    (0..STATIONS)
        .map(|k| Block {
            station: numbers[k],
            left: if k == 0 { 0 } else { numbers[k - 1] },
            right: numbers.get(k + 1).copied().unwrap_or(0),
            leaving: false,
            site: 0,
            bag: Vec::new(),
        })
        .collect()
}

/// So many messages: introductions of the first stations, and now and then a removal.
fn messages(random: &mut Random, count: usize, numbers: &[u32]) -> Vec<(u16, u32)> {
    (0..count)
        .map(|_| match random.below(8) {
            0 => (2, 0),
            1 => (3, 0),
            _ => (1, *random.pick(numbers)),
        })
        .collect()
}

/// So many introductions of these stations, which may wait in a table in line.
fn introductions(random: &mut Random, count: usize, numbers: &[u32]) -> Vec<(u16, u32)> {
    (0..count).map(|_| (1, *random.pick(numbers))).collect()
}

fn numbers(blocks: &[Block]) -> Vec<u32> {
    blocks.iter().map(|block| block.station).collect()
}

/// How the messages of a bag are drawn: so many, about these stations.
type Draw = fn(&mut Random, usize, &[u32]) -> Vec<(u16, u32)>;

/// 64 full blocks with their neighbours in line, in any stored order.
fn plain(random: &mut Random, name: &'static str, call: Call, draw: Draw) -> Input {
    let mut blocks = in_line(random);
    let numbers = numbers(&blocks);
    for block in &mut blocks {
        block.bag = draw(random, 32, &numbers);
    }
    shuffle(random, &mut blocks);
    Input::of(name, call, &blocks)
}

/// Gives a block its neighbours among the stations that are named, which rise; whether it is one of them.
fn put_beside(block: &mut Block, named: &[u32]) -> bool {
    let at = named.partition_point(|&number| number < block.station);
    let own = named.get(at) == Some(&block.station);
    block.left = if at == 0 { 0 } else { named[at - 1] };
    block.right = named.get(at + usize::from(own)).copied().unwrap_or(0);
    own
}

/// 64 stations, every one of them asked about, in any order. So many have full bags, and these alone are named; so the others may all
/// leave, and of each of them every message is looked at.
fn called(random: &mut Random, name: &'static str, call: Call, full: usize) -> Input {
    let mut blocks = in_line(random);
    let mut stations = numbers(&blocks);
    random.shuffle(&mut stations);
    let mut named = stations[..full].to_vec();
    named.sort_unstable();
    for block in &mut blocks {
        let own = put_beside(block, &named);
        if own {
            block.bag = messages(random, 32, &named);
        }
    }
    shuffle(random, &mut blocks);
    random.shuffle(&mut stations);
    Input {
        stations,
        ..Input::of(name, call, &blocks)
    }
}

/// 64 blocks with so many different messages each, every one of which may be delivered. Stations with full bags have no neighbours, so that
/// nothing is sent; the others are in line, and what they send finds room.
fn different(random: &mut Random, name: &'static str, count: usize) -> Input {
    let mut blocks = in_line(random);
    let mut messages: Vec<(u16, u32)> = numbers(&blocks).into_iter().map(|n| (1, n)).collect();
    messages.extend([(2, 0), (3, 0)]);
    for block in &mut blocks {
        random.shuffle(&mut messages);
        block.bag = messages[..count].to_vec();
        if count == MOST_MESSAGES {
            (block.left, block.right) = (0, 0);
        }
    }
    shuffle(random, &mut blocks);
    Input::of(name, Call::Allowed, &blocks)
}

/// 63 full blocks that do not name the last station, whose bag is empty: every message is looked at before the yes.
fn unnamed(random: &mut Random) -> Input {
    let mut blocks = in_line(random);
    let numbers = numbers(&blocks);
    blocks[STATIONS - 2].right = 0;
    for block in &mut blocks[..STATIONS - 1] {
        block.bag = messages(random, 32, &numbers[..STATIONS - 1]);
    }
    shuffle(random, &mut blocks);
    Input {
        station: numbers[STATIONS - 1],
        ..Input::of("may_leave, 63 full blocks, yes", Call::MayLeave, &blocks)
    }
}

/// A run whose steps are all done, chosen against the model by the weights of deliveries, timeouts and exits. For exits there are 24
/// leaving stations that nobody names, with empty bags; a third of the others are leaving too.
fn run_of(random: &mut Random, name: &'static str, weights: [usize; 3]) -> Input {
    let mut blocks = in_line(random);
    let departing = if weights[2] > 0 { 24 } else { 0 };
    let mut named = numbers(&blocks);
    random.shuffle(&mut named);
    named.truncate(STATIONS - departing);
    named.sort_unstable();
    for block in &mut blocks {
        let own = put_beside(block, &named);
        block.leaving = departing > 0 && (!own || random.percent(33));
        if own {
            let count = random.from_to(0, 16);
            block.bag = messages(random, count, &named);
        }
    }
    shuffle(random, &mut blocks);
    let mut input = Input::of(name, Call::Run, &blocks);
    let mut now = read_table(&input.table).expect("it is accepted");
    while input.steps.len() < 12 * STEPS {
        if let Some(step) = some_step(random, &now, weights)
            && let Ok(effect) = effect(&now, step)
        {
            apply(&mut now, effect);
            input.steps.extend(write_step(step));
        }
    }
    input
}

fn some_step(random: &mut Random, now: &Table, weights: [usize; 3]) -> Option<Step> {
    let (&station, held) = now.iter().nth(random.below(now.len()))?;
    let action = match random.weighted(&weights) {
        0 if held.bag.is_empty() => return None,
        0 => Deliver(*held.bag.keys().nth(random.below(held.bag.len()))?),
        1 => Timeout,
        _ => {
            let (&station, _) = now.iter().find(|(p, s)| s.leaving && nidec(now, **p))?;
            return Some(Step {
                station,
                action: Exit,
            });
        }
    };
    Some(Step { station, action })
}

/// 64 stations hold at most 64 exits. The first and the last station stay with some messages; of the 62 between them all leave, 16
/// with both neighbours, the others with one.
fn exits(random: &mut Random) -> Input {
    let mut blocks = in_line(random);
    let (first, last) = (blocks[0].station, blocks[STATIONS - 1].station);
    blocks[0].right = last;
    blocks[STATIONS - 1].left = first;
    blocks[0].bag = messages(random, 8, &[last]);
    blocks[STATIONS - 1].bag = messages(random, 8, &[first]);
    let mut order = Vec::new();
    for (k, block) in blocks[1..STATIONS - 1].iter_mut().enumerate() {
        block.leaving = true;
        block.left = if k % 4 == 3 { 0 } else { first };
        block.right = if k % 4 == 0 || k % 4 == 3 { last } else { 0 };
        order.push(block.station);
    }
    random.shuffle(&mut order);
    shuffle(random, &mut blocks);
    let steps = order.into_iter().flat_map(|station| {
        write_step(Step {
            station,
            action: Exit,
        })
    });
    Input {
        steps: steps.collect(),
        ..Input::of("run, 62 exits of 64 stations", Call::Run, &blocks)
    }
}
