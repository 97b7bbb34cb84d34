//! Tables in line in which introductions wait, and tables that are not in line for one cause alone.

use crate::random::Random;
use crate::tables::{Block, numbers, place_sites};

pub fn tidy(random: &mut Random) -> Vec<Block> {
    let count = match random.below(4) {
        0 => random.from_to(0, 2),
        1 => random.from_to(3, 12),
        2 => random.from_to(13, 63),
        _ => 64,
    };
    let mut blocks = in_line(random, count);
    if !blocks.is_empty() {
        let at = random.below(blocks.len());
        match random.below(8) {
            0 => blocks[at].leaving = true,
            1 => misplace(random, &mut blocks, at),
            2 | 3 => put_removal(random, &mut blocks[at].bag),
            _ => {}
        }
    }
    place_sites(random, &mut blocks);
    blocks
}

fn in_line(random: &mut Random, count: usize) -> Vec<Block> {
    let numbers = numbers(random, count);
    let most = *random.pick(&[0, 2, 31, 32]);
    let full = random.percent(30);
    let mut blocks = Vec::new();
    for (k, &station) in numbers.iter().enumerate() {
        let size = if full { most } else { random.from_to(0, most) };
        blocks.push(Block {
            station,
            left: if k == 0 { 0 } else { numbers[k - 1] },
            right: numbers.get(k + 1).copied().unwrap_or(0),
            leaving: false,
            site: 0,
            bag: (0..size).map(|_| (1, *random.pick(&numbers))).collect(),
        });
    }
    blocks
}

/// One neighbour of a station is another one on its side, or none.
fn misplace(random: &mut Random, blocks: &mut [Block], at: usize) {
    let (smaller, larger) = (blocks[..at].len(), blocks[at + 1..].len());
    if smaller > 0 && (larger == 0 || random.percent(50)) {
        let other = random.below(smaller);
        blocks[at].left = if other + 1 == smaller {
            0
        } else {
            blocks[other].station
        };
    } else if larger > 0 {
        let other = random.below(larger);
        blocks[at].right = if other == 0 {
            0
        } else {
            blocks[at + 1 + other].station
        };
    }
}

/// One removal, at any place of a bag and often at the last one; where the bag is full it takes the place of another message.
fn put_removal(random: &mut Random, bag: &mut Vec<(u16, u32)>) {
    let removal = (*random.pick(&[2, 3]), 0);
    let at = if random.percent(50) {
        bag.len()
    } else {
        random.from_to(0, bag.len())
    };
    if bag.len() == 32 {
        bag[at.min(31)] = removal;
    } else {
        bag.insert(at, removal);
    }
}
