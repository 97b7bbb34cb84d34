//! Tables of full bags, with the fewest allowed steps and with the most.

use crate::random::Random;
use crate::tables::{Block, numbers, place_sites};

pub fn crowded(random: &mut Random) -> Vec<Block> {
    let mut blocks = if random.percent(20) {
        free(random)
    } else {
        stuck(random)
    };
    place_sites(random, &mut blocks);
    blocks
}

/// 64 stations that name no neighbour, with 32 different messages each: no step sends anything, so each one is allowed.
fn free(random: &mut Random) -> Vec<Block> {
    let numbers = numbers(random, 64);
    let mut messages: Vec<(u16, u32)> = numbers.iter().map(|&n| (1, n)).collect();
    messages.extend([(2, 0), (3, 0)]);
    let mut free = Vec::new();
    for &station in &numbers {
        random.shuffle(&mut messages);
        free.push(Block {
            station,
            left: 0,
            right: 0,
            leaving: random.percent(50),
            site: 0,
            bag: messages[..32].to_vec(),
        });
    }
    free
}

/// A line whose bags are full or lack one message, most of which would be passed on: hardly a step is allowed, and at times none.
fn stuck(random: &mut Random) -> Vec<Block> {
    let count = match random.below(4) {
        0 => 2,
        1 => 3,
        2 => random.from_to(4, 12),
        _ => random.from_to(13, 64),
    };
    let numbers = numbers(random, count);
    let leaving = *random.pick(&[0, 0, 20]);
    let lacking = *random.pick(&[0, 0, 10, 50]);
    let idle = *random.pick(&[0, 0, 2]);
    let mut blocks = Vec::new();
    for (k, &station) in numbers.iter().enumerate() {
        let mut block = Block {
            station,
            left: if k == 0 { 0 } else { numbers[k - 1] },
            right: numbers.get(k + 1).copied().unwrap_or(0),
            leaving: random.percent(leaving),
            site: 0,
            bag: Vec::new(),
        };
        let size = if random.percent(lacking) { 31 } else { 32 };
        let sent = passed_on(&block, &numbers);
        for _ in 0..size {
            block.bag.push(if sent.is_empty() || random.percent(idle) {
                (1, station)
            } else {
                *random.pick(&sent)
            });
        }
        blocks.push(block);
    }
    blocks
}

/// The messages that this station would answer with one to its neighbour: the removals, and introductions from beyond its neighbours.
fn passed_on(block: &Block, numbers: &[u32]) -> Vec<(u16, u32)> {
    let beyond = |&&n: &&u32| n < block.left || (block.right != 0 && n > block.right);
    let mut sent: Vec<(u16, u32)> = numbers.iter().filter(beyond).map(|&n| (1, n)).collect();
    if block.left != 0 && !block.leaving {
        sent.push((2, 0));
    }
    if block.right != 0 {
        sent.push((3, 0));
    }
    sent
}
