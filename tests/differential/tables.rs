//! Random tables, laid out byte by byte from document 01 ("The block"), and every way to damage them.

use std::collections::BTreeSet;

use crate::random::Random;

pub const BLOCK: usize = 512;

/// A block as it is written down, so that every field can also be wrong.
#[derive(Clone)]
pub struct Block {
    pub station: u32,
    pub left: u32,
    pub right: u32,
    pub leaving: bool,
    /// The site code (document 02, T-05), 0 for none.
    pub site: u16,
    /// Kind and number of each message, in stored order.
    pub bag: Vec<(u16, u32)>,
}

impl Block {
    pub fn bytes(&self) -> Vec<u8> {
        let mut bytes = vec![0; BLOCK];
        put16(&mut bytes, 0, 1);
        put16(&mut bytes, 2, u16::from(self.leaving));
        put32(&mut bytes, 4, self.station);
        put32(&mut bytes, 8, self.left);
        put32(&mut bytes, 12, self.right);
        put16(&mut bytes, 16, self.bag.len() as u16);
        put16(&mut bytes, 18, self.site);
        for (k, &(kind, number)) in self.bag.iter().enumerate() {
            put16(&mut bytes, 20 + 8 * k, kind);
            put32(&mut bytes, 24 + 8 * k, number);
        }
        seal(&mut bytes);
        bytes
    }
}

fn put16(bytes: &mut [u8], at: usize, value: u16) {
    bytes[at..at + 2].copy_from_slice(&value.to_le_bytes());
}

fn put32(bytes: &mut [u8], at: usize, value: u32) {
    bytes[at..at + 4].copy_from_slice(&value.to_le_bytes());
}

pub fn get16(bytes: &[u8], at: usize) -> u16 {
    u16::from_le_bytes([bytes[at], bytes[at + 1]])
}

pub fn get32(bytes: &[u8], at: usize) -> u32 {
    u32::from(get16(bytes, at)) | u32::from(get16(bytes, at + 2)) << 16
}

/// Sets the check word so that the words of the block add up to 65,535.
fn seal(block: &mut [u8]) {
    let mut sum = 0u16;
    for k in 0..255 {
        sum = sum.wrapping_add(get16(block, 2 * k));
    }
    put16(block, 510, 65_535 - sum);
}

/// Another site code in a block. The check word changes by as much the other way, so a check that holds still does, and one that fails
/// still fails.
pub fn set_site(block: &mut [u8], site: u16) {
    let sum = get16(block, 510).wrapping_add(get16(block, 18));
    put16(block, 18, site);
    put16(block, 510, sum.wrapping_sub(site));
}

pub fn bytes(blocks: &[Block]) -> Vec<u8> {
    blocks.iter().map(Block::bytes).collect::<Vec<_>>().concat()
}

/// The same table in another stored order of blocks and messages.
pub fn shuffle(random: &mut Random, blocks: &mut [Block]) {
    random.shuffle(blocks);
    for block in blocks {
        random.shuffle(&mut block.bag);
    }
}

/// The same for a table that is only known by its bytes, accepted or not: the blocks change places, and in a block whose count is
/// inside the layout so do the messages. Neither changes a check.
pub fn shuffle_bytes(random: &mut Random, table: &[u8]) -> Vec<u8> {
    let mut blocks: Vec<Vec<u8>> = table.chunks(BLOCK).map(<[u8]>::to_vec).collect();
    let whole = table.len() / BLOCK;
    random.shuffle(&mut blocks[..whole]);
    for block in &mut blocks[..whole] {
        let count = usize::from(get16(block, 16));
        if count <= 32 {
            let mut places: Vec<Vec<u8>> = block[20..20 + 8 * count]
                .chunks(8)
                .map(<[u8]>::to_vec)
                .collect();
            random.shuffle(&mut places);
            block[20..20 + 8 * count].copy_from_slice(&places.concat());
        }
    }
    blocks.concat()
}

/// Station numbers, rising: dense, sparse, at both ends of the range, or alike in their lower 16 bits.
pub fn numbers(random: &mut Random, count: usize) -> Vec<u32> {
    let mut chosen = BTreeSet::new();
    match random.below(6) {
        0 => chosen.extend(1..=count as u32),
        1 => {
            let first = random.from_to(1, 999_999 - 63) as u32;
            chosen.extend((first..).take(count));
        }
        2 => chosen.extend((999_936..=999_999).rev().take(count)),
        3 => {
            let low = random.from_to(1, 16_000) as u32;
            while chosen.len() < count {
                chosen.insert(low + 65_536 * random.below(15) as u32 + random.below(6) as u32);
            }
        }
        4 => {
            while chosen.len() < count {
                chosen.insert(random.from_to(1, 2 * count) as u32);
            }
        }
        _ => {
            if count >= 2 && random.percent(30) {
                chosen.extend([1, 999_999]);
            }
            while chosen.len() < count {
                chosen.insert(random.from_to(1, 999_999) as u32);
            }
        }
    }
    chosen.into_iter().collect()
}

/// What a random table is to be like.
#[derive(Clone, Copy)]
pub struct Wish {
    pub most_stations: usize,
    pub full_bags: bool,
    pub departures: bool,
}

pub const ANY: Wish = Wish {
    most_stations: 64,
    full_bags: false,
    departures: false,
};

/// A table that is accepted, blocks by rising number.
pub fn accepted(random: &mut Random, wish: Wish) -> Vec<Block> {
    let count = match random.weighted(&[3, 52, 28, 12, 5]) {
        0 => 0,
        1 => random.from_to(1, 6),
        2 => random.from_to(7, 16),
        3 => random.from_to(17, 63),
        _ => 64,
    };
    let numbers = numbers(random, count.min(wish.most_stations));
    let shape = random.weighted(&[30, 40, 15, 15]);
    let leaving = if wish.departures {
        *random.pick(&[50, 80, 100])
    } else {
        *random.pick(&[0, 0, 10, 30, 100])
    };
    let fill = if wish.full_bags {
        random.from_to(4, 6)
    } else {
        random.weighted(&[20, 35, 20, 10, 5, 5, 5])
    };
    // Some stations may be named by nobody: with an empty bag these may leave.
    let unnamed_chance = if random.percent(if wish.departures { 60 } else { 35 }) {
        30
    } else {
        0
    };
    let unnamed: BTreeSet<u32> = numbers
        .iter()
        .copied()
        .filter(|_| random.percent(unnamed_chance))
        .collect();
    let named: Vec<u32> = numbers
        .iter()
        .copied()
        .filter(|n| !unnamed.contains(n))
        .collect();
    let mut blocks: Vec<Block> = numbers
        .iter()
        .map(|&station| Block {
            station,
            left: 0,
            right: 0,
            leaving: random.percent(leaving),
            site: 0,
            bag: Vec::new(),
        })
        .collect();
    place_neighbours(random, shape, &numbers, &named, &mut blocks);
    for block in &mut blocks {
        if unnamed.contains(&block.station) {
            block.leaving |= random.percent(70);
            if random.percent(80) {
                continue;
            }
        }
        block.bag = bag(random, fill, block, &named);
    }
    place_sites(random, &mut blocks);
    blocks
}

/// A site code that is accepted, often one at the end of a range or of a byte.
pub fn site(random: &mut Random) -> u16 {
    match random.weighted(&[20, 15, 8, 8, 9, 40]) {
        0 => 0,
        1 => random.from_to(1, 20) as u16,
        2 => 255,
        3 => 256,
        4 => 9_999,
        _ => random.from_to(1, 9_999) as u16,
    }
}

/// Site codes for blocks by rising number: none, as in tables from before there were codes; any; one code at most stations; or codes that
/// fall.
pub fn place_sites(random: &mut Random, blocks: &mut [Block]) {
    let manner = random.weighted(&[25, 45, 15, 15]);
    let common = site(random);
    let first = random.from_to(9_600, 9_999) as u16;
    let gap = *random.pick(&[1, 100, 150]);
    for (k, block) in blocks.iter_mut().enumerate() {
        block.site = match manner {
            0 => 0,
            2 if random.percent(80) => common,
            1 | 2 => site(random),
            _ => first - gap * k as u16,
        };
    }
}

fn place_neighbours(
    random: &mut Random,
    shape: usize,
    numbers: &[u32],
    named: &[u32],
    blocks: &mut [Block],
) {
    let none_chance = *random.pick(&[0, 20, 50, 80]);
    let lines = random.from_to(2, 3);
    for (k, block) in blocks.iter_mut().enumerate() {
        let smaller: Vec<u32> = named
            .iter()
            .copied()
            .filter(|&n| n < block.station)
            .collect();
        let larger: Vec<u32> = named
            .iter()
            .copied()
            .filter(|&n| n > block.station)
            .collect();
        match shape {
            // A tidy line, but for stations that nobody names.
            0 => {
                block.left = smaller.last().copied().unwrap_or(0);
                block.right = larger.first().copied().unwrap_or(0);
            }
            // Any graph.
            1 => {
                if !smaller.is_empty() && !random.percent(none_chance) {
                    block.left = *random.pick(&smaller);
                }
                if !larger.is_empty() && !random.percent(none_chance) {
                    block.right = *random.pick(&larger);
                }
            }
            // Two or three lines that know nothing of each other.
            2 => {
                block.left = if k >= lines { numbers[k - lines] } else { 0 };
                block.right = numbers.get(k + lines).copied().unwrap_or(0);
                if !named.contains(&block.left) {
                    block.left = 0;
                }
                if !named.contains(&block.right) {
                    block.right = 0;
                }
            }
            // Hardly any neighbours: what joins these is in the bags.
            _ => {
                if !larger.is_empty() && random.percent(10) {
                    block.right = *random.pick(&larger);
                }
                if !smaller.is_empty() && random.percent(10) {
                    block.left = *random.pick(&smaller);
                }
            }
        }
    }
}

fn bag(random: &mut Random, fill: usize, block: &Block, named: &[u32]) -> Vec<(u16, u32)> {
    let count = match fill {
        0 => 0,
        1 => random.from_to(0, 3),
        2 => random.from_to(0, 16),
        3 => random.from_to(0, 32),
        4 => *random.pick(&[0, 31, 32, 32]),
        5 => 32,
        _ => *random.pick(&[0, 0, 0, 32]),
    };
    // Few different messages make many copies.
    let different = *random.pick(&[1, 2, 3, 32]);
    let choice: Vec<(u16, u32)> = (0..different.min(count))
        .map(|_| match random.below(8) {
            0 => (2, 0),
            1 => (3, 0),
            2 if block.left != 0 => (1, block.left),
            3 if block.right != 0 => (1, block.right),
            4 if named.contains(&block.station) => (1, block.station),
            _ if named.is_empty() => (3, 0),
            _ => (1, *random.pick(named)),
        })
        .collect();
    (0..count).map(|_| *random.pick(&choice)).collect()
}

/// A number outside 1 to 999,999, often one that a shorter field would take for a right one.
fn outside(random: &mut Random) -> u32 {
    match random.below(5) {
        0 => 1_000_000,
        1 => u32::MAX,
        2 => 0x0100_0000 + random.from_to(1, 999_999) as u32,
        3 => random.from_to(1_000_000, 1_048_575) as u32,
        _ => random.from_to(1_000_000, 0xFFFF_FFFF) as u32,
    }
}

/// A site code above 9,999, often one that has a byte or the lower bits of a right one.
fn outside_site(random: &mut Random) -> u16 {
    match random.below(6) {
        0 => 10_000,
        1 => u16::MAX,
        2 => random.from_to(10_001, 10_239) as u16,
        3 => 256 * random.from_to(40, 255) as u16 + random.below(16) as u16,
        4 => 0x8000 + random.from_to(0, 9_999) as u16,
        _ => random.from_to(10_000, 65_535) as u16,
    }
}

/// A 16-bit value that is none of the right ones, often one that agrees with one of them in its lower byte.
fn other_word(random: &mut Random, right: std::ops::RangeInclusive<u16>) -> u16 {
    loop {
        let value = match random.below(4) {
            0 => right.end() + 1,
            1 => right.start().wrapping_sub(1),
            2 => 256 * random.from_to(1, 255) as u16 + *right.start(),
            _ => random.next() as u16,
        };
        if !right.contains(&value) {
            return value;
        }
    }
}

/// One fault of the given number, 1 to 7, in a table of at least one block. The blocks' checks are set right again but for
/// number 3. Which number the whole table gets is for the model to say.
pub fn damage(random: &mut Random, fault: usize, table: &mut Vec<u8>) {
    let count = table.len() / BLOCK;
    if count == 0 {
        table.resize(random.from_to(1, 511), 0);
        return;
    }
    let at = BLOCK * random.below(count);
    match fault {
        1 => {
            let extra = random.from_to(1, 511);
            if random.percent(50) {
                table.truncate(table.len() - extra);
            } else {
                table.resize(table.len() + extra, random.next() as u8);
            }
            return;
        }
        2 => {
            let wanted = *random.pick(&[65, 65, 65, 66, 70, 128, 129]);
            while table.len() / BLOCK < wanted {
                let mut copy = table[at..at + BLOCK].to_vec();
                if random.percent(80) {
                    put32(&mut copy, 4, random.from_to(1, 999_999) as u32);
                    seal(&mut copy);
                }
                table.extend(copy);
            }
            return;
        }
        3 => {
            spoil_check(random, &mut table[at..at + BLOCK]);
            return;
        }
        4 => break_field(random, &mut table[at..at + BLOCK]),
        5 => break_sides(random, table, at),
        6 => {
            let from = BLOCK * random.below(count);
            if random.percent(40) && count < 64 {
                let copy = table[from..from + BLOCK].to_vec();
                table.extend(copy);
            } else {
                let number = get32(table, from + 4);
                put32(table, at + 4, number);
            }
        }
        _ => break_names(random, table, at),
    }
    if at + BLOCK <= table.len() {
        seal(&mut table[at..at + BLOCK]);
    }
}

fn spoil_check(random: &mut Random, block: &mut [u8]) {
    match random.below(5) {
        0 => block.fill(0),
        1 => {
            let check = get16(block, 510);
            put16(
                block,
                510,
                check.wrapping_add(*random.pick(&[1, 65_535, 256])),
            );
        }
        2 => {
            let at = random.below(BLOCK);
            block[at] ^= 1 << random.below(8);
        }
        3 => {
            let at = random.below(BLOCK);
            block[at] = random.next() as u8;
        }
        _ => {
            // A ones' complement sum would carry the wrap around; this one must not.
            let check = get16(block, 510);
            let sum = get16(block, 0).wrapping_add(check);
            put16(block, 510, sum);
        }
    }
}

/// One field outside the layout.
fn break_field(random: &mut Random, block: &mut [u8]) {
    let count = usize::from(get16(block, 16)).min(32);
    let place = 20 + 8 * random.below(count.max(1));
    match random.below(14) {
        0 => put16(block, 0, other_word(random, 1..=1)),
        1 => {
            let flags = get16(block, 2) | 1 << random.from_to(1, 15);
            put16(block, 2, flags);
        }
        2 => put32(
            block,
            4,
            if random.percent(40) {
                0
            } else {
                outside(random)
            },
        ),
        3 => put32(block, 8, outside(random)),
        4 => put32(block, 12, outside(random)),
        5 => put16(block, 16, other_word(random, 0..=32)),
        // A count one too small or too large.
        6 => put16(
            block,
            16,
            if count > 0 && random.percent(50) {
                count - 1
            } else {
                count + 1
            } as u16,
        ),
        7 | 13 => put16(block, 18, outside_site(random)),
        8 => put16(block, place, other_word(random, 1..=3)),
        9 => put16(block, place + 2, random.from_to(1, 65_535) as u16),
        10 => {
            let number = if get16(block, place) == 1 && random.percent(40) {
                0
            } else {
                outside(random)
            };
            put32(block, place + 4, number);
        }
        // A removal with the number of a station.
        11 => {
            put16(block, place, random.from_to(2, 3) as u16);
            put32(block, place + 4, get32(block, 4));
        }
        // A byte of the places not used, or past all places.
        _ => {
            let at = random.from_to(20 + 8 * count, 509);
            block[at] = random.from_to(1, 255) as u8;
        }
    }
}

fn break_sides(random: &mut Random, table: &mut [u8], at: usize) {
    let other = get32(table, BLOCK * random.below(table.len() / BLOCK) + 4);
    let station = get32(table, at + 4);
    let (field, wrong) = match random.below(4) {
        0 => (8, station),
        1 => (12, station),
        2 => (
            8,
            if other > station {
                other
            } else {
                station.wrapping_add(1)
            },
        ),
        _ => (
            12,
            if other < station {
                other
            } else {
                station.saturating_sub(1)
            },
        ),
    };
    put32(table, at + field, wrong);
}

fn break_names(random: &mut Random, table: &mut Vec<u8>, at: usize) {
    let present: BTreeSet<u32> = table.chunks(BLOCK).map(|block| get32(block, 4)).collect();
    let station = get32(table, at + 4);
    let number = loop {
        let number = match random.below(4) {
            0 => station.wrapping_add(1),
            1 => station.wrapping_sub(1),
            2 => station ^ 1 << random.from_to(16, 19),
            _ => random.from_to(1, 999_999) as u32,
        };
        if (1..=999_999).contains(&number) && !present.contains(&number) {
            break number;
        }
    };
    let count = usize::from(get16(table, at + 16)).min(32);
    match random.below(4) {
        0 if number < station => put32(table, at + 8, number),
        1 if number > station => put32(table, at + 12, number),
        // A whole block goes, named or not.
        2 if table.len() > BLOCK => {
            table.drain(at..at + BLOCK);
        }
        _ if count < 32 => {
            put16(table, at + 20 + 8 * count, 1);
            put32(table, at + 24 + 8 * count, number);
            put16(table, at + 16, count as u16 + 1);
        }
        _ => {
            let place = at + 20 + 8 * random.below(count);
            put16(table, place, 1);
            put32(table, place + 4, number);
        }
    }
}

/// One bit of a block turned, 0 to 4,095, with the check word set right again or not.
pub fn turn_bit(block: &mut [u8], bit: usize, sealed: bool) {
    block[bit / 8] ^= 1 << (bit % 8);
    if sealed {
        seal(block);
    }
}

/// A change that no fault was named for: a byte set, a bit turned or two words swapped (which keeps the check), mostly sealed again.
pub fn disturb(random: &mut Random, table: &mut [u8]) {
    let count = table.len() / BLOCK;
    if count == 0 {
        return;
    }
    let at = BLOCK * random.below(count);
    let block = &mut table[at..at + BLOCK];
    // Half the changes go to the part that a small table uses.
    let reach = if random.percent(50) { 60 } else { BLOCK };
    match random.below(4) {
        0 => block[random.below(reach)] = random.next() as u8,
        1 => block[random.below(reach)] ^= 1 << random.below(8),
        2 => {
            let (a, b) = (2 * random.below(reach / 2), 2 * random.below(reach / 2));
            let (x, y) = (get16(block, a), get16(block, b));
            put16(block, a, y);
            put16(block, b, x);
        }
        _ => {
            let a = random.below(reach);
            block[a] = random.below(4) as u8;
        }
    }
    if random.percent(90) {
        seal(block);
    }
}
