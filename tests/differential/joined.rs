//! "Two stations with blocks in a table are joined in it when they are one and the same or a chain of its links, each followed
//! either way, leads from one to the other." The links are read from the bytes, with no help from the model.

use std::collections::{BTreeMap, BTreeSet};

fn long(bytes: &[u8], at: usize) -> u32 {
    u32::from_le_bytes([bytes[at], bytes[at + 1], bytes[at + 2], bytes[at + 3]])
}

/// Union-find: each station points to another one of its group, and one of each group to itself.
struct Groups {
    parent: Vec<usize>,
}

impl Groups {
    fn find(&mut self, k: usize) -> usize {
        let mut at = k;
        while self.parent[at] != at {
            self.parent[at] = self.parent[self.parent[at]];
            at = self.parent[at];
        }
        at
    }

    fn join(&mut self, a: usize, b: usize) {
        let (a, b) = (self.find(a), self.find(b));
        self.parent[a] = b;
    }
}

/// The stations of an accepted table, each with the number of its group.
pub fn groups(table: &[u8]) -> BTreeMap<u32, usize> {
    let blocks: Vec<&[u8]> = table.chunks(512).collect();
    let places: BTreeMap<u32, usize> = blocks
        .iter()
        .enumerate()
        .map(|(k, b)| (long(b, 4), k))
        .collect();
    let mut groups = Groups {
        parent: (0..blocks.len()).collect(),
    };
    for (k, block) in blocks.iter().enumerate() {
        let mut named = vec![long(block, 8), long(block, 12)];
        for place in 0..usize::from(block[16]) {
            // Only an introduction has a number that is not 0.
            named.push(long(block, 24 + 8 * place));
        }
        for number in named.into_iter().filter(|&number| number != 0) {
            groups.join(k, places[&number]);
        }
    }
    places
        .iter()
        .map(|(&number, &k)| (number, groups.find(k)))
        .collect()
}

/// The stations still present are joined afterwards exactly as they were before: a group before is a group after, with
/// neither two groups made one nor one made two. An error says what is wrong.
pub fn same_groups(
    before: &BTreeMap<u32, usize>,
    after: &BTreeMap<u32, usize>,
) -> Result<(), String> {
    let mut pairs = BTreeSet::new();
    for (number, group) in after {
        let Some(old) = before.get(number) else {
            return Err(format!("station {number} has come from nowhere"));
        };
        pairs.insert((*old, *group));
    }
    let olds: BTreeSet<usize> = pairs.iter().map(|pair| pair.0).collect();
    let news: BTreeSet<usize> = pairs.iter().map(|pair| pair.1).collect();
    if olds.len() < pairs.len() {
        return Err("stations that were joined are so no longer".to_string());
    }
    if news.len() < pairs.len() {
        return Err("stations that were not joined now are".to_string());
    }
    Ok(())
}

/// How many groups there are.
pub fn count(groups: &BTreeMap<u32, usize>) -> usize {
    groups.values().collect::<BTreeSet<_>>().len()
}
