//! Site codes (document 02, T-05), looked at in the bytes and asked of the archive, with no help from the model: every step carries them,
//! they play no part in anything else, and none is above 9,999; and how often each thing about them was met.

use std::collections::{BTreeMap, BTreeSet};

use model::STEP;

use crate::allowed::MOST;
use crate::archive::{self, Filled, Leave, Lent, Ran, Told};
use crate::cases::Case;
use crate::counts::Counts;
use crate::random::Random;
use crate::tables::{self, BLOCK, get16, get32, set_site};

/// "A site code, 0 to 9,999, with 0 for none. It stands in bytes 18-19."
const LARGEST: u16 = 9_999;
const SITE: usize = 18;

/// What is to be met of the tables over which a run writes.
const TABLES: [&str; 9] = [
    "no code",
    "codes, and stations without one",
    "a code at every station",
    "255 and 256",
    "9,999",
    "a code whose higher byte is not 0",
    "one code at several stations",
    "codes that fall while the numbers rise",
    "codes, written after a refused step",
];

/// What is to be met of the steps done at stations with a code, and of what these stations have become.
const STEPS: [&str; 5] = [
    "a timeout",
    "an introduction delivered",
    "a remove-left delivered",
    "a remove-right delivered",
    "an exit, and the code gone with it",
];
const STATIONS: [&str; 3] = [
    "more messages than before",
    "a neighbour set",
    "a neighbour dropped",
];

/// What is to be met of codes above 9,999.
const ABOVE: [&str; 6] = [
    "4 for 10,000 alone",
    "4 for 65,535 alone",
    "4 for a code with the higher byte of 9,999 alone",
    "4 for a code that is right but for its highest bit alone",
    "4, with a fault of 5 to 7 besides",
    "3, with a check that fails besides",
];

/// What is to be met of two receivers of which one has another code at a station.
const RECEIVERS: [&str; 3] = [
    "a code against another, the station still there",
    "a code against none, the station still there",
    "the station gone",
];

#[derive(Default)]
pub struct Sites {
    tables: [u64; TABLES.len()],
    steps: [u64; STEPS.len()],
    stations: [u64; STATIONS.len()],
    above: [u64; ABOVE.len()],
    receivers: [u64; RECEIVERS.len()],
}

impl Counts for Sites {
    const OF: &'static str = "site codes";
    const TITLE: &'static str =
        "site codes: tables, steps at stations with a code, refusals, receivers";

    fn named(&self) -> Vec<(String, u64)> {
        let parts: [(&str, &[&str], &[u64]); 5] = [
            ("a table", &TABLES, &self.tables),
            ("at a station with a code", &STEPS, &self.steps),
            ("a station with a code", &STATIONS, &self.stations),
            ("above 9,999", &ABOVE, &self.above),
            ("two receivers", &RECEIVERS, &self.receivers),
        ];
        let named = parts.iter().flat_map(|(of, names, counts)| {
            let named = names.iter().zip(*counts);
            named.map(move |(name, &count)| (format!("{of}: {name}"), count))
        });
        named.collect()
    }
}

fn add<const N: usize>(counts: &mut [u64; N], met: [bool; N]) {
    for (count, met) in counts.iter_mut().zip(met) {
        *count += u64::from(met);
    }
}

/// The blocks of a table by the station numbers in their bytes 4-7.
type Blocks<'a> = BTreeMap<u32, &'a [u8]>;

fn blocks(table: &[u8]) -> Blocks<'_> {
    let blocks = table.chunks_exact(BLOCK);
    blocks.map(|block| (get32(block, 4), block)).collect()
}

fn has_code(block: &[u8]) -> bool {
    get16(block, SITE) != 0
}

impl Sites {
    fn count_table(&mut self, before: &Blocks, ran: Ran) {
        let all: Vec<u16> = before.values().map(|block| get16(block, SITE)).collect();
        let codes: Vec<u16> = all.iter().copied().filter(|&code| code != 0).collect();
        let different: BTreeSet<u16> = codes.iter().copied().collect();
        let (some, every) = (!codes.is_empty(), codes.len() == all.len());
        let met = [
            !some,
            some && !every,
            some && every,
            codes.contains(&255) && codes.contains(&256),
            codes.contains(&LARGEST),
            codes.iter().any(|&code| code > 255),
            different.len() < codes.len(),
            all.len() > 2 && all.windows(2).all(|two| two[0] > two[1]),
            some && ran.answer != 0,
        ];
        add(&mut self.tables, met);
    }

    fn count_steps(&mut self, before: &Blocks, done: &[u8]) {
        for step in done.chunks_exact(STEP) {
            if before.get(&get32(step, 4)).is_some_and(|b| has_code(b)) {
                self.steps[match step[0] {
                    1 => 0,
                    2 => usize::from(step[2]),
                    _ => 4,
                }] += 1;
            }
        }
    }

    fn count_stations(&mut self, before: &Blocks, after: &Blocks) {
        for (number, now) in after {
            let Some(old) = before.get(number).filter(|block| has_code(block)) else {
                continue;
            };
            let sides = [8, 12].map(|at| (get32(old, at), get32(now, at)));
            let met = [
                get16(now, 16) > get16(old, 16),
                sides.iter().any(|(old, now)| old != now && *now != 0),
                sides.iter().any(|(old, now)| old != now && *now == 0),
            ];
            add(&mut self.stations, met);
        }
    }

    /// Of a table with these codes above 9,999, which has this number for its other faults.
    fn count_above(&mut self, above: &[u16], others: u32) {
        let alone = others == 0;
        let only = |right: fn(u16) -> bool| alone && above.iter().all(|&code| right(code));
        let met = [
            only(|code| code == 10_000),
            only(|code| code == u16::MAX),
            only(|code| code >> 8 == LARGEST >> 8),
            only(|code| code & 0x7FFF <= LARGEST),
            (5..=7).contains(&others),
            others == 3,
        ];
        add(&mut self.above, met);
    }
}

/// The table with no codes; each check holds or fails as before.
fn without(table: &[u8]) -> Vec<u8> {
    let mut plain = table.to_vec();
    for block in plain.chunks_exact_mut(BLOCK) {
        set_site(block, 0);
    }
    plain
}

/// Everything about the codes of a case: `ran` and `written` are what its run has given.
pub fn same_sites(
    random: &mut Random,
    case: &Case,
    ran: Ran,
    written: &[u8],
    sites: &mut Sites,
) -> Result<(), String> {
    let plain = without(&case.table);
    if plain != case.table {
        same_number(&case.table, &plain, ran, sites)?;
    }
    if (1..=9).contains(&ran.answer) {
        return Ok(());
    }
    let (before, after) = (blocks(&case.table), blocks(written));
    sites.count_table(&before, ran);
    sites.count_steps(&before, &case.steps[..STEP * ran.done as usize]);
    sites.count_stations(&before, &after);
    carried(&before, &after)?;
    if plain == case.table {
        return Ok(());
    }
    same_run(case, ran, written, &plain)?;
    same_answers(random, &case.table, &plain)
}

/// "It refuses a code above 9,999 with 4": the number of the other faults where these come before, or where no code is above.
fn same_number(table: &[u8], plain: &[u8], ran: Ran, sites: &mut Sites) -> Result<(), String> {
    let codes = table.chunks_exact(BLOCK).map(|block| get16(block, SITE));
    let above: Vec<u16> = codes.filter(|&code| code > LARGEST).collect();
    let others = archive::check(&Lent::copy(plain, 0, false));
    let mut wanted = others;
    if !above.is_empty() {
        sites.count_above(&above, others);
        if !(1..=3).contains(&others) {
            wanted = 4;
        }
    }
    // A number of the check refuses the run as well, and no other number below 8 does.
    let number = if ran.answer < 8 { ran.answer } else { 0 };
    if number == wanted {
        return Ok(());
    }
    Err(format!(
        "site codes: the check's number is {number}, and {others} without codes, of which {above:?} are above 9,999"
    ))
}

/// "Every step carries it unchanged": each station that is written has the code that it had in the table read.
fn carried(before: &Blocks, after: &Blocks) -> Result<(), String> {
    for (number, block) in after {
        let had = before.get(number).map(|old| get16(old, SITE));
        let has = get16(block, SITE);
        if had != Some(has) {
            return Err(format!(
                "site codes: station {number} had {had:?} and has {has}"
            ));
        }
    }
    Ok(())
}

/// "It plays no part in any order, step rule or NIDEC": the run over the table with no codes gives the same numbers, and the same bytes but
/// for the codes.
fn same_run(case: &Case, ran: Ran, written: &[u8], plain: &[u8]) -> Result<(), String> {
    let (again, bytes) = archive::receive(plain, &case.steps);
    if again != ran {
        return Err(format!(
            "site codes: the run gives {ran:?}, and {again:?} without them"
        ));
    }
    if bytes != without(written) {
        return Err("site codes: without them the run writes something else".to_string());
    }
    Ok(())
}

/// The list of allowed steps with every byte of its room, the line question, and the leave question about two stations.
type Answers = (Filled, Vec<u8>, Told, [Leave; 2]);

fn answers(table: &[u8], stations: [u32; 2]) -> Answers {
    let table = Lent::copy(table, 0, false);
    let mut room = Lent::room(STEP * MOST, 0, false);
    let filled = archive::allowed(&table, &mut room);
    let leaves = stations.map(|station| archive::may_leave(&table, station));
    let list = room.bytes().to_vec();
    (filled, list, archive::in_line(&table), leaves)
}

/// The same of the questions and of the list of allowed steps.
fn same_answers(random: &mut Random, table: &[u8], plain: &[u8]) -> Result<(), String> {
    let count = table.len() / BLOCK;
    let stations = [(); 2].map(|()| get32(table, BLOCK * random.below(count) + 4));
    if answers(table, stations) == answers(plain, stations) {
        return Ok(());
    }
    Err(format!(
        "site codes: without them the allowed steps, the line question or that about one of {stations:?} are answered otherwise"
    ))
}

/// A code that is accepted, but not this one.
fn other_than(random: &mut Random, old: u16) -> u16 {
    loop {
        let code = tables::site(random);
        if code != old {
            return code;
        }
    }
}

/// "The agreement of the two receivers now also takes equal site codes as a premise and shares them": where one code alone is another, all
/// the numbers are the same, and so is every byte but for that code and its check word, where the station is still there.
pub fn another_code(
    random: &mut Random,
    table: &[u8],
    steps: &[u8],
    first: &(Ran, Vec<u8>),
    sites: &mut Sites,
) -> Result<(), String> {
    if table.is_empty() {
        return Ok(());
    }
    let mut other = table.to_vec();
    let at = BLOCK * random.below(table.len() / BLOCK);
    let block = &mut other[at..at + BLOCK];
    let (station, old) = (get32(block, 4), get16(block, SITE));
    let code = other_than(random, old);
    set_site(block, code);
    let mut wanted = first.clone();
    let mut written = wanted.1.chunks_exact_mut(BLOCK);
    let met = match written.find(|block| get32(block, 4) == station) {
        None => 2,
        Some(block) => {
            set_site(block, code);
            usize::from(old == 0 || code == 0)
        }
    };
    sites.receivers[met] += 1;
    if archive::receive(&other, steps) == wanted {
        return Ok(());
    }
    Err(format!(
        "two receivers: {code} in the place of {old} at {station} changes more than that"
    ))
}
