//! The comparison of the archive with the model on one case.

use model::STEP;

use crate::allowed::{self, same_allowed};
use crate::archive::{self, Lent, Viewed, all_pattern};
use crate::cases::{Case, KINDS, RECEIVERS};
use crate::joined;
use crate::lasting::same_lasting;
use crate::leaving::{same_leave, same_of_alike, same_reason};
use crate::lining::same_line;
use crate::random::Random;
use crate::reasons;
use crate::roll_call::{OneByOne, same_roll_call};
use crate::sites::{another_code, same_sites};
use crate::tables::{self, BLOCK};
use crate::tally::{Comparison, Tally};

/// Prints what the model and the archive make of the case's run and of its list of allowed steps, for a replay.
pub fn show(case: &Case) {
    println!(
        "{}: a table of {} bytes, a list of {} bytes, a room of {} bytes",
        KINDS[case.kind],
        case.table.len(),
        case.steps.len(),
        case.room
    );
    if let Ok(table) = model::read_table(&case.table) {
        show_table(table);
    }
    for step in case.steps.chunks_exact(STEP).take(model::MOST_STEPS) {
        match model::read_step(step) {
            Ok(step) => println!("step {step:?}"),
            Err(_) => println!("step {step:?}, malformed"),
        }
    }
    let wanted = model::run(&case.table, &case.steps, case.room);
    print!("the model:\n{}", model::listing(&wanted));
    let mut room = Lent::room(case.room, 0, false);
    let table = Lent::copy(&case.table, 0, false);
    let ran = archive::run(&table, &Lent::copy(&case.steps, 0, false), &mut room);
    show_ran(ran, &room);
    allowed::show(&table, &case.table);
}

/// Prints a table over which a run is to go.
pub fn show_table(table: model::Table) {
    print!("the table:\n{}", model::listing(&ran(0, 0, table)));
}

/// A run with these numbers, with no reason, that writes this table.
pub fn ran(answer: u32, done: usize, table: model::Table) -> model::Ran {
    model::Ran {
        answer,
        reason: None,
        done,
        table: Some(table),
    }
}

/// Prints the numbers of a run of the archive, and what it has written into the room.
pub fn show_ran(given: archive::Ran, room: &Lent) {
    println!("the archive:\n{given:?}");
    let length = BLOCK * given.stations as usize;
    match room.bytes().get(..length).map(model::read_table) {
        Some(Ok(table)) => {
            // Its reason stands in the numbers above.
            let written = ran(given.answer, given.done as usize, table);
            print!("{}", model::listing(&written));
        }
        _ => println!("what it wrote is no table"),
    }
}

/// Compares the archive with the model on every answer, count and byte; an error says where they differ.
pub fn compare(random: &mut Random, case: &Case, tally: &mut Tally) -> Result<(), String> {
    let null = random.percent(50);
    let table = Lent::copy(&case.table, random.below(16), null);
    let list = Lent::copy(&case.steps, random.below(16), null);
    let mut room = Lent::room(case.room, random.below(16), null);
    let ran = archive::run(&table, &list, &mut room);
    let wanted = model::run(&case.table, &case.steps, case.room);
    let written = wanted.written();
    tally.ran(&wanted, case);
    tally.compared(Comparison::Numbers, same_numbers(ran, &wanted))?;
    let same = same_room(&room, &written).map_err(|what| format!("run: {what}"));
    tally.compared(Comparison::Room, same)?;
    let listed = same_allowed(random, &table, &case.table, &mut tally.lists);
    tally.compared(Comparison::Allowed, listed)?;
    let checked = same_check(&table, &case.table, tally);
    tally.compared(Comparison::Check, checked)?;
    let lined = same_line(random, &table, &case.table, &mut tally.lines);
    tally.compared(Comparison::Line, lined)?;
    let mut alone = OneByOne::new();
    let left = same_leave(random, &table, &case.table, &mut alone, &mut tally.leaves);
    tally.compared(Comparison::Leave, left)?;
    let called = same_roll_call(random, &table, &case.table, &mut alone, &mut tally.calls);
    tally.compared(Comparison::RollCall, called)?;
    let viewed = same_view(random, &table, &case.table, tally);
    tally.compared(Comparison::View, viewed)?;
    tally.compared(Comparison::Lent, lent_whole(case, &table, &list, &room))?;
    if wanted.answer == 14 {
        let reason = same_reason(case, ran, &room.bytes()[..written.len()], &mut tally.leaves);
        tally.compared(Comparison::Reason, reason)?;
    }
    if wanted.table.is_some() {
        let joined = same_joins(case, ran, &room.bytes()[..written.len()], tally);
        tally.compared(Comparison::Joins, joined)?;
    }
    let written = &room.bytes()[..written.len()];
    let coded = same_sites(random, case, ran, written, &mut tally.sites);
    tally.compared(Comparison::Sites, coded)?;
    let lasted = same_lasting(random, case, ran, written, &alone, &mut tally.lasting);
    tally.compared(Comparison::Lasting, lasted)?;
    if case.kind == RECEIVERS || random.percent(15) {
        let agreed = two_receivers(random, case, tally);
        tally.compared(Comparison::Receivers, agreed)?;
    }
    Ok(())
}

/// The numbers of a run.
pub fn same_numbers(ran: archive::Ran, wanted: &model::Ran) -> Result<(), String> {
    let (reason, holder) = reasons::of_run(wanted.reason);
    let numbers = archive::Ran {
        answer: wanted.answer,
        done: wanted.done as u32,
        stations: wanted.stations() as u32,
        reason,
        holder,
    };
    if ran == numbers {
        return Ok(());
    }
    Err(format!(
        "run: the archive gives {ran:?}, wanted is {numbers:?}"
    ))
}

/// Every byte of a room: what was to be written at its beginning, and the rest as it was.
pub fn same_room(room: &Lent, written: &[u8]) -> Result<(), String> {
    let (begin, rest) = room.bytes().split_at(written.len());
    if begin != written {
        let at = begin.iter().zip(written).position(|(a, b)| a != b);
        return Err(format!("what was written differs at byte {at:?}"));
    }
    if !all_pattern(rest) {
        return Err("a byte of the room past what was written was touched".to_string());
    }
    Ok(())
}

fn same_check(lent: &Lent, table: &[u8], tally: &mut Tally) -> Result<(), String> {
    let (checked, number) = (archive::check(lent), model::check(table));
    tally.check[number as usize] += 1;
    if checked == number {
        return Ok(());
    }
    Err(format!(
        "check: the archive gives {checked}, the model {number}"
    ))
}

/// Walks the view from the first block to the end and past it, and asks it at positions far away.
fn same_view(
    random: &mut Random,
    lent: &Lent,
    table: &[u8],
    tally: &mut Tally,
) -> Result<(), String> {
    let view = model::view(table);
    let blocks = table.len() / BLOCK;
    let near = 0..blocks + 3;
    let far = [
        blocks + random.below(1 << 20),
        1 << 55, // times 512 it is 0 in 64 bits
        (1 << 55) + random.below(1 + blocks),
        usize::MAX - random.below(2),
        random.next() as usize,
    ];
    for position in near.chain(far) {
        let wanted = viewed(&view, table, position);
        tally.view.count(wanted);
        let seen = archive::view(lent, position);
        if seen != wanted {
            return Err(format!(
                "view at {position}: the archive gives {seen:?}, the model {wanted:?}"
            ));
        }
    }
    Ok(())
}

/// What the model's view comes to in the numbers of the C interface: where the block lies in the table, and the next position, which
/// at the end is the same one again.
fn viewed(view: &Result<Vec<&[u8]>, u32>, table: &[u8], position: usize) -> Viewed {
    let block = view.as_ref().ok().and_then(|blocks| blocks.get(position));
    Viewed {
        answer: view.as_ref().err().copied().unwrap_or(0),
        has_block: u32::from(block.is_some()),
        offset: block.map_or(0, |block| block.as_ptr() as usize - table.as_ptr() as usize),
        next: if block.is_some() {
            position + 1
        } else {
            position
        },
    }
}

fn lent_whole(case: &Case, table: &Lent, list: &Lent, room: &Lent) -> Result<(), String> {
    if table.bytes() != case.table || list.bytes() != case.steps {
        return Err("the caller's table or step list was changed".to_string());
    }
    if !(table.guards_whole() && list.guards_whole() && room.guards_whole()) {
        return Err("a byte outside the lent memory was changed".to_string());
    }
    Ok(())
}

/// The stations still present are joined as they were, and each that has gone has gone by an exit among the steps done.
fn same_joins(
    case: &Case,
    ran: archive::Ran,
    written: &[u8],
    tally: &mut Tally,
) -> Result<(), String> {
    let before = joined::groups(&case.table);
    let after = joined::groups(written);
    joined::same_groups(&before, &after)?;
    let exits = case
        .steps
        .chunks(STEP)
        .take(ran.done as usize)
        .filter(|step| step[0] == 3)
        .count();
    if before.len() - after.len() != exits {
        return Err("stations have gone without an exit".to_string());
    }
    tally.joined += 1;
    tally.joined_several += u64::from(joined::count(&before) > 1);
    tally.joined_departed += u64::from(exits > 0);
    tally.exits += exits as u64;
    Ok(())
}

/// Receivers that hold the same table in different stored orders write the same bytes and give the same numbers, the reason of a 14 among
/// them, whether one of them is handed the list whole or in pieces, with its table stored anew in between. They also answer the leave
/// question alike. Where one of them has another site code at a station, that alone differs.
fn two_receivers(random: &mut Random, case: &Case, tally: &mut Tally) -> Result<(), String> {
    let first = archive::receive(&case.table, &case.steps);
    let mut shuffled = tables::shuffle_bytes(random, &case.table);
    if archive::receive(&shuffled, &case.steps) != first {
        return Err("two receivers: another stored order gives something else".to_string());
    }
    same_of_alike(random, &case.table, &shuffled)?;
    tally.receivers += 1;
    if first.0.answer != 0 && first.0.answer < 10 {
        return Ok(());
    }
    tally.receivers_steps += u64::from(first.0.done);
    another_code(random, &shuffled, &case.steps, &first, &mut tally.sites)?;
    let mut rest = &case.steps[..];
    let mut done = 0;
    loop {
        let piece = STEP * random.from_to(1, 1 + rest.len() / STEP / 2);
        let (now, later) = rest.split_at(piece.min(rest.len()));
        let (ran, written) = archive::receive(&shuffled, now);
        done += ran.done;
        rest = later;
        if ran.answer != 0 || rest.is_empty() {
            let whole = archive::Ran { done, ..ran };
            if (whole, written) != first {
                return Err("two receivers: a list in pieces gives something else".to_string());
            }
            return Ok(());
        }
        shuffled = tables::shuffle_bytes(random, &written);
    }
}
