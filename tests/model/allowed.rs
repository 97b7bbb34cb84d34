//! What may happen next, read from request T-01 of document 02.

use crate::Action::{Deliver, Exit, Timeout};
use crate::Message::{Introduction, RemoveLeft, RemoveRight};
use crate::{STEP, Step, Table, effect, read_table, write_step};

/// "By rising station number, and within a station the timeout, then deliveries by kind and number, then the exit": every step that could
/// be one of the list, each once. No bag is looked at: the messages that an accepted table may hold are the introductions of its stations
/// and the two removals.
fn candidates(table: &Table) -> Vec<Step> {
    let mut steps = Vec::new();
    for &station in table.keys() {
        let mut add = |action| steps.push(Step { station, action });
        add(Timeout);
        for &introduced in table.keys() {
            add(Deliver(Introduction(introduced)));
        }
        add(Deliver(RemoveLeft));
        add(Deliver(RemoveRight));
        add(Exit);
    }
    steps
}

/// "A list of every step that a run would accept as its first step from a given table": each is tried, and those that are not refused are
/// kept. 1 to 7 where the table is not accepted.
pub fn allowed(table: &[u8]) -> Result<Vec<Step>, u32> {
    let table = read_table(table)?;
    let mut steps = candidates(&table);
    steps.retain(|&step| effect(&table, step).is_ok());
    Ok(steps)
}

/// What a list puts into a room of this length: "the list uses the 12-byte form", and is refused "with 9 exactly when the room is shorter
/// than the list".
pub fn fill(steps: &[Step], room: usize) -> Result<Vec<u8>, u32> {
    if room < STEP * steps.len() {
        return Err(9);
    }
    Ok(steps.iter().flat_map(|&step| write_step(step)).collect())
}
