//! In line (document 02, T-04) tried on the model: what may wait, and each cause of a no by itself.

use crate::Action::Deliver;
use crate::Message::{Introduction, RemoveLeft, RemoveRight};
use crate::situations::{ran, table};
use crate::*;

/// 3, 5 and 9 with these neighbours on the side of 5, this mark of 9, and these messages for 5.
fn three(right_of_3: u32, left_of_9: u32, leaving: bool, bag: &[Message]) -> Table {
    table(&[
        (3, 0, right_of_3, false, &[]),
        (5, 3, 9, false, bag),
        (9, left_of_9, 0, leaving, &[]),
    ])
}

fn asked(stations: &Table) -> Result<bool, u32> {
    in_line(&write_table(stations))
}

/// "Introductions may still wait", and the empty table is in line.
#[test]
fn what_may_wait() {
    assert_eq!(in_line(&[]), Ok(true));
    assert_eq!(asked(&three(5, 5, false, &[])), Ok(true));
    let waiting = [3, 3, 5, 9].map(Introduction);
    assert_eq!(asked(&three(5, 5, false, &waiting)), Ok(true));
    assert_eq!(in_line(&[0]), Err(1));
}

/// "The neighbours are as before, no bag holds a remove-left or remove-right, and no station is leaving": each alone.
#[test]
fn each_cause_alone() {
    assert_eq!(asked(&three(9, 5, false, &[])), Ok(false));
    assert_eq!(asked(&three(5, 0, false, &[])), Ok(false));
    let behind = |removal| [Introduction(3), Introduction(9), removal];
    for removal in [RemoveLeft, RemoveRight] {
        assert_eq!(asked(&three(5, 5, false, &[removal])), Ok(false));
        assert_eq!(asked(&three(5, 5, false, &behind(removal))), Ok(false));
    }
    assert_eq!(asked(&three(5, 5, true, &[])), Ok(false));
}

/// "None of them can change a neighbour in such a table": every one is delivered, and what is passed on as well.
#[test]
fn it_lasts() {
    let mut now = three(5, 5, false, &[3, 3, 5, 9].map(Introduction));
    now.get_mut(&3).unwrap().bag.insert(Introduction(9), 2);
    let sides = |stations: &Table| -> Vec<_> {
        stations
            .iter()
            .map(|(&n, s)| (n, s.left, s.right))
            .collect()
    };
    let start = sides(&now);
    while let Some((station, message)) = now
        .iter()
        .find_map(|(&n, s)| s.bag.keys().next().map(|&m| (n, m)))
    {
        let done = ran(&now, &[(station, Deliver(message))]);
        assert_eq!((done.answer, done.done), (0, 1));
        now = done.table.expect("it was done");
        assert_eq!((sides(&now), asked(&now)), (start.clone(), Ok(true)));
    }
}
