//! The two lasting facts (document 02, T-07) tried on the model: a worked run for each of them, and what comes of it where one premise is
//! missing.

use crate::Action::{Deliver, Exit, Timeout};
use crate::Message::{Introduction, RemoveLeft, RemoveRight};
use crate::Reason::HeldBy;
use crate::situations::{ran, table};
use crate::*;

type Steps<'a> = &'a [(u32, Action)];

const YES: Result<Leave, u32> = Ok(Leave::Yes);
const HELD_BY_3: Result<Leave, u32> = Ok(Leave::No(HeldBy(3)));

/// The run is answered 0, does every step and gives this table.
fn becomes(before: &Table, steps: Steps, after: &Table) {
    let ran = ran(before, steps);
    assert_eq!((ran.answer, ran.done), (0, steps.len()));
    assert_eq!(ran.table.as_ref(), Some(after));
}

/// The table that a run answered 0 writes.
fn after(before: &Table, steps: Steps) -> Table {
    let ran = ran(before, steps);
    assert_eq!((ran.answer, ran.done), (0, steps.len()));
    ran.table.expect("it is written at answer 0")
}

fn line(stations: &Table) -> bool {
    in_line(&write_table(stations)).expect("it is accepted")
}

fn asked(stations: &Table) -> Result<Leave, u32> {
    may_leave(&write_table(stations), 5)
}

/// "A table that is in line by T-04 is in line after every run answered 0, and no such run holds an exit": introductions of a neighbour, of
/// itself and from farther away are delivered, and the ends and the middle send.
#[test]
fn in_line_for_good() {
    let [three, five, nine] = [3, 5, 9].map(Introduction);
    let before = table(&[
        (3, 0, 5, false, &[five, nine]),
        (5, 3, 9, false, &[five]),
        (9, 5, 0, false, &[three, three]),
    ]);
    let steps = [
        (5, Timeout),
        (3, Deliver(nine)),
        (5, Deliver(nine)),
        (9, Deliver(three)),
        (5, Deliver(five)),
        (3, Timeout),
    ];
    let after = table(&[
        (3, 0, 5, false, &[five, five]),
        (5, 3, 9, false, &[three, three]),
        (9, 5, 0, false, &[three, five]),
    ]);
    becomes(&before, &steps, &after);
    assert!(line(&before) && line(&after));
}

/// 3, 5 and 9 have each other for neighbours, with this mark and these messages of 5.
fn neighbours(leaving: bool, bag: &[Message]) -> Table {
    table(&[
        (3, 0, 5, false, &[]),
        (5, 3, 9, leaving, bag),
        (9, 5, 0, false, &[]),
    ])
}

/// Document 01 calls the table in line while a removal waits; the neighbours do not last. T-04 does not call it in line.
#[test]
fn a_removal_waits() {
    let before = neighbours(false, &[RemoveLeft]);
    let steps = [(5, Deliver(RemoveLeft)), (3, Deliver(Introduction(5)))];
    let after = table(&[
        (3, 0, 5, false, &[]),
        (5, 0, 9, false, &[]),
        (9, 5, 0, false, &[]),
    ]);
    becomes(&before, &steps, &after);
    let tidy = [&before, &after].map(neighbours_in_line);
    assert_eq!(
        (line(&before), line(&after), tidy),
        (false, false, [true, false])
    );
}

/// While a station is leaving, a run that is answered 0 may hold its exit, and the neighbours do not last.
#[test]
fn a_station_leaves() {
    let before = neighbours(true, &[]);
    let steps = [
        (5, Timeout),
        (3, Deliver(RemoveRight)),
        (9, Deliver(RemoveLeft)),
        (5, Deliver(Introduction(3))),
        (5, Deliver(Introduction(9))),
        (5, Exit),
    ];
    let after = table(&[
        (3, 0, 0, false, &[Introduction(9)]),
        (9, 0, 0, false, &[Introduction(3)]),
    ]);
    becomes(&before, &steps, &after);
    let tidy = [&before, &after].map(neighbours_in_line);
    assert_eq!(
        (line(&before), line(&after), tidy),
        (false, false, [true, false])
    );
}

/// Stations that know nothing of each other are not in line, and their timeouts change nothing.
#[test]
fn the_neighbours_are_not_in_line() {
    let apart = table(&[(3, 0, 0, false, &[]), (5, 0, 0, false, &[])]);
    becomes(&apart, &[(3, Timeout), (5, Timeout)], &apart);
    assert!(!line(&apart));
}

/// An exit in the list of a table in line stops the run with 13: what it writes is in line, but it is not answered 0.
#[test]
fn an_exit_stops_the_run() {
    let before = table(&[(3, 0, 5, false, &[]), (5, 3, 0, false, &[])]);
    let ran = ran(&before, &[(3, Timeout), (5, Exit)]);
    assert_eq!((ran.answer, ran.done), (13, 1));
    let written = ran.table.expect("it is written at answer 13");
    assert!(line(&before) && line(&written));
}

/// 5 with this mark and its neighbours 3 and 9, which have each other and not 5 for neighbours.
fn free(leaving: bool) -> Table {
    table(&[
        (3, 0, 9, false, &[]),
        (5, 3, 9, leaving, &[]),
        (9, 3, 0, false, &[]),
    ])
}

/// The same with an introduction at 9, and 12, which is leaving and which nobody names either.
fn free_beside_12(leaving: bool) -> Table {
    let mut stations = free(leaving);
    stations.extend(table(&[
        (9, 3, 0, false, &[Introduction(3)]),
        (12, 9, 0, true, &[]),
    ]));
    stations
}

/// "Once NIDEC holds for a station, it still holds after any run answered 0 with no step at that station, so a desk may ask now and let the
/// truck go later": its neighbours send and receive, and another station leaves. The mark of 5 plays no part in the answer.
#[test]
fn free_for_good() {
    let steps = [
        (3, Timeout),
        (9, Deliver(Introduction(3))),
        (9, Timeout),
        (12, Exit),
        (3, Deliver(Introduction(9))),
    ];
    for leaving in [false, true] {
        let before = free_beside_12(leaving);
        let mut written = free(leaving);
        written.extend(table(&[(9, 3, 0, false, &[Introduction(3)])]));
        becomes(&before, &steps, &written);
        assert_eq!([asked(&before), asked(&written)], [YES, YES]);
        let later = ran(&written, &[(5, Exit)]);
        let wanted = if leaving { (0, 1, 2) } else { (13, 0, 3) };
        assert_eq!((later.answer, later.done, later.stations()), wanted);
    }
}

/// A step at the station itself: its own timeout names it to its neighbours, and after its own exit it is no longer there.
#[test]
fn a_step_at_the_station() {
    let (staying, leaving) = (free(false), free(true));
    assert_eq!([asked(&staying), asked(&leaving)], [YES, YES]);
    let named = after(&staying, &[(9, Timeout), (5, Timeout)]);
    assert_eq!(asked(&named), HELD_BY_3);
    let gone = after(&leaving, &[(9, Timeout), (5, Exit)]);
    assert_eq!(asked(&gone), Err(11));
}

/// NIDEC does not hold at first, and the steps of another station do not make it hold.
#[test]
fn held_at_first() {
    let before = table(&[
        (3, 0, 5, false, &[]),
        (5, 3, 9, true, &[]),
        (9, 3, 0, false, &[Introduction(3)]),
    ]);
    let steps = [(9, Timeout), (9, Deliver(Introduction(3))), (9, Timeout)];
    let written = after(&before, &steps);
    assert_eq!([asked(&before), asked(&written)], [HELD_BY_3, HELD_BY_3]);
}

/// A run that is refused before its first step writes nothing that could be asked about.
#[test]
fn a_short_room() {
    let bytes = write_table(&free(true));
    let (station, action) = (9, Timeout);
    let step = write_step(Step { station, action });
    let refused = run(&bytes, &step, bytes.len() - 1);
    assert_eq!((refused.answer, refused.done), (9, 0));
    assert_eq!(
        (refused.table.as_ref(), refused.written()),
        (None, Vec::new())
    );
}
