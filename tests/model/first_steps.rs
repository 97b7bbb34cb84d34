//! The list of request T-01 tried on the model: each kind of step that is listed, each reason to leave one out, and the sizes.

use crate::Action::{Deliver, Exit, Timeout};
use crate::Message::{Introduction, RemoveLeft, RemoveRight};
use crate::situations::{example, ran, table};
use crate::*;

/// The table allows just these steps, in this order.
fn allows(before: &Table, wanted: &[(u32, Action)]) {
    let listed = allowed(&write_table(before)).expect("it is accepted");
    let listed: Vec<(u32, Action)> = listed.iter().map(|s| (s.station, s.action)).collect();
    assert_eq!(listed, wanted);
}

#[test]
fn the_printed_example() {
    let wanted = [
        (3, Timeout),
        (5, Timeout),
        (5, Deliver(Introduction(7))),
        (7, Timeout),
        (9, Timeout),
    ];
    allows(&example(), &wanted);
}

/// Copies give one delivery, by kind and then by number; a station that introduces itself; a message that leads nowhere.
#[test]
fn each_delivery_once() {
    let bag = [
        RemoveRight,
        Introduction(9),
        RemoveLeft,
        Introduction(5),
        RemoveRight,
        Introduction(9),
    ];
    let before = table(&[(5, 0, 0, false, &bag), (9, 0, 0, false, &[])]);
    let wanted = [
        (5, Timeout),
        (5, Deliver(Introduction(5))),
        (5, Deliver(Introduction(9))),
        (5, Deliver(RemoveLeft)),
        (5, Deliver(RemoveRight)),
        (9, Timeout),
    ];
    allows(&before, &wanted);
}

/// An exit stands last, where the station is leaving and NIDEC holds, and nowhere else.
#[test]
fn exits() {
    let before = table(&[
        (3, 0, 0, true, &[]),
        (5, 3, 9, true, &[]),
        (7, 0, 0, false, &[]),
        (9, 0, 0, true, &[RemoveLeft]),
    ]);
    let wanted = [
        (3, Timeout),
        (5, Timeout),
        (5, Exit),
        (7, Timeout),
        (9, Timeout),
        (9, Deliver(RemoveLeft)),
    ];
    allows(&before, &wanted);
}

/// A receiver that holds 32 keeps a timeout, a delivery and an exit off the list; one that holds 31 does not.
#[test]
fn full_receivers() {
    let with = |held: &[Message]| {
        table(&[
            (3, 0, 0, false, held),
            (5, 3, 9, true, &[]),
            (7, 3, 0, false, &[Introduction(3), RemoveLeft]),
            (9, 0, 0, false, &[]),
        ])
    };
    // 7 has 3 as its left already, so that introduction sends nothing; its timeout and its remove-left do.
    let full = [
        (3, Timeout),
        (3, Deliver(RemoveLeft)),
        (7, Deliver(Introduction(3))),
        (9, Timeout),
    ];
    allows(&with(&[RemoveLeft; 32]), &full);
    let room = [
        (3, Timeout),
        (3, Deliver(RemoveLeft)),
        (5, Timeout),
        (5, Exit),
        (7, Timeout),
        (7, Deliver(Introduction(3))),
        (7, Deliver(RemoveLeft)),
        (9, Timeout),
    ];
    allows(&with(&[RemoveLeft; 31]), &room);
}

/// A step of the list is done by a run that begins with it, and any other is refused.
#[test]
fn what_a_run_accepts() {
    let before = table(&[
        (1, 0, 5, true, &[]),
        (3, 0, 5, false, &[RemoveLeft; 32]),
        (
            5,
            3,
            7,
            true,
            &[Introduction(1), Introduction(7), RemoveRight],
        ),
        (7, 0, 0, true, &[Introduction(3)]),
    ]);
    let listed = allowed(&write_table(&before)).expect("it is accepted");
    let messages = [RemoveLeft, RemoveRight]
        .into_iter()
        .chain((0..9).map(Introduction));
    let actions: Vec<Action> = messages.map(Deliver).chain([Timeout, Exit]).collect();
    for station in 0..9 {
        for &action in &actions {
            let done = ran(&before, &[(station, action)]).answer == 0;
            assert_eq!(
                listed.contains(&Step { station, action }),
                done,
                "{station} {action:?}"
            );
        }
    }
}

/// "At most 2,112 steps": 64 stations that name nobody, each with 32 different messages.
#[test]
fn the_longest_list() {
    let mut longest = Table::new();
    for number in 1..=64 {
        let mut station = Station::default();
        station.bag = (1..=32).map(|k| (Introduction(k), 1)).collect();
        longest.insert(number, station);
    }
    let listed = allowed(&write_table(&longest)).expect("it is accepted");
    assert_eq!(listed.len(), 2112);
    assert_eq!(fill(&listed, 25_344).map(|bytes| bytes.len()), Ok(25_344));
    assert_eq!(fill(&listed, 25_343), Err(9));
}

#[test]
fn refusals_and_the_empty_list() {
    assert_eq!(allowed(&[]), Ok(vec![]));
    assert_eq!(fill(&[], 0), Ok(vec![]));
    assert_eq!(allowed(&[0; 511]), Err(1));
    assert_eq!(allowed(&[0; 512]), Err(3));
    // Two stations that wait for each other: every step of theirs would send to a full bag.
    let stuck = table(&[
        (3, 0, 5, false, &[RemoveRight; 32]),
        (5, 3, 0, false, &[RemoveLeft; 32]),
    ]);
    allows(&stuck, &[]);
    let one = Step {
        station: 5,
        action: Deliver(Introduction(7)),
    };
    assert_eq!(
        fill(&[one], 12),
        Ok(vec![2, 0, 1, 0, 5, 0, 0, 0, 7, 0, 0, 0])
    );
}
