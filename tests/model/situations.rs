//! The examples of document 01 tried on the model: the thirteen situations, the printed listing, the check word, the sizes.

use crate::Action::{Deliver, Exit, Timeout};
use crate::Message::{Introduction, RemoveLeft, RemoveRight};
use crate::*;

/// A table from lines of station, left, right (0 for none), leaving and messages.
pub fn table(lines: &[(u32, u32, u32, bool, &[Message])]) -> Table {
    let side = |number| if number == 0 { None } else { Some(number) };
    let mut table = Table::new();
    for &(number, left, right, leaving, messages) in lines {
        let mut bag = Bag::new();
        for &message in messages {
            *bag.entry(message).or_insert(0) += 1;
        }
        let station = Station {
            left: side(left),
            right: side(right),
            leaving,
            site: None,
            bag,
        };
        table.insert(number, station);
    }
    table
}

/// Runs the steps through the bytes, with a room of just the table's length.
pub fn ran(before: &Table, steps: &[(u32, Action)]) -> Ran {
    let steps: Vec<u8> = steps
        .iter()
        .flat_map(|&(station, action)| write_step(Step { station, action }))
        .collect();
    let bytes = write_table(before);
    run(&bytes, &steps, bytes.len())
}

/// One step is done and gives this table.
fn becomes(before: &Table, station: u32, action: Action, after: &Table) {
    let ran = ran(before, &[(station, action)]);
    assert_eq!((ran.answer, ran.done), (0, 1));
    assert_eq!(ran.table.as_ref(), Some(after));
    assert_eq!(ran.written(), write_table(after));
}

/// One step is refused, with no reason, and changes nothing.
fn refused(before: &Table, station: u32, action: Action, number: u32) {
    let ran = ran(before, &[(station, action)]);
    assert_eq!((ran.answer, ran.reason, ran.done), (number, None, 0));
    assert_eq!(ran.table.as_ref(), Some(before));
}

/// An exit is refused with 14 for this reason, and changes nothing; the leave question gives the same one.
pub fn kept(before: &Table, station: u32, reason: Reason) {
    let ran = ran(before, &[(station, Exit)]);
    assert_eq!((ran.answer, ran.reason, ran.done), (14, Some(reason), 0));
    assert_eq!(ran.table.as_ref(), Some(before));
    let asked = may_leave(&write_table(before), station);
    assert_eq!(asked, Ok(Leave::No(reason)));
}

/// "Station 5 has left 3 and right 9 unless said": with 7 and 12 beside them and these messages for 5, 3, 7 and 9.
fn five(
    sides: (u32, u32),
    leaving: bool,
    bag: &[Message],
    at_3: &[Message],
    at_7: &[Message],
    at_9: &[Message],
) -> Table {
    table(&[
        (3, 0, 0, false, at_3),
        (5, sides.0, sides.1, leaving, bag),
        (7, 0, 0, false, at_7),
        (9, 0, 0, false, at_9),
        (12, 0, 0, false, &[]),
    ])
}

#[test]
fn situation_1_introduction_nearer() {
    let before = five((3, 9), false, &[Introduction(7)], &[], &[], &[]);
    let after = five((3, 7), false, &[], &[], &[Introduction(9)], &[]);
    becomes(&before, 5, Deliver(Introduction(7)), &after);
}

#[test]
fn situation_2_introduction_of_the_neighbour() {
    let two = [Introduction(9), Introduction(9)];
    let before = five((3, 9), false, &two, &[], &[], &[]);
    let after = five((3, 9), false, &[Introduction(9)], &[], &[], &[]);
    becomes(&before, 5, Deliver(Introduction(9)), &after);
}

#[test]
fn situation_3_introduction_farther() {
    let before = five((3, 9), false, &[Introduction(12)], &[], &[], &[]);
    let after = five((3, 9), false, &[], &[], &[], &[Introduction(12)]);
    becomes(&before, 5, Deliver(Introduction(12)), &after);
}

#[test]
fn situation_4_no_right() {
    let before = five((3, 0), false, &[Introduction(12)], &[], &[], &[]);
    let after = five((3, 12), false, &[], &[], &[], &[]);
    becomes(&before, 5, Deliver(Introduction(12)), &after);
}

#[test]
fn situation_5_introduction_of_itself() {
    let before = five((3, 9), false, &[Introduction(5)], &[], &[], &[]);
    let after = five((3, 9), false, &[], &[], &[], &[]);
    becomes(&before, 5, Deliver(Introduction(5)), &after);
}

#[test]
fn situation_6_remove_left_staying() {
    let before = five((3, 9), false, &[RemoveLeft], &[], &[], &[]);
    let after = five((0, 9), false, &[], &[Introduction(5)], &[], &[]);
    becomes(&before, 5, Deliver(RemoveLeft), &after);
}

#[test]
fn situation_7_remove_left_leaving() {
    let before = five((3, 9), true, &[RemoveLeft], &[], &[], &[]);
    let after = five((3, 9), true, &[], &[], &[], &[]);
    becomes(&before, 5, Deliver(RemoveLeft), &after);
}

#[test]
fn situation_8_remove_right_leaving() {
    let before = five((3, 9), true, &[RemoveRight], &[], &[], &[]);
    let after = five((3, 0), true, &[], &[], &[], &[Introduction(5)]);
    becomes(&before, 5, Deliver(RemoveRight), &after);
}

#[test]
fn situation_9_timeout_leaving() {
    let before = five((3, 9), true, &[], &[], &[], &[]);
    let after = five((3, 9), true, &[], &[RemoveRight], &[], &[RemoveLeft]);
    becomes(&before, 5, Timeout, &after);
}

#[test]
fn situation_10_exit() {
    let before = five((3, 9), true, &[], &[], &[], &[]);
    let mut after = five(
        (3, 9),
        true,
        &[],
        &[Introduction(9)],
        &[],
        &[Introduction(3)],
    );
    after.remove(&5);
    becomes(&before, 5, Exit, &after);
}

#[test]
fn situation_11_exit_with_a_message() {
    let before = five((3, 9), true, &[RemoveLeft], &[], &[], &[]);
    kept(&before, 5, Reason::OwnBag);
}

#[test]
fn situation_12_a_full_bag() {
    let before = five((3, 9), true, &[], &[], &[], &[RemoveLeft; 32]);
    refused(&before, 5, Timeout, 15);
    let before = five((3, 9), true, &[], &[], &[], &[RemoveLeft; 31]);
    let after = five((3, 9), true, &[], &[RemoveRight], &[], &[RemoveLeft; 32]);
    becomes(&before, 5, Timeout, &after);
    let before = five((3, 9), false, &[], &[Introduction(3); 32], &[], &[]);
    refused(&before, 5, Timeout, 15);
}

#[test]
fn situation_13_the_last_station() {
    let before = table(&[(5, 0, 0, true, &[])]);
    becomes(&before, 5, Exit, &Table::new());
    let ran = ran(&before, &[(5, Exit)]);
    assert_eq!((ran.stations(), ran.written().len()), (0, 0));
}

/// "The left side is the mirror image": situations 1 to 4 on the other side.
#[test]
fn the_left_side() {
    let left = |left, bag: &[Message], at_1: &[Message], at_2: &[Message], at_3: &[Message]| {
        table(&[
            (1, 0, 0, false, at_1),
            (2, 0, 0, false, at_2),
            (3, 0, 0, false, at_3),
            (5, left, 0, true, bag),
        ])
    };
    let before = left(2, &[Introduction(3)], &[], &[], &[]);
    let after = left(3, &[], &[], &[], &[Introduction(2)]);
    becomes(&before, 5, Deliver(Introduction(3)), &after);
    let before = left(2, &[Introduction(2)], &[], &[], &[]);
    becomes(
        &before,
        5,
        Deliver(Introduction(2)),
        &left(2, &[], &[], &[], &[]),
    );
    let before = left(2, &[Introduction(1)], &[], &[], &[]);
    let after = left(2, &[], &[], &[Introduction(1)], &[]);
    becomes(&before, 5, Deliver(Introduction(1)), &after);
    let before = left(0, &[Introduction(1)], &[], &[], &[]);
    becomes(
        &before,
        5,
        Deliver(Introduction(1)),
        &left(1, &[], &[], &[], &[]),
    );
}

/// "Timeout, staying", and removals where there is nothing to remove.
#[test]
fn the_other_rules() {
    let before = five((3, 9), false, &[], &[], &[], &[]);
    let after = five(
        (3, 9),
        false,
        &[],
        &[Introduction(5)],
        &[],
        &[Introduction(5)],
    );
    becomes(&before, 5, Timeout, &after);
    let before = five((0, 0), false, &[RemoveLeft, RemoveRight], &[], &[], &[]);
    let after = five((0, 0), false, &[RemoveRight], &[], &[], &[]);
    becomes(&before, 5, Deliver(RemoveLeft), &after);
    becomes(
        &after,
        5,
        Deliver(RemoveRight),
        &five((0, 0), false, &[], &[], &[], &[]),
    );
    let before = five((3, 9), false, &[RemoveRight], &[], &[], &[]);
    let after = five((3, 0), false, &[], &[], &[], &[Introduction(5)]);
    becomes(&before, 5, Deliver(RemoveRight), &after);
    // With one neighbour, an exit introduces nobody.
    let before = table(&[(3, 0, 0, false, &[]), (5, 3, 0, true, &[])]);
    becomes(&before, 5, Exit, &table(&[(3, 0, 0, false, &[])]));
}

#[test]
fn refusals_of_a_step() {
    let before = five((3, 9), false, &[Introduction(7)], &[], &[], &[]);
    refused(&before, 6, Timeout, 11);
    refused(&before, 6, Exit, 11);
    refused(&before, 5, Deliver(Introduction(9)), 12);
    refused(&before, 5, Deliver(RemoveLeft), 12);
    refused(&before, 5, Exit, 13);
    // A neighbour of another station, then an introduction in another bag.
    let neighbour = table(&[(3, 0, 5, false, &[]), (5, 0, 0, true, &[])]);
    kept(&neighbour, 5, Reason::HeldBy(3));
    let introduced = table(&[(3, 0, 0, false, &[Introduction(5)]), (5, 0, 0, true, &[])]);
    kept(&introduced, 5, Reason::HeldBy(3));
    // The message of a step that finds a full bag stays where it was.
    let before = five(
        (3, 9),
        false,
        &[Introduction(12)],
        &[],
        &[],
        &[RemoveLeft; 32],
    );
    refused(&before, 5, Deliver(Introduction(12)), 15);
}

#[test]
fn malformed_steps() {
    for (action, kind, station, number) in [
        (0u16, 0u16, 5u32, 0u32),
        (4, 0, 5, 0),
        (257, 0, 5, 0),
        (1, 1, 5, 0),
        (1, 0, 5, 7),
        (3, 2, 5, 0),
        (3, 0, 5, 1),
        (2, 0, 5, 0),
        (2, 4, 5, 7),
        (2, 1, 5, 0),
        (2, 1, 5, 1_000_000),
        (2, 2, 5, 7),
        (2, 3, 5, 7),
        (1, 0, 0, 0),
        (1, 0, 1_000_000, 0),
    ] {
        let mut step = Vec::new();
        step.extend(action.to_le_bytes());
        step.extend(kind.to_le_bytes());
        step.extend(station.to_le_bytes());
        step.extend(number.to_le_bytes());
        assert_eq!(read_step(&step), Err(10), "{step:?}");
    }
}

/// "For 3 (right 5), 5 (left 3, right 9, bag i7), 7 (no neighbours), 9 (left 5), all staying".
pub fn example() -> Table {
    table(&[
        (3, 0, 5, false, &[]),
        (5, 3, 9, false, &[Introduction(7)]),
        (7, 0, 0, false, &[]),
        (9, 5, 0, false, &[]),
    ])
}

/// "And the one step 'deliver to 5 introduction 7'".
#[test]
fn the_printed_listing() {
    let bytes = write_table(&example());
    let step = write_step(Step {
        station: 5,
        action: Deliver(Introduction(7)),
    });
    let wanted = "answer 0 done 1 stations 4\n3 - 5 stay\n5 3 7 stay\n7 - - stay i9\n9 5 - stay\n";
    assert_eq!(program(Some(&bytes), Some(&step)), wanted);
    let unread = "answer 16 done 0 stations 0\n";
    assert_eq!(program(None, Some(&step)), unread);
    assert_eq!(program(Some(&bytes), None), unread);
    assert_eq!(program(Some(&[0; 32_769]), Some(&step)), unread);
    assert_eq!(program(Some(&bytes), Some(&[0; 49_153])), unread);
    let refused = "answer 1 done 0 stations 0\n";
    assert_eq!(program(Some(&[0; 511]), Some(&step)), refused);
    let bags = table(&[(
        5,
        0,
        0,
        true,
        &[RemoveRight, RemoveLeft, Introduction(5), RemoveLeft],
    )]);
    let wanted = "answer 13 done 0 stations 1\n5 - - stay i5\n";
    let staying = table(&[(5, 0, 0, false, &[Introduction(5)])]);
    assert_eq!(listing(&ran(&staying, &[(5, Exit)])), wanted);
    let wanted = "answer 0 done 0 stations 1\n5 - - leave i5 l l r\n";
    assert_eq!(listing(&ran(&bags, &[])), wanted);
}

/// "A block of station 5, staying, left none, right 9, one introduction of 7" has the check word 65,511.
#[test]
fn the_check_word() {
    let block = write_table(&table(&[(5, 0, 9, false, &[Introduction(7)])]));
    assert_eq!(block.len(), 512);
    assert_eq!(block[510..], [0xE7, 0xFF]);
    assert_eq!(check(&[0; 512]), 3);
}

/// "A table of 64 blocks is read, 65 gives 2; an empty table with an empty list answers 0, 0, 0."
#[test]
fn the_sizes() {
    let mut many = Table::new();
    for number in 1..=64 {
        many.insert(number, Station::default());
    }
    assert_eq!(check(&write_table(&many)), 0);
    many.insert(65, Station::default());
    assert_eq!(check(&write_table(&many)), 2);
    let ran = run(&[], &[], 0);
    assert_eq!((ran.answer, ran.done, ran.stations()), (0, 0, 0));
    assert_eq!(run(&[], &[0; 11], 0).answer, 8);
    assert_eq!(run(&[], &[0; 12 * 4097], 0).answer, 8);
    assert_eq!(run(&[], &[0; 12 * 4096], 0).answer, 10);
    let one = write_table(&table(&[(5, 0, 0, false, &[])]));
    assert_eq!(run(&one, &[], 511).answer, 9);
}

/// Each of 1 to 7 by itself, and two faults in either order.
#[test]
fn the_faults() {
    let block = |line| write_table(&table(&[line]));
    let sound = block((5, 0, 0, false, &[]));
    let mut spoilt = sound.clone();
    spoilt[300] = 1;
    let outside = block((1_000_000, 0, 0, false, &[]));
    let sides = block((7, 9, 0, false, &[]));
    let absent = block((9, 3, 0, false, &[]));
    let joined =
        |blocks: &[&Vec<u8>]| -> Vec<u8> { blocks.iter().copied().flatten().copied().collect() };
    assert_eq!(check(&sound[..511]), 1);
    assert_eq!(check(&spoilt), 3);
    assert_eq!(check(&outside), 4);
    assert_eq!(check(&sides), 5);
    assert_eq!(check(&joined(&[&sound, &sound])), 6);
    assert_eq!(check(&absent), 7);
    assert_eq!(check(&joined(&[&outside, &spoilt])), 3);
    assert_eq!(check(&joined(&[&sides, &outside])), 4);
    assert_eq!(check(&joined(&[&sound, &sound, &sides])), 5);
    assert_eq!(check(&joined(&[&absent, &sound, &sound])), 6);
}

#[test]
fn the_questions() {
    let line = write_table(&table(&[
        (3, 0, 5, false, &[]),
        (5, 3, 9, true, &[]),
        (9, 5, 0, false, &[]),
    ]));
    assert_eq!(may_leave(&line, 5), Ok(Leave::No(Reason::HeldBy(3))));
    assert_eq!(may_leave(&line, 6), Err(11));
    assert_eq!(may_leave(&line, 0), Err(11));
    let apart = write_table(&table(&[(7, 0, 9, false, &[]), (9, 0, 0, false, &[])]));
    assert_eq!(may_leave(&apart, 7), Ok(Leave::Yes));
    assert_eq!(may_leave(&apart, 9), Ok(Leave::No(Reason::HeldBy(7))));
}

/// The view of blocks out of order, of the empty table and of one that isn't accepted.
#[test]
fn the_view() {
    let low = write_table(&table(&[(3, 0, 0, false, &[])]));
    let high = write_table(&table(&[(9, 0, 0, false, &[])]));
    let stored = [&high[..], &low[..]].concat();
    assert_eq!(view(&stored), Ok(vec![&high[..], &low[..]]));
    assert_eq!(view(&[]), Ok(vec![]));
    assert_eq!(view(&stored[..1000]), Err(1));
    assert_eq!(view(&[0; 512]), Err(3));
}
