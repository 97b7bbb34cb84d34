//! The roll call (document 02, T-03) tried on the model: what is counted, each record, the order of the refusals.

use crate::Message::{Introduction, RemoveLeft, RemoveRight};
use crate::Reason::{HeldBy, OwnBag};
use crate::situations::table;
use crate::*;

const YES: Result<Leave, u32> = Ok(Leave::Yes);
const BAG: Result<Leave, u32> = Ok(Leave::No(OwnBag));
const ABSENT: Result<Leave, u32> = Err(11);

fn held_by(holder: u32) -> Result<Leave, u32> {
    Ok(Leave::No(HeldBy(holder)))
}

/// 3 and 9 have 5 as a neighbour; 7 has two introductions of 5, and one of itself; nobody else names 7 or 12.
fn evening() -> Table {
    let (five, seven) = (Introduction(5), Introduction(7));
    table(&[
        (3, 0, 5, false, &[]),
        (5, 3, 9, true, &[]),
        (7, 0, 0, false, &[five, seven, five, RemoveLeft]),
        (9, 5, 0, false, &[]),
        (12, 9, 0, true, &[]),
    ])
}

/// "Mentions are counted once from the table": every copy counts, and the own bag does not mention its station.
#[test]
fn every_copy_and_not_the_own_bag() {
    let mentions = mentions(&evening());
    let found = |station| mentions.get(&station).map(|m| (m.times, m.smallest));
    assert_eq!(found(5), Some((4, 3)));
    assert_eq!(found(3), Some((1, 5)));
    assert_eq!(found(9), Some((2, 5)));
    assert_eq!((found(7), found(12), found(4)), (None, None, None));
}

/// "One record per question, and equals asking one by one, in that order, repeats included."
#[test]
fn in_the_order_of_the_questions() {
    let bytes = write_table(&evening());
    let questions = [12, 5, 4, 7, 5, 0, 9, 3, u32::MAX, 1_000_000, 12];
    let records = roll_call(&bytes, &questions, questions.len()).expect("it is accepted");
    let by_five = held_by(5);
    let first = [YES, held_by(3), ABSENT, BAG, held_by(3), ABSENT];
    let rest = [by_five, by_five, ABSENT, ABSENT, YES];
    assert_eq!(records, [&first[..], &rest[..]].concat());
    for (&asked, &record) in questions.iter().zip(&records) {
        assert_eq!(record, may_leave(&bytes, asked));
    }
}

/// A removal mentions nobody, and no station is held by what it names itself.
#[test]
fn nobody_is_mentioned() {
    let free = table(&[(4, 0, 8, true, &[]), (8, 0, 0, false, &[RemoveRight])]);
    let bytes = write_table(&free);
    assert_eq!(roll_call(&bytes, &[8, 4], 2), Ok(vec![BAG, YES]));
    assert_eq!(roll_call(&bytes, &[], 0), Ok(Vec::new()));
    assert_eq!(roll_call(&[], &[8], 1), Ok(vec![ABSENT]));
    assert_eq!(roll_call(&[], &[], 0), Ok(Vec::new()));
}

/// "It refuses with 1 to 7, then 17 for more than 64 questions, then 9 for a list shorter than the questions."
#[test]
fn the_order_of_the_refusals() {
    let bytes = write_table(&evening());
    let many = [5; 65];
    assert_eq!(roll_call(&[0], &many, 0), Err(1));
    assert_eq!(roll_call(&bytes[1..], &[], 0), Err(1));
    assert_eq!(roll_call(&bytes[512..], &many, 0), Err(7));
    assert_eq!(roll_call(&bytes, &many, 0), Err(17));
    assert_eq!(roll_call(&bytes, &many, 65), Err(17));
    assert_eq!(roll_call(&bytes, &many[1..], 63), Err(9));
    assert_eq!(roll_call(&bytes, &[5], 0), Err(9));
    let all = roll_call(&bytes, &many[1..], 70).expect("64 are answered");
    assert_eq!(all, vec![held_by(3); 64]);
}
