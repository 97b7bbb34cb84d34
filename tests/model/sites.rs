//! Site codes (document 02, T-05) tried on the model: the bytes and the word of a code, the codes that are refused, and that every step
//! carries a code and none looks at it.

use crate::Action::{Deliver, Exit, Timeout};
use crate::Message::{Introduction, RemoveLeft, RemoveRight};
use crate::situations::{ran, table};
use crate::*;

/// These codes fall while the numbers rise; 12 has none.
const CODES: [(u32, u16); 4] = [(3, 9_999), (5, 1_234), (7, 256), (9, 1)];

/// The same stations with these codes.
fn coded(stations: &Table) -> Table {
    let mut coded = stations.clone();
    for (number, code) in CODES {
        if let Some(station) = coded.get_mut(&number) {
            station.site = Some(code);
        }
    }
    coded
}

/// 5 with left 3, this right and these messages, beside stations that name nobody.
fn five(right: u32, leaving: bool, bag: &[Message]) -> Table {
    table(&[
        (3, 0, 0, false, &[]),
        (5, 3, right, leaving, bag),
        (7, 0, 0, false, &[]),
        (9, 0, 0, false, &[]),
        (12, 0, 0, false, &[]),
    ])
}

/// 5 alone with a message of each kind and this number in bytes 18-19, the check word made less by as much.
fn alone(code: u16) -> Vec<u8> {
    let bag = [Introduction(5), RemoveLeft, RemoveRight];
    let mut block = write_table(&table(&[(5, 0, 0, true, &bag)]));
    let check = u16::from_le_bytes([block[510], block[511]]).wrapping_sub(code);
    block[18..20].copy_from_slice(&code.to_le_bytes());
    block[510..].copy_from_slice(&check.to_le_bytes());
    block
}

/// "It stands in bytes 18-19", and "at the end as one word, `@` with the number, or nothing for 0".
#[test]
fn read_written_and_printed() {
    for (code, stored, word) in [
        (0, [0, 0], ""),
        (1, [1, 0], " @1"),
        (255, [0xFF, 0], " @255"),
        (256, [0, 1], " @256"),
        (1_234, [0xD2, 0x04], " @1234"),
        (9_999, [0x0F, 0x27], " @9999"),
    ] {
        let block = alone(code);
        let stations = read_table(&block).expect("it is accepted");
        assert_eq!(block[18..20], stored);
        assert_eq!(stations[&5].site.unwrap_or(0), code);
        assert_eq!(write_table(&stations), block);
        let wanted = format!("answer 0 done 0 stations 1\n5 - - leave i5 l r{word}\n");
        assert_eq!(program(Some(&block), Some(&[])), wanted);
    }
    assert_eq!(read_table(&alone(0)).map(|t| t[&5].site), Ok(None));
}

/// "It refuses a code above 9,999 with 4": after 3, and before 6.
#[test]
fn refused_above_9_999() {
    for code in [10_000, 10_255, 32_768, 65_535] {
        let block = alone(code);
        assert_eq!((check(&block), run(&block, &[], 512).answer), (4, 4));
        let wanted = "answer 4 done 0 stations 0\n";
        assert_eq!(program(Some(&block), Some(&[])), wanted);
        assert_eq!(check(&[&block[..], &block[..]].concat()), 4);
        assert_eq!(check(&[&block[..], &[0; 512]].concat()), 3);
    }
}

/// Document 01's block of station 5 has the check word E7 FF; with site 1,234 it is less by as much, and no other byte differs.
#[test]
fn the_check_word() {
    let plain = table(&[(5, 0, 9, false, &[Introduction(7)])]);
    let (without, with) = (write_table(&plain), write_table(&coded(&plain)));
    assert_eq!([&without[18..20], &without[510..]], [[0, 0], [0xE7, 0xFF]]);
    assert_eq!([&with[18..20], &with[510..]], [[0xD2, 0x04], [0x15, 0xFB]]);
    let differ: Vec<usize> = (0..BLOCK).filter(|&at| with[at] != without[at]).collect();
    assert_eq!(differ, [18, 19, 510, 511]);
}

/// One step at 5 gives these lines among others, and all that it gives without codes.
fn carries(plain: &Table, action: Action, lines: &[&str]) {
    let (with, without) = (
        ran(&coded(plain), &[(5, action)]),
        ran(plain, &[(5, action)]),
    );
    let text = listing(&with);
    for wanted in lines {
        assert!(text.lines().any(|line| line == *wanted), "{wanted}: {text}");
    }
    let table = without.table.as_ref().map(coded);
    assert_eq!(with, Ran { table, ..without });
}

/// "Every step carries it unchanged": a station that acts, one whose neighbour is set or dropped, and those that receive.
#[test]
fn every_step_carries_it() {
    let sent = [
        "3 - - stay i5 @9999",
        "5 3 9 stay @1234",
        "9 - - stay i5 @1",
    ];
    carries(&five(9, false, &[]), Timeout, &sent);
    let sent = ["3 - - stay r @9999", "5 3 9 leave @1234", "9 - - stay l @1"];
    carries(&five(9, true, &[]), Timeout, &sent);
    let introduced = |right, q: u32, lines: &[&str]| {
        let before = five(right, false, &[Introduction(q)]);
        carries(&before, Deliver(Introduction(q)), lines);
    };
    introduced(9, 7, &["5 3 7 stay @1234", "7 - - stay i9 @256"]);
    introduced(9, 12, &["5 3 9 stay @1234", "9 - - stay i12 @1"]);
    introduced(0, 12, &["5 3 12 stay @1234", "12 - - stay"]);
    introduced(9, 5, &["5 3 9 stay @1234"]);
    let removed = |leaving, removal, lines: &[&str]| {
        carries(&five(9, leaving, &[removal]), Deliver(removal), lines);
    };
    let dropped = ["3 - - stay i5 @9999", "5 - 9 stay @1234"];
    removed(false, RemoveLeft, &dropped);
    removed(true, RemoveLeft, &["5 3 9 leave @1234"]);
    let dropped = ["5 3 - leave @1234", "9 - - stay i5 @1"];
    removed(true, RemoveRight, &dropped);
}

/// An exit takes its station's code along and no other; a table that is written after a refused step has them all.
#[test]
fn exits_and_refusals() {
    let left = [
        "3 - - stay i9 @9999",
        "7 - - stay @256",
        "9 - - stay i3 @1",
        "12 - - stay",
    ];
    carries(&five(9, true, &[]), Exit, &left);
    let held = ["answer 14 done 0 stations 5 bag", "5 3 9 leave r @1234"];
    carries(&five(9, true, &[RemoveRight]), Exit, &held);
    let staying = ["answer 13 done 0 stations 5", "5 3 9 stay @1234"];
    carries(&five(9, false, &[]), Exit, &staying);
}

/// "It plays no part in any order": a larger code on a smaller number is still written first, however the blocks are stored.
#[test]
fn no_part_in_the_order() {
    let rising = write_table(&coded(&five(9, false, &[Introduction(7)])));
    let heads = rising.chunks(BLOCK).map(|block| [block[4], block[18]]);
    let wanted = [[3, 0x0F], [5, 0xD2], [7, 0], [9, 1], [12, 0]];
    assert_eq!(heads.collect::<Vec<_>>(), wanted);
    let falling: Vec<&[u8]> = rising.chunks(BLOCK).rev().collect();
    let ran = run(&falling.concat(), &[], rising.len());
    assert_eq!((ran.answer, ran.written()), (0, rising));
}

/// It plays no part in any "step rule or NIDEC": what may happen next, who may leave and whether the table is in line.
#[test]
fn no_part_in_the_questions() {
    let line = table(&[
        (3, 0, 5, false, &[]),
        (5, 3, 9, false, &[Introduction(9)]),
        (9, 5, 0, false, &[]),
    ]);
    for plain in [line, five(9, true, &[]), five(7, false, &[RemoveLeft])] {
        let (with, without) = (write_table(&coded(&plain)), write_table(&plain));
        assert_eq!(allowed(&with), allowed(&without));
        assert_eq!(in_line(&with), in_line(&without));
        let asked = [12, 9, 7, 6, 5, 3];
        assert_eq!(roll_call(&with, &asked, 6), roll_call(&without, &asked, 6));
        for station in asked {
            assert_eq!(may_leave(&with, station), may_leave(&without, station));
        }
    }
}
