//! What holds a station (document 02, T-02) tried on the model: each reason, which of several is given, and what is printed.

use crate::Action::{Deliver, Exit, Timeout};
use crate::Message::{Introduction, RemoveLeft, RemoveRight};
use crate::Reason::{HeldBy, OwnBag};
use crate::situations::{kept, ran, table};
use crate::*;

/// 5 is leaving; 3, 7 and 9 have these neighbours on its side, and these messages.
fn around(bag: &[Message], right_of_3: u32, at_7: &[Message], left_of_9: u32) -> Table {
    table(&[
        (3, 0, right_of_3, false, &[]),
        (5, 3, 9, true, bag),
        (7, 0, 0, true, at_7),
        (9, left_of_9, 0, false, &[]),
    ])
}

/// "Or the smallest station that still has the asked one as a neighbour or an introduction."
#[test]
fn the_smallest_holder() {
    let introduced = [RemoveLeft, Introduction(9), Introduction(5)];
    kept(&around(&[], 5, &introduced, 5), 5, HeldBy(3));
    kept(&around(&[], 0, &introduced, 5), 5, HeldBy(7));
    kept(
        &around(&[], 0, &[RemoveLeft, Introduction(3)], 5),
        5,
        HeldBy(9),
    );
    kept(&around(&[], 7, &introduced, 0), 5, HeldBy(7));
}

/// "The bag is looked at first", whatever is in it; an introduction of itself is in its own bag.
#[test]
fn the_bag_first() {
    for message in [RemoveLeft, RemoveRight, Introduction(7), Introduction(5)] {
        kept(&around(&[message], 5, &[Introduction(5)], 5), 5, OwnBag);
        kept(&around(&[message], 0, &[], 0), 5, OwnBag);
    }
}

/// Removals in other bags, and what the station itself names, hold nobody.
#[test]
fn nothing_holds() {
    let free = around(&[], 7, &[RemoveLeft, RemoveRight, Introduction(3)], 7);
    assert_eq!(may_leave(&write_table(&free), 5), Ok(Leave::Yes));
    assert_eq!(ran(&free, &[(5, Exit)]).reason, None);
    let (absent, refused) = (may_leave(&write_table(&free), 6), may_leave(&[0], 5));
    assert_eq!((absent, refused), (Err(11), Err(1)));
}

/// "The run's refusal 14 carries the same reason": of the table as the steps before it have left it.
#[test]
fn after_some_steps() {
    let steps = [
        (5, Timeout),
        (3, Deliver(RemoveRight)),
        (5, Deliver(Introduction(3))),
    ];
    let start = around(&[], 5, &[], 5);
    for (done, reason) in [(0, HeldBy(3)), (2, OwnBag), (3, HeldBy(9))] {
        let mut list = steps[..done].to_vec();
        list.push((5, Exit));
        let ran = ran(&start, &list);
        assert_eq!((ran.answer, ran.reason, ran.done), (14, Some(reason), done));
    }
    assert_eq!(ran(&start, &steps).reason, None);
}

/// "The printed first line then ends in `bag`, or `held-by` and the station number."
#[test]
fn the_first_line() {
    let first = |start: &Table| {
        let text = listing(&ran(start, &[(5, Exit)]));
        text.lines().next().map(str::to_string)
    };
    let bag = around(&[RemoveLeft], 5, &[], 0);
    assert_eq!(
        first(&bag),
        Some("answer 14 done 0 stations 4 bag".to_string())
    );
    let held = table(&[(5, 0, 0, true, &[]), (999_999, 5, 0, false, &[])]);
    assert_eq!(
        first(&held),
        Some("answer 14 done 0 stations 2 held-by 999999".to_string())
    );
}
