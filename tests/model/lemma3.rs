//! The delivery of an introduction a third time, read from the proof of lemma 3 of the report (source 000) and from the page of algorithm SL, and from
//! nothing else: neither document 01 nor rules.rs has a part in it. The archive and rules.rs are compared with it.

use crate::{Message, Station};

/// Figure 1: "left : process ids less than p, -∞ if undefined".
const MINUS_INFINITY: i64 = i64::MIN;

/// Figure 1: "right : process ids greater than p, +∞ if undefined".
const PLUS_INFINITY: i64 = i64::MAX;

/// What the action introduce leaves in p's variables, and what it sends: the receiver, and the number introduced to it.
#[derive(Clone, Copy, Debug, PartialEq, Eq)]
struct Introduced {
    left: i64,
    right: i64,
    sent: Option<(i64, i64)>,
}

/// "If the variable contains ∞, the sending action is skipped" (the description of the algorithm, above Figure 1).
fn send(to: i64, introduced: i64) -> Option<(i64, i64)> {
    let infinite = |variable| variable == MINUS_INFINITY || variable == PLUS_INFINITY;
    if infinite(to) || infinite(introduced) {
        return None;
    }
    Some((to, introduced))
}

/// "The operation of introduce depends on the value of id": the sentences of the proof in their order.
fn introduce(p: i64, left: i64, right: i64, id: i64) -> Introduced {
    let sent = None;
    let before = Introduced { left, right, sent };
    // "If id = p, i.e. the message carries the same identifier as the receiving process, this message forms a self-loop link (p, p). This
    // link is not included in CC and the message receipt does not affect CC."
    if id == p {
        return before;
    }
    // "We now consider p < id. [...] If p < id < right, introduce sets right = id. Let variable right hold identifier q before the action
    // execution. This action then removes link (p, q) from CC. However, this action also sends message intro(q) to id."
    if p < id && id < right {
        let (q, right) = (right, id);
        let sent = send(id, q);
        return Introduced { left, right, sent };
    }
    // "If id = right, action introduce removes the message and does no further operations."
    if p < id && id == right {
        return before;
    }
    // "If id > right, action introduce forwards id to right [...]"
    if p < id && id > right {
        let sent = send(right, id);
        return Introduced { left, right, sent };
    }
    // "The case of id < p is similar." If left < id < p, introduce sets left = id, and sends intro(q) of the left before to id.
    if left < id && id < p {
        let (q, left) = (left, id);
        let sent = send(id, q);
        return Introduced { left, right, sent };
    }
    // If id = left, it removes the message and does no further operations.
    if id == left && id < p {
        return before;
    }
    // If id < left, it forwards id to left.
    if id < left && id < p {
        let sent = send(left, id);
        return Introduced { left, right, sent };
    }
    unreachable!("id is p, above p or below p")
}

/// The same for a station of a table, which has no neighbour where the text has ∞: its neighbours are set, and the message that is sent is
/// given with its receiver. Its bag is not looked at.
pub fn introduce_to(p: u32, station: &mut Station, id: u32) -> Option<(u32, Message)> {
    let left = station.left.map_or(MINUS_INFINITY, i64::from);
    let right = station.right.map_or(PLUS_INFINITY, i64::from);
    let after = introduce(p.into(), left, right, id.into());
    let number = |variable: i64| u32::try_from(variable).ok();
    station.left = number(after.left);
    station.right = number(after.right);
    let (to, introduced) = after.sent?;
    let finite = |variable| number(variable).expect("∞ is not sent");
    Some((finite(to), Message::Introduction(finite(introduced))))
}

#[cfg(test)]
mod tests {
    use super::*;
    use crate::rules::introduction;

    /// The introduction of a number, delivered to 5 with these variables, gives these variables and sends this.
    fn gives(before: (i64, i64), id: i64, after: (i64, i64), sent: Option<(i64, i64)>) {
        let (left, right) = after;
        let wanted = Introduced { left, right, sent };
        assert_eq!(introduce(5, before.0, before.1, id), wanted);
    }

    /// Situations 1 to 5 of document 01.
    #[test]
    fn oneself_and_the_right_side() {
        gives((3, 9), 5, (3, 9), None);
        gives((3, 9), 7, (3, 7), Some((7, 9)));
        gives((3, PLUS_INFINITY), 12, (3, 12), None);
        gives((3, 9), 9, (3, 9), None);
        gives((3, 9), 12, (3, 9), Some((9, 12)));
    }

    /// The same on the other side.
    #[test]
    fn the_left_side() {
        gives((2, 9), 3, (3, 9), Some((3, 2)));
        gives((MINUS_INFINITY, 9), 1, (1, 9), None);
        gives((2, 9), 2, (2, 9), None);
        gives((2, 9), 1, (2, 9), Some((2, 1)));
    }

    /// A station without neighbours, at the ends of the numbers too.
    #[test]
    fn no_neighbours() {
        let none = (MINUS_INFINITY, PLUS_INFINITY);
        gives(none, 5, none, None);
        gives(none, 1, (1, PLUS_INFINITY), None);
        gives(none, 999_999, (MINUS_INFINITY, 999_999), None);
    }

    /// None, and each of these numbers.
    fn sides(numbers: std::ops::Range<u32>) -> Vec<Option<u32>> {
        [None].into_iter().chain(numbers.map(Some)).collect()
    }

    /// The rule of rules.rs does what the text says: at every station of 1 to 6, with every left and right and none, and for every number.
    #[test]
    fn the_rule_of_the_model() {
        let mut compared = 0;
        for p in 1..7 {
            for left in sides(1..p) {
                for right in sides(p + 1..7) {
                    for id in 1..7 {
                        let mut station = Station::default();
                        (station.left, station.right) = (left, right);
                        let (mut told, mut sent) = (station.clone(), Vec::new());
                        introduction(p, id, &mut station, &mut sent);
                        let said = introduce_to(p, &mut told, id);
                        let case = format!("{id} to {p} with {left:?} and {right:?}");
                        assert_eq!((station, sent), (told, Vec::from_iter(said)), "{case}");
                        compared += 1;
                    }
                }
            }
        }
        assert_eq!(compared, 336);
    }
}
