//! "What a step does at station p".
//!
//! A step is first worked out against the table as it stands, which changes nothing and may refuse, and is then carried out as
//! a whole. "A refused step changes nothing at all" therefore needs no undoing.

use crate::{Action, MOST_MESSAGES, Message, Reason, Station, Step, Table};

/// What a step comes to: station p as it is afterwards (None when its block goes), and who receives what.
#[derive(Clone, Debug, PartialEq, Eq)]
pub struct Effect {
    station: u32,
    after: Option<Station>,
    sent: Vec<(u32, Message)>,
}

/// The number of a refused step, and at 14 "the same reason" that the leave question gives (document 02, T-02).
#[derive(Clone, Copy, Debug, PartialEq, Eq)]
pub struct Refusal {
    pub number: u32,
    pub reason: Option<Reason>,
}

impl From<u32> for Refusal {
    fn from(number: u32) -> Refusal {
        Refusal {
            number,
            reason: None,
        }
    }
}

/// The number of messages in a station's bag, every copy counted.
pub fn copies(station: &Station) -> usize {
    station.bag.values().sum()
}

/// "\"Own bag not empty\", or the smallest station that still has the asked one as a neighbour or an introduction. The bag is looked at
/// first" (document 02, T-02). What p's own bag introduces is in that bag, so p is not its own holder.
pub fn held(table: &Table, p: u32) -> Option<Reason> {
    let names_p = |station: &Station| {
        station.left == Some(p)
            || station.right == Some(p)
            || station.bag.contains_key(&Message::Introduction(p))
    };
    if copies(&table[&p]) > 0 {
        return Some(Reason::OwnBag);
    }
    let holders = table.iter().filter(|&(&other, s)| other != p && names_p(s));
    let smallest = holders.map(|(&other, _)| other).min();
    smallest.map(Reason::HeldBy)
}

/// "NIDEC holds for p when p's bag is empty and no other station has p as a neighbour or as an introduction in its bag."
pub fn nidec(table: &Table, p: u32) -> bool {
    held(table, p).is_none()
}

/// What the step comes to, or its refusal. Of several refusals the one with the smallest number is given.
pub fn effect(table: &Table, step: Step) -> Result<Effect, Refusal> {
    let p = step.station;
    let Some(before) = table.get(&p) else {
        return Err(11.into());
    };
    let mut after = before.clone();
    let mut sent = Vec::new();
    let mut goes = false;
    match step.action {
        Action::Timeout => timeout(p, before, &mut sent),
        Action::Deliver(message) => {
            if !take_one(&mut after, message) {
                return Err(12.into());
            }
            match message {
                Message::Introduction(q) => introduction(p, q, &mut after, &mut sent),
                Message::RemoveLeft => remove_left(p, &mut after, &mut sent),
                Message::RemoveRight => remove_right(p, &mut after, &mut sent),
            }
        }
        Action::Exit => {
            exit(table, p, &mut sent)?;
            goes = true;
        }
    }
    // "A bag that must receive holds 32." No step sends to its own station and none sends two messages to one, so the bags as
    // they stand before the step decide.
    for (to, _) in &sent {
        if copies(&table[to]) == MOST_MESSAGES {
            return Err(15.into());
        }
    }
    Ok(Effect {
        station: p,
        after: if goes { None } else { Some(after) },
        sent,
    })
}

/// Carries out what was worked out against this same table.
pub fn apply(table: &mut Table, effect: Effect) {
    match effect.after {
        Some(station) => table.insert(effect.station, station),
        None => table.remove(&effect.station),
    };
    for (to, message) in effect.sent {
        let receiver = table.get_mut(&to).expect("a named station has a block");
        *receiver.bag.entry(message).or_insert(0) += 1;
    }
}

/// "One copy leaves p's bag"; false where there is none.
fn take_one(station: &mut Station, message: Message) -> bool {
    match station.bag.get_mut(&message) {
        None => false,
        Some(1) => station.bag.remove(&message).is_some(),
        Some(copies) => {
            *copies -= 1;
            true
        }
    }
}

/// "Exit: allowed for a leaving p for which NIDEC holds. With both neighbours, left is introduced to right and right to left." "The run's
/// refusal 14 carries the same reason" (document 02, T-02).
fn exit(table: &Table, p: u32, sent: &mut Vec<(u32, Message)>) -> Result<(), Refusal> {
    let station = &table[&p];
    if !station.leaving {
        return Err(13.into());
    }
    if let Some(reason) = held(table, p) {
        return Err(Refusal {
            number: 14,
            reason: Some(reason),
        });
    }
    if let (Some(left), Some(right)) = (station.left, station.right) {
        sent.push((right, Message::Introduction(left)));
        sent.push((left, Message::Introduction(right)));
    }
    Ok(())
}

/// "Timeout, staying: an introduction of p goes to left and to right, each where there is one." "Timeout, leaving: a
/// remove-right goes to left and a remove-left to right, each where there is one."
fn timeout(p: u32, station: &Station, sent: &mut Vec<(u32, Message)>) {
    let (to_left, to_right) = if station.leaving {
        (Message::RemoveRight, Message::RemoveLeft)
    } else {
        (Message::Introduction(p), Message::Introduction(p))
    };
    sent.extend(station.left.map(|left| (left, to_left)));
    sent.extend(station.right.map(|right| (right, to_right)));
}

/// "Deliver introduction of q", its copy being gone. "The left side is the mirror image": the neighbour on q's side is the one
/// that counts, and q may be nearer to p than it, be it, or be farther.
pub(crate) fn introduction(p: u32, q: u32, station: &mut Station, sent: &mut Vec<(u32, Message)>) {
    if q == p {
        return;
    }
    let side = if q > p {
        &mut station.right
    } else {
        &mut station.left
    };
    match *side {
        None => *side = Some(q),
        Some(old) if old == q => {}
        Some(old) if p.abs_diff(q) < p.abs_diff(old) => {
            sent.push((q, Message::Introduction(old)));
            *side = Some(q);
        }
        Some(old) => sent.push((old, Message::Introduction(q))),
    }
}

/// "Deliver remove-left: if p is staying and has a left, an introduction of p goes to left and left becomes none. A leaving p
/// does no more."
fn remove_left(p: u32, station: &mut Station, sent: &mut Vec<(u32, Message)>) {
    if station.leaving {
        return;
    }
    if let Some(left) = station.left.take() {
        sent.push((left, Message::Introduction(p)));
    }
}

/// "Deliver remove-right: if p has a right, staying or leaving, an introduction of p goes to right and right becomes none."
fn remove_right(p: u32, station: &mut Station, sent: &mut Vec<(u32, Message)>) {
    if let Some(right) = station.right.take() {
        sent.push((right, Message::Introduction(p)));
    }
}
