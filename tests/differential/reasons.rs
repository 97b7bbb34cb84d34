//! The reasons of the model (document 02, T-02) in the two numbers of include/station_line.h, reason and holder.

use model::{Leave, Reason};

pub const NO_REASON: u32 = 0;
pub const MAY_LEAVE: u32 = 1;
pub const OWN_BAG: u32 = 2;
pub const HELD_BY: u32 = 3;

fn why(reason: Reason) -> (u32, u32) {
    match reason {
        Reason::OwnBag => (OWN_BAG, 0),
        Reason::HeldBy(holder) => (HELD_BY, holder),
    }
}

/// Of a run, which has a reason at 14 alone.
pub fn of_run(reason: Option<Reason>) -> (u32, u32) {
    reason.map_or((NO_REASON, 0), why)
}

/// Of the leave question at answer 0.
pub fn of_leave(leave: Leave) -> (u32, u32) {
    match leave {
        Leave::Yes => (MAY_LEAVE, 0),
        Leave::No(reason) => why(reason),
    }
}
