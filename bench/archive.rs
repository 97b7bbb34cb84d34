//! The archive through its C interface (include/station_line.h).

use crate::tuned::{Leave, Ran};

#[repr(C)]
#[derive(Clone, Copy)]
struct Filled {
    answer: u32,
    filled: u32,
}

#[repr(C)]
#[derive(Clone, Copy)]
struct Told {
    answer: u32,
    yes: u32,
}

unsafe extern "C" {
    fn station_line_check(table: *const u8, table_len: usize) -> u32;
    fn station_line_run(
        table: *const u8,
        table_len: usize,
        steps: *const u8,
        steps_len: usize,
        room: *mut u8,
        room_len: usize,
    ) -> Ran;
    fn station_line_allowed(
        table: *const u8,
        table_len: usize,
        room: *mut u8,
        room_len: usize,
    ) -> Filled;
    fn station_line_may_leave(table: *const u8, table_len: usize, station: u32) -> Leave;
    fn station_line_roll_call(
        table: *const u8,
        table_len: usize,
        stations: *const u32,
        stations_len: usize,
        records: *mut Leave,
        records_len: usize,
    ) -> Filled;
    fn station_line_in_line(table: *const u8, table_len: usize) -> Told;
}

// Each pointer below is that of a slice, valid for its length, and the room is lent for writing: what the header asks for.

pub fn check(table: &[u8]) -> u32 {
    unsafe { station_line_check(table.as_ptr(), table.len()) }
}

pub fn run(table: &[u8], steps: &[u8], room: &mut [u8]) -> Ran {
    unsafe {
        station_line_run(
            table.as_ptr(),
            table.len(),
            steps.as_ptr(),
            steps.len(),
            room.as_mut_ptr(),
            room.len(),
        )
    }
}

impl Filled {
    /// What is filled, or the number of a refusal, which fills nothing.
    fn count(self) -> Result<usize, u32> {
        match self.answer {
            0 => Ok(self.filled as usize),
            number => {
                assert_eq!(self.filled, 0);
                Err(number)
            }
        }
    }
}

pub fn allowed(table: &[u8], room: &mut [u8]) -> Result<usize, u32> {
    let filled =
        unsafe { station_line_allowed(table.as_ptr(), table.len(), room.as_mut_ptr(), room.len()) };
    filled.count()
}

pub fn roll_call(table: &[u8], stations: &[u32], records: &mut [Leave]) -> Result<usize, u32> {
    let filled = unsafe {
        station_line_roll_call(
            table.as_ptr(),
            table.len(),
            stations.as_ptr(),
            stations.len(),
            records.as_mut_ptr(),
            records.len(),
        )
    };
    filled.count()
}

/// The reason and the holder, or the number of a refusal.
pub fn may_leave(table: &[u8], station: u32) -> Result<(u32, u32), u32> {
    let leave = unsafe { station_line_may_leave(table.as_ptr(), table.len(), station) };
    match leave.answer {
        0 => Ok((leave.reason, leave.holder)),
        number => {
            assert_eq!((leave.reason, leave.holder), (0, 0));
            Err(number)
        }
    }
}

pub fn in_line(table: &[u8]) -> Result<bool, u32> {
    let told = unsafe { station_line_in_line(table.as_ptr(), table.len()) };
    match told.answer {
        0 => Ok(told.yes == 1),
        number => Err(number),
    }
}
