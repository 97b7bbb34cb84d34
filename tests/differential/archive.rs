//! The archive through its C interface (include/station_line.h), each call on memory with guard bytes around it.

#[repr(C)]
#[derive(Clone, Copy, Debug, PartialEq, Eq)]
pub struct Ran {
    pub answer: u32,
    pub done: u32,
    pub stations: u32,
    pub reason: u32,
    pub holder: u32,
}

#[repr(C)]
#[derive(Clone, Copy, Debug, PartialEq, Eq)]
pub struct Filled {
    pub answer: u32,
    pub filled: u32,
}

#[repr(C)]
#[derive(Clone, Copy, Debug, PartialEq, Eq)]
pub struct Leave {
    pub answer: u32,
    pub reason: u32,
    pub holder: u32,
}

impl Leave {
    /// Its 12 bytes, as they lie in a record.
    pub fn bytes(self) -> Vec<u8> {
        let fields = [self.answer, self.reason, self.holder];
        fields.iter().flat_map(|n| n.to_le_bytes()).collect()
    }
}

#[repr(C)]
#[derive(Clone, Copy, Debug, PartialEq, Eq)]
pub struct Told {
    pub answer: u32,
    pub yes: u32,
}

#[repr(C)]
#[derive(Clone, Copy, Debug, PartialEq, Eq)]
pub struct Viewed {
    pub answer: u32,
    pub has_block: u32,
    pub offset: usize,
    pub next: usize,
}

unsafe extern "C" {
    fn station_line_check(table: *const u8, table_len: usize) -> u32;
    fn station_line_run(
        table: *const u8,
        table_len: usize,
        steps: *const u8,
        steps_len: usize,
        room: *mut u8,
        room_len: usize,
    ) -> Ran;
    fn station_line_allowed(
        table: *const u8,
        table_len: usize,
        room: *mut u8,
        room_len: usize,
    ) -> Filled;
    fn station_line_may_leave(table: *const u8, table_len: usize, station: u32) -> Leave;
    fn station_line_roll_call(
        table: *const u8,
        table_len: usize,
        stations: *const u32,
        stations_len: usize,
        records: *mut Leave,
        records_len: usize,
    ) -> Filled;
    fn station_line_in_line(table: *const u8, table_len: usize) -> Told;
    fn station_line_view(table: *const u8, table_len: usize, position: usize) -> Viewed;
}

/// What an untouched byte of the room or of its surroundings holds.
pub const PATTERN: u8 = 0xA5;
const GUARD: usize = 64;

/// Bytes lent to the archive, at any alignment and with guard bytes before and after.
pub struct Lent {
    all: Vec<u8>,
    start: usize,
    len: usize,
    null: bool,
}

impl Lent {
    /// A copy of these bytes, `shift` bytes (below 64) past an aligned place. Of no bytes a null pointer may be handed over.
    pub fn copy(bytes: &[u8], shift: usize, null_if_empty: bool) -> Lent {
        let mut all = vec![PATTERN; shift + GUARD + bytes.len() + GUARD];
        all[shift + GUARD..][..bytes.len()].copy_from_slice(bytes);
        Lent {
            all,
            start: shift + GUARD,
            len: bytes.len(),
            null: null_if_empty && bytes.is_empty(),
        }
    }

    /// A room of this length, full of the pattern.
    pub fn room(len: usize, shift: usize, null_if_empty: bool) -> Lent {
        Lent {
            all: vec![PATTERN; shift + GUARD + len + GUARD],
            start: shift + GUARD,
            len,
            null: null_if_empty && len == 0,
        }
    }

    pub fn bytes(&self) -> &[u8] {
        &self.all[self.start..self.start + self.len]
    }

    /// Whether every byte around the lent ones is still as it was.
    pub fn guards_whole(&self) -> bool {
        let (before, after) = (&self.all[..self.start], &self.all[self.start + self.len..]);
        all_pattern(before) && all_pattern(after)
    }

    fn pointer(&self) -> *const u8 {
        if self.null {
            std::ptr::null()
        } else {
            self.bytes().as_ptr()
        }
    }

    fn pointer_mut(&mut self) -> *mut u8 {
        if self.null {
            std::ptr::null_mut()
        } else {
            self.all[self.start..].as_mut_ptr()
        }
    }
}

pub fn all_pattern(bytes: &[u8]) -> bool {
    bytes.iter().all(|&byte| byte == PATTERN)
}

// Each pointer below is valid for the length handed over with it, and the room is memory of its own: what the header asks for.

pub fn check(table: &Lent) -> u32 {
    unsafe { station_line_check(table.pointer(), table.len) }
}

pub fn run(table: &Lent, steps: &Lent, room: &mut Lent) -> Ran {
    let room_len = room.len;
    unsafe {
        station_line_run(
            table.pointer(),
            table.len,
            steps.pointer(),
            steps.len,
            room.pointer_mut(),
            room_len,
        )
    }
}

pub fn allowed(table: &Lent, room: &mut Lent) -> Filled {
    let room_len = room.len;
    unsafe { station_line_allowed(table.pointer(), table.len, room.pointer_mut(), room_len) }
}

pub fn may_leave(table: &Lent, station: u32) -> Leave {
    unsafe { station_line_may_leave(table.pointer(), table.len, station) }
}

/// The numbers and the records lie as bytes in what is lent, at a place that is a multiple of four.
pub fn roll_call(table: &Lent, stations: &Lent, records: &mut Lent) -> Filled {
    let records_len = records.len / size_of::<Leave>();
    let numbers = stations.pointer().cast::<u32>();
    let lent = records.pointer_mut().cast::<Leave>();
    assert!(numbers.is_aligned() && lent.is_aligned());
    unsafe {
        station_line_roll_call(
            table.pointer(),
            table.len,
            numbers,
            stations.len / size_of::<u32>(),
            lent,
            records_len,
        )
    }
}

pub fn in_line(table: &Lent) -> Told {
    unsafe { station_line_in_line(table.pointer(), table.len) }
}

pub fn view(table: &Lent, position: usize) -> Viewed {
    unsafe { station_line_view(table.pointer(), table.len, position) }
}

/// A run with a room of just the table's length: its numbers and the bytes written. For comparing two receivers.
pub fn receive(table: &[u8], steps: &[u8]) -> (Ran, Vec<u8>) {
    let mut room = Lent::room(table.len(), 0, false);
    let ran = run(
        &Lent::copy(table, 0, false),
        &Lent::copy(steps, 0, false),
        &mut room,
    );
    let written = room.bytes()[..512 * ran.stations as usize].to_vec();
    (ran, written)
}
