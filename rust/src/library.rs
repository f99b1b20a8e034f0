//! The library's functions and structs, as include/timetable.h declares them.
use crate::list::{Journey, List};

/// A connection as the library reads it.
#[repr(C)]
#[derive(Clone, Copy, Debug, Default)]
pub struct Leg {
    pub board: u32,
    pub alight: u32,
    pub trip: u16,
    pub day: u8,
}
#[repr(C)]
#[derive(Clone, Copy, Debug, Default)]
pub struct Connection {
    pub leg: [Leg; 3],
    pub origin: u8,
    pub target: u8,
    pub rides: u8,
}
#[repr(C)]
#[derive(Clone, Copy, Debug, Default)]
pub struct Verdict {
    pub a: u32,
    pub b: u32,
    pub c: u32,
    pub kind: u8,
    pub cause: u8,
    pub at: u8,
}
#[repr(C)]
#[derive(Clone, Copy, Debug, Default, PartialEq, Eq, Hash)]
pub struct Part {
    pub window: u16,
    pub refusal: u8,
    pub share: u8,
    pub present: bool,
}
#[repr(C)]
#[derive(Clone, Copy, Debug, Default, PartialEq, Eq, Hash)]
pub struct Display {
    pub part: [Part; 4],
    pub refusal: u8,
}

// As in the header.
const _: () = {
    assert!(size_of::<crate::list::Ride>() == 14 && size_of::<Journey>() == 50 && size_of::<List>() == 3224);
    assert!(size_of::<Leg>() == 12 && size_of::<Connection>() == 40 && size_of::<Verdict>() == 16);
    assert!(size_of::<Part>() == 6 && size_of::<Display>() == 26);
};

/// What a query answers.
pub const FOUND: u8 = 1;
pub const NO_LIST: u8 = 2;
/// What `timetable_append` answers of a call outside the window.
pub const OUTSIDE: u8 = 255;

#[rustfmt::skip]
unsafe extern "C" {
    pub safe fn timetable_version() -> u32;
    pub fn timetable_read(file: *const u8, length: usize, list: &mut List) -> u8;
    pub fn timetable_read_within(file: *const u8, length: usize, limit: u64, list: &mut List) -> u8;
    pub safe fn timetable_best(list: &List, second: i64, journey: &mut Journey) -> u8;
    pub safe fn timetable_next_after(list: &List, second: i64, missed: &Journey, journey: &mut Journey) -> u8;
    pub fn timetable_judge(file: *const u8, length: usize, connection: &Connection, verdict: &mut Verdict) -> u8;
    pub fn timetable_write(file: *const u8, length: usize, out: *mut u8, room: usize, written: &mut usize) -> u8;
    pub fn timetable_append(file: *mut u8, room: usize, length: &mut usize, record: *const u8, record_length: usize) -> u8;
    pub fn timetable_deal(lists: *const List, count: usize, numbers: *const u8, number_count: usize, display: &mut Display) -> u8;
    pub safe fn timetable_shown_best(list: &List, part: &Part, second: i64, journey: &mut Journey) -> u8;
    pub safe fn timetable_shown_next(
        list: &List, part: &Part, second: i64, missed: &Journey, journey: &mut Journey,
    ) -> u8;
}
