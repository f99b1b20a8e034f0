//! The port's side: the static libraries of crates load_c and steps_c.
use program::generate::writer::Call;
use std::hint::black_box;

// A slice of the port's is a pointer and a length.
#[link(name = "load_c", kind = "static")]
unsafe extern "C" {
    fn load_lines(bytes: *const u8, len: usize, out: &mut [u8; 4096]) -> usize;
    fn load_best(bytes: *const u8, len: usize) -> u64;
    fn load_searches(bytes: *const u8, len: usize, times: u16) -> u64;
    fn load_alterations(
        bytes: *const u8,
        len: usize,
        adds: bool,
        trip: u16,
        sequence: u32,
        stop: u16,
        second: u32,
        times: u16,
    ) -> u64;
}
#[link(name = "steps_c", kind = "static")]
unsafe extern "C" {
    safe fn load_steps(stops: u8, rules: u8, calls: u16) -> usize;
}

/// What is printed of a load file: a line for each kept journey, then horizon and limits; or the refusal.
pub fn lines(bytes: &[u8]) -> String {
    let mut out = [0; 4096];
    // SAFETY: the pointer and the length are those of a slice, which is only read.
    let n = unsafe { load_lines(bytes.as_ptr(), bytes.len(), &mut out) };
    String::from_utf8_lossy(&out[..n]).into_owned()
}
/// A file read whole, searched where it says so, and best asked at second 0: its leave and its arrival.
pub fn best(bytes: &[u8]) -> Option<(u16, u16)> {
    // SAFETY: as above.
    let times = unsafe { load_best(bytes.as_ptr(), bytes.len()) };
    (times < 1 << 32).then_some(((times >> 16) as u16, times as u16))
}
/// A file without a search read, then searched so many times.
pub fn searches(bytes: &[u8], times: u16) {
    // SAFETY: as above.
    black_box(unsafe { load_searches(bytes.as_ptr(), bytes.len(), times) });
}
/// A file read, then so many times a call of day 0 added to its load, or the call of that key withdrawn: the sum of the horizons.
pub fn alterations(bytes: &[u8], adds: bool, call: &Call, times: u16) -> u64 {
    let second = call.arrival.expect("a time");
    // SAFETY: as above.
    unsafe { load_alterations(bytes.as_ptr(), bytes.len(), adds, call.trip, call.sequence, call.stop, second, times) }
}
/// A load opened, and so many stops, rules and calls handed to it one by one: how many calls it then holds.
pub fn steps(stops: u8, rules: u8, calls: u16) -> usize {
    load_steps(black_box(stops), rules, calls)
}
