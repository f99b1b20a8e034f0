//! Times the port's searches within a limit beside its full search, and a load written beside its file read (crate timetable). The Rust
//! has neither.
use std::hint::black_box;
use std::time::Instant;

#[allow(dead_code, reason = "speed's tables")]
#[path = "speed/tables.rs"]
mod tables;

#[link(name = "timetable", kind = "static")]
unsafe extern "C" {
    fn timetable_read(file: *const u8, length: usize, list: &mut List) -> u8;
    fn timetable_read_within(file: *const u8, length: usize, limit: u64, list: &mut List) -> u8;
    fn timetable_write(file: *const u8, length: usize, out: *mut u8, room: usize, written: &mut usize) -> u8;
}
/// A list as it is handed over: the start, the joins tested, then what isn't read here: eight bytes, and 64 journeys of eight bytes and
/// three rides of 14.
#[repr(C)]
struct List {
    now: i64,
    joins: u64,
    rest: [u64; (8 + 64 * (8 + 3 * 14)) / 8],
}

fn list() -> List {
    List { now: 0, joins: 0, rest: [0; 401] }
}
fn read(bytes: &[u8], list: &mut List) {
    // SAFETY: the pointer and the length are those of a slice, which is only read; the list has room.
    let answer = unsafe { timetable_read(bytes.as_ptr(), bytes.len(), list) };
    assert!(answer == 0, "refused {answer}");
}
fn read_within(bytes: &[u8], limit: u64, list: &mut List) {
    // SAFETY: as above.
    let answer = unsafe { timetable_read_within(bytes.as_ptr(), bytes.len(), limit, list) };
    assert!(answer == 0, "refused {answer}");
}
fn write(bytes: &[u8], out: &mut [u8]) -> usize {
    let mut written = 0;
    // SAFETY: as above; what is written is in the second slice.
    let answer = unsafe { timetable_write(bytes.as_ptr(), bytes.len(), out.as_mut_ptr(), out.len(), &mut written) };
    assert!(answer == 0, "refused {answer}");
    written
}

/// Medians in microseconds of works done in turns.
fn medians<const N: usize>(mut works: [&mut dyn FnMut(); N]) -> [f64; N] {
    const ROUNDS: usize = 201;
    let mut times = [const { Vec::new() }; N];
    for _ in 0..ROUNDS {
        for (work, times) in works.iter_mut().zip(&mut times) {
            let start = Instant::now();
            work();
            times.push(start.elapsed().as_nanos());
        }
    }
    times.map(|mut times| {
        times.sort_unstable();
        times[ROUNDS / 2] as f64 * 1e-3
    })
}

const LIMITS: [u64; 4] = [0, 1_000, 1_000_000, u64::MAX];

/// Each search less the reading of its file.
fn searches(name: &str, searched: &[u8]) {
    let bytes = tables::unsearched(searched);
    let mut lists = [(); 7].map(|()| list());
    let [tested, a, b, c, d, e, f] = &mut lists;
    read_within(&bytes, LIMITS[3], tested);
    let [filled, full, none, thousand, million, all] = medians([
        &mut || read(black_box(&bytes), a),
        &mut || read(black_box(searched), b),
        &mut || read_within(black_box(&bytes), LIMITS[0], c),
        &mut || read_within(black_box(&bytes), LIMITS[1], d),
        &mut || read_within(black_box(&bytes), LIMITS[2], e),
        &mut || read_within(black_box(&bytes), LIMITS[3], f),
    ]);
    let joins = tested.joins;
    let cells = [full, none, thousand, million, all].map(|time| format!("{:.1}", time - filled));
    println!("| {name} | {joins} | {} | {:.2} |", cells.join(" | "), (all - filled) / (full - filled));
}
/// A load without a search: its file read, which fills a list too, and its file read and written.
fn writes(name: &str, searched: &[u8]) {
    let bytes = tables::unsearched(searched);
    let (mut a, mut out) = (list(), vec![0; 1 << 20]);
    let written = write(&bytes, &mut out);
    let mut again = || _ = black_box(write(black_box(&bytes), &mut out));
    let [filled, both] = medians([&mut || read(black_box(&bytes), &mut a), &mut again]);
    println!("| {name} | {} | {filled:.1} | {both:.1} | {written} |", bytes.len());
}

fn main() {
    let files: Vec<_> = std::env::args()
        .skip(1)
        .map(|path| (path.clone(), std::fs::read(&path).unwrap_or_else(|e| panic!("{path}: {e}"))))
        .map(|(path, bytes)| (path.rsplit('/').next().unwrap_or(&path).trim_end_matches(".load").to_string(), bytes))
        .collect();
    println!(
        "| search, us, medians | joins | full | within 0 | 1,000 | 1,000,000 | all | all to full |\n|---|---|---|---|---|---|---|---|"
    );
    files.iter().filter(|(_, bytes)| tables::transfers(bytes) < 2).for_each(|(name, bytes)| searches(name, bytes));
    println!("\n| load, us, medians | bytes | read | read and written | bytes |\n|---|---|---|---|---|");
    writes("128 stops, 128 rules, 512 calls", &tables::full());
    files.iter().for_each(|(name, bytes)| writes(name, bytes));
}
