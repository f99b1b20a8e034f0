//! Both sides timed in turns.
use crate::{port, published, tables};
use program::generate::writer::Call;
use std::hint::black_box;

/// What the rounds of one side took, sorted.
pub struct Times(Vec<f64>);
impl Times {
    fn of(mut seconds: Vec<f64>) -> Self {
        seconds.sort_unstable_by(f64::total_cmp);
        Self(seconds)
    }
    pub fn least(&self) -> f64 {
        self.0[0]
    }
    pub fn median(&self) -> f64 {
        self.0[self.0.len() / 2]
    }
    pub fn quartiles(&self) -> [f64; 2] {
        let last = self.0.len() - 1;
        [self.0[last / 4], self.0[last - last / 4]]
    }
    pub fn rounds(&self) -> usize {
        self.0.len()
    }
}

/// The thread's processor time in seconds, which leaves out what other processes take.
fn now() -> f64 {
    #[repr(C)]
    struct Timespec {
        seconds: i64,
        nanoseconds: i64,
    }
    unsafe extern "C" {
        safe fn clock_gettime(clock: i32, time: &mut Timespec) -> i32;
    }
    const THREAD: i32 = 3;
    let mut time = Timespec { seconds: 0, nanoseconds: 0 };
    assert!(clock_gettime(THREAD, &mut time) == 0, "a processor clock");
    time.seconds as f64 + time.nanoseconds as f64 * 1e-9
}
fn timed(work: impl FnOnce()) -> f64 {
    let start = now();
    work();
    now() - start
}
pub fn least(times: usize, mut work: impl FnMut()) -> f64 {
    (0..times).map(|_| timed(&mut work)).fold(f64::INFINITY, f64::min)
}
/// The port's and the Rust's times, a round of one after a round of the other: about half a second each, at least 5 rounds and at
/// most 1001.
fn in_turns(mut sides: [&mut dyn FnMut() -> f64; 2]) -> [Times; 2] {
    let once = sides.iter_mut().map(|side| timed(|| _ = black_box(side()))).fold(1e-9, f64::max);
    let rounds = ((0.5 / once) as usize).clamp(5, 1001);
    let mut seconds = [Vec::new(), Vec::new()];
    for _ in 0..rounds {
        for (side, seconds) in sides.iter_mut().zip(&mut seconds) {
            seconds.push(side());
        }
    }
    seconds.map(Times::of)
}

/// From the file's bytes to the best journey at second 0, of a file with a search or without.
pub fn loads(bytes: &[u8]) -> [Times; 2] {
    let mut port = || timed(|| _ = black_box(port::best(bytes)));
    let mut published = || timed(|| _ = black_box(published::best(bytes)));
    in_turns([&mut port, &mut published])
}
/// The port's side of it alone.
pub fn port_loads(bytes: &[u8]) -> Times {
    let mut port = || timed(|| _ = black_box(port::best(bytes)));
    let mut none = || 0.0;
    let [times, _] = in_turns([&mut port, &mut none]);
    times
}
/// The search alone: of each side the difference between what does it many times and the same without it. On the port's side that
/// is a file read, so there are enough searches in a round to outweigh the reading, and for two milliseconds; on the Rust's enough for
/// one.
pub fn searches(searched: &[u8]) -> [Times; 2] {
    let bytes = tables::unsearched(searched);
    let mut port = port_search(&bytes);
    let mut filled = published::load(&bytes);
    let mut turns = |times, searched| timed(|| filled.searches(times, searched).expect("an accepted search"));
    let times = (1e-3 / turns(1, true)).ceil().clamp(1.0, 2000.0) as usize;
    let mut published = || {
        let put_back = turns(times, false);
        (turns(times, true) - put_back) / times as f64
    };
    in_turns([&mut port, &mut published])
}
/// The port's side of it alone, of a file without a search.
fn port_search(bytes: &[u8]) -> impl FnMut() -> f64 {
    let read = least(5, || port::searches(bytes, 0));
    let enough = |one: f64| ((4.0 * read).max(2e-3) / one.max(1e-6)).ceil().clamp(1.0, 2000.0) as u16;
    let some = enough(least(3, || port::searches(bytes, 1)) - read);
    let times = enough((least(3, || port::searches(bytes, some)) - read) / f64::from(some));
    move || {
        let read = timed(|| port::searches(bytes, 0));
        (timed(|| port::searches(bytes, times)) - read) / f64::from(times)
    }
}
/// The searches of some files by the port, a round of one after a round of the other.
pub fn port_searches<const N: usize>(searched: [&[u8]; N]) -> [Times; N] {
    let files = searched.map(tables::unsearched);
    let mut sides = files.each_ref().map(|bytes| port_search(bytes));
    let mut seconds = [const { Vec::new() }; N];
    for _ in 0..101 {
        for (side, seconds) in sides.iter_mut().zip(&mut seconds) {
            seconds.push(side());
        }
    }
    seconds.map(Times::of)
}
/// A call withdrawn from the load of a file, or added to it: the difference between what does it many times and the same without it.
pub fn altered(bytes: &[u8], adds: bool, call: &Call) -> Times {
    let times = 64;
    let horizon = port::alterations(bytes, adds, call, 1);
    assert!(port::alterations(bytes, adds, call, times) == u64::from(times) * horizon, "each turn the same");
    let turns = |times| timed(|| _ = black_box(port::alterations(bytes, adds, call, black_box(times))));
    Times::of((0..301).map(|_| (turns(times) - turns(0)) / f64::from(times)).collect())
}
/// Stops, rules and calls handed to the port's load one by one: a step of each kind, and all of them with the opening.
pub fn one_by_one() -> [Times; 4] {
    let (stops, rules, calls) = (128, 128, 512);
    assert!(port::steps(stops, rules, calls) == usize::from(calls), "every call taken");
    let mut seconds = [const { Vec::new() }; 4];
    for _ in 0..1001 {
        let time = |rules, calls| timed(|| _ = black_box(port::steps(stops, rules, calls)));
        let opened = timed(|| _ = black_box(port::steps(0, 0, 0)));
        let [with_stops, with_rules, all] = [time(0, 0), time(rules, 0), time(rules, calls)];
        seconds[0].push((with_stops - opened) / f64::from(stops));
        seconds[1].push((with_rules - with_stops) / f64::from(rules));
        seconds[2].push((all - with_rules) / f64::from(calls));
        seconds[3].push(all);
    }
    seconds.map(Times::of)
}
