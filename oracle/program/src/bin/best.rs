//! Times best over a list of 64 journeys in request 09's order: the port's first that leaves in time, its full read (both of crate
//! lent_c, which makes the 64 journeys anew in each call), and the published `Cache::best`.
use display::journey::Path;
use display::journey::harness::Lent;
use std::hint::black_box;
use std::time::Instant;

#[rustfmt::skip]
#[link(name = "lent_c", kind = "static")]
unsafe extern "C" {
    safe fn best_over_numbers(
        leaves: &[u16; 64], arrivals: &[u16; 64], rides: &[u8; 64], walks: &[u8; 64],
        count: usize, horizon: u16, second: i64, answer: &mut [u16; 5],
    );
    safe fn first_numbers(
        leaves: &[u16; 64], arrivals: &[u16; 64], rides: &[u8; 64], walks: &[u8; 64],
        count: usize, horizon: u16, second: i64, answer: &mut [u16; 5],
    );
}

const HORIZON: u16 = 21600;
const CALLS: usize = 256;

/// 64 unbeaten journeys: each arrives and leaves 60 seconds after the one before, so the one asked for by its leave is the first in time.
struct List {
    leaves: [u16; 64],
    arrivals: [u16; 64],
    rides: [u8; 64],
    walks: [u8; 64],
    lent: Lent,
}
impl List {
    fn new() -> Self {
        let leaves: [u16; 64] = std::array::from_fn(|i| 60 * (i as u16 + 1));
        let arrivals = leaves.map(|leave| leave + 900);
        let path = |i: usize| Path { leave: leaves[i], arrival: arrivals[i], len: 1, walk: 5, ..Path::default() };
        let paths: Vec<Path> = (0..64).map(path).collect();
        Self { leaves, arrivals, rides: [1; 64], walks: [5; 64], lent: Lent::new(&paths, HORIZON) }
    }
    fn first(&self, second: i64) -> u16 {
        let mut answer = [0; 5];
        first_numbers(&self.leaves, &self.arrivals, &self.rides, &self.walks, 64, HORIZON, second, &mut answer);
        answer[0]
    }
    fn all(&self, second: i64) -> u16 {
        let mut answer = [0; 5];
        best_over_numbers(&self.leaves, &self.arrivals, &self.rides, &self.walks, 64, HORIZON, second, &mut answer);
        answer[0]
    }
    fn published(&self, second: i64) -> u16 {
        self.lent.best(second).map_or(u16::MAX, |i| i as u16)
    }
}

/// Nanoseconds a call.
fn time(ask: impl Fn(i64) -> u16, second: i64) -> f64 {
    let start = Instant::now();
    for _ in 0..CALLS {
        black_box(ask(black_box(second)));
    }
    start.elapsed().as_nanos() as f64 / CALLS as f64
}
fn least_and_median(mut times: Vec<f64>) -> String {
    times.sort_by(f64::total_cmp);
    format!("{:7.1} {:7.1}", times[0], times[times.len() / 2])
}

fn main() {
    let rounds: usize = std::env::args().nth(1).map_or(2001, |word| word.parse().expect("a number"));
    let list = List::new();
    println!("ns a call: least and median    first in time     all read      published");
    for (name, second) in
        [("none: before 0", -1), ("the first", 60), ("the 32nd", 60 * 32), ("the last", 60 * 64), ("none leaves", 60 * 65)]
    {
        let (first, all, published) = (list.first(second), list.all(second), list.published(second));
        assert!(first == all && all == published, "{name}: {first}, {all}, {published}");
        let mut times = [vec![], vec![], vec![]];
        for _ in 0..rounds {
            times[0].push(time(|s| list.first(s), second));
            times[1].push(time(|s| list.all(s), second));
            times[2].push(time(|s| list.published(s), second));
        }
        let [a, b, c] = times.map(least_and_median);
        println!("{name:<28} {a} {b} {c}");
    }
}
