//! Times the port's `candidate` (the static library of crate candidate_c) beside the published one, in turns; with the feature
//! `before` an earlier build of it, too. Each call's count of kept journeys read is tested.
use display::journey::harness::timing::{Kept, Offer};
use display::journey::harness::{Run, Settings};
use std::hint::black_box;
use std::time::Instant;

const SLOTS: usize = 784;
const COUNT: usize = 780;
const HORIZON: usize = 781;
const LIMITS: usize = 782;
const REFUSED: usize = 783;
#[link(name = "candidate_c", kind = "static")]
unsafe extern "C" {
    safe fn profile_candidate(
        st: &mut [u16; SLOTS],
        leave: u16,
        arrival: u32,
        rides: u16,
        walk: u16,
        origin: u16,
        target: u16,
        board: u16,
        alight: u16,
        board2: u16,
        alight2: u16,
        middle_board: u16,
        middle_alight: u16,
    ) -> usize;
}
// An earlier build, under another name; `bench/candidate` makes the library.
#[cfg(feature = "before")]
#[link(name = "profile_before", kind = "static")]
unsafe extern "C" {
    safe fn before_candidate(
        st: &mut [u16; SLOTS],
        leave: u16,
        arrival: u32,
        rides: u16,
        walk: u16,
        origin: u16,
        target: u16,
        board: u16,
        alight: u16,
        board2: u16,
        alight2: u16,
        middle_board: u16,
        middle_alight: u16,
    ) -> usize;
}
#[cfg(not(feature = "before"))]
use profile_candidate as before_candidate;

/// A journey without walks, by its figures.
#[derive(Clone, Copy)]
struct Journey {
    leave: u16,
    arrival: u16,
    rides: u16,
}
impl Journey {
    fn published(self) -> Offer {
        Offer::new(self.leave, self.arrival, self.rides == 2, 0, 0)
    }
    fn offer(self, st: &mut [u16; SLOTS]) -> usize {
        profile_candidate(st, self.leave, u32::from(self.arrival), self.rides, 0, 0, 0, 1, 2, 0, 0, 0, 0)
    }
    fn offer_before(self, st: &mut [u16; SLOTS]) {
        black_box(before_candidate(st, self.leave, u32::from(self.arrival), self.rides, 0, 0, 0, 1, 2, 0, 0, 0, 0));
    }
}
/// The i-th of 64 unbeaten journeys; each leaves and arrives 100 seconds after the one before.
fn unbeaten(i: u16) -> Journey {
    Journey { leave: 1000 + 100 * i, arrival: 5000 + 100 * i, rides: 1 }
}
const OPEN: u16 = 21600;

/// One state of all sides.
#[derive(Clone)]
struct Both {
    port: [u16; SLOTS],
    before: [u16; SLOTS],
    published: Kept,
}
impl Both {
    /// The list filled by offers to each side.
    fn filled(list: impl Iterator<Item = u16>, run: &Run) -> Self {
        let mut port = [0; SLOTS];
        port[HORIZON] = OPEN;
        let mut both = Self { port, before: port, published: Kept::new(OPEN) };
        for i in list {
            unbeaten(i).offer(&mut both.port);
            unbeaten(i).offer_before(&mut both.before);
            assert!(both.published.offer(&unbeaten(i).published(), run));
        }
        both
    }
    fn rows(&self) -> Vec<(u16, u16, u8)> {
        rows(&self.port)
    }
    fn alike(&self) -> bool {
        let rest = |st: &[u16; SLOTS]| (rows(st), st[HORIZON], st[LIMITS] as u8);
        self.port[REFUSED] == 0 && self.before[REFUSED] == 0 && rest(&self.before) == rest(&self.port) && self.published.shown() == rest(&self.port)
    }
    /// How many kept journeys the offer reads: up to and including the first that equals or beats it, else all; none if it is due too late.
    fn read_by(&self, offer: Journey) -> usize {
        let kept = self.rows();
        let covers = |k: &(u16, u16, u8)| k.0 >= offer.leave && (k.1, k.2) <= (offer.arrival, offer.rides as u8);
        if offer.arrival > self.port[HORIZON] { 0 } else { kept.iter().position(covers).map_or(kept.len(), |place| place + 1) }
    }
}
fn rows(st: &[u16; SLOTS]) -> Vec<(u16, u16, u8)> {
    st.chunks(12).take(usize::from(st[COUNT])).map(|row| (row[0], row[1], row[2] as u8)).collect()
}

/// The list, what is offered, to how many states each, and how many are kept after it.
struct Case {
    name: &'static str,
    list: Vec<u16>,
    offers: Vec<Journey>,
    states: usize,
    kept: u16,
}
fn cases() -> Vec<Case> {
    let covered = |i: u16| Journey { leave: 999 + 100 * i, ..unbeaten(i) };
    let later = |i: u16| Journey { leave: 1001 + 100 * i, ..unbeaten(i) };
    let again = |offer: Journey| vec![offer; 1024];
    let rising: Vec<u16> = (0..64).collect();
    let falling: Vec<u16> = (0..64).rev().collect();
    let mixed: Vec<u16> = (0..64).map(|i| (i * 29 + 7) % 64).collect();
    let each = |list: &[u16]| (0..1024).map(|i| covered(list[i * 29 % 64])).collect::<Vec<_>>();
    let late = Journey { leave: 9000, arrival: OPEN + 1, rides: 1 };
    let apart = Journey { leave: 4050, arrival: 8050, rides: 2 };
    let beats = |first: u16, last: u16| Journey { leave: unbeaten(last).leave, ..unbeaten(first) };
    let first = Journey { leave: 950, arrival: 4950, rides: 2 };
    let most = |list: &[u16]| list[..63].to_vec();
    let case = |name, list: &[u16], offers, states, kept| Case { name, list: list.to_vec(), offers, states, kept };
    vec![
        case("passed over by the first, rising", &rising, again(covered(0)), 1, 64),
        case("passed over by the 2nd, rising", &rising, again(covered(1)), 1, 64),
        case("passed over by the 4th, rising", &rising, again(covered(3)), 1, 64),
        case("passed over by the 32nd, rising", &rising, again(covered(31)), 1, 64),
        case("passed over by the last, rising", &rising, again(covered(63)), 1, 64),
        case("passed over by the first, falling", &falling, again(covered(63)), 1, 64),
        case("passed over by the 32nd, falling", &falling, again(covered(32)), 1, 64),
        case("passed over by the last, falling", &falling, again(covered(0)), 1, 64),
        case("passed over by the last, mixed", &mixed, again(covered(mixed[63])), 1, 64),
        case("passed over by each in turn, rising", &rising, each(&rising), 1, 64),
        case("passed over by each in turn, mixed", &mixed, each(&mixed), 1, 64),
        case("due too late", &rising, again(late), 1, 64),
        case("enters an empty list", &[], vec![apart], 64, 1),
        case("enters, none beaten, 63 kept, rising", &most(&rising), vec![apart], 64, 64),
        case("enters, none beaten, 63 kept, mixed", &most(&mixed), vec![apart], 64, 64),
        case("enters, the first beaten, rising", &rising, vec![later(0)], 64, 64),
        case("enters, the 32nd beaten, rising", &rising, vec![later(31)], 64, 64),
        case("enters, the last beaten, rising", &rising, vec![later(63)], 64, 64),
        case("enters, one beaten, mixed", &mixed, vec![later(32)], 64, 64),
        case("enters, 30 beaten, rising", &rising, vec![beats(17, 46)], 64, 35),
        case("enters, 30 beaten, mixed", &mixed, vec![beats(17, 46)], 64, 35),
        case("enters, all beaten, rising", &rising, vec![beats(0, 63)], 64, 1),
        case("65th: the horizon falls, rising", &rising, vec![first], 64, 64),
        case("65th: the horizon falls, mixed", &mixed, vec![first], 64, 64),
    ]
}

/// Least and median, in nanoseconds a call.
fn summary(mut times: Vec<f64>) -> [f64; 2] {
    times.sort_unstable_by(f64::total_cmp);
    [times[0], times[times.len() / 2]]
}
/// Nanoseconds a call of a pass over the states, each offered every journey.
fn timed(calls: usize, pass: impl FnOnce()) -> f64 {
    let start = Instant::now();
    pass();
    start.elapsed().as_secs_f64() * 1e9 / calls as f64
}
fn measure(case: &Case, run: &Run, rounds: usize) -> [[f64; 2]; 3] {
    let full = Both::filled(case.list.iter().copied(), run);
    assert!(full.alike());
    for &offer in &case.offers {
        assert_eq!(offer.offer(&mut full.clone().port), full.read_by(offer), "{}: read", case.name);
    }
    let mut states = vec![full.clone(); case.states];
    let published: Vec<Offer> = case.offers.iter().map(|offer| offer.published()).collect();
    let calls = case.offers.len() * case.states;
    let mut times = [Vec::new(), Vec::new(), Vec::new()];
    for _ in 0..rounds {
        states.fill(full.clone());
        times[0].push(timed(calls, || {
            for state in &mut states {
                for offer in &case.offers {
                    black_box(black_box(*offer).offer(black_box(&mut state.port)));
                }
            }
        }));
        times[1].push(timed(calls, || {
            for state in &mut states {
                for offer in &case.offers {
                    black_box(*offer).offer_before(black_box(&mut state.before));
                }
            }
        }));
        times[2].push(timed(calls, || {
            for state in &mut states {
                for offer in &published {
                    black_box(state.published.offer(black_box(offer), run));
                }
            }
        }));
    }
    assert!(states.iter().all(|state| state.alike() && state.port[COUNT] == case.kept), "{} differs", case.name);
    times.map(summary)
}

fn main() {
    let rounds = std::env::args().nth(1).map_or(2001, |word| word.parse().expect("a number of rounds"));
    let settings =
        Settings { origin_walks: &[0], target_walks: &[0], transfer_minutes: 3, max_transfers: 1, now: 0, epochs: [0; 3] };
    let run = Run::open(&settings);
    println!(
        "{:<38} {:>10} {:>10} {:>12} {:>10} {:>7} {:>10} {:>10} {:>7}",
        "ns a call; 64 kept", "port least", "median", "before least", "median", "ratio", "Rust least", "median", "ratio"
    );
    for case in cases() {
        let [port, before, published] = measure(&case, &run, rounds);
        let [to_before, to_published] = [port[1] / before[1], port[1] / published[1]];
        println!(
            "{:<38} {:>10.1} {:>10.1} {:>12.1} {:>10.1} {to_before:>7.2} {:>10.1} {:>10.1} {to_published:>7.2}",
            case.name, port[0], port[1], before[0], before[1], published[0], published[1]
        );
    }
}
