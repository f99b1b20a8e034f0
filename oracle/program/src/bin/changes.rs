//! Times the port's row of changes and its grouping of stops into places (the static library of crate transfer_c), and compares each row
//! with one worked out pair by pair.
use std::hint::black_box;
use std::time::Instant;

const NONE: u16 = 65535;
const NEVER: u32 = 65536;
const CHANGE: u16 = 180;
type Numbers = [u16; 128];
#[link(name = "transfer_c", kind = "static")]
unsafe extern "C" {
    safe fn changes_row(
        row: &mut [u32; 128],
        rules: &[u16; 640],
        count: usize,
        parents: &Numbers,
        places: &Numbers,
        from: u16,
        change: u16,
    );
    safe fn changes_places(
        places: &mut Numbers,
        ids: &Numbers,
        names: &[u8; 128],
        latitudes: &[f64; 128],
        longitudes: &[f64; 128],
        count: usize,
    );
}

/// Numbers by chance, the same in each run.
struct Chance(u64);
impl Chance {
    fn below(&mut self, n: u64) -> u16 {
        self.0 = self.0.wrapping_mul(6364136223846793005).wrapping_add(1442695040888963407);
        ((self.0 >> 33) % n) as u16
    }
}

/// Rules of type 2, or by chance of any type, from one stop, with the parents and places of 128 stops.
struct Rows {
    name: &'static str,
    /// from, to, type, seconds
    rules: Vec<[u16; 4]>,
    parents: Numbers,
    places: Numbers,
    from: u16,
}
impl Rows {
    fn flat(&self) -> [u16; 640] {
        let mut flat = [0; 640];
        for (five, rule) in flat.chunks_mut(5).zip(&self.rules) {
            five[..4].copy_from_slice(rule);
            five[4] = 1;
        }
        flat
    }
    /// The change to one stop, by reading every rule.
    fn change(&self, to: u16) -> u32 {
        let parent = |stop: u16| self.parents[usize::from(stop)];
        let rank = |rule: &[u16; 4]| {
            let side = |x: u16, stop: u16| if x == stop { Some(1) } else { (x == parent(stop)).then_some(0) };
            Some(2 * side(rule[0], self.from)? + side(rule[1], to)?)
        };
        // a list by chance may have a pair twice: of one rank `max_by_key` gives the last
        let chosen = self.rules.iter().filter(|rule| rank(rule).is_some()).max_by_key(|rule| rank(rule));
        let place = |stop: u16| self.places[usize::from(stop)];
        match chosen {
            Some([_, _, 3, _]) => NEVER,
            Some([_, _, 2, seconds]) => u32::from(CHANGE.max(*seconds)),
            Some(_) => u32::from(CHANGE),
            None if self.from == to => u32::from(CHANGE),
            None if parent(self.from) != NONE && parent(self.from) == parent(to) => u32::from(CHANGE),
            None if place(self.from) != NONE && place(self.from) == place(to) => u32::from(CHANGE),
            None => NEVER,
        }
    }
}
fn rows() -> Vec<Rows> {
    let mut chance = Chance(1);
    let own: Numbers = std::array::from_fn(|i| i as u16);
    let thirds = own.map(|i| i / 3);
    let alone = [NONE; 128];
    // 64 stations, each with one stop
    let pairs = own.map(|i| if i < 64 { NONE } else { i - 64 });
    let case = |name, rules, parents, places, from| Rows { name, rules, parents, places, from };
    let to_each = |from: u16| (0..128).map(|to| [from, to, 2, 100 + to]).collect();
    let mut any = |from: Option<[u16; 2]>, n: u16| {
        let mut side = || match from {
            Some(two) => two[usize::from(chance.below(2))],
            None => chance.below(128),
        };
        let from: Vec<u16> = (0..n).map(|_| side()).collect();
        from.iter().zip(0..).map(|(from, i)| [*from, chance.below(128), chance.below(4), 100 + 2 * i]).collect()
    };
    vec![
        case("no rule", vec![], alone, own, 0),
        case("40 rules by chance, stations", any(None, 40), pairs, thirds, 64),
        case("128 rules by chance, stations", any(None, 128), pairs, thirds, 64),
        case("128 rules from this stop", to_each(0), alone, own, 0),
        case("128 rules by chance, from it or its station", any(Some([64, 0]), 128), pairs, thirds, 64),
        case(
            "128 rules to 64 stations, likewise",
            (0..128).map(|i| [if i < 64 { 64 } else { 0 }, i % 64, 2, 100 + i]).collect(),
            pairs,
            own,
            64,
        ),
    ]
}

/// Stops with ids of 32 bytes that differ in the last, and names of 64 bytes.
struct Stops {
    name: &'static str,
    ids: Numbers,
    names: [u8; 128],
    latitudes: [f64; 128],
    longitudes: [f64; 128],
    /// how many places they are, where that is plain
    places: Option<usize>,
}
fn stops() -> Vec<Stops> {
    let mut chance = Chance(2);
    let rising: Numbers = std::array::from_fn(|i| i as u16);
    let falling = rising.map(|i| 127 - i);
    let apart = std::array::from_fn(|i| 48.0 + 0.01 * i as f64);
    let case = |name, ids, latitudes, places| Stops { name, ids, names: [b'a'; 128], latitudes, longitudes: [2.0; 128], places };
    let mut mixed = rising;
    for i in (1..128).rev() {
        mixed.swap(i, usize::from(chance.below(i as u64 + 1)));
    }
    let mut near = || std::array::from_fn(|_| f64::from(chance.below(1000)) * 1e-5);
    let (latitudes, longitudes) = (near(), near());
    vec![
        case("one place, ids rising", rising, [48.0; 128], Some(1)),
        case("one place, ids falling", falling, [48.0; 128], Some(1)),
        case("128 places, ids rising", rising, apart, Some(128)),
        case("128 places, ids falling", falling, apart, Some(128)),
        Stops {
            name: "by chance",
            ids: mixed,
            names: std::array::from_fn(|_| b'a' + chance.below(8) as u8),
            latitudes,
            longitudes,
            places: None,
        },
    ]
}

/// Least and median of the rounds, in microseconds a call.
fn timed(rounds: usize, calls: usize, mut call: impl FnMut()) -> [f64; 2] {
    let round = |_| {
        let start = Instant::now();
        (0..calls).for_each(|_| call());
        start.elapsed().as_secs_f64() * 1e6 / calls as f64
    };
    let mut times: Vec<f64> = (0..rounds).map(round).collect();
    times.sort_unstable_by(f64::total_cmp);
    [times[0], times[times.len() / 2]]
}

fn main() {
    let rounds = std::env::args().nth(1).map_or(501, |word| word.parse().expect("a number of rounds"));
    println!("{:<46} {:>8} {:>8}", "a row of changes, us a call", "least", "median");
    for case in rows() {
        let (flat, mut row) = (case.flat(), [0; 128]);
        let [least, median] = timed(rounds, 100, || {
            let (rules, parents, places) = (black_box(&flat), black_box(&case.parents), black_box(&case.places));
            changes_row(black_box(&mut row), rules, case.rules.len(), parents, places, case.from, CHANGE);
        });
        assert!((0..128).all(|to| row[usize::from(to)] == case.change(to)), "{} differs", case.name);
        println!("{:<46} {least:>8.2} {median:>8.2}", case.name);
    }
    println!("{:<46} {:>8} {:>8}", "grouping 128 stops, us a call", "least", "median");
    for case in stops() {
        let mut places = [0; 128];
        let [least, median] = timed(rounds, 10, || {
            let (latitudes, longitudes) = (black_box(&case.latitudes), black_box(&case.longitudes));
            changes_places(black_box(&mut places), black_box(&case.ids), &case.names, latitudes, longitudes, 128);
        });
        places.sort_unstable();
        let different = 1 + places.windows(2).filter(|two| two[0] != two[1]).count();
        assert!(case.places.is_none_or(|n| n == different), "{} are {different} places", case.name);
        println!("{:<46} {least:>8.1} {median:>8.1}", case.name);
    }
}
