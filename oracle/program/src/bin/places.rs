//! Compares the port's place test and microdegrees (the static library of crate place_c) with the published ones.
use display::journey::harness::{Key, microdegrees, same_place};
use program::generate::rng::Rng;

#[link(name = "place_c", kind = "static")]
unsafe extern "C" {
    safe fn place_same(atag: u8, ahash: u64, alat: i32, alon: i32, btag: u8, bhash: u64, blat: i32, blon: i32) -> bool;
    safe fn place_usable(located: bool, latitude: f64, longitude: f64) -> bool;
    safe fn place_latitude(located: bool, latitude: f64, longitude: f64) -> i32;
    safe fn place_longitude(located: bool, latitude: f64, longitude: f64) -> i32;
}

const POLE: i64 = 90_000_000;
const HALF: i64 = 180_000_000;

/// A longitude that is delta further east, around the antimeridian if need be.
fn east(lon: i64, delta: i64) -> i64 {
    let to = lon + delta;
    if to > HALF { to - 2 * HALF } else { to }
}
/// Keys of one tag and hash, named ones, at these microdegrees.
fn named(lats: [i64; 2], lons: [i64; 2]) -> [Key; 2] {
    [0, 1].map(|i| (b'N', 1, lats[i] as i32, lons[i] as i32))
}
/// The greatest difference of longitude at which the published test says yes, or 0.
fn reach(lats: [i64; 2]) -> i64 {
    let (mut yes, mut no) = (0, HALF + 1);
    while no - yes > 1 {
        let middle = (yes + no) / 2;
        let [a, b] = named(lats, [0, middle]);
        if same_place(a, b) { yes = middle } else { no = middle }
    }
    yes
}
/// A latitude near the given one, within the range.
fn beside(rng: &mut Rng, lat: i64, most: i64) -> i64 {
    (lat + rng.range(-most, most)).clamp(-POLE, POLE)
}
fn longitude(rng: &mut Rng) -> i64 {
    match rng.below(3) {
        0 => rng.range(-HALF, HALF),
        1 => rng.range(-3000, 3000),
        _ => east(HALF - 3000, rng.range(0, 6000)),
    }
}
/// Latitudes so near that longitude decides, and the difference of longitude about the published edge.
fn at_edge(rng: &mut Rng, lat: i64) -> [Key; 2] {
    let lats = [lat, beside(rng, lat, 1130)];
    let delta = (reach(lats) + rng.range(-2, 2)).clamp(0, HALF);
    let lon = longitude(rng);
    named(lats, [lon, east(lon, delta)])
}
const PAIRS: [&str; 6] =
    ["edge, any latitude", "edge, pole", "edge, equator", "latitudes 1122 to 1127 apart", "tags, hashes", "any"];
fn pair(rng: &mut Rng, kind: usize) -> [Key; 2] {
    let any = rng.range(-POLE, POLE);
    let [a, b] = match kind {
        0 => at_edge(rng, any),
        1 => {
            let pole = rng.pick(&[-POLE, POLE]);
            let most = rng.pick(&[10, 2000, 10_000, 1_000_000]);
            let lat = beside(rng, pole, most);
            at_edge(rng, lat)
        }
        2 => {
            let lat = rng.range(-2000, 2000);
            at_edge(rng, lat)
        }
        3 => {
            let lat = rng.pick(&[any, any, -POLE, POLE - 1125, 0]);
            let lon = longitude(rng);
            let delta = rng.pick(&[0, 0, 0, 1, 2, 30]);
            named([lat, (lat + rng.range(1122, 1127)).min(POLE)], [lon, east(lon, delta)])
        }
        4 => tagged(rng, any),
        _ => {
            let lons = [0, 1].map(|_| rng.range(-HALF, HALF));
            named([any, rng.range(-POLE, POLE)], lons)
        }
    };
    if rng.once_in(2) { [a, b] } else { [b, a] }
}
/// Tags of the three kinds and others, hashes equal or different in one bit or in all, places near or anywhere.
fn tagged(rng: &mut Rng, lat: i64) -> [Key; 2] {
    let mut keys = if rng.once_in(4) { named([lat, -lat], [lat, 2 * lat]) } else { at_edge(rng, lat) };
    let (hash, far, bit) = (rng.next(), rng.next(), rng.below(64));
    let other = rng.pick(&[hash, hash, hash, hash ^ 1 << bit, far]);
    let tag = rng.pick(&[b'P', b'N', b'N', b'I', far as u8]);
    (keys[0].0, keys[1].0) = (tag, rng.pick(&[tag, tag, tag, b'N', tag ^ 1 << (bit % 8)]));
    (keys[0].1, keys[1].1) = (hash, other);
    keys
}

/// A few representable numbers up or down.
fn ulps(rng: &mut Rng, mut x: f64) -> f64 {
    for _ in 0..rng.below(4) {
        x = if rng.once_in(2) { x.next_up() } else { x.next_down() };
    }
    x
}
/// A multiple of a millionth, by division or by product.
fn millionth(rng: &mut Rng, most: i64) -> f64 {
    let micro = rng.range(-most, most) as f64;
    if rng.once_in(2) { micro / 1e6 } else { micro * 1e-6 }
}
fn odd(rng: &mut Rng) -> f64 {
    let sign = rng.next() & 1 << 63;
    let part = rng.next() >> 12;
    let size = match rng.below(6) {
        0 => 0,
        1 => part,
        2 => 0x7ff << 52,
        3 => 0x7ff << 52 | part.max(1),
        4 => rng.range(0, 2) as u64,
        _ => 1 << 52 | part,
    };
    f64::from_bits(sign | size)
}
const FLOATS: [&str; 5] = ["any bits", "90 and 180", "small millionths", "millionths", "0, subnormal, inf, NaN"];
fn degrees(rng: &mut Rng, kind: usize, most: i64) -> f64 {
    match kind {
        0 => f64::from_bits(rng.next()),
        1 => {
            let end = rng.pick(&[most, -most, most / 2, -most / 2, 2 * most]) as f64 / 1e6;
            ulps(rng, end)
        }
        2 | 3 => {
            let x = millionth(rng, if kind == 2 { 100 } else { most });
            ulps(rng, x)
        }
        _ => odd(rng),
    }
}
/// Both of the kind, or one of them and a usable other.
fn floats(rng: &mut Rng, kind: usize) -> (f64, f64) {
    let (lat, lon) = (degrees(rng, kind, POLE), degrees(rng, kind, HALF));
    match rng.below(3) {
        0 => (lat, lon),
        1 => (lat, millionth(rng, HALF)),
        _ => (millionth(rng, POLE), lon),
    }
}

/// What was asked by kind: how many, how many with a yes, how many that differ; and the first that differs.
struct Tally {
    counts: Vec<[u64; 3]>,
    first: Option<String>,
}
impl Tally {
    fn new(kinds: usize) -> Self {
        Self { counts: vec![[0; 3]; kinds], first: None }
    }
    fn add(&mut self, kind: usize, yes: bool, agree: bool, question: impl Fn() -> String) {
        let count = &mut self.counts[kind];
        count[0] += 1;
        count[1] += u64::from(yes);
        count[2] += u64::from(!agree);
        if !agree && self.first.is_none() {
            self.first = Some(question());
        }
    }
    fn print(&self, what: &str, yes: &str, kinds: &[&str]) -> bool {
        println!("{what:<30} {:>10} {yes:>10} {:>10}", "asked", "differ");
        for (kind, [asked, yes, differ]) in kinds.iter().zip(&self.counts) {
            println!("{kind:<30} {asked:>10} {yes:>10} {differ:>10}");
        }
        let sum = |i: usize| self.counts.iter().map(|count| count[i]).sum::<u64>();
        println!("{:<30} {:>10} {:>10} {:>10}", "all", sum(0), sum(1), sum(2));
        if let Some(first) = &self.first {
            println!("the first that differs: {first}");
        }
        self.first.is_none()
    }
}
fn pairs(rng: &mut Rng, n: usize) -> bool {
    let mut tally = Tally::new(PAIRS.len());
    for i in 0..n {
        let kind = i % PAIRS.len();
        let [a, b] = pair(rng, kind);
        let published = same_place(a, b);
        let port = place_same(a.0, a.1, a.2, a.3, b.0, b.1, b.2, b.3);
        tally.add(kind, published, port == published, || format!("{a:?} {b:?}: published {published}, port {port}"));
    }
    tally.print("pairs of keys", "one place", &PAIRS)
}
fn positions(rng: &mut Rng, n: usize) -> bool {
    let mut tally = Tally::new(FLOATS.len());
    for i in 0..n {
        let kind = i % FLOATS.len();
        let (lat, lon) = floats(rng, kind);
        let located = !rng.once_in(50);
        let published = microdegrees(located.then_some((lat, lon)));
        let (x, y) = (place_latitude(located, lat, lon), place_longitude(located, lat, lon));
        let usable = place_usable(located, lat, lon);
        let agree = usable == published.is_some() && (x, y) == published.unwrap_or((0, 0));
        tally.add(kind, published.is_some(), agree, || {
            let bits = (lat.to_bits(), lon.to_bits());
            format!("located {located} {lat:e} {lon:e} (bits {bits:x?}): published {published:?}, port {usable} {x} {y}")
        });
    }
    tally.print("positions", "usable", &FLOATS)
}

fn main() {
    let mut words = std::env::args().skip(1).map(|word| word.parse().expect("a number"));
    let n = words.next().unwrap_or(15_000_000);
    let seed = words.next().unwrap_or(2026);
    println!("{n} of each, seed {seed}");
    let mut rng = Rng::new(seed as u64);
    let same = pairs(&mut rng, n);
    let alike = positions(&mut rng, n);
    std::process::exit(i32::from(!(same && alike)))
}
