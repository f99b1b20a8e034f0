//! Request 10: chains of three trips, from origins to a first change, on to a second and to targets.
use super::rng::Rng;
use super::world::{after_epoch, rules};
use super::writer::{Call, Settings, Step, Stop, file};

/// The seconds between times, how many of them a trip starts within, the walks, the types of pickup and drop-off, and how many trips.
struct Draw {
    grid: i64,
    times: u64,
    walks: Vec<u8>,
    types: Vec<u8>,
    trips: (i64, i64),
}

/// Few times and walks, so that figures are often equal; types that bar; one second more or less; long walks.
pub fn chains(rng: &mut Rng) -> Vec<u8> {
    let draw = match rng.below(4) {
        0 => Draw { grid: 300, times: 4, walks: vec![0, 5], types: vec![0], trips: (4, 10) },
        1 => Draw { grid: 60, times: 12, walks: vec![0, 1, 2], types: vec![0, 0, 0, 0, 0, 0, 1, 2, 3], trips: (4, 14) },
        2 => Draw { grid: rng.pick(&[1, 43, 97]), times: 9, walks: vec![0, 1], types: vec![0], trips: (6, 16) },
        _ => Draw { grid: 600, times: 8, walks: vec![0, 10, 255], types: vec![0, 0, 0, 0, 1], trips: (6, 16) },
    };
    load(rng, &draw)
}

const ORIGINS: [u16; 2] = [1, 2];
const NEAR: [u16; 3] = [3, 4, 5];
const FAR: [u16; 3] = [6, 7, 8];
const TARGETS: [u16; 2] = [9, 10];

/// Stop 0 is the station of some change stops; now and then one of these is an origin or a target too.
fn stops(rng: &mut Rng) -> Vec<Step> {
    let mut stops = vec![Stop { id: b"station".to_vec(), location_type: 1, ..Stop::default() }];
    for i in 1..11u16 {
        let members = match i {
            _ if ORIGINS.contains(&i) => rng.pick(&[1, 1, 2, 3, 15]),
            _ if TARGETS.contains(&i) => rng.pick(&[16, 16, 32, 48, 240]),
            _ => rng.pick(&[0, 0, 0, 0, 0, 0, 0, 0, 0, 1, 16]),
        };
        let change = NEAR.contains(&i) || FAR.contains(&i);
        let parent = (change && rng.once_in(5)).then(|| b"station".to_vec());
        let latitude = f64::from(i / 6) + 0.0009 * rng.below(2) as f64;
        let position = (change && rng.once_in(3)).then_some((latitude, 1.0));
        let (id, name) = (vec![b'a' + i as u8], Some(rng.pick(&["Quay", "quay"]).into()));
        stops.push(Stop { id, name, parent, position, members, ..Stop::default() });
    }
    stops.into_iter().map(Step::Stop).collect()
}
/// Where a trip calls: most go from one side to the next, some further, some back to where they began.
fn line(rng: &mut Rng, leg: u64) -> Vec<u16> {
    let at = |rng: &mut Rng, side: &[u16]| if rng.once_in(3) { rng.pick(side) } else { side[0] };
    let [origin, near, far, target] = [&ORIGINS[..], &NEAR, &FAR, &TARGETS].map(|side| at(rng, side));
    match (leg, rng.below(24)) {
        (_, 0) => vec![origin, near, far, target],
        (_, 1) => vec![origin, near, far],
        (_, 2) => vec![near, far, target],
        (0, _) => vec![origin, near],
        (1, 3..=6) => vec![near, rng.pick(&NEAR), far],
        (1, _) => vec![near, far],
        (_, 3..=6) => vec![far, rng.pick(&FAR), target],
        (_, 7..=10) => vec![far, target, rng.pick(&TARGETS)],
        _ => vec![far, target],
    }
}
/// A leg of the chain starts about where the one before it ends.
fn trip(rng: &mut Rng, draw: &Draw, settings: &Settings, (number, day): (u16, u8), leg: u64, out: &mut Vec<Step>) {
    let mut at = 900 + draw.grid * (rng.below(draw.times) + leg * draw.times / 2) as i64;
    for (k, &stop) in line(rng, leg).iter().enumerate() {
        let departure = at + if draw.grid > 1 && rng.once_in(8) { 30 } else { 0 };
        let time = |second| Some(after_epoch(settings, day, second));
        let (pickup, drop_off) = (rng.pick(&draw.types), rng.pick(&draw.types));
        let (arrival, departure_time) = (time(at), time(departure));
        let (trip, sequence) = (number, k as u32);
        out.push(Step::Call(Call { trip, day, sequence, stop, arrival, departure: departure_time, pickup, drop_off }));
        at = departure + draw.grid * rng.range(1, 3);
    }
}
fn load(rng: &mut Rng, draw: &Draw) -> Vec<u8> {
    let walks = |rng: &mut Rng| (0..rng.pick(&[1, 2, 2, 4])).map(|_| rng.pick(&draw.walks)).collect::<Vec<u8>>();
    let epoch = |rng: &mut Rng| -rng.pick(&[0, 0, 86400, 600]);
    let settings = Settings {
        origin_walks: walks(rng),
        target_walks: walks(rng),
        transfer_minutes: rng.pick(&[0, 0, 1, 3]),
        max_transfers: rng.pick(&[2, 2, 2, 2, 2, 2, 1, 0]),
        now: 0,
        epochs: [epoch(rng), epoch(rng), epoch(rng)],
    };
    let mut steps = stops(rng);
    if rng.once_in(3) {
        steps.extend(rules(rng, 4, 11).into_iter().map(Step::Rule));
    }
    let mut calls = Vec::new();
    // One trip on three days, or a trip for each line; numbers in the order of the chain or against it.
    let (shared, turned, n) = (rng.once_in(4), rng.once_in(2), rng.range(draw.trips.0, draw.trips.1) as u16);
    for i in 0..n {
        let number = if turned { n - 1 - i } else { i };
        let day = if rng.once_in(6) { rng.below(3) as u8 } else { 0 };
        let run = if shared { (number / 3, (number % 3) as u8) } else { (number, day) };
        trip(rng, draw, &settings, run, u64::from(i) * 3 / u64::from(n), &mut calls);
    }
    if rng.once_in(4) {
        rng.shuffle(&mut calls);
    }
    steps.extend(calls);
    steps.push(Step::Search);
    file(&settings, &steps)
}
