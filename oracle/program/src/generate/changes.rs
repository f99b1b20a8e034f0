//! Journeys of two rides: feeders from origins, connections to targets, changes between stops of one place.
use super::rng::Rng;
use super::world::{after_epoch, rules};
use super::writer::{Call, Settings, Step, Stop, file};

/// Seconds between the times drawn, how many of them, and the types drawn.
struct Draw {
    grid: i64,
    times: u64,
    types: Vec<u8>,
    walks: Vec<u8>,
}

pub fn changes(rng: &mut Rng) -> Vec<u8> {
    let grid = rng.pick(&[30, 60, 97, 600]);
    let walks = rng.pick(&[vec![0, 1, 2], vec![0, 5], vec![3]]);
    load(rng, &Draw { grid, times: 20, types: vec![0, 0, 0, 0, 0, 1, 2, 3], walks })
}
/// Few times and walks, so that the figures of journeys by one and by two rides are often equal.
pub fn ties(rng: &mut Rng) -> Vec<u8> {
    let walks = rng.pick(&[vec![0], vec![0, 5], vec![5, 10]]);
    load(rng, &Draw { grid: 300, times: 5, types: vec![0, 0, 0, 0, 0, 0, 2], walks })
}

/// Stops 0 and 1 are origins, 2 and 3 targets, the rest change stops, the last a station.
fn stops(rng: &mut Rng) -> Vec<Step> {
    let member = |i: usize, rng: &mut Rng| match i {
        0 | 1 => rng.pick(&[1, 1, 2, 3, 17]),
        2 | 3 => rng.pick(&[16, 16, 32, 48, 17]),
        _ if rng.once_in(8) => rng.pick(&[1, 16]),
        _ => 0,
    };
    let station = Stop { id: b"station".to_vec(), location_type: 1, ..Stop::default() };
    let mut stops = vec![];
    let order = rng.pick(&["abcdefg", "gfedcba", "dacgbfe"]).as_bytes();
    for i in 0..7 {
        let change = i > 3;
        let parent = (change && rng.once_in(2)).then(|| b"station".to_vec());
        let position = rng.once_in(2).then(|| (1.0 + 0.0009 * rng.below(3) as f64, 1.0));
        let name = Some(rng.pick(&["Quay", "quay", "Pier"]).into());
        stops.push(Stop { id: vec![order[i]], name, parent, position, members: member(i, rng), ..Stop::default() });
    }
    stops.insert(4, station);
    stops.into_iter().map(Step::Stop).collect()
}
fn trip(rng: &mut Rng, draw: &Draw, settings: &Settings, (number, day): (u16, u8), line: &[u16], out: &mut Vec<Step>) {
    let mut at = rng.below(draw.times) as i64 * draw.grid + rng.pick(&[0, 0, 0, 600]);
    for (k, &stop) in line.iter().enumerate() {
        let departure = at + rng.pick(&[0, 0, 0, 30]);
        out.push(Step::Call(Call {
            trip: number,
            day,
            sequence: k as u32,
            stop,
            arrival: Some(after_epoch(settings, day, at)),
            departure: Some(after_epoch(settings, day, departure)),
            pickup: rng.pick(&draw.types),
            drop_off: rng.pick(&draw.types),
        }));
        at = departure.max(at + draw.grid * rng.range(1, 3));
    }
}
fn load(rng: &mut Rng, draw: &Draw) -> Vec<u8> {
    let epoch = |rng: &mut Rng| -rng.pick(&[0, 0, 86400, 600]);
    let settings = Settings {
        origin_walks: (0..rng.range(1, 2)).map(|_| rng.pick(&draw.walks)).collect(),
        target_walks: (0..rng.range(1, 2)).map(|_| rng.pick(&draw.walks)).collect(),
        transfer_minutes: rng.pick(&[0, 1, 3]),
        max_transfers: rng.pick(&[0, 1, 1, 1, 1, 1, 2, 2]),
        now: 0,
        epochs: [epoch(rng), epoch(rng), epoch(rng)],
    };
    let mut steps = stops(rng);
    if rng.once_in(2) {
        steps.extend(rules(rng, 3, 8).into_iter().map(Step::Rule));
    }
    let (origin, target) = (|rng: &mut Rng| rng.pick(&[0, 0, 1]), |rng: &mut Rng| rng.pick(&[2, 2, 3]));
    let change = |rng: &mut Rng| rng.pick(&[5, 5, 6, 7, 4]);
    let mut calls = Vec::new();
    // One trip on three days, or a trip for each line.
    let shared = rng.once_in(3);
    for number in 0..rng.range(2, 8) as u16 {
        let line = match rng.below(7) {
            0 => vec![origin(rng), change(rng), target(rng)],
            1 => vec![origin(rng), change(rng), change(rng)],
            2 => vec![change(rng), change(rng), target(rng)],
            3 | 4 => vec![origin(rng), change(rng)],
            _ => vec![change(rng), target(rng)],
        };
        let day = if rng.once_in(4) { rng.below(3) as u8 } else { 0 };
        let run = if shared { (number / 3, (number % 3) as u8) } else { (number, day) };
        let run = if rng.once_in(40) { (number / 2, day) } else { run };
        trip(rng, draw, &settings, run, &line, &mut calls);
    }
    if rng.once_in(3) {
        rng.shuffle(&mut calls);
    }
    steps.extend(calls);
    steps.push(Step::Search);
    file(&settings, &steps)
}

/// Three origins and two targets with their own walks, one change stop: equal arrivals with other rides and walks.
pub fn figures(rng: &mut Rng) -> Vec<u8> {
    let walks = rng.pick(&[vec![0, 1, 2, 3], vec![0, 5, 10], vec![0, 2]]);
    let mut settings = Settings {
        origin_walks: (0..3).map(|_| rng.pick(&walks)).collect(),
        target_walks: (0..2).map(|_| rng.pick(&walks)).collect(),
        transfer_minutes: 0,
        max_transfers: 1,
        ..Settings::default()
    };
    let stop = |id: &str, members| Step::Stop(Stop { id: id.into(), members, ..Stop::default() });
    let mut steps = vec![stop("o", 1), stop("p", 2), stop("q", 4), stop("t", 16), stop("u", 32), stop("m", 0)];
    let (grid, times) = (rng.pick(&[60, 120]), rng.pick(&[4, 6, 9]));
    let mut run = |trip: u16, line: &[u64], rng: &mut Rng| {
        let mut at = 900 + grid * rng.below(times) as u32;
        for (k, &stop) in line.iter().enumerate() {
            let (arrival, departure) = (Some(at), Some(at));
            steps.push(Step::Call(Call { trip, sequence: k as u32, stop: stop as u16, arrival, departure, ..Call::default() }));
            at += grid * (rng.below(times) as u32 + 1);
        }
    };
    for trip in 0..rng.range(2, 9) as u16 {
        let (origin, target) = (rng.below(3), 3 + rng.below(2));
        match rng.below(5) {
            0 => run(trip, &[origin, rng.below(3), target], rng),
            1 => run(trip, &[origin, 5], rng),
            2 => run(trip, &[5, target], rng),
            3 => run(trip, &[origin, 5, target], rng),
            _ => run(trip, &[origin, target], rng),
        }
    }
    settings.max_transfers = rng.pick(&[1, 1, 2]);
    steps.push(Step::Search);
    file(&settings, &steps)
}
