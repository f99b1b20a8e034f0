//! The full table and its horizons, the full list, 128 stops and 128 rules.
use super::rng::Rng;
use super::writer::{Call, Rule, Settings, Step, Stop, file};

const HORIZONS: [u32; 8] = [21600, 16200, 12150, 9113, 6835, 5127, 3846, 2885];

fn endpoints(origins: Vec<u8>, targets: Vec<u8>, members: (u8, u8)) -> (Settings, Vec<Step>) {
    let settings = Settings { origin_walks: origins, target_walks: targets, max_transfers: 1, ..Settings::default() };
    let stop = |id: &str, members| Step::Stop(Stop { id: id.into(), members, ..Stop::default() });
    (settings, vec![stop("a", members.0), stop("b", members.1)])
}
fn call(trip: u16, sequence: u32, stop: u16, arrival: u32, departure: u32) -> Step {
    Step::Call(Call { trip, sequence, stop, arrival: Some(arrival), departure: Some(departure), ..Call::default() })
}

/// 1 to 200 journeys of which none beats another, then some that beat several; latest arrivals about 3600.
pub fn list(rng: &mut Rng) -> Vec<u8> {
    let n = rng.pick(&[1, 2, 63, 63, 64, 64, 64, 65, 65, 65, 65, 66, 100, 200]);
    let walk = rng.pick(&[0, 0, 1]);
    let (mut settings, mut steps) =
        endpoints(vec![walk, walk + 1], vec![rng.pick(&[0, 0, 2]), 1], (rng.pick(&[1, 1, 3]), rng.pick(&[16, 16, 48])));
    settings.max_transfers = rng.pick(&[0, 1, 0, 2]);
    let step = rng.pick(&[1, 7, 20]);
    let last = rng.pick(&[3599u32, 3600, 3600, 3601, 3601, 3602, 3660, 3720, 3721, 9000, 21480, 21600]);
    let ride = rng.pick(&[60, 240, 600]);
    let first = (last - ride).saturating_sub(step * (n - 1)).max(180);
    let mut trips: Vec<(u32, u32)> = (0..n).map(|i| (first + step * i, first + step * i + ride)).collect();
    if rng.once_in(3) {
        for (_, arrival) in trips.iter_mut().rev().take(3) {
            *arrival = last;
        }
    }
    match rng.below(3) {
        0 => rng.shuffle(&mut trips),
        1 => trips.reverse(),
        _ => {}
    }
    let better = rng.pick(&[0, 0, 1, 3]);
    for k in 0..better {
        let departure = first + step * rng.below(n.into()) as u32 + k;
        trips.push((departure, departure + ride - rng.pick(&[0, 1, 30, 59])));
    }
    for (trip, &(departure, arrival)) in trips.iter().enumerate() {
        steps.push(call(trip as u16, 1, 0, departure, departure));
        steps.push(call(trip as u16, 2, 1, arrival, arrival));
    }
    steps.push(Step::Search);
    file(&settings, &steps)
}

/// A list near 64 made by plain trips, then trips through a change stop and from a second origin, whose journeys come
/// and go: the order of offers, equal arrivals and one trip's own changes show in the horizon.
pub fn brim(rng: &mut Rng) -> Vec<u8> {
    let (mut settings, mut steps) = endpoints(vec![0, 5], vec![0, rng.pick(&[2, 10])], (1, 16));
    let stop = |id: &str, members| Step::Stop(Stop { id: id.into(), members, ..Stop::default() });
    steps.extend([stop("m", rng.pick(&[0, 16, 32, 32])), stop("c", rng.pick(&[2, 2, 3, 32])), stop("d", rng.pick(&[32, 48]))]);
    let (n, step, ride) = (rng.pick(&[60, 62, 63, 63, 64]), rng.pick(&[20, 40]), 2000);
    let first = 1800;
    let mut runs: Vec<Vec<(u16, u32)>> = (0..n).map(|i| vec![(0, first + step * i), (1, first + step * i + ride)]).collect();
    for _ in 0..rng.range(1, 4) {
        let last = first + step * (n - 1);
        let at = match rng.below(3) {
            0 => last + step * rng.below(3) as u32,
            _ => first + step * rng.below(n.into()) as u32 + rng.pick(&[0, 1, 10]),
        };
        let end = at + ride - rng.pick(&[0, 0, 1, 10, 30, 300]);
        match rng.below(5) {
            0 => runs.push(vec![(0, at), (2, at + 600), (1, end)]),
            1 => runs.push(vec![(3, at + 300 + step), (1, end)]),
            2 => runs.extend([vec![(0, at), (2, at + 600)], vec![(2, at + 600 + rng.below(2) as u32), (1, end)]]),
            3 => runs.extend([vec![(0, at), (2, at + 600), (1, end)], vec![(2, at + 600), (4, end - rng.below(700) as u32)]]),
            _ => runs.push(vec![(0, at), (4, end - rng.below(700) as u32), (1, end)]),
        }
    }
    for (trip, run) in runs.iter().enumerate() {
        for (k, &(stop, at)) in run.iter().enumerate() {
            steps.push(call(trip as u16, k as u32, stop, at, at));
        }
    }
    settings.max_transfers = rng.pick(&[1, 1, 2]);
    steps.push(Step::Search);
    file(&settings, &steps)
}

/// More than 512 calls: as many arrive by the k-th horizon as fit, more by the one before it.
pub fn cut(rng: &mut Rng) -> Vec<u8> {
    let k = rng.below(8) as usize;
    let members = rng.pick(&[(0, 0), (1, 16), (17, 17), (1, 16)]);
    let (mut settings, mut steps) = endpoints(vec![rng.pick(&[0, 1, 5])], vec![rng.pick(&[0, 2])], members);
    settings.max_transfers = rng.pick(&[1, 0, 0, 2, 0, 0]);
    let within = if k == 7 { 513 } else { rng.pick(&[512, 512, 511, 400, 300]) };
    let total = if k == 0 { within } else { 513 + rng.below(40) };
    let mut calls = Vec::new();
    for i in 0..total / 2 + 1 {
        let trip = i as u16;
        let inside = 2 * i < within;
        let horizon = if inside { HORIZONS[k.min(6)] } else { HORIZONS[k.saturating_sub(1).min(6)] };
        let least = if inside { 10 } else { HORIZONS[k.min(6)] + 1 };
        let span = u64::from(horizon.max(least) - least) + 1;
        let arrival = if rng.once_in(12) { horizon - rng.below(2) as u32 } else { least + rng.below(span) as u32 };
        let dwell = rng.pick(&[0, 0, 5, 4000]);
        let start = arrival.saturating_sub(rng.pick(&[0, 60, 600])).max(if inside { 0 } else { least });
        calls.push(call(trip, 1, 0, start, start));
        calls.push(call(trip, 2, 1, arrival, arrival + dwell));
    }
    calls.truncate(total as usize);
    rng.shuffle(&mut calls);
    for _ in 0..rng.pick(&[0, 0, 1, 2]) {
        let edge = rng.pick(&HORIZONS);
        let at = edge - rng.below(2) as u32;
        calls.push(call(
            rng.range(900, 903) as u16,
            rng.below(9) as u32,
            0,
            at + rng.below(2) as u32,
            at + rng.pick(&[1, 1, 1, 100, 0]),
        ));
    }
    steps.extend(calls);
    if !rng.once_in(10) {
        steps.push(Step::Search);
    }
    file(&settings, &steps)
}

/// 127 to 129 stops or rules, with faults of the last that come before the count.
pub fn counts(rng: &mut Rng) -> Vec<u8> {
    let settings = Settings { origin_walks: vec![0], target_walks: vec![0], max_transfers: 1, ..Settings::default() };
    let mut steps = Vec::new();
    let n = rng.pick(&[12, 127, 128, 128, 129, 129]);
    let last = rng.below(6);
    for i in 0..n {
        let fault = i == 128 || i + 1 == n && rng.once_in(6);
        let mut stop = Stop { id: format!("{i}").into(), members: rng.pick(&[0, 1, 16]), ..Stop::default() };
        match last {
            1 if fault => stop.id = vec![],
            2 if fault => stop.id = b"3".to_vec(),
            3 if fault => stop.location_type = 2,
            4 if fault => stop.parent = Some(b"1".to_vec()),
            5 if fault => stop.name = Some(vec![b'n'; 65]),
            _ => {}
        }
        steps.push(Step::Stop(stop));
    }
    let stops = n.min(128) as u64;
    let rules = rng.pick(&[0, 127, 128, 129, 129, 130]);
    for i in 0..rules {
        let mut rule = Rule { from: (i / 12) as u16, to: (i % 12) as u16, transfer_type: rng.below(2) as u8, seconds: None };
        if i == 128 {
            match rng.below(5) {
                1 => rule.from = stops as u16,
                2 => rule.transfer_type = 2,
                3 => rule = Rule::default(),
                _ => {}
            }
        }
        steps.push(Step::Rule(rule));
    }
    for trip in 0..2 {
        steps.push(call(trip, 1, rng.below(12) as u16, 600, 600));
        steps.push(call(trip, 2, rng.below(12) as u16, 900, 900));
    }
    steps.push(Step::Search);
    file(&settings, &steps)
}
