//! Dense tables, in which bounds and the kept list decide which last rides are walked: several targets, walks 0 and 255,
//! times on a coarse grid, arrivals at the horizon and one off, lists of 60 to 66.
use super::rng::Rng;
use super::writer::{Call, Settings, Step, Stop, file};

/// The walks drawn, the earliest second, the seconds between times, and how many of them.
struct Draw {
    walks: Vec<u8>,
    from: u32,
    grid: u32,
    times: u64,
}

/// Few times, so that figures are equal, and one-minute steps of the walk; or a walk of 255 minutes among short ones.
pub fn dense(rng: &mut Rng) -> Vec<u8> {
    let draw = match rng.below(3) {
        0 => Draw { walks: vec![0, 1, 2], from: 120, grid: 60, times: 12 },
        1 => Draw { walks: vec![0, 1, 255], from: rng.pick(&[60, 15300]), grid: 60, times: 20 },
        _ => Draw { walks: vec![0, 5, 10], from: 600, grid: rng.pick(&[1, 43, 128, 300]), times: 16 },
    };
    load(rng, &draw)
}
/// The last times are the horizon, a second before and after it, less the walk from some target.
pub fn edge(rng: &mut Rng) -> Vec<u8> {
    let walk = rng.pick(&[0, 0, 1, 2, 255]);
    let from = 21600 - 60 * u32::from(walk) - rng.pick(&[7, 8, 9]);
    load(rng, &Draw { walks: vec![walk, walk, 0, 1], from, grid: 1, times: 9 })
}

fn ends(rng: &mut Rng, walks: &[u8]) -> Vec<u8> {
    (0..rng.pick(&[2, 3, 4])).map(|_| rng.pick(walks)).collect()
}
fn call(trip: u16, sequence: u32, stop: u16, at: u32) -> Step {
    Step::Call(Call { trip, sequence, stop, arrival: Some(at), departure: Some(at), ..Call::default() })
}
fn stop(i: u8, members: u8) -> Step {
    Step::Stop(Stop { id: vec![b'a' + i], members, ..Stop::default() })
}

/// Stops 0 and 1 are origins, 2 and 3 change stops, 4 to 6 have targets. First rides end at change stops, last ones start
/// there and go on past several targets; a few go all the way.
fn load(rng: &mut Rng, draw: &Draw) -> Vec<u8> {
    let (origin_walks, target_walks) = (ends(rng, &draw.walks), ends(rng, &draw.walks));
    let transfer_minutes = rng.pick(&[0, 0, 0, 1]);
    let mut settings = Settings { origin_walks, target_walks, transfer_minutes, max_transfers: 1, ..Settings::default() };
    let masks = [1u8, 2, 3, 5, 9, 15];
    let mut steps = (0..2).map(|i| stop(i, rng.pick(&masks))).collect::<Vec<_>>();
    steps.extend((2..4).map(|i| stop(i, rng.pick(&[0, 0, 0, 1, 0x20]))));
    steps.extend((4..7).map(|i| stop(i, rng.pick(&masks) << 4)));
    for trip in 0..rng.range(6, 20) as u16 {
        let mut times = (0..rng.range(2, 4)).map(|_| draw.from + draw.grid * rng.below(draw.times) as u32).collect::<Vec<_>>();
        times.sort_unstable();
        let (first, rest): (u64, [u64; 2]) = rng.pick(&[(0, [2, 2]), (0, [2, 2]), (2, [4, 3]), (2, [4, 3]), (0, [2, 5])]);
        for (k, &at) in times.iter().enumerate() {
            let from = if k == 0 { [first, 2] } else { rest };
            steps.push(call(trip, k as u32, (from[0] + rng.below(from[1])) as u16, at));
        }
    }
    settings.max_transfers = rng.pick(&[1, 1, 2]);
    steps.push(Step::Search);
    file(&settings, &steps)
}

/// A list of 60 to 66 by direct rides, then rides to a change stop and on, whose figures are those of listed journeys or
/// one off: some fill the list or make a 65th, some beat several, some are beaten.
pub fn crowd(rng: &mut Rng) -> Vec<u8> {
    let (walk, other) = (rng.pick(&[0, 1, 5]), rng.pick(&[0, 1, 2]));
    let (origin_walks, target_walks) = (vec![walk, walk + other], vec![rng.pick(&[0, 2]), 0]);
    let mut settings = Settings { origin_walks, target_walks, max_transfers: 1, ..Settings::default() };
    let mut steps =
        vec![stop(0, 1), stop(1, rng.pick(&[1, 2, 3])), stop(2, 0), stop(3, 0x20), stop(4, rng.pick(&[0x10, 0x20, 0x30]))];
    let (n, step, ride) = (rng.range(58, 66) as u32, rng.pick(&[1, 2, 10]), rng.pick(&[600, 3000]));
    let first = 3600 - ride + rng.pick(&[0, 300, 900]);
    let mut runs: Vec<Vec<(u16, u32)>> = (0..n).map(|i| vec![(0, first + step * i), (3, first + step * i + ride)]).collect();
    for _ in 0..rng.range(1, 6) {
        let (leave, due) =
            (first + step * rng.below(u64::from(n) + 2) as u32, first + ride + step * rng.below(u64::from(n) + 2) as u32);
        let origin = rng.pick(&[0u16, 1]);
        let departure = leave + 60 * u32::from(if origin == 0 { 0 } else { other }) + rng.pick(&[0, 0, 1]);
        let middle = departure + rng.pick(&[0, 60, 200]);
        let end = due.max(middle) + rng.pick(&[0, 0, 1]);
        runs.push(vec![(origin, departure), (2, middle)]);
        runs.push(if rng.once_in(2) {
            vec![(2, middle), (3, end)]
        } else {
            vec![(2, middle), (4, end), (3, end + rng.pick(&[0, 1, 60]))]
        });
    }
    for (trip, run) in runs.iter().enumerate() {
        steps.extend(run.iter().enumerate().map(|(k, &(stop, at))| call(trip as u16, k as u32, stop, at)));
    }
    settings.max_transfers = rng.pick(&[1, 1, 2]);
    steps.push(Step::Search);
    file(&settings, &steps)
}
