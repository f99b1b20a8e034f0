//! Single files: 01's marked instances, one for each place where 01 could be read two ways, and calls after the search (request 11).
use super::accents;
use super::writer::{Call, Rule, Settings, Step, Stop, file};

fn settings(walks: &[u8], egress: &[u8], minutes: u8) -> Settings {
    let (origin_walks, target_walks) = (walks.to_vec(), egress.to_vec());
    Settings { origin_walks, target_walks, transfer_minutes: minutes, max_transfers: 1, ..Settings::default() }
}
fn stop(id: &str, members: u8) -> Step {
    Step::Stop(Stop { id: id.into(), members, ..Stop::default() })
}
fn station(id: &str) -> Step {
    Step::Stop(Stop { id: id.into(), location_type: 1, ..Stop::default() })
}
fn platform(id: &str, parent: &str, members: u8) -> Step {
    Step::Stop(Stop { id: id.into(), parent: Some(parent.into()), members, ..Stop::default() })
}
fn named(id: &str, name: &str, lat: f64, lon: f64) -> Step {
    Step::Stop(Stop { id: id.into(), name: Some(name.into()), position: Some((lat, lon)), ..Stop::default() })
}
fn call(trip: u16, sequence: u32, stop: u16, arrival: u32, departure: u32) -> Step {
    Step::Call(Call { trip, sequence, stop, arrival: Some(arrival), departure: Some(departure), ..Call::default() })
}
/// A trip that calls at each stop at one second.
fn trip(number: u16, calls: &[(u16, u32)]) -> Vec<Step> {
    calls.iter().enumerate().map(|(k, &(stop, at))| call(number, k as u32, stop, at, at)).collect()
}
fn searched(settings: &Settings, parts: Vec<Vec<Step>>) -> Vec<u8> {
    let mut steps: Vec<Step> = parts.into_iter().flatten().collect();
    steps.push(Step::Search);
    file(settings, &steps)
}
fn ends() -> Vec<Step> {
    vec![stop("a", 1), stop("b", 16)]
}

/// The starred instances but the time texts, and the two places.
fn of_01(files: &mut Vec<Vec<u8>>) {
    files.push(searched(&settings(&[5], &[2], 3), vec![ends(), trip(1, &[(0, 600), (1, 1200)])]));
    for departure in [300, 299] {
        files.push(searched(&settings(&[5], &[0], 3), vec![ends(), trip(1, &[(0, departure), (1, 900)])]));
    }
    for alighting in [21480, 21481] {
        files.push(searched(&settings(&[0], &[2], 3), vec![ends(), trip(1, &[(0, 600), (1, alighting)])]));
    }
    for departure in [1180, 1179] {
        let rides = vec![trip(1, &[(0, 600), (2, 1000)]), trip(2, &[(2, departure), (1, 1500)])];
        files.push(searched(&settings(&[0], &[0], 3), [vec![ends(), vec![stop("m", 0)]], rides].concat()));
    }
    for (departure, arrival) in [(300, 1319), (301, 1320)] {
        let direct = trip(1, &[(0, 300), (1, 1320)]);
        let change = [trip(2, &[(0, departure), (2, 800)]), trip(3, &[(2, 800), (1, arrival)])].concat();
        files.push(searched(&settings(&[0], &[0], 0), vec![ends(), vec![stop("m", 0)], direct, change]));
    }
    let early = Settings { now: 1000, ..settings(&[0], &[0], 0) };
    for departure in [1000, 999] {
        files.push(searched(&early, vec![ends(), vec![call(1, 0, 0, 990, departure)], vec![call(1, 1, 1, 1600, 1600)]]));
    }
    for last in [3601, 3600] {
        let trips = (0..65).map(|i| trip(i, &[(0, 1000 + 10 * u32::from(i)), (1, last - 640 + 10 * u32::from(i))]));
        files.push(searched(&settings(&[0], &[0], 0), std::iter::once(ends()).chain(trips).collect()));
    }
    for lat in [0.0011245, 0.0011255] {
        files.push(searched(&settings(&[0], &[0], 0), vec![vec![named("p", "Quay", 0.0, 1.0), named("q", "quay", lat, 1.0)]]));
    }
    let across = vec![named("p", "Quay", 0.0, 179.9995), named("q", "Quay", 0.0, -179.9995)];
    files.push(searched(&settings(&[0], &[0], 0), vec![across]));
    for lat in [0.0011235, 0.0011245] {
        let pair = vec![named("p", "Quay", -0.0000019, 1.0), named("q", "Quay", lat, 1.0)];
        files.push(searched(&settings(&[0], &[0], 0), vec![pair]));
    }
}
/// 512 calls of pairs by 3000 that make no journey, and calls after them.
fn full(more: Vec<Step>, horizon: u32) -> Vec<u8> {
    let pairs = (0..256).map(|i| trip(i, &[(2, u32::from(i)), (2, horizon - u32::from(i))])).collect::<Vec<_>>().concat();
    searched(&settings(&[0], &[0], 0), vec![ends(), vec![stop("m", 0)], pairs, more])
}
fn two_readings(files: &mut Vec<Vec<u8>>) {
    let plain = settings(&[0], &[0], 0);
    // A departure held to the horizon before an arrival at it.
    files.push(searched(&plain, vec![ends(), vec![call(1, 0, 0, 600, 30000), call(1, 1, 1, 21600, 21600)]]));
    // A name that is there and empty, and one that is not needed.
    files.push(searched(&plain, vec![vec![named("p", "", 1.0, 1.0)]]));
    files.push(searched(&plain, vec![vec![named("p", "", 91.0, 1.0)]]));
    // A parent, a name and an id of one hash.
    let quays = vec![station("quay"), platform("p", "quay", 0), named("q", "Quay", 1.0, 1.0)];
    files.push(searched(&plain, vec![quays]));
    files.push(searched(&plain, vec![vec![stop("quay", 0), named("q", "Quay", 1.0, 1.0)]]));
    // A 513th call that is outside after the cut, outside before it, late, and taken.
    files.push(full(vec![call(999, 0, 2, 16201, 16201)], 16200));
    files.push(full(vec![call(999, 0, 2, 21601, 21601)], 16200));
    files.push(full(vec![call(999, 0, 2, 3001, 3000)], 3800));
    files.push(full(vec![call(999, 0, 2, 3000, 3000)], 3800));
    files.push(full(vec![call(999, 0, 2, 3000, 3000)], 16201));
    // A platform and its own station, without and with a rule.
    for rule in [None, Some(Rule { from: 3, to: 2, transfer_type: 0, seconds: None })] {
        let stops = vec![ends(), vec![station("s"), platform("p", "s", 0)], rule.into_iter().map(Step::Rule).collect()];
        let rides = vec![trip(1, &[(0, 600), (3, 1000)]), trip(2, &[(2, 1100), (1, 1500)])];
        files.push(searched(&plain, [stops, rides].concat()));
    }
    // Two half-exact rules in both orders, of which the one exact on the from side wins (request 06); a station that forbids itself.
    let half = |from, to, seconds| Step::Rule(Rule { from, to, transfer_type: 2, seconds: Some(seconds) });
    let forbidden = || Step::Rule(Rule { from: 2, to: 2, transfer_type: 3, seconds: None });
    for rules in [vec![half(3, 2, 60), half(2, 4, 200)], vec![half(2, 4, 200), half(3, 2, 60)], vec![forbidden()], vec![]] {
        let stops = vec![ends(), vec![station("s"), platform("p", "s", 0), platform("q", "s", 0)], rules];
        let rides = vec![trip(1, &[(0, 600), (3, 1000)]), trip(2, &[(4, 1100), (1, 1500)]), trip(3, &[(3, 1100), (1, 1600)])];
        files.push(searched(&plain, [stops, rides].concat()));
    }
    // Equal journeys from two origins, in two calls, at two targets.
    let both = vec![stop("a", 3), stop("b", 48)];
    let rides = vec![trip(2, &[(0, 600), (1, 1200)]), trip(1, &[(0, 600), (1, 1200)])];
    files.push(searched(&settings(&[5, 5], &[2, 2], 3), [vec![both], rides].concat()));
}

/// Files for readings that the profiles seldom tell apart.
fn seldom(files: &mut Vec<Vec<u8>>) {
    let plain = settings(&[0], &[0], 0);
    // Near the pole the polynomial cosine is a twentieth below the true one.
    let pole = |lon| vec![named("p", "Quay", 89.9994385, 0.0), named("q", "Quay", 89.9994385, lon)];
    for lon in [113.0, 117.0, 122.0] {
        files.push(searched(&plain, vec![pole(lon)]));
    }
    // Pairs where rounding decides: one place in f64 and two in exact numbers, and the other way round.
    for (south, north, lon) in [(89.9985925, 89.9994355, 44.3912265), (89.9985775, 89.9994595, 41.7998065)] {
        files.push(searched(&plain, vec![vec![named("p", "Quay", south, 0.0), named("q", "Quay", north, lon)]]));
    }
    // 64 kept journeys, then a trip whose direct journey beats one of them; a change within the trip would be a 65th.
    let base = || {
        (0..64u16).map(|i| trip(i, &[(0, 1800 + 20 * u32::from(i)), (1, 3800 + 20 * u32::from(i))])).collect::<Vec<_>>().concat()
    };
    files.push(searched(&plain, vec![ends(), vec![stop("m", 0)], base(), trip(64, &[(0, 2405), (2, 3000), (1, 4400)])]));
    // The same with the change stop a target far from its end: its direct journey, its changes, then the trip's own.
    for walk in [10, 30] {
        let onward = [trip(64, &[(0, 2405), (2, 3000), (1, 4400)]), trip(65, &[(2, 3000), (1, 4410)])].concat();
        files.push(searched(&settings(&[0], &[0, walk], 0), vec![ends(), vec![stop("m", 32)], base(), onward]));
    }
    // Seconds on a rule of type 0 or 1 don't count, on type 2 they do (request 02).
    let rides = || vec![trip(1, &[(0, 600), (2, 1000)]), trip(2, &[(2, 1200), (1, 1500)])].concat();
    for transfer_type in [0, 1, 2] {
        let rule = Step::Rule(Rule { from: 2, to: 2, transfer_type, seconds: Some(240) });
        files.push(searched(&plain, vec![ends(), vec![stop("m", 0), rule], rides()]));
    }
    // Two stops of one place without a parent change; byte 127 is a control.
    let near = vec![named("m", "Quay", 1.0, 1.0), named("n", " quay", 1.001, 1.0), named("o", "Quay", 1.0011, 1.0)];
    let across = vec![trip(1, &[(0, 600), (2, 1000)]), trip(2, &[(3, 1200), (1, 1500)])].concat();
    files.push(searched(&plain, vec![ends(), near, across]));
    files.push(searched(&plain, vec![vec![named("m", "q\u{7f}", 1.0, 1.0)]]));
    // The 65th arrives with another, leaving later from a farther stop: both go.
    let spread = (0..63u16).map(|i| trip(i, &[(0, 1000 + 10 * u32::from(i)), (1, 3000 + 10 * u32::from(i))])).collect::<Vec<_>>();
    let latest = [trip(63, &[(0, 1700), (1, 5000)]), trip(64, &[(2, 2100), (1, 5000)])].concat();
    files.push(searched(&settings(&[0, 5], &[0], 0), vec![ends(), vec![stop("c", 2)], spread.concat(), latest]));
    // A journey that leaves and arrives at the horizon, asked for after it.
    files.push(searched(&plain, vec![ends(), trip(1, &[(0, 21600), (1, 21600)])]));
}

/// Request 11: calls after the search.
fn added(files: &mut Vec<Vec<u8>>) {
    let plain = settings(&[0], &[0], 0);
    let at = |trip: u16, second| call(trip, 0, 0, second, second);
    let mut file_of = |before: Vec<Vec<Step>>, after: Vec<Step>| {
        files.push([searched(&plain, before), after.iter().flat_map(Step::record).collect()].concat());
    };
    // The list fell to 5999, and by more: a call at 6500 is taken, one past 21600 is outside; both have the list searched from the table's.
    let spread = |n: u16| (0..n).flat_map(|i| trip(i + 1, &[(0, i.into()), (1, 6001 - u32::from(n - i))])).collect::<Vec<_>>();
    for second in [5999, 6000, 6500, 21600, 21601] {
        file_of(vec![ends(), spread(65)], vec![at(80, second)]);
    }
    file_of(vec![ends(), spread(65)], trip(80, &[(0, 65), (1, 6500)]));
    // One that beats them all and is offered first: the mark is gone again.
    file_of(vec![ends(), spread(65)], trip(0, &[(0, 200), (1, 5000)]));
    // A full table: the call that cuts it is taken, or then outside; a cut before the search stays.
    let late = || (0..510).map(|i| at(100 + i, if i < 255 { 15000 } else { 16201 })).collect::<Vec<_>>();
    let ride = || trip(1, &[(0, 600), (1, 16100)]);
    for second in [16200, 16201] {
        file_of(vec![ends(), ride(), late()], vec![at(9, second)]);
    }
    file_of(vec![ends(), ride(), late(), vec![at(9, 16201)]], vec![at(10, 16201), at(11, 16200)]);
    // As many as a list holds: one more is refused, and so is one more call of a full table that no cut empties.
    let full = || (0..64u16).flat_map(|i| trip(i, &[(0, i.into()), (1, 3536 + u32::from(i))])).collect::<Vec<_>>();
    for last in [3600, 3601] {
        file_of(vec![ends(), full()], trip(90, &[(0, 64), (1, last)]));
    }
    file_of(vec![ends(), (0..512).map(|i| at(i, 10)).collect()], vec![at(600, 10)]);
}

pub fn instances() -> Vec<Vec<u8>> {
    let mut files = Vec::new();
    seldom(&mut files);
    of_01(&mut files);
    two_readings(&mut files);
    accents::instances(&mut files);
    added(&mut files);
    files
}
