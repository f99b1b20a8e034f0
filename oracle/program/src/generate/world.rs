//! Small loads by chance, and profiles that draw their times, types, days and figures where the rules turn.
use super::rng::Rng;
use super::writer::{Call, Rule, Settings, Step, Stop, file};

/// What a small world is drawn from.
pub struct Draw {
    pub stops: (i64, i64),
    pub trips: (i64, i64),
    pub calls: (i64, i64),
    pub days: u8,
    pub rules: i64,
    pub walks: Vec<u8>,
    pub minutes: Vec<u8>,
    /// Seconds from the start at which a trip begins, and between its calls.
    pub starts: Vec<i64>,
    pub gaps: Vec<i64>,
    pub dwells: Vec<i64>,
    pub types: Vec<u8>,
    /// A fault of order or an odd value one time in so many calls.
    pub odd: u64,
}
impl Default for Draw {
    fn default() -> Self {
        Self {
            stops: (2, 6),
            trips: (1, 6),
            calls: (2, 5),
            days: 1,
            rules: 2,
            walks: vec![0, 1, 2, 5, 10],
            minutes: vec![0, 1, 3, 5],
            starts: (0..24).map(|i| i * 150).collect(),
            gaps: vec![0, 60, 120, 180, 300, 600],
            dwells: vec![0, 0, 30, 60],
            types: vec![0, 0, 0, 0, 1, 2, 3],
            odd: 60,
        }
    }
}

pub fn settings(rng: &mut Rng, draw: &Draw) -> Settings {
    let count = |rng: &mut Rng| rng.pick(&[1, 1, 1, 2, 2, 3, 4, 0]);
    let (origins, targets) = (count(rng), count(rng));
    let now = rng.pick(&[0, 0, 1_000_000, -5000, 1 << 40, -(1 << 40)]);
    // Epochs at or before the start, so that every small second can be told after them.
    let back = |rng: &mut Rng, most: i64| (now - rng.range(0, most)).max(-(1 << 40));
    let spread = if draw.days > 1 { 90_000 } else { 50_000 };
    Settings {
        origin_walks: (0..origins).map(|_| rng.pick(&draw.walks)).collect(),
        target_walks: (0..targets).map(|_| rng.pick(&draw.walks)).collect(),
        transfer_minutes: rng.pick(&draw.minutes),
        max_transfers: rng.pick(&[0, 1, 1, 2]),
        now,
        epochs: [back(rng, spread), back(rng, spread), back(rng, spread)],
    }
}
/// Seconds after a day's epoch for a second from the start.
pub fn after_epoch(settings: &Settings, day: u8, second: i64) -> u32 {
    (settings.now + second - settings.epochs[usize::from(day)]).clamp(0, u32::MAX.into()) as u32
}
pub fn stops(rng: &mut Rng, n: i64) -> Vec<Stop> {
    let mut stops: Vec<Stop> = Vec::new();
    // Half the time only the first stop is an origin and only the last a target, so that changes matter.
    let apart = rng.once_in(2);
    for i in 0..n {
        let id = format!("{}{i}", rng.pick(&["a", "b", "Z", "s"])).into_bytes();
        let stations: Vec<Vec<u8>> = stops.iter().filter(|s| s.location_type == 1).map(|s| s.id.clone()).collect();
        let location_type = u8::from(rng.once_in(6));
        let parent = (location_type == 0 && !stations.is_empty() && !rng.once_in(3)).then(|| rng.pick(&stations));
        let position = rng.once_in(3).then(|| (rng.range(0, 3) as f64 * 0.001, 10.0));
        let name = rng.once_in(2).then(|| rng.pick(&["Main", "main ", "Quay"]).as_bytes().to_vec());
        let any = rng.below(256) as u8;
        let members = rng.pick(&[0, 1, 16, 17, 3, 48, 255, any]);
        let end = if i == 0 {
            members | 1
        } else if i + 1 == n {
            members << 4 | 16
        } else {
            0
        };
        let members = if apart { end & if i == 0 { 15 } else { 240 } } else { members };
        stops.push(Stop { id, name, parent, location_type, position, members });
    }
    stops
}
fn trip(rng: &mut Rng, draw: &Draw, settings: &Settings, number: u16, stops: i64, out: &mut Vec<Step>) {
    let day = rng.below(u64::from(draw.days)) as u8;
    let n = rng.range(draw.calls.0, draw.calls.1);
    let mut at = rng.pick(&draw.starts);
    let mut sequence = rng.pick(&[0, 1, 7, u32::MAX - 8]);
    for k in 0..n {
        let arrival = at;
        let any = rng.below(stops as u64) as u16;
        let stop = match (k, rng.once_in(2)) {
            (0, true) => 0,
            (k, true) if k + 1 == n => stops as u16 - 1,
            _ => any,
        };
        let departure = at + rng.pick(&draw.dwells);
        let odd = rng.once_in(draw.odd);
        let (a, d) = if odd && rng.once_in(3) { (departure + 5, arrival) } else { (arrival, departure) };
        let given = |rng: &mut Rng, t: i64| (!rng.once_in(40)).then(|| after_epoch(settings, day, t));
        out.push(Step::Call(Call {
            trip: number,
            day,
            sequence,
            stop,
            arrival: given(rng, a),
            departure: given(rng, d),
            pickup: rng.pick(&draw.types),
            drop_off: rng.pick(&draw.types),
        }));
        sequence += if odd && rng.once_in(2) { 0 } else { 1 };
        at = departure + rng.pick(&draw.gaps) - if odd { 40 } else { 0 };
    }
}
pub fn rules(rng: &mut Rng, most: i64, stops: i64) -> Vec<Rule> {
    let mut rules: Vec<Rule> = Vec::new();
    for _ in 0..rng.range(0, most) {
        let (from, to) = (rng.below(stops as u64) as u16, rng.below(stops as u64) as u16);
        if rules.iter().any(|r| (r.from, r.to) == (from, to)) {
            continue;
        }
        let transfer_type = rng.below(4) as u8;
        let seconds = (transfer_type == 2 || rng.once_in(2)).then(|| rng.pick(&[0, 30, 60, 61, 180, 600, 65535]));
        rules.push(Rule { from, to, transfer_type, seconds });
    }
    rules
}
pub fn world(rng: &mut Rng, draw: &Draw) -> Vec<u8> {
    let settings = settings(rng, draw);
    let n = rng.range(draw.stops.0, draw.stops.1);
    let mut steps: Vec<Step> = stops(rng, n).into_iter().map(Step::Stop).collect();
    let mut rest: Vec<Step> = rules(rng, draw.rules, n).into_iter().map(Step::Rule).collect();
    for number in 0..rng.range(draw.trips.0, draw.trips.1) {
        let number = if rng.once_in(8) { rng.below(3) as u16 } else { number as u16 * 3 + rng.below(3) as u16 };
        trip(rng, draw, &settings, number, n, &mut rest);
    }
    if rng.once_in(2) {
        rng.shuffle(&mut rest);
    }
    steps.extend(rest);
    if !rng.once_in(30) {
        steps.push(Step::Search);
    }
    file(&settings, &steps)
}

pub fn small(rng: &mut Rng) -> Vec<u8> {
    world(rng, &Draw::default())
}
/// Times at 0, walk x 60, 3600 and the horizon, one second before and after.
pub fn window(rng: &mut Rng) -> Vec<u8> {
    let walks = rng.pick(&[vec![0, 5], vec![2, 60], vec![1, 255], vec![0]]);
    let mut starts = Vec::new();
    for edge in [0, 0, 3600, 21600, 21600, 300, 120, 60, 3600, 15300, 21600 - 120, 21600 - 300, 21600 - 60] {
        starts.extend([-10, -1, 0, 1].map(|d| edge + d));
    }
    let gaps = vec![0, 0, 1, 60, 300, 21600, 6300];
    let dwells = vec![0, 0, 1, 10, 11, 600];
    world(rng, &Draw { walks, starts, gaps, dwells, rules: 1, stops: (2, 4), ..Draw::default() })
}
pub fn types(rng: &mut Rng) -> Vec<u8> {
    let types = rng.pick(&[vec![0, 1, 2, 3], vec![1, 2], vec![0, 3], vec![0, 1, 2, 3, 0, 1, 2, 3, 0, 1, 2, 3, 0, 1, 2, 3, 4]]);
    let starts = vec![-30, -1, 0, 600, 3600, 21590, 21600];
    world(rng, &Draw { types, starts, dwells: vec![0, 0, 30, 60], rules: 1, stops: (2, 4), odd: 200, ..Draw::default() })
}
pub fn days(rng: &mut Rng) -> Vec<u8> {
    let draw = Draw { days: rng.pick(&[2, 3, 3, 3]), trips: (2, 8), stops: (2, 4), odd: 200, ..Draw::default() };
    world(rng, &draw)
}
/// Equal sequences, overlapping times and times held at the horizon.
pub fn neighbours(rng: &mut Rng) -> Vec<u8> {
    let starts = vec![-100, 0, 600, 21500, 21550, 21590, 21600];
    let gaps = vec![0, 0, 1, 10, 50, 100, -8990, -100];
    let dwells = vec![0, 1, 10, 110, 9000];
    let odd = rng.pick(&[6, 30, 300]);
    world(rng, &Draw { starts, gaps, dwells, odd, trips: (1, 3), stops: (2, 3), ..Draw::default() })
}
/// Few different figures, so that leave, arrival, rides and walk are often equal.
pub fn ties(rng: &mut Rng) -> Vec<u8> {
    let draw = Draw {
        stops: (2, 5),
        trips: (3, 9),
        calls: (2, 4),
        walks: rng.pick(&[vec![0], vec![0, 5], vec![5, 10], vec![0, 1, 2]]),
        minutes: vec![0, 0, 5],
        starts: vec![600, 900, 1200],
        gaps: vec![300, 300, 600],
        dwells: vec![0],
        types: vec![0, 0, 0, 2],
        days: rng.pick(&[1, 1, 2]),
        odd: 1000,
        ..Draw::default()
    };
    world(rng, &draw)
}
