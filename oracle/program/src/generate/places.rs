//! Changes by rule, station and place; positions, names and ids.
use super::rng::Rng;
use super::world::{Draw, settings};
use super::writer::{Call, Rule, Settings, Step, Stop, file};

pub fn plain(origins: Vec<u8>, targets: Vec<u8>, minutes: u8) -> Settings {
    Settings { origin_walks: origins, target_walks: targets, transfer_minutes: minutes, max_transfers: 1, ..Settings::default() }
}
fn ride(trip: u16, from: u16, to: u16, departure: u32, arrival: u32) -> [Step; 2] {
    let call = |sequence, stop, at| Call { trip, sequence, stop, arrival: Some(at), departure: Some(at), ..Call::default() };
    [Step::Call(call(1, from, departure)), Step::Call(call(2, to, arrival))]
}

/// One origin, one target, two stations and up to six change stops; with each stop its station's number.
fn stations(rng: &mut Rng) -> (Vec<Step>, Vec<Option<u16>>) {
    let mut stops = vec![Stop { id: b"origin".to_vec(), members: 1, ..Stop::default() }];
    stops.push(Stop { id: b"target".to_vec(), members: 16, ..Stop::default() });
    for id in ["S", "R"] {
        stops.push(Stop { id: id.into(), location_type: 1, ..Stop::default() });
    }
    let mut parents = vec![None; 4];
    for i in 0..rng.range(2, 6) {
        let parent = rng.pick(&[None, Some(2), Some(2), Some(2), Some(3), Some(3)]);
        let position = rng.once_in(2).then_some((1.0, 1.0));
        let id = format!("p{i}").into();
        let station = parent.map(|p| if p == 2 { b"S".to_vec() } else { b"R".to_vec() });
        stops.push(Stop { id, name: Some(b"Quay".to_vec()), parent: station, position, ..Stop::default() });
        parents.push(parent);
    }
    (stops.into_iter().map(Step::Stop).collect(), parents)
}
/// Changes one second around what the rules give. Half the time every rule is about one pair of platforms and their
/// stations, so that exactness and the order of rules decide.
pub fn rules(rng: &mut Rng) -> Vec<u8> {
    let minutes = rng.pick(&[0, 0, 1, 3]);
    let (mut steps, parents) = stations(rng);
    let last = parents.len() as i64 - 1;
    let change = |rng: &mut Rng| if rng.once_in(7) { rng.pick(&[2, 3]) } else { rng.range(4, last) as u16 };
    let (p, q) = (change(rng), change(rng));
    let close = rng.once_in(2);
    let mut pairs = Vec::new();
    for _ in 0..rng.range(0, 6) {
        let side = |rng: &mut Rng, near: u16| match (close, rng.once_in(2)) {
            (true, true) => near,
            (true, false) => parents[usize::from(near)].unwrap_or(2),
            (false, true) => rng.pick(&[2, 3]),
            (false, false) => change(rng),
        };
        let pair = (side(rng, p), side(rng, q));
        if !pairs.contains(&pair) {
            pairs.push(pair);
        }
    }
    let lengths = [0, 30, 59, 60, 61, 180, 181, 240, 600];
    for &(from, to) in &pairs {
        let transfer_type = rng.pick(&[0, 1, 2, 2, 2, 3]);
        let seconds = (transfer_type == 2 || rng.once_in(2)).then(|| rng.pick(&lengths));
        steps.push(Step::Rule(Rule { from, to, transfer_type, seconds }));
    }
    for trip in 0..rng.range(1, 4) as u16 {
        let to = if close { p } else { change(rng) };
        steps.extend(ride(trip, 0, to, 600 + 60 * u32::from(trip), 1000 + 10 * u32::from(trip)));
    }
    for trip in 10..rng.range(12, 20) as u16 {
        let wait = u32::from(rng.pick(&lengths)) + 1000 + 10 * rng.below(3) as u32;
        let departure = wait - u32::from(rng.once_in(3));
        let from = if close { q } else { change(rng) };
        steps.extend(ride(trip, from, 1, departure, departure + 10 * u32::from(trip)));
    }
    steps.push(Step::Search);
    file(&plain(vec![0], vec![0], minutes), &steps)
}

/// Pairs of half-exact rules (request 06): two stations, stops in and beside them, and of a pair of stops the rules that can apply, in any
/// order, most of them of type 2 with seconds of their own. Changes one second around what each gives.
pub fn halves(rng: &mut Rng) -> Vec<u8> {
    let minutes = rng.pick(&[0, 0, 1]);
    let (mut steps, parents) = stations(rng);
    let last = parents.len() as i64 - 1;
    let station = |stop: u16| parents[usize::from(stop)].unwrap_or(stop);
    let (p, q) = (rng.range(4, last) as u16, rng.range(4, last) as u16);
    let mut pairs = Vec::new();
    for (from, to) in [(p, q), (q, p)] {
        let full = rng.once_in(4).then_some((from, to));
        let halves = [(from, station(to)), (station(from), to)];
        let neither = rng.once_in(2).then_some((station(from), station(to)));
        for pair in full.into_iter().chain(halves).chain(neither) {
            if !pairs.contains(&pair) {
                pairs.insert(rng.below(pairs.len() as u64 + 1) as usize, pair);
            }
        }
    }
    let lengths = [60, 61, 119, 120, 180, 181, 240, 300];
    for (from, to) in pairs {
        let transfer_type = rng.pick(&[2, 2, 2, 2, 2, 0, 1, 3]);
        let seconds = (transfer_type == 2 || rng.once_in(2)).then(|| rng.pick(&lengths));
        steps.push(Step::Rule(Rule { from, to, transfer_type, seconds }));
    }
    for (trip, to) in [(0, p), (1, q)] {
        steps.extend(ride(trip, 0, to, 600 + 60 * u32::from(trip), 1000));
    }
    for trip in 10..rng.range(14, 24) as u16 {
        let departure = 1000 + u32::from(rng.pick(&lengths)) - u32::from(rng.once_in(3));
        let from = rng.pick(&[p, q]);
        steps.extend(ride(trip, from, 1, departure, departure + 10 * u32::from(trip)));
    }
    steps.push(Step::Search);
    file(&plain(vec![0], vec![0], minutes), &steps)
}

/// A few rides between any of so many stops.
pub fn rides(rng: &mut Rng, steps: &mut Vec<Step>, stops: u64) {
    for trip in 0..rng.range(0, 4) as u16 {
        let (a, b) = (rng.below(stops) as u16, rng.below(stops) as u16);
        let start = 600 + rng.below(6) as u32 * 200;
        steps.extend(ride(trip, a, b, start, start + 200));
    }
}

/// Degrees whose product with a million cuts to these microdegrees, or lies just beside.
fn degrees(rng: &mut Rng, micro: i64) -> f64 {
    let half = if micro < 0 { -0.5 } else { 0.5 };
    if rng.once_in(3) { micro as f64 / 1e6 } else { (micro as f64 + half) / 1e6 }
}
fn position(rng: &mut Rng, centre: (i64, i64)) -> (f64, f64) {
    let unusable = [f64::NAN, f64::INFINITY, f64::NEG_INFINITY, 90.0, 90.00000000000001, -90.0, -91.0, 180.0, 180.00000000000003];
    if rng.once_in(25) {
        let other = degrees(rng, centre.1);
        return if rng.once_in(2) { (rng.pick(&unusable), other) } else { (1.0, rng.pick(&unusable)) };
    }
    let step = rng.pick(&[0, 0, 1, 500, 562, 999, 1000, 1123, 1124, 1125, 1126, 2248, 795, 794]);
    let lat = centre.0 + step * rng.range(-1, 1);
    let mut lon =
        centre.1 + if rng.once_in(2) { 0 } else { rng.pick(&[1, 500, 795, 1000, 1123, 1124, 1125, 1590]) * rng.range(-2, 2) };
    if centre.0.abs() > 89_000_000 && rng.once_in(2) {
        lon = rng.range(-180_000_000, 180_000_000);
    }
    if lon > 180_000_000 {
        lon -= 360_000_000;
    }
    let lat = lat.clamp(-90_000_000, 90_000_000);
    (degrees(rng, lat).clamp(-90.0, 90.0), degrees(rng, lon).clamp(-180.0, 180.0))
}
/// Stops about one centre, with few names; chains of neighbours, the antimeridian and the poles.
pub fn places(rng: &mut Rng) -> Vec<u8> {
    let lat =
        rng.pick(&[0, 0, 52_000_000, -33_000_000, 60_000_000, 89_998_300, 89_998_876, -90_000_000, 90_000_000, 75_522_487, -3]);
    let lon = rng.pick(&[0, 16_900_000, 180_000_000, 179_999_500, -179_999_500, 179_999_999]);
    let chain = rng.once_in(3);
    let names = rng.pick(&[
        vec!["Quay"],
        vec!["Quay", "quay", " QUAY\t"],
        vec!["Quay", "Pier", "Quay Pier", "QuayPier"],
        vec!["x[", "x{", "X[ "],
    ]);
    let mut steps = Vec::new();
    let stations = rng.pick(&[vec![], vec!["S0"], vec!["S0", "s0"], vec!["quay"], vec!["pier", "Pier"]]);
    for i in 0..stations.len() {
        steps.push(Step::Stop(Stop { id: stations[i].into(), location_type: 1, ..Stop::default() }));
    }
    // An id that reads like a name, no two alike.
    let told = |k: i64| -> Vec<u8> { format!("{}Q{}", " ".repeat(k as usize), if k % 2 == 0 { "uay" } else { "UAY" }).into() };
    let n = rng.range(2, 8);
    let mut order: Vec<i64> = (0..n).collect();
    rng.shuffle(&mut order);
    for (i, &k) in order.iter().enumerate() {
        let centre = if chain { (lat.min(89_900_000) + 1000 * i as i64, lon) } else { (lat, lon) };
        let at = position(rng, centre);
        let stop = Stop {
            id: if rng.once_in(9) { told(k) } else { format!("{}{}", if k % 2 == 0 { "P" } else { "p" }, k / 2).into() },
            name: (!rng.once_in(7)).then(|| rng.pick(&names).into()),
            parent: (!stations.is_empty() && rng.once_in(4)).then(|| rng.pick(&stations).into()),
            location_type: 0,
            position: (!rng.once_in(6)).then_some(at),
            members: rng.pick(&[1, 16, 17, 0]),
        };
        steps.push(Step::Stop(stop));
    }
    rides(rng, &mut steps, stations.len() as u64 + n as u64);
    steps.push(Step::Search);
    file(&plain(vec![0], vec![0], 0), &steps)
}

/// A name; where it may be a bad one, now and then with any byte in it, or without a word, or too long.
fn name(rng: &mut Rng, risky: bool) -> Vec<u8> {
    let mut name: Vec<u8> =
        rng.pick(&["Old Quay", "old quay", "OLD  QUAY ", "\told\n\x0b\x0c\rquay", "x", "oldquay", "[old`{quay@"]).into();
    if risky && rng.once_in(3) {
        let at = rng.below(name.len() as u64 + 1) as usize;
        let any = rng.below(256) as u8;
        let byte = rng.pick(&[0, 8, 9, 13, 14, 28, 31, 32, 126, 127, 127, 128, 133, 160, 255, any]);
        name.insert(at, byte);
    }
    if risky && rng.once_in(4) {
        name = rng.pick(&[
            b"".to_vec(),
            b"".to_vec(),
            b" \t ".to_vec(),
            "B\u{e9}con".into(),
            vec![b'n'; 64],
            vec![b'n'; 65],
            vec![200; 65],
            "\u{a0}".into(),
            vec![7; 65],
        ]);
    }
    name
}

/// Names with and without words, of every byte, needed and not; lengths at the limit.
pub fn names(rng: &mut Rng) -> Vec<u8> {
    let mut steps = vec![Step::Stop(Stop {
        id: b"S".to_vec(),
        location_type: 1,
        name: Some(vec![0; rng.pick(&[0, 64, 64, 64, 65])]),
        ..Stop::default()
    })];
    let risky = rng.once_in(2);
    for i in 0..rng.range(2, 5) {
        let name = name(rng, risky);
        let unnamed = rng.once_in(6);
        let mut id: Vec<u8> = format!("i{i}").into();
        if unnamed && rng.once_in(2) {
            id = rng.pick(&["Old Quay", " old quay", " ", "\u{1}", "q\u{7f}", "B\u{e9}", "OLD QUAY"]).into();
        }
        let stop = Stop {
            id,
            name: (!unnamed).then_some(name),
            parent: rng.once_in(6).then(|| b"S".to_vec()),
            location_type: u8::from(rng.once_in(12)),
            position: (!rng.once_in(5)).then_some((rng.pick(&[1.0, 1.0, 1.0, 91.0]), 2.0)),
            members: 0,
        };
        steps.push(Step::Stop(stop));
    }
    steps.push(Step::Search);
    file(&plain(vec![0], vec![0], 0), &steps)
}

/// Ids at the limits of length, taken twice, of any bytes; parents that are there, are no stations or are missing.
pub fn ids(rng: &mut Rng) -> Vec<u8> {
    let pool: Vec<Vec<u8>> = vec![
        b"a".to_vec(),
        b"a\0".to_vec(),
        b"A".to_vec(),
        vec![b'n'; 32],
        [vec![b'n'; 31], vec![b'm']].concat(),
        "\u{e9}".into(),
        b"b".to_vec(),
        b"ab".to_vec(),
        b"~".to_vec(),
        b"\0".to_vec(),
    ];
    let mut steps = Vec::new();
    for _ in 0..rng.range(2, 6) {
        let mut id = rng.pick(&pool);
        if rng.once_in(25) {
            id = rng.pick(&[vec![], vec![b'n'; 33], vec![0xff], vec![b'a', 0xc3], vec![0xff; 33]]);
        }
        let location_type = u8::from(rng.once_in(4));
        let parent = (location_type == 0 && rng.once_in(4)).then(|| rng.pick(&pool));
        let position = rng.once_in(2).then_some((1.0, 1.0));
        steps.push(Step::Stop(Stop { id, name: Some(b"one".to_vec()), parent, location_type, position, members: 17 }));
    }
    let mut settings = settings(rng, &Draw::default());
    settings.max_transfers = 1;
    steps.push(Step::Search);
    file(&settings, &steps)
}
