//! Every pair of causes that one step can have at once: the first in the order of its tests is the answer.
use super::writer::{Call, Rule, Settings, Step, Stop, file};

fn settings() -> Settings {
    Settings { origin_walks: vec![0], target_walks: vec![0], max_transfers: 1, ..Settings::default() }
}
fn base() -> Vec<Step> {
    let stop = |id: &str, location_type, members| Step::Stop(Stop { id: id.into(), location_type, members, ..Stop::default() });
    vec![stop("X", 1, 0), stop("x0", 0, 17), Step::Rule(Rule { from: 0, to: 1, ..Rule::default() })]
}
fn call(trip: u16, sequence: u32, at: u32) -> Call {
    Call { trip, sequence, stop: 1, arrival: Some(at), departure: Some(at), ..Call::default() }
}
/// The base, then what makes 15, 4 or 11 hold, then the step.
fn ended(causes: &[u8], kind: u8, last: Step) -> Vec<u8> {
    let mut steps = base();
    if causes.contains(&4) {
        steps.extend((2..128).map(|i| Step::Stop(Stop { id: format!("{i}").into(), ..Stop::default() })));
    }
    if causes.contains(&11) && kind == 4 {
        let stops = (0..10).map(|i| Step::Stop(Stop { id: format!("r{i}").into(), ..Stop::default() }));
        steps.extend(stops);
        let rules = (1..128).map(|i| Step::Rule(Rule { from: (i + 1) / 12, to: (i + 1) % 12, ..Rule::default() }));
        steps.extend(rules);
    }
    if causes.contains(&11) && kind == 3 {
        // At the station, which is no origin and no target.
        steps.extend((0..512).map(|i| Step::Call(Call { stop: 0, ..call(i / 2, u32::from(i), 10 + u32::from(i)) })));
    }
    if causes.contains(&15) {
        steps.push(Step::Search);
    }
    steps.push(last);
    steps.push(Step::Search);
    file(&settings(), &steps)
}
fn stop(causes: &[u8]) -> Vec<u8> {
    let has = |n| causes.contains(&n);
    let id = if has(3) { vec![b'n'; 33] } else { Vec::from(if has(5) { "x0" } else { "new" }) };
    let stop = Stop {
        id,
        name: has(8).then(|| vec![b'n'; 65]),
        parent: has(7).then(|| b"x0".to_vec()),
        location_type: if has(6) { 2 } else { 0 },
        ..Stop::default()
    };
    ended(causes, 2, Step::Stop(stop))
}
fn rule(causes: &[u8]) -> Vec<u8> {
    let has = |n| causes.contains(&n);
    let (from, to) = match (has(9), has(13)) {
        (true, _) => (500, 1),
        (_, true) => (0, 1),
        _ if has(11) => (11, 11),
        _ => (1, 1),
    };
    ended(causes, 4, Step::Rule(Rule { from, to, transfer_type: if has(12) { 2 } else { 0 }, seconds: None }))
}
/// 0 stands for an absent time and 1 for a call outside.
fn stop_time(causes: &[u8]) -> Vec<u8> {
    let has = |n| causes.contains(&n);
    let at = if has(1) { 30000 } else { 600 };
    let mut call = call(700, 0, at);
    if has(10) {
        call.departure = Some(at - 1);
    }
    if has(0) {
        call.arrival = None;
    }
    if has(9) {
        call.day = 3;
    }
    ended(causes, 3, Step::Call(call))
}
/// The list of the search that follows a call would fall below 3600.
const FALLS: u8 = 111;
/// Request 11: a call added to a searched load, with 14 and 11 of the search that follows behind its own causes. Trip 700 leaves after
/// 64 other journeys; its second call is the one that is added, and for 14 the load has one of that key, where nobody alights.
fn added(causes: &[u8]) -> Vec<u8> {
    let has = |n| causes.contains(&n);
    let mut steps = base();
    if has(FALLS) {
        for trip in 0..64 {
            let at = 10 * u32::from(trip);
            steps.extend([Step::Call(call(trip, 0, at)), Step::Call(call(trip, 1, 2000 + at))]);
        }
    }
    steps.push(Step::Call(call(700, 0, 640)));
    if has(14) {
        steps.push(Step::Call(Call { drop_off: 1, ..call(700, 1, 2640) }));
    }
    if has(11) {
        let room = 512 - steps.iter().filter(|step| matches!(step, Step::Call(_))).count() as u16;
        steps.extend((0..room).map(|i| Step::Call(Call { stop: 0, ..call(100 + i, 0, 10) })));
    }
    steps.push(Step::Search);
    let at = if has(1) { 30000 } else { 2640 };
    let mut call = call(700, 1, at);
    if has(10) {
        call.departure = Some(at - 1);
    }
    if has(0) {
        call.arrival = None;
    }
    if has(9) {
        call.day = 3;
    }
    steps.push(Step::Call(call));
    file(&settings(), &steps)
}
/// Each cause of `order` alone, and each two of them but those that can't hold at once.
fn pairs(order: &[u8], apart: &[(u8, u8)], step: fn(&[u8]) -> Vec<u8>, files: &mut Vec<Vec<u8>>) {
    for (i, &first) in order.iter().enumerate() {
        files.push(step(&[first]));
        for &second in &order[i + 1..] {
            if !apart.contains(&(first, second)) {
                files.push(step(&[first, second]));
            }
        }
    }
}
/// A clash, with a list that would fall below 3600 behind it.
fn clash_and_fall() -> Vec<u8> {
    let mut steps = base();
    for trip in 0..66 {
        let at = 600 + 10 * u32::from(trip);
        steps.extend([Step::Call(call(trip, 0, at)), Step::Call(call(trip, 1, at + 60))]);
    }
    steps.push(Step::Call(call(65, 1, 1500)));
    steps.push(Step::Search);
    file(&settings(), &steps)
}
fn opened(origins: usize, max_transfers: u8, now: i64) -> Vec<u8> {
    let settings = Settings { origin_walks: vec![0; origins], max_transfers, now, ..settings() };
    file(&settings, &[Step::Search])
}
/// Ids that are not UTF-8: taken, too long, and as a needed name.
fn not_text(files: &mut Vec<Vec<u8>>) {
    for (id, position) in [(vec![0xff], None), (vec![0xff; 33], None), (vec![b'a', 0xff], Some((1.0, 1.0)))] {
        files.push(file(&settings(), &[Step::Stop(Stop { id, position, ..Stop::default() }), Step::Search]));
    }
}

pub fn files() -> Vec<Vec<u8>> {
    let mut files = Vec::new();
    pairs(&[15, 3, 5, 6, 7, 8, 4], &[(3, 5)], stop, &mut files);
    pairs(&[15, 9, 12, 13, 11], &[(9, 13)], rule, &mut files);
    pairs(&[9, 0, 10, 1, 11], &[(0, 10)], stop_time, &mut files);
    pairs(&[9, 0, 10, 1, 11, 14, FALLS], &[(0, 10)], added, &mut files);
    files.push(clash_and_fall());
    for (origins, max_transfers, now) in
        [(5, 1, 0), (4, 3, 0), (4, 2, (1 << 40) + 1), (5, 1, i64::MIN), (4, 2, 1 << 40), (4, 3, i64::MIN)]
    {
        files.push(opened(origins, max_transfers, now));
    }
    not_text(&mut files);
    files
}
