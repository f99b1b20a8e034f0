//! Every refusal at its place and in combination, damaged files, and steps after the search.
use super::rng::Rng;
use super::world::{self, Draw};
use super::writer::{Call, Rule, Settings, Step, Stop, file, record};
use super::{changes, limits};

pub fn settings(rng: &mut Rng) -> Vec<u8> {
    let limit = 1i64 << 40;
    let time = |rng: &mut Rng| rng.pick(&[0, 0, 0, limit, -limit, limit + 1, -limit - 1, i64::MAX, i64::MIN]);
    let count = |rng: &mut Rng| rng.pick(&[0, 1, 2, 2, 3, 3, 4, 4, 4, 4, 4, 5, 255]);
    let (origins, targets) = (count(rng), count(rng));
    let quiet = rng.once_in(2);
    let settings = Settings {
        origin_walks: (0..origins).map(|_| rng.below(256) as u8).collect(),
        target_walks: (0..targets).map(|_| rng.below(256) as u8).collect(),
        transfer_minutes: rng.below(256) as u8,
        max_transfers: rng.pick(&[0, 1, 1, 2, 1, 1, 2, 3, 255]),
        now: if quiet { 0 } else { time(rng) },
        epochs: [0; 3].map(|_| if quiet { 0 } else { time(rng) }),
    };
    let stop = |id: &str, members| Step::Stop(Stop { id: id.into(), members, ..Stop::default() });
    let call =
        |sequence, stop, t| Step::Call(Call { trip: 1, sequence, stop, arrival: Some(t), departure: Some(t), ..Call::default() });
    // Stops of every origin and target: the walks decide which is taken.
    let start = rng.pick(&[0, 3600, 15300, 15299, 7000]);
    file(&settings, &[stop("a", 255), stop("b", 255), call(1, 0, start), call(2, 1, start + 60), Step::Search])
}

/// A stop with each fault one time in so many.
fn stop(rng: &mut Rng, n: u64) -> Stop {
    let mut stop = Stop { id: format!("f{}", rng.below(1000)).into(), ..Stop::default() };
    if rng.once_in(n) {
        stop.id = rng.pick(&[vec![], vec![b'n'; 33]]);
    }
    if rng.once_in(n) {
        stop.id = b"x0".to_vec();
    }
    if rng.once_in(n) {
        stop.location_type = rng.pick(&[1, 2, 255]);
        stop.parent = Some(b"X".to_vec());
    }
    if rng.once_in(n) {
        stop.parent = rng.pick(&[Some(b"x0".to_vec()), Some(b"nowhere".to_vec()), Some(vec![]), Some(vec![b'n'; 40])]);
    }
    if rng.once_in(n) {
        stop.position = Some((1.0, 1.0));
        stop.name = Some(rng.pick(&[vec![], vec![1], vec![b'n'; 65], vec![200]]));
    }
    stop
}
fn call(rng: &mut Rng, n: u64) -> Call {
    let at = rng.pick(&[0, 600, 21600]);
    let mut call = Call { trip: 7, sequence: rng.below(1000) as u32, arrival: Some(at), departure: Some(at), ..Call::default() };
    if rng.once_in(n) {
        match rng.below(5) {
            0 => call.stop = rng.pick(&[3, 65535]),
            1 => call.trip = 65535,
            2 => call.day = 3,
            3 => call.pickup = 4,
            _ => call.drop_off = 255,
        }
    }
    if rng.once_in(n) {
        call.departure = rng.pick(&[None, Some(at.saturating_sub(1))]);
    }
    if rng.once_in(n) {
        call.arrival = rng.pick(&[None, Some(at + 1)]);
    }
    if rng.once_in(n) {
        (call.arrival, call.departure) =
            rng.pick(&[(Some(30000), Some(29999)), (Some(21601), Some(21601)), (Some(u32::MAX), Some(u32::MAX))]);
    }
    call
}
fn rule(rng: &mut Rng, n: u64) -> Rule {
    let mut rule = Rule { from: rng.below(3) as u16, to: rng.below(3) as u16, transfer_type: 0, seconds: None };
    if rng.once_in(n) {
        rule.from = rng.pick(&[3, 65535]);
    }
    if rng.once_in(n) {
        rule.to = rng.pick(&[3, 65535]);
    }
    if rng.once_in(n) {
        rule.transfer_type = rng.pick(&[2, 4, 255, 3]);
    }
    if rng.once_in(n) {
        (rule.from, rule.to) = (0, 1);
    }
    rule
}
/// Three stops, a rule and a trip, then steps with several faults at once, before or after a search.
pub fn refusals(rng: &mut Rng) -> Vec<u8> {
    let settings = Settings { origin_walks: vec![0], target_walks: vec![0], max_transfers: 1, ..Settings::default() };
    let mut steps = vec![
        Step::Stop(Stop { id: b"X".to_vec(), location_type: 1, ..Stop::default() }),
        Step::Stop(Stop { id: b"x0".to_vec(), members: 1, ..Stop::default() }),
        Step::Stop(Stop { id: b"x1".to_vec(), members: 16, parent: Some(b"X".to_vec()), ..Stop::default() }),
        Step::Rule(Rule { from: 0, to: 1, ..Rule::default() }),
    ];
    for (sequence, stop, at) in [(1, 1, 600), (2, 2, 900)] {
        steps.push(Step::Call(Call { trip: 1, sequence, stop, arrival: Some(at), departure: Some(at), ..Call::default() }));
    }
    let searched = rng.once_in(6);
    if searched {
        steps.push(Step::Search);
    }
    let n = rng.pick(&[2, 3, 8]);
    for _ in 0..rng.range(1, 3) {
        steps.push(match rng.below(7) {
            0 | 1 => Step::Stop(stop(rng, n)),
            2 | 3 => Step::Call(call(rng, n)),
            4 | 5 => Step::Rule(rule(rng, n)),
            _ if searched => Step::Search,
            _ => Step::Call(call(rng, 2)),
        });
    }
    if !searched {
        steps.push(Step::Search);
    }
    file(&settings, &steps)
}

/// A small file with one to three wounds.
pub fn damage(rng: &mut Rng) -> Vec<u8> {
    let draw = Draw { stops: (1, 2), trips: (1, 2), calls: (2, 2), rules: 1, ..Draw::default() };
    let mut bytes = world::world(rng, &draw);
    for _ in 0..rng.pick(&[1, 1, 1, 2, 3]) {
        let at = rng.below(bytes.len().max(1) as u64) as usize;
        match rng.below(9) {
            0 => bytes.truncate(at),
            1 if at < bytes.len() => bytes[at] = rng.below(256) as u8,
            2 if at < bytes.len() => bytes[at] ^= 1 << rng.below(8),
            3 => bytes.insert(at, rng.pick(&[0, 1, 2, 255])),
            4 if at < bytes.len() => drop(bytes.remove(at)),
            5 => bytes.truncate(rng.pick(&[0, 1, 2, 3, 4])),
            6 => bytes.extend(rng.pick(&[
                vec![0],
                vec![0, 0],
                vec![0, 1],
                vec![0, 1, 5],
                vec![0, 1, 5, 0],
                vec![0, 2, 5, 0],
                vec![0, 1, 6],
                vec![0, 1, 0],
            ])),
            7 => bytes = edit(rng, &bytes),
            _ => wound(rng, &mut bytes),
        }
    }
    bytes
}
/// Where each record of a whole file starts.
fn starts(bytes: &[u8]) -> Vec<usize> {
    let (mut at, mut starts) = (1, Vec::new());
    while at + 2 < bytes.len() {
        starts.push(at);
        at += 2 + usize::from(u16::from_be_bytes([bytes[at], bytes[at + 1]]));
    }
    starts
}
/// A record dropped, doubled, or put in before another; kinds and lengths changed.
fn edit(rng: &mut Rng, bytes: &[u8]) -> Vec<u8> {
    let starts = starts(bytes);
    if starts.is_empty() {
        return bytes.to_vec();
    }
    let i = rng.below(starts.len() as u64) as usize;
    let (from, to) = (starts[i], starts.get(i + 1).copied().unwrap_or(bytes.len()).min(bytes.len()));
    let put = match rng.below(4) {
        0 => vec![],
        1 => [&bytes[from..to], &bytes[from..to]].concat(),
        2 => [Settings::default().record(), bytes[from..to].to_vec()].concat(),
        _ => [record(rng.pick(&[0, 6, 5, 255, 3, 2, 4, 1]), &vec![0; rng.below(3) as usize]), bytes[from..to].to_vec()].concat(),
    };
    [&bytes[..from], &put, &bytes[to..]].concat()
}
/// One byte of a record's head or of its first fields.
fn wound(rng: &mut Rng, bytes: &mut Vec<u8>) {
    let starts = starts(bytes);
    if starts.is_empty() {
        return;
    }
    let at = rng.pick(&starts) + rng.below(6) as usize;
    if at < bytes.len() {
        bytes[at] = rng.pick(&[0, 1, 2, 3, 4, 5, 6, 255]);
    }
}

/// Request 11: a file of another profile whose search stands before some of its last calls, now and then with one of them twice.
pub fn added(rng: &mut Rng) -> Vec<u8> {
    let others = [
        world::small,
        world::window,
        world::neighbours,
        world::days,
        changes::changes,
        changes::ties,
        limits::list,
        limits::brim,
    ];
    let bytes = if rng.once_in(40) { limits::cut(rng) } else { rng.pick(&others)(rng) };
    let mut records: Vec<&[u8]> = Vec::new();
    let starts = starts(&bytes);
    for (i, &from) in starts.iter().enumerate() {
        records.push(&bytes[from..starts.get(i + 1).copied().unwrap_or(bytes.len())]);
    }
    records.retain(|record| record[2] != 5);
    let last = records.iter().rev().take_while(|record| record[2] == 3).count();
    let moved = (rng.pick(&[1, 1, 2, 3, 5, 9]) as usize).min(last);
    let search = record(5, &[]);
    if moved > 0 && rng.once_in(3) {
        records.push(records[records.len() - 1 - rng.below(moved as u64) as usize]);
    }
    records.insert(records.len() - moved, &search);
    [&bytes[..1], &records.concat()].concat()
}

/// Steps after the search, a second search, and loads that are never searched.
pub fn after(rng: &mut Rng) -> Vec<u8> {
    let mut bytes = world::world(rng, &Draw { odd: 1000, ..Draw::default() });
    for _ in 0..rng.below(3) {
        let step = match rng.below(5) {
            0 => Step::Stop(stop(rng, 3)),
            1 => Step::Call(call(rng, 3)),
            2 => Step::Rule(rule(rng, 3)),
            _ => Step::Search,
        };
        bytes.extend(step.record());
    }
    bytes
}
