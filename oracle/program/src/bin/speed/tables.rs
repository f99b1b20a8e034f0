//! Load files cut and made for the benchmark. A file is its version and then records, each after its length.
use program::generate::writer::{Call, Rule, Settings, Step, Stop, file};

/// The file's records that are wanted; each is handed over from its kind byte on.
fn only(bytes: &[u8], mut wanted: impl FnMut(&[u8]) -> bool) -> Vec<u8> {
    let mut out = bytes[..1].to_vec();
    let mut rest = &bytes[1..];
    while let [high, low, ..] = rest {
        let (record, after) = rest.split_at(2 + usize::from(u16::from_be_bytes([*high, *low])));
        if wanted(&record[2..]) {
            out.extend(record);
        }
        rest = after;
    }
    out
}
const CALL: u8 = 3;
const SEARCH: u8 = 5;
/// Whether the Rust's reader takes the file: of version 1, no kinds behind the search's, and nothing behind the search.
pub fn is_plain(bytes: &[u8]) -> bool {
    let mut kinds = Vec::new();
    only(bytes, |record| {
        kinds.push(record[0]);
        false
    });
    let records = kinds.strip_suffix(&[SEARCH]).unwrap_or(&kinds);
    bytes[0] == 1 && records.iter().all(|&kind| kind < SEARCH)
}
pub fn unsearched(bytes: &[u8]) -> Vec<u8> {
    only(bytes, |record| record[0] != SEARCH)
}
const SETTINGS: u8 = 1;
/// Where the settings of a file have `max_transfers`: behind the counts, the walks and the change time.
fn transfers_at(bytes: &[u8]) -> usize {
    assert!(bytes[3] == SETTINGS, "settings first");
    7 + usize::from(bytes[4]) + usize::from(bytes[5])
}
pub fn transfers(bytes: &[u8]) -> u8 {
    bytes[transfers_at(bytes)]
}
pub fn with_transfers(bytes: &[u8], max_transfers: u8) -> Vec<u8> {
    let mut bytes = bytes.to_vec();
    let at = transfers_at(&bytes);
    bytes[at] = max_transfers;
    bytes
}
pub fn calls(bytes: &[u8]) -> usize {
    let mut found = 0;
    only(bytes, |record| {
        found += usize::from(record[0] == CALL);
        false
    });
    found
}
/// The file's last call, as one of day 0 in the second of its arrival, and the file without it.
pub fn last_call(bytes: &[u8]) -> (Call, Vec<u8>) {
    let mut found = Vec::new();
    only(bytes, |record| {
        if record[0] == CALL {
            found = record.to_vec()
        }
        false
    });
    let number = |at: usize, n: usize| found[at..at + n].iter().fold(0, |x, &byte| x << 8 | u32::from(byte));
    assert!(found[3] == 0 && found[10] == 1, "a call of day 0 with an arrival");
    let at = Some(number(11, 4));
    let (trip, stop) = (number(1, 2) as u16, number(8, 2) as u16);
    let call = Call { trip, sequence: number(4, 4), stop, arrival: at, departure: at, ..Call::default() };
    (call, only(bytes, |record| record != found))
}
/// Only the calls of the first trips.
pub fn first_trips(bytes: &[u8], trips: u16) -> Vec<u8> {
    only(bytes, |record| record[0] != CALL || u16::from_be_bytes([record[1], record[2]]) < trips)
}

fn settings(walks: &[u8], target_walks: &[u8]) -> Settings {
    let (origin_walks, target_walks) = (walks.to_vec(), target_walks.to_vec());
    Settings { origin_walks, target_walks, transfer_minutes: 3, max_transfers: 1, ..Settings::default() }
}
/// The most journeys that so many calls can make: two trips, one after the other, from stops of four origins to stops of four
/// targets, which are one place. So each ride of the first is followed by each of the second.
pub fn two_trips(calls: u16) -> Vec<u8> {
    trips(calls, &[0x0f, 0xf0, 0xf0], &[0, 1, 2, 3])
}
/// The same where what departs early is no worse than the rest: only the last call is at a target that is near, all others of the
/// second trip at targets four hours away on foot.
pub fn near_at_last(calls: u16) -> Vec<u8> {
    trips(calls, &[0x0f, 0xe0, 0x10], &[0, 240, 240, 240])
}
/// Two trips and a third between them, which is at a target before the second and which no ride joins, since it is elsewhere. So no
/// first ride's changes can be left out before they are looked at.
pub fn out_of_reach(calls: u16) -> Vec<u8> {
    trips(calls, &[0x0f, 0xf0, 0xf0, 0x10], &[0, 1, 2, 3])
}
/// Two changes: a trip whose later alightings lead to ever earlier arrivals, by a ride of their own and then another, after each of its
/// boardings and for four origins, each leaving later than the one before. All of them also join a long trip, every ride of which is
/// looked at each time and leads to a target late. Up to 60 other journeys are kept and read by each question.
pub fn improving(calls: u16) -> Vec<u8> {
    let (kept, boards, ends) = ((calls / 8).min(60), calls / 9, calls / 20);
    let long = calls - (kept + 1) - boards - 5 * ends - 2;
    let (row, origin, hub, meet, target, first_end) = (0, 1, 2, 3, 4, 5);
    let stop = |id: u16, members| Step::Stop(Stop { id: format!("s{id}").into(), members, ..Stop::default() });
    let mut steps = vec![stop(row, 0x18), stop(origin, 0x0f), stop(hub, 0), stop(meet, 0), stop(target, 0x10)];
    steps.extend((0..ends).map(|k| stop(first_end + k, 0)));
    steps.extend((0..ends).map(|k| Step::Rule(Rule { from: first_end + k, to: hub, ..Rule::default() })));
    let mut call = |trip, sequence: u16, stop, at: u16| {
        let (sequence, at) = (sequence.into(), Some(at.into()));
        steps.push(Step::Call(Call { trip, sequence, stop, arrival: at, departure: at, ..Call::default() }));
    };
    (0..=kept).for_each(|i| call(0, i, row, 3 * i));
    (0..boards).for_each(|i| call(1, i, origin, 400 + 241 * i));
    let alights = 400 + 241 * boards;
    (0..ends).for_each(|k| call(1, boards + k, first_end + k, alights + 5 * k));
    let on = alights + 5 * ends;
    (0..long).for_each(|i| call(2, i, hub, on + 3 * i));
    let after = on + 3 * long;
    call(3, 0, hub, after);
    call(3, 1, target, 21000);
    for k in 0..ends {
        let met = 20000 - 10 * k;
        call(10 + 2 * k, 0, first_end + k, after);
        call(10 + 2 * k, 1, meet, met);
        call(11 + 2 * k, 0, meet, met);
        call(11 + 2 * k, 1, target, met + 4);
    }
    steps.push(Step::Search);
    let settings = Settings { transfer_minutes: 0, max_transfers: 2, ..settings(&[3, 2, 1, 0], &[0]) };
    file(&settings, &steps)
}
fn trips(calls: u16, members: &[u8], target_walks: &[u8]) -> Vec<u8> {
    let stop = |(i, members): (u8, &u8)| {
        let (name, latitude) = if i < 3 { ("Stop", 52.0) } else { ("Elsewhere", 53.0) };
        let (name, position) = (Some(name.into()), Some((latitude, 16.9)));
        Step::Stop(Stop { id: vec![b'a' + i], name, position, members: *members, ..Stop::default() })
    };
    let call = |trip, i, stop, at| {
        let at = Some(u32::from(at));
        Step::Call(Call { trip, sequence: u32::from(i), stop, arrival: at, departure: at, ..Call::default() })
    };
    let between = if members.len() > 3 { 2 } else { 0 };
    let (calls, half) = (calls - between, (calls - between) / 2);
    let steps = (0u8..).zip(members).map(stop);
    let steps =
        steps.chain((0..calls).map(|i| call(i / half, i, i / half + u16::from(i + 1 == calls), 300 + 40 * i + 300 * (i / half))));
    let steps = steps.chain((0..between).map(|i| call(2, i, 3, 300 + 40 * (half + i))));
    file(&settings(&[0, 1, 2, 3], target_walks), &steps.chain([Step::Search]).collect::<Vec<_>>())
}
/// 128 stops, every second one in a station; 128 rules; 512 calls of 32 trips. Ids have 32 bytes and differ in the last three,
/// names have 64, so that tests which read every earlier record read much of it.
pub fn full() -> Vec<u8> {
    let [stops, rules, calls] = parts();
    let steps = [stops, rules, calls, vec![Step::Search]].concat();
    file(&settings(&[2, 5], &[2, 5]), &steps)
}
/// The same stops, then the rules and the first 128 calls in turn, so that no two records of a kind follow one another.
pub fn in_turn() -> Vec<u8> {
    let [stops, rules, calls] = parts();
    let turns = rules.into_iter().zip(calls).flat_map(|(rule, call)| [rule, call]);
    file(&settings(&[2, 5], &[2, 5]), &stops.into_iter().chain(turns).collect::<Vec<_>>())
}
fn parts() -> [Vec<Step>; 3] {
    let id = |i: u16| format!("{:a<29}{i:03}", "").into_bytes();
    let stop = |i: u16| Stop {
        id: id(i),
        name: Some(format!("{:b<61}{:03}", "", i / 2).into_bytes()),
        parent: (i % 2 == 1).then(|| id(i - 1)),
        location_type: u8::from(i % 2 == 0),
        position: Some((52.0 + f64::from(i) * 0.0005, 16.9)),
        members: [0, 0x01, 0, 0x10][usize::from(i % 4)],
    };
    let rule = |i: u16| Rule { from: i, to: (i * 7 + 3) % 128, transfer_type: 2, seconds: Some(90) };
    let call = |i: u16| {
        let at = Some(u32::from(600 + i % 16 * 900 + i / 16 * 60));
        Call { trip: i / 16, sequence: u32::from(i % 16), stop: i * 5 % 128, arrival: at, departure: at, ..Call::default() }
    };
    let stops = (0..128).map(|i| Step::Stop(stop(i))).collect();
    let rules = (0..128).map(|i| Step::Rule(rule(i))).collect();
    let calls = (0..512).map(|i| Step::Call(call(i))).collect();
    [stops, rules, calls]
}
