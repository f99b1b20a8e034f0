//! The published side: a load file read record by record into the functions of journey.rs.
use crate::tables;
use display::journey::harness::timing::Filled;
use display::journey::harness::{Run, Settings, StopTimes};
use program::file::{self, Record};
use program::load::Load;
use std::fmt::Write;

fn text(bytes: &[u8]) -> Option<&str> {
    std::str::from_utf8(bytes).ok()
}
fn open(record: Record) -> Option<Filled> {
    let Record::Settings { origin_walks, target_walks, transfer_minutes, max_transfers, now, epochs } = record else {
        return None;
    };
    Some(Filled::open(&Settings { origin_walks, target_walks, transfer_minutes, max_transfers, now, epochs }))
}
fn step(load: &mut Filled, record: Record) -> Option<()> {
    match record {
        Record::Settings { .. } => None,
        Record::Stop { id, name, parent, location_type, position, members } => {
            let stop = gtfs::Stop {
                id: text(id)?,
                code: None,
                name: name.and_then(text),
                latitude: position.map(|p| p.0),
                longitude: position.map(|p| p.1),
                parent_station: parent.and_then(text),
                location_type,
            };
            load.stop(stop, members).ok()
        }
        Record::Call { trip, day, sequence, stop, arrival, departure, pickup_type, drop_off_type } => {
            load.call(&StopTimes { trip, day, sequence, stop, arrival, departure, pickup_type, drop_off_type }).ok()
        }
        Record::Rule { from, to, transfer_type, seconds } => load.rule(from, to, transfer_type, seconds.unwrap_or(0)).ok(),
        Record::Search => {
            load.order_rules();
            load.search().ok()
        }
    }
}
/// The load that a file fills, and searches where it says so. The file is one that is accepted.
pub fn load(bytes: &[u8]) -> Filled {
    let mut load = None;
    let read = file::read(
        bytes,
        |_| (),
        |record| match &mut load {
            None => open(record).map(|opened| load = Some(opened)).ok_or(()),
            Some(load) => step(load, record).ok_or(()),
        },
    );
    load.filter(|_| read.is_ok()).expect("a load that is accepted")
}

/// The same, and best asked at second 0: its leave and its arrival.
pub fn best(bytes: &[u8]) -> Option<(u16, u16)> {
    load(bytes).kept().best(0).map(|p| (p.leave, p.arrival))
}

/// The kept journeys in request 09's order: arrival, rides and walk, least first, then latest leave.
fn lines_of(run: &Run) -> String {
    let mut out = String::new();
    let mut paths: Vec<_> = run.paths().iter().collect();
    paths.sort_by_key(|p| (p.arrival, p.len, p.walk, std::cmp::Reverse(p.leave)));
    for p in paths {
        let _ = writeln!(out, "journey {} {} {} {} {} {}", p.leave, p.arrival, p.len, p.walk, p.origin, p.target);
    }
    let _ = writeln!(out, "horizon {} limits {}", run.horizon(), run.limits());
    out
}
/// What the port should print, by the load that is timed and by the oracle's, which has the refusals of 01 too. With two changes the
/// oracle's goes by the middle ride first, so it may keep another of equals.
pub fn lines(bytes: &[u8]) -> Vec<String> {
    let mut found = vec![lines_of(load(bytes).kept())];
    if tables::transfers(bytes) < 2 {
        let oracle = Load::of(bytes, true).expect("a load that is accepted");
        found.push(lines_of(&oracle.run));
    }
    found
}
