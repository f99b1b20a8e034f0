//! Verdicts as lines, as the program `mark` prints them (crate verdict_lines).
use std::io;
use timetable::{Cause, Connection, Leg, Verdict, judge};

/// Trip, day, the sequences where it boards and alights.
fn leg(b: &[u8]) -> Leg {
    let number = |at: usize| u32::from_be_bytes([b[at], b[at + 1], b[at + 2], b[at + 3]]);
    Leg { trip: u16::from_be_bytes([b[0], b[1]]), day: b[2], board: number(3), alight: number(7) }
}
/// The verdict on a connection of 36 bytes: origin, target, how many rides count, then three rides of 11 bytes.
fn verdict(file: &[u8], b: &[u8]) -> String {
    let legs: Vec<Leg> = b[3..].chunks_exact(11).map(leg).collect();
    let many = vec![Leg::default(); usize::from(b[2])];
    let legs = legs.get(..usize::from(b[2])).unwrap_or(&many);
    match judge(file, &Connection { origin: b[0], target: b[1], legs }) {
        Err(refusal) => format!("refused {}", refusal.number()),
        Ok(Verdict::NotFinished) => "unfinished".to_string(),
        Ok(Verdict::Late) => "late".to_string(),
        Ok(Verdict::Listed(j)) => format!("listed {j}"),
        Ok(Verdict::AsGood(j)) => format!("equal {j}"),
        Ok(Verdict::Beaten(j)) => format!("beaten {j}"),
        Ok(Verdict::Uncovered) => "uncovered".to_string(),
        Ok(Verdict::Impossible(cause)) => format!("impossible {}", words(cause)),
    }
}
fn words(cause: Cause) -> String {
    match cause {
        Cause::RideCount { rides } => format!("rides {rides}"),
        Cause::NoCall { leg, sequence } => format!("no-call {leg} {sequence}"),
        Cause::BoardingBarred { leg } => format!("boarding {leg}"),
        Cause::AlightingBarred { leg } => format!("alighting {leg}"),
        Cause::NotLater { leg } => format!("not-later {leg}"),
        Cause::NotOrigin => "origin".to_string(),
        Cause::NotTarget => "target".to_string(),
        Cause::TooEarly { walk, departure } => format!("walk {walk} {departure}"),
        Cause::TooManyChanges { most } => format!("changes {most}"),
        Cause::SameRun { change } => format!("same-run {change}"),
        Cause::Forbidden { change, rule } => format!("forbidden {change} {rule}"),
        Cause::NoChange { change } => format!("no-change {change}"),
        Cause::TooShort { change, needed, arrival, departure } => format!("short {change} {needed} {arrival} {departure}"),
    }
}

/// Of each pair of a load file and its connections: a line for each connection, then a line `.`.
pub fn run() -> io::Result<()> {
    let mut first: Option<Vec<u8>> = None;
    super::parts(|part| match first.take() {
        None => first = Some(part.to_vec()),
        Some(file) => {
            part.chunks_exact(36).for_each(|connection| println!("{}", verdict(&file, connection)));
            println!(".");
        }
    })
}
