//! Builds a small load step by step, and asks for verdicts on two connections.
//! Bus 1 goes from the mill to the market, tram 2 from the square, three minutes away by a rule, to the college.
//! usage: steps
use timetable::{Call, Cause, Connection, FILE_ROOM, Leg, LoadBuilder, Refusal, Rule, Settings, Stop, Verdict, judge};

/// Takes the steps up to the first that is refused.
fn build(buffer: &mut [u8]) -> Result<LoadBuilder<'_>, Refusal> {
    let settings = Settings { origin_walks: &[5], target_walks: &[2], change_time: 120, max_transfers: 1, ..Settings::default() };
    let mut load = LoadBuilder::new(buffer, &settings)?;
    let mill = load.stop(&Stop { id: b"mill", origins: 1, ..Stop::default() })?;
    let market = load.stop(&Stop { id: b"market", ..Stop::default() })?;
    let square = load.stop(&Stop { id: b"square", ..Stop::default() })?;
    let college = load.stop(&Stop { id: b"college", targets: 1, ..Stop::default() })?;
    load.rule(&Rule { from: market, to: square, kind: 2, seconds: Some(180) })?;
    for (trip, sequence, stop, second) in [
        (1, 1, mill, 600),
        (1, 2, market, 1200),
        (2, 1, square, 1380),
        (2, 2, college, 1800),
        (3, 1, square, 1320),
        (3, 2, college, 1740),
    ] {
        load.call(&Call { trip, sequence, stop, arrival: Some(second), departure: Some(second), ..Call::default() })?;
    }
    load.search()?;
    Ok(load)
}

/// The bus, then a tram of a number.
fn with_tram(trip: u16) -> [Leg; 2] {
    [1, trip].map(|trip| Leg { trip, day: 0, board: 1, alight: 2 })
}

fn words(verdict: Verdict) -> String {
    match verdict {
        Verdict::Listed(at) => format!("journey {at} of the list"),
        Verdict::Impossible(Cause::TooShort { change, needed, arrival, departure }) => {
            format!("impossible: change {change} takes {needed} seconds, from {arrival} to {departure} there are fewer")
        }
        other => format!("{other:?}"),
    }
}

fn main() -> Result<(), Refusal> {
    let mut buffer = vec![0; FILE_ROOM];
    let load = build(&mut buffer)?;
    for tram in [2, 3] {
        let verdict = judge(load.file(), &Connection { origin: 0, target: 0, legs: &with_tram(tram) })?;
        println!("tram {tram}: {}", words(verdict));
    }
    Ok(())
}
