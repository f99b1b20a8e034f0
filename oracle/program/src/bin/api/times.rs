//! Calls of the port's crate and of the published Rust, timed in turns.
use crate::{published, steps, tables};
use std::hint::black_box;
use std::io;
use std::time::Instant;
use timetable::{Connection, FILE_ROOM, Journey, Leg, List, judge, write};

/// Least and median of what the rounds took, in nanoseconds a call.
struct Times([f64; 2]);
/// Some two milliseconds a round, and for a third of a second, in turns; between 5 and 501 rounds.
fn in_turns<const N: usize>(mut sides: [&mut dyn FnMut(); N]) -> [Times; N] {
    let time = |side: &mut dyn FnMut(), calls: u32| {
        let start = Instant::now();
        (0..calls).for_each(|_| side());
        start.elapsed().as_nanos() as f64 / f64::from(calls)
    };
    let calls = sides.each_mut().map(|side| (2e6 / time(*side, 1).max(1.0)).clamp(1.0, 1e5) as u32);
    let once: f64 = sides.iter_mut().zip(calls).map(|(side, calls)| f64::from(calls) * time(*side, calls)).sum();
    let rounds = (3e8 * N as f64 / once).clamp(5.0, 501.0) as usize;
    let mut spent = [const { Vec::new() }; N];
    for _ in 0..rounds {
        for ((side, spent), calls) in sides.iter_mut().zip(&mut spent).zip(calls) {
            spent.push(time(*side, calls));
        }
    }
    spent.map(|mut spent: Vec<f64>| {
        spent.sort_unstable_by(f64::total_cmp);
        Times([spent[0], spent[spent.len() / 2]])
    })
}
/// In nanoseconds below 10 us, else in microseconds.
fn shown(Times(times): &Times) -> String {
    let [least, median] = times.map(|ns| if ns < 1e4 { format!("{ns:.0} ns") } else { format!("{:.1} us", ns / 1e3) });
    format!("{least}, {median}")
}
fn row(name: &str, what: &str, port: &Times, published: Option<&Times>) {
    let (beside, ratio) = match published {
        Some(times) => (shown(times), format!("{:.2}", port.0[1] / times.0[1])),
        None => ("-".to_string(), "-".to_string()),
    };
    println!("| {name} | {what} | {} | {beside} | {ratio} |", shown(port));
}

/// The connection of a journey: the calls of its rides are found by their stops and times.
fn legs_of(file: &[u8], journey: &Journey) -> Vec<Leg> {
    let mut filled = published::load(file);
    let calls = filled.kept().calls();
    let of = |trip, day, stop, second, departs| {
        let at = |c: &&_| same_call(c, trip, day, stop, second, departs);
        calls.iter().find(at).expect("the ride's call").sequence
    };
    let leg = |r: &timetable::Ride| Leg {
        trip: r.trip,
        day: r.day,
        board: of(r.trip, r.day, r.from, r.departure, true),
        alight: of(r.trip, r.day, r.to, r.arrival, false),
    };
    journey.rides().iter().map(leg).collect()
}
fn same_call(c: &display::journey::harness::CallRow, trip: u16, day: u8, stop: u16, second: u16, departs: bool) -> bool {
    (c.trip, c.day, c.stop, if departs { c.departure } else { c.arrival }) == (trip, day, stop, second)
}

fn file_rows(name: &str, file: &[u8]) {
    let list = List::read(file).expect("a load that is accepted");
    let mut filled = published::load(file);
    let kept = filled.kept();
    let unsearched = tables::unsearched(file);
    let [port, rust] =
        in_turns([&mut || _ = black_box(List::read(black_box(file))), &mut || _ = black_box(published::load(black_box(file)))]);
    row(name, "read", &port, Some(&rust));
    let [within] = in_turns([&mut || _ = black_box(List::read_within(black_box(&unsearched), 1000))]);
    row(name, "read within 1,000 joins", &within, None);
    let middle = list.journeys().get(list.journeys().len() / 2).map_or(0, |j| i64::from(j.leave));
    let [port, rust] =
        in_turns([&mut || _ = black_box(list.best(black_box(middle))), &mut || _ = black_box(kept.best(black_box(middle)))]);
    row(name, "best", &port, Some(&rust));
    if let Some(journey) = list.journeys().last() {
        let legs = legs_of(file, journey);
        let asked = Connection { origin: journey.origin, target: journey.target, legs: &legs };
        assert!(matches!(judge(file, &asked), Ok(timetable::Verdict::Listed(_))), "{name}: {:?}", judge(file, &asked));
        let [judged] = in_turns([&mut || _ = black_box(judge(black_box(file), &asked))]);
        row(name, "judge", &judged, None);
    }
    let mut out = vec![0; FILE_ROOM];
    let [written] = in_turns([&mut || _ = black_box(write(black_box(file), &mut out))]);
    row(name, "write", &written, None);
    let [whole] = in_turns([&mut || _ = black_box(steps::built(black_box(file), &mut out).is_ok())]);
    row(name, &format!("append, {} records one by one", steps::records(file).len()), &whole, None);
}

pub fn run(files: &[String]) -> io::Result<()> {
    println!("| file | call | port: least, median | Rust: least, median | ratio of the medians |\n|---|---|---|---|---|");
    for path in files {
        let name = path.rsplit('/').next().unwrap_or(path).trim_end_matches(".load");
        file_rows(name, &std::fs::read(path)?);
    }
    Ok(())
}
