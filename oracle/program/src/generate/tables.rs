//! Ordinary papers and full tables, for the benchmark and for long comparisons.
use super::rng::Rng;
use super::writer::{Call, Rule, Settings, Step, Stop, file};

/// Which stops are origins and targets.
#[derive(Clone, Copy)]
pub enum Ends {
    One,
    Several,
    Every,
}

fn stop(i: u64, n: u64, ends: Ends) -> Stop {
    let members = match ends {
        Ends::One => u8::from(i == 0) | u8::from(i + 1 == n) << 4,
        Ends::Several => [0x01, 0, 0x12, 0, 0x20, 0x01, 0x10, 0][i as usize % 8],
        Ends::Every => 0x11,
    };
    let position = Some((52.0 + (i / 3) as f64 * 0.0005, 16.9));
    let name = Some(format!("Stop {}", i / 3).into_bytes());
    Stop { id: format!("stop-{i:03}").into(), name, position, members, ..Stop::default() }
}
/// `trips` trips of `calls` calls over `stops` stops, most within the first five hours.
pub fn table(rng: &mut Rng, trips: u64, calls: u64, stops: u64, ends: Ends, max_transfers: u8) -> Vec<u8> {
    let settings = Settings {
        origin_walks: vec![2, 5],
        target_walks: vec![1, 4],
        transfer_minutes: 3,
        max_transfers,
        ..Settings::default()
    };
    let mut steps: Vec<Step> = (0..stops).map(|i| Step::Stop(stop(i, stops, ends))).collect();
    for i in 0..stops.min(20) {
        let rule = Rule { from: i as u16, to: ((i * 7 + 3) % stops) as u16, transfer_type: (i % 3) as u8, seconds: Some(90) };
        steps.push(Step::Rule(rule));
    }
    let gap = 16000 / calls.max(8);
    for trip in 0..trips {
        let mut at = 600 + rng.below(3600);
        // A trip runs along the stops with a stride, so that trips cross; every trip passes an end now and then.
        let (first, stride) = (rng.below(stops), 1 + rng.below(stops.max(4) / 4));
        for k in 0..calls {
            let stop = match trip % 4 {
                0 if k == 0 => 0,
                1 if k + 1 == calls => stops - 1,
                _ => (first + k * stride) % stops,
            };
            let departure = at + rng.below(30);
            steps.push(Step::Call(Call {
                trip: trip as u16,
                sequence: k as u32 + 1,
                stop: stop as u16,
                arrival: Some(at as u32),
                departure: Some(departure as u32),
                ..Call::default()
            }));
            at = departure + gap / 2 + rng.below(gap / 2 + 1);
        }
    }
    steps.push(Step::Search);
    file(&settings, &steps)
}
/// 12 stops, 60 calls: 10 trips of 6 calls.
pub fn paper(rng: &mut Rng) -> Vec<u8> {
    table(rng, 10, 6, 12, Ends::Several, 1)
}
pub fn full(rng: &mut Rng) -> Vec<u8> {
    let (trips, calls) = rng.pick(&[(64, 8), (32, 16), (16, 32), (256, 2)]);
    let ends = rng.pick(&[Ends::One, Ends::One, Ends::Several]);
    let max_transfers = rng.pick(&[0, 1, 1]);
    table(rng, trips, calls, 40, ends, max_transfers)
}
/// A list of 200 journeys of which none beats another.
pub fn unbeaten() -> Vec<u8> {
    let settings =
        Settings { origin_walks: vec![2], target_walks: vec![1], transfer_minutes: 3, max_transfers: 1, ..Settings::default() };
    let mut steps: Vec<Step> = (0..2).map(|i| Step::Stop(stop(i, 2, Ends::One))).collect();
    for trip in 0..200u32 {
        for (sequence, stop, at) in [(1, 0, 600 + 60 * trip), (2, 1, 4200 + 60 * trip)] {
            let call = Call { trip: trip as u16, sequence, stop, arrival: Some(at), departure: Some(at), ..Call::default() };
            steps.push(Step::Call(call));
        }
    }
    steps.push(Step::Search);
    file(&settings, &steps)
}
/// The benchmark's tables by name.
pub fn recorded() -> Vec<(String, Vec<u8>)> {
    let mut tables = Vec::new();
    for (trips, calls) in [(64, 8), (32, 16), (16, 32), (256, 2)] {
        for (ends, word) in [(Ends::One, "one"), (Ends::Several, "several"), (Ends::Every, "every")] {
            let mut rng = Rng::new(trips * 100 + calls);
            tables.push((format!("{trips}x{calls}-{word}"), table(&mut rng, trips, calls, 40, ends, 1)));
        }
        let mut rng = Rng::new(trips * 100 + calls);
        tables.push((format!("{trips}x{calls}-direct"), table(&mut rng, trips, calls, 40, Ends::Several, 0)));
    }
    tables.push(("64x8-one-128-stops".to_string(), table(&mut Rng::new(128), 64, 8, 128, Ends::One, 1)));
    tables.push(("unbeaten-200".to_string(), unbeaten()));
    for i in 0..10 {
        tables.push((format!("paper-{i}"), paper(&mut Rng::new(1000 + i))));
    }
    tables
}
