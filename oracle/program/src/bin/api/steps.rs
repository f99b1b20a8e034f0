//! A load file of version 1 built again step by step, each of its records appended.
use timetable::{Accepted, List, LoadBuilder, Refusal, Settings};

const CALL: u8 = 3;

/// The file's records without their lengths, each from its kind byte on.
pub fn records(file: &[u8]) -> Vec<&[u8]> {
    let mut found = Vec::new();
    let mut rest = &file[1..];
    while let [high, low, after @ ..] = rest {
        let (record, behind) = after.split_at(usize::from(u16::from_be_bytes([*high, *low])));
        found.push(record);
        rest = behind;
    }
    found
}

/// The list, and a letter for each call: t taken, o outside. The file is one that isn't refused.
pub fn built(file: &[u8], buffer: &mut [u8]) -> Result<(List, String), Refusal> {
    let records = records(file);
    let settings = records[0];
    let ends = 3 + usize::from(settings[1]);
    let walks = ends + usize::from(settings[2]);
    let clock = |at: usize| i64::from_be_bytes(settings[walks + 2 + 8 * at..][..8].try_into().expect("eight bytes"));
    let opened = Settings {
        origin_walks: &settings[3..ends],
        target_walks: &settings[ends..walks],
        change_time: 60 * u16::from(settings[walks]),
        max_transfers: settings[walks + 1],
        now: clock(0),
        epochs: [clock(1), clock(2), clock(3)],
    };
    let mut load = LoadBuilder::new(buffer, &opened)?;
    let mut answers = String::new();
    for record in &records[1..] {
        let outside = load.append(record)? == Accepted::Outside;
        if record[0] == CALL {
            answers.push(if outside { 'o' } else { 't' });
        }
    }
    Ok((load.list()?, answers))
}
