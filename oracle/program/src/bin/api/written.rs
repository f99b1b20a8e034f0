//! Loads of generated files written, read back and written again, in one process. Half of the files are made files of version 2 first.
//! What is written must be what `wanted` works out, its list and queries those of the file, and the same when written again; a buffer
//! must keep what is behind the file, and all of it where nothing is written.
use crate::wanted::{Odd, Wanted, position, wanted};
use program::generate::{self, rng::Rng};
use std::collections::BTreeMap;
use std::io;
use timetable::{FILE_ROOM, Journey, List, NoList, Refusal, write};

/// What the buffers hold before.
const BEFORE: u8 = 0xa5;

struct Buffers {
    first: Vec<u8>,
    second: Vec<u8>,
}

/// What comes of a file that isn't written, and what of one that is.
enum Found {
    Not(&'static str),
    Written { searched: bool, journeys: bool, odd: Odd },
}

// --- files ---
/// A file of version 1 as one of version 2, its change time in seconds, often no whole minutes; one that is malformed before it as it is.
fn second(rng: &mut Rng, file: Vec<u8>) -> Vec<u8> {
    let walks = |body: &[u8]| 3 + usize::from(body[1]) + usize::from(body[2]);
    match file.as_slice() {
        [1, high, low, body @ ..] if body.len() > 3 && body[0] == 1 && walks(body) < body.len() => {
            let (length, at) = (u16::from_be_bytes([*high, *low]).wrapping_add(1), walks(body));
            let minutes = 60 * u16::from(body[at]);
            let any = rng.below(1 << 16) as u16;
            let odd = rng.pick(&[0, 1, 59, 61, 90, 15299, 15300, 15301, 65535, any]);
            let seconds = if rng.once_in(2) { minutes } else { odd };
            [&[2], &length.to_be_bytes()[..], &body[..at], &seconds.to_be_bytes(), &body[at + 1..]].concat()
        }
        _ => file,
    }
}

/// Some latitudes and longitudes become NaNs of any bits.
fn with_nans(rng: &mut Rng, file: &mut [u8]) {
    let mut rest = file.get_mut(1..).unwrap_or_default();
    while let [high, low, after @ ..] = rest {
        let length = usize::from(u16::from_be_bytes([*high, *low])).min(after.len());
        let (body, behind) = after.split_at_mut(length);
        if let (Some(2), Some(at), true) = (body.first(), position(body), rng.once_in(4)) {
            let bits = 0x7ff << 52 | rng.below(2) << 63 | (1 + rng.below((1 << 52) - 1));
            body[at + 8 * rng.below(2) as usize..][..8].copy_from_slice(&bits.to_be_bytes());
        }
        rest = behind;
    }
}
/// The i-th file of a profile: two in four are of version 2, and one of these has NaNs.
fn file(profile: generate::Profile, seed: u64, i: u64, rng: &mut Rng) -> Vec<u8> {
    let one = generate::file(profile, seed, i);
    let mut file = if i % 2 == 1 { second(rng, one) } else { one };
    if i % 4 == 3 {
        with_nans(rng, &mut file);
    }
    file
}

// --- comparisons ---
fn untouched(buffer: &[u8]) -> bool {
    buffer.iter().all(|byte| *byte == BEFORE)
}

type Answer = Result<Option<Journey>, NoList>;
/// Best wherever it can change and at the ends, and next after each journey.
fn answers(list: &List) -> Vec<Answer> {
    let horizon = i64::from(list.horizon());
    let leaves = list.journeys().iter().flat_map(|j| [i64::from(j.leave), i64::from(j.leave) + 1]);
    let seconds = [i64::MIN, -1, 0, horizon, horizon + 1, i64::MAX].into_iter().chain(leaves);
    let best = seconds.map(|second| list.best(second));
    best.chain(list.into_iter().map(|journey| list.next_after(0, journey))).collect()
}

/// Whether what is in the first buffer reads back as the list, and is the same when written again, in as much room as it needs and no less.
fn again(file: &[u8], list: &List, second: &mut [u8]) -> Result<(), &'static str> {
    let back = List::read(file).map_err(|_| "what is written is refused")?;
    if back != *list || answers(&back) != answers(list) {
        return Err("what is written has another list");
    }
    let (room, behind) = second.split_at_mut(file.len());
    if write(file, room) != Ok(file.len()) || room != file || !untouched(behind) {
        return Err("written again it is another file");
    }
    second.fill(BEFORE);
    let short = write(file, &mut second[..file.len() - 1]);
    if short != Err(Refusal::BufferShort) || !untouched(second) {
        return Err("a byte less is room enough");
    }
    Ok(())
}

/// The file's load written, read back and written again. `harm` is done to what is written first.
fn tried(file: &[u8], buffers: &mut Buffers, harm: impl FnOnce(&mut [u8])) -> Result<Found, &'static str> {
    let Buffers { first, second } = buffers;
    first.fill(BEFORE);
    second.fill(BEFORE);
    let (list, length) = match (List::read(file), write(file, first)) {
        (Err(a), Err(b)) if a == b && untouched(first) => return Ok(Found::Not("refused")),
        (Ok(_), Err(Refusal::LoadUnwritable)) if wanted(file).is_none() && untouched(first) => {
            return Ok(Found::Not("not written (25)"));
        }
        (Ok(list), Ok(length)) => (list, length),
        _ => return Err("the answers don't fit"),
    };
    let Some(Wanted { file: wanted, odd }) = wanted(file) else { return Err("a cut table is written") };
    let (out, behind) = first.split_at_mut(length);
    harm(out);
    again(out, &list, second)?;
    if out != wanted || !untouched(behind) {
        return Err("it is written as another file");
    }
    Ok(Found::Written { searched: list.best(0).is_ok(), journeys: !list.journeys().is_empty(), odd })
}

// --- counts ---
fn told(found: &Found) -> Vec<&'static str> {
    match found {
        Found::Not(what) => vec![what],
        Found::Written { searched, journeys, odd } => {
            let kinds = [
                (true, "written"),
                (!searched, "unsearched"),
                (*journeys, "with journeys"),
                (odd.nan, "a NaN"),
                (odd.past_the_counts, "members past the counts"),
                (odd.empty_name, "an empty name"),
                (odd.held_at_0, "held at 0"),
                (odd.held_at_the_end, "held at the horizon"),
                (odd.held_at_0 && odd.held_at_the_end, "held at both ends"),
            ];
            kinds.into_iter().filter_map(|(holds, name)| holds.then_some(name)).collect()
        }
    }
}
fn hex(bytes: &[u8]) -> String {
    bytes.iter().map(|byte| format!("{byte:02x}")).collect()
}

/// `api written PROFILE FILES SEED`, and `api flipped` likewise, with one bit of what is written flipped each time: all must be told.
pub fn run(words: &[String], flips: bool) -> io::Result<()> {
    let [name, files, seed] = words else { panic!("written wants a profile, how many files and a seed") };
    let profile = generate::find(name).expect("no such profile");
    let (files, seed): (u64, u64) = (files.parse().expect("a number"), seed.parse().expect("a number"));
    let mut buffers = Buffers { first: vec![BEFORE; FILE_ROOM], second: vec![BEFORE; FILE_ROOM] };
    let mut counts = BTreeMap::<&str, u64>::new();
    for i in 0..files {
        let mut rng = Rng::new(!seed ^ i.wrapping_mul(0x9e37_79b9_7f4a_7c15));
        let file = file(profile, seed, i, &mut rng);
        let flip = |out: &mut [u8]| out[rng.below(out.len() as u64) as usize] ^= 1 << rng.below(8);
        let found = if flips { tried(&file, &mut buffers, flip) } else { tried(&file, &mut buffers, |_| ()) };
        match found {
            Ok(Found::Written { .. }) if flips => panic!("a flipped bit isn't told, file {i}: {}", hex(&file)),
            Ok(found) => told(&found).into_iter().for_each(|what| *counts.entry(what).or_default() += 1),
            Err(what) if flips => *counts.entry(what).or_default() += 1,
            Err(what) => {
                println!("file {i}: {what}: {}", hex(&file));
                std::process::exit(1)
            }
        }
    }
    let told: Vec<String> = counts.iter().map(|(what, n)| format!("{what} {n}")).collect();
    println!("{files} files, {}; {}", if flips { "each flipped bit told" } else { "0 differ" }, told.join(", "));
    Ok(())
}
