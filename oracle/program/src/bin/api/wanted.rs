//! What a load file's load is written as by RULES 13.4, worked out record by record from the words, and what such a file has that is odd.
use crate::steps::records;

const HORIZON: i64 = 21600;
const CALLS: usize = 512;
const WHOLE_CALL: usize = 22;
const NAN: [u8; 8] = [0x7f, 0xf8, 0, 0, 0, 0, 0, 0];

/// What is odd about a file that is written.
#[derive(Clone, Copy, Default)]
pub struct Odd {
    pub nan: bool,
    pub past_the_counts: bool,
    pub empty_name: bool,
    pub held_at_0: bool,
    pub held_at_the_end: bool,
}

pub struct Wanted {
    pub file: Vec<u8>,
    pub odd: Odd,
}

fn number(bytes: &[u8]) -> u32 {
    bytes.iter().fold(0, |sum, byte| sum << 8 | u32::from(*byte))
}

/// The settings with seconds and all epochs at the start; and the epochs, in seconds from the start.
fn settings(body: &[u8], version: u8) -> (Vec<u8>, [i64; 3]) {
    let walks = 3 + usize::from(body[1]) + usize::from(body[2]);
    let (change, rest) = match version {
        1 => ((60 * u16::from(body[walks])).to_be_bytes(), &body[walks + 1..]),
        _ => ([body[walks], body[walks + 1]], &body[walks + 2..]),
    };
    let time = |i: usize| i64::from_be_bytes(rest[1 + 8 * i..][..8].try_into().expect("eight bytes"));
    let now = time(0).to_be_bytes();
    let out = [&body[..walks], &change, &rest[..1], &now, &now, &now, &now].concat();
    (out, [1, 2, 3].map(|day| time(day) - time(0)))
}

/// Where latitude and longitude stand in a stop's record, if it has them; the record may be malformed.
pub fn position(body: &[u8]) -> Option<usize> {
    let past_text = |at: usize| match body.get(at)? {
        1 => Some(at + 2 + usize::from(*body.get(at + 1)?)),
        _ => Some(at + 1),
    };
    let name = 2 + usize::from(*body.get(1)?);
    let mark = past_text(past_text(name)?)? + 1;
    (body.get(mark) == Some(&1) && mark + 18 <= body.len()).then_some(mark + 1)
}

/// A stop with the one NaN; `members` are those that the settings have.
fn stop(body: &[u8], members: u8, odd: &mut Odd) -> Vec<u8> {
    let mut out = body.to_vec();
    odd.empty_name |= body[2 + usize::from(body[1])..].starts_with(&[1, 0]);
    odd.past_the_counts |= body[body.len() - 1] & !members != 0;
    if let Some(at) = position(body) {
        for degrees in out[at..at + 16].chunks_exact_mut(8) {
            if f64::from_be_bytes(degrees.try_into().expect("eight bytes")).is_nan() {
                degrees.copy_from_slice(&NAN);
                odd.nan = true;
            }
        }
    }
    out
}

fn kind_of(time: i64, asked: u8) -> u8 {
    match asked {
        _ if !(0..=HORIZON).contains(&time) => 1,
        2 | 3 => 2,
        other => other,
    }
}

/// A call as it is held, unless it is outside.
fn call(body: &[u8], epochs: &[i64; 3], odd: &mut Odd) -> Option<Vec<u8>> {
    if body.len() < WHOLE_CALL {
        return None;
    }
    let seen = |at: usize| epochs[usize::from(body[3])] + i64::from(number(&body[at..at + 4]));
    let (arrival, departure) = (seen(11), seen(16));
    if departure < 0 || arrival > HORIZON {
        return None;
    }
    odd.held_at_0 |= arrival < 0;
    odd.held_at_the_end |= departure > HORIZON;
    let held = |time: i64| (time.clamp(0, HORIZON) as u32).to_be_bytes();
    let kinds = [kind_of(departure, body[20]), kind_of(arrival, body[21])];
    Some([&body[..11], &held(arrival), &[1], &held(departure), &kinds].concat())
}

/// The file of version 2 of one that is accepted; none where its table is cut, as more calls than it holds aren't outside.
pub fn wanted(file: &[u8]) -> Option<Wanted> {
    let bodies = records(file);
    let mut odd = Odd::default();
    let (first, epochs) = settings(bodies[0], file[0]);
    let bits = |count: u8| (1 << count) - 1;
    let members = bits(first[1]) | bits(first[2]) << 4;
    let of = |kind: u8| bodies.iter().copied().filter(move |body| body[0] == kind);
    let mut calls: Vec<Vec<u8>> = of(3).filter_map(|body| call(body, &epochs, &mut odd)).collect();
    if calls.len() > CALLS {
        return None;
    }
    if of(5).next().is_some() {
        calls.sort_by(|a, b| a[1..8].cmp(&b[1..8]));
    }
    let stops: Vec<Vec<u8>> = of(2).map(|body| stop(body, members, &mut odd)).collect();
    let rest = [stops, of(4).map(<[u8]>::to_vec).collect(), calls, of(5).map(<[u8]>::to_vec).collect()].concat();
    let mut file = vec![2];
    for body in std::iter::once(first).chain(rest) {
        file.extend((body.len() as u16).to_be_bytes());
        file.extend(body);
    }
    Some(Wanted { file, odd })
}
