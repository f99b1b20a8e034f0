//! Modes beside load files: one question a line, one answer a line.
use display::journey::Path;
use display::journey::harness::{self, Key, StopRow};

fn bytes(hex: &str) -> Option<Vec<u8>> {
    if !hex.len().is_multiple_of(2) || !hex.is_ascii() {
        return None;
    }
    (0..hex.len()).step_by(2).map(|i| u8::from_str_radix(&hex[i..i + 2], 16).ok()).collect()
}
fn number(word: &str) -> Option<u64> {
    u64::from_str_radix(word, 16).ok()
}
/// `-` for an absent text, else `x` and its bytes.
fn optional(word: &str) -> Option<Option<String>> {
    if word == "-" {
        return Some(None);
    }
    Some(Some(String::from_utf8(bytes(word.strip_prefix('x')?)?).ok()?))
}

/// A text's bytes in hexadecimal: its seconds, or `refused 16`.
pub fn time(line: &str) -> Option<String> {
    let refused = || "refused 16".to_string();
    let text = bytes(line)?;
    let time = String::from_utf8(text).ok().and_then(|text| text.parse::<gtfs::Time>().ok());
    Some(time.map_or_else(refused, |time| time.seconds().to_string()))
}
/// Bytes in hexadecimal: their 64-bit FNV-1a.
pub fn fnv(line: &str) -> Option<String> {
    Some(format!("{:016x}", harness::fnv(&bytes(line)?)))
}
/// `key ID NAME PARENT LAT LON`, `pair KEY KEY` with a key as four words, or `micro LAT LON`.
pub fn place(line: &str) -> Option<String> {
    let words: Vec<&str> = line.split(' ').collect();
    match *words.first()? {
        "key" if words.len() == 6 => {
            let position = if words[4] == "-" { None } else { Some((degrees(words[4])?, degrees(words[5])?)) };
            let row = StopRow {
                id: optional(words[1])??,
                name: optional(words[2])?,
                parent: optional(words[3])?,
                location_type: 0,
                position,
            };
            Some(match harness::key_of(&row) {
                Ok((tag, hash, lat, lon)) => format!("{} {hash:016x} {lat} {lon}", char::from(tag)),
                Err(_) => "refused 8".to_string(),
            })
        }
        "pair" if words.len() == 9 => {
            let same = harness::same_place(key(&words[1..5])?, key(&words[5..9])?);
            Some(u8::from(same).to_string())
        }
        "micro" if words.len() == 3 => {
            let micro = harness::microdegrees(Some((degrees(words[1])?, degrees(words[2])?)));
            Some(micro.map_or_else(|| "none".to_string(), |(lat, lon)| format!("{lat} {lon}")))
        }
        _ => None,
    }
}
fn degrees(word: &str) -> Option<f64> {
    number(word).map(f64::from_bits)
}
fn key(words: &[&str]) -> Option<Key> {
    let tag = words[0].bytes().next().filter(|b| b"PNI".contains(b))?;
    Some((tag, number(words[1])?, words[2].parse().ok()?, words[3].parse().ok()?))
}
/// `HORIZON SECOND` and a word `LEAVE,ARRIVAL,RIDES,WALK` for each journey of the list: `none`, or the answer's index
/// (from 0) and figures. `beyond` for more than 64 journeys, which the Rust's list can't hold.
pub fn best(line: &str) -> Option<String> {
    let mut words = line.split(' ');
    let (horizon, second) = (words.next()?.parse().ok()?, words.next()?.parse().ok()?);
    let mut paths = Vec::new();
    for word in words {
        let mut figures = word.split(',');
        let mut next = || figures.next();
        let path = Path {
            leave: next()?.parse().ok()?,
            arrival: next()?.parse().ok()?,
            len: next()?.parse().ok()?,
            walk: next()?.parse().ok()?,
            ..Path::default()
        };
        paths.push(path);
    }
    if paths.len() > 64 {
        return Some("beyond".to_string());
    }
    let found = harness::Lent::new(&paths, horizon).best(second);
    Some(found.map_or_else(
        || "none".to_string(),
        |i| {
            let p = &paths[i];
            format!("{i} {} {} {} {}", p.leave, p.arrival, p.len, p.walk)
        },
    ))
}
