//! Request 07: names of code points up to 255, alike and not, and bytes that are no such names.
use super::places::{plain, rides};
use super::rng::Rng;
use super::writer::{Step, Stop, file};

/// Code points that part words.
const PARTING: [u8; 8] = [9, 10, 11, 12, 13, 32, 133, 160];
/// Code points at the ends of the folding rule's runs, and those that have no other case.
const ENDS: [u8; 24] =
    [33, 64, 65, 90, 91, 97, 122, 126, 161, 173, 181, 191, 192, 214, 215, 216, 222, 223, 224, 246, 247, 248, 254, 255];
/// Controls at the ends of their runs.
const CONTROLS: [u8; 10] = [0, 8, 14, 31, 127, 128, 132, 134, 158, 159];
/// Bytes that are no code point up to 255, in hexadecimal: alone, cut short, overlong, above 255, surrogates.
const DAMAGE: &str = "80 bf c0 c1 c2 c3 c4 df e9 ff c080 c0bf c180 c181 c1bf c37f c3c0 c220 c3c3a9 c3a9a9 c480 c4b0 c5b8 cebc e083a9 \
                      e1ba9e e28082 e284aa eda080 f09f9a86";

fn damage() -> Vec<Vec<u8>> {
    let byte = |word: &str, i| u8::from_str_radix(&word[i..i + 2], 16).unwrap_or(0xff);
    DAMAGE.split(' ').map(|word| (0..word.len()).step_by(2).map(|i| byte(word, i)).collect()).collect()
}
fn written(points: &[u8]) -> Vec<u8> {
    points.iter().map(|&p| char::from(p)).collect::<String>().into_bytes()
}
/// A code point of a word, of the ends now and then.
fn letter(rng: &mut Rng) -> u8 {
    let any = rng.range(33, 255) as u8;
    let letter = if rng.once_in(2) { rng.pick(&ENDS) } else { any };
    if (127..161).contains(&letter) { letter + 95 } else { letter }
}
/// Words as code points, one space between them.
fn words(rng: &mut Rng) -> Vec<u8> {
    let mut points = Vec::new();
    for i in 0..rng.range(1, 3) {
        if i > 0 {
            points.push(32);
        }
        (0..rng.range(1, 4)).for_each(|_| points.push(letter(rng)));
    }
    points
}
/// The code point 32 more or less, whether or not it is the other case.
fn turned(p: u8) -> u8 {
    match p {
        64..=95 | 192..=223 => p + 32,
        96..=126 | 224..=255 => p - 32,
        _ => p,
    }
}
/// The same words in another spelling, or nearly: other cases, other white space, now and then another code point.
fn spelt(rng: &mut Rng, words: &[u8]) -> Vec<u8> {
    let mut points = Vec::new();
    let space = |rng: &mut Rng| (0..rng.range(1, 2)).map(|_| rng.pick(&PARTING)).collect::<Vec<u8>>();
    for &p in words {
        match p {
            32 => points.extend(space(rng)),
            _ if rng.once_in(3) => points.push(turned(p)),
            _ => points.push(p),
        }
    }
    if rng.once_in(3) {
        points.splice(0..0, space(rng));
    }
    if rng.once_in(3) {
        points.extend(space(rng));
    }
    if rng.once_in(8) {
        let at = rng.below(points.len() as u64) as usize;
        points[at] = letter(rng);
    }
    points
}
/// A name that may be refused: any code point put in, a control, damaged bytes, no word, 63 to 65 bytes.
fn risky(rng: &mut Rng, points: &[u8]) -> Vec<u8> {
    let mut name = written(points);
    match rng.below(6) {
        0 => {
            let (at, any) = (rng.below(points.len() as u64 + 1) as usize, rng.below(256) as u8);
            name = written(&[&points[..at], &[any], &points[at..]].concat());
        }
        1 => name = written(&[points, &[rng.pick(&CONTROLS)]].concat()),
        2 => {
            let at = rng.below(name.len() as u64 + 1) as usize;
            let bytes = rng.pick(&damage());
            name.splice(at..at, bytes);
        }
        3 => name.truncate(name.len() - 1),
        4 => name = written(&(0..rng.range(0, 3)).map(|_| rng.pick(&PARTING)).collect::<Vec<u8>>()),
        _ => {
            let size = rng.range(63, 65) as usize;
            name = written(&rng.pick(&[vec![233; 33], vec![b'n'; 65], vec![160; 33], [vec![b'n'], vec![233; 32]].concat()]));
            name.truncate(size);
        }
    }
    name
}

/// Stops of one position whose names are one but for case and white space, or nearly so, needed and not; the name or the id.
pub fn accents(rng: &mut Rng) -> Vec<u8> {
    let mut steps = vec![Step::Stop(Stop { id: written(&[83, rng.pick(&[233, 201])]), location_type: 1, ..Stop::default() })];
    let Step::Stop(Stop { id: station, .. }) = steps[0].clone() else { unreachable!() };
    let (mut words, faulty) = (words(rng), rng.once_in(3));
    let n = rng.range(2, 6);
    for i in 0..n {
        if rng.once_in(5) {
            words = self::words(rng);
        }
        let points = spelt(rng, &words);
        let name = if faulty && rng.once_in(3) { risky(rng, &points) } else { written(&points) };
        let unnamed = name.len() < 31 && rng.once_in(5);
        let id = if unnamed { name.clone() } else { format!("i{i}").into() };
        steps.push(Step::Stop(Stop {
            id,
            name: (!unnamed).then_some(name),
            parent: rng.once_in(12).then(|| station.clone()),
            location_type: 0,
            position: (!rng.once_in(12)).then_some((rng.pick(&[1.0, 1.0, 1.0, 1.0, 91.0]), 2.0)),
            members: rng.pick(&[1, 16, 17, 0]),
        }));
    }
    rides(rng, &mut steps, 1 + n as u64);
    steps.push(Step::Search);
    file(&plain(vec![0], vec![0], 0), &steps)
}

/// A file of stops at one position, each with an id and a name, or with an id alone.
fn at_one_position(texts: Vec<(Vec<u8>, Option<Vec<u8>>)>) -> Vec<u8> {
    let stop = |(id, name)| Step::Stop(Stop { id, name, position: Some((1.0, 1.0)), ..Stop::default() });
    let mut steps: Vec<Step> = texts.into_iter().map(stop).collect();
    steps.push(Step::Search);
    file(&plain(vec![0], vec![0], 0), &steps)
}
/// Such a file of names alone.
fn named(names: Vec<Vec<u8>>) -> Vec<u8> {
    at_one_position(names.into_iter().enumerate().map(|(i, name)| (format!("{i:03}").into(), Some(name))).collect())
}
/// Every code point up to 255 after a letter: each control in a file of its own, the others in two files.
fn each_point(files: &mut Vec<Vec<u8>>) {
    let control = |p: &u8| char::from(*p).is_control() && !char::from(*p).is_whitespace();
    let name = |p: &u8| written(&[b'x', *p]);
    for points in [0..=127u8, 128..=255] {
        let (bad, good): (Vec<u8>, Vec<u8>) = points.partition(control);
        files.push(named(good.iter().map(name).collect()));
        files.extend(bad.iter().map(|p| named(vec![name(p)])));
    }
}
/// Single files, for the places where request 07 could be read two ways.
pub fn instances(files: &mut Vec<Vec<u8>>) {
    each_point(files);
    // Names that differ in case, an accent, white space, or a code point that stays.
    let spellings = "B\u{e9}con|B\u{c9}CON|Becon,\u{df}|ss,a\u{85}b|a b,a\u{a0}b|a b|ab,\u{85}a\u{a0}|a,a\u{ad}b|a b|ab,\u{b5}|u";
    files.extend(spellings.split(',').map(|names| named(names.split('|').map(|name| name.as_bytes().to_vec()).collect())));
    // No word; bytes that are no code point up to 255; 64 and 65 bytes of 32 and 33 code points.
    files.extend([133, 160].map(|p| named(vec![written(&[p])])));
    files.extend(damage().into_iter().map(|bytes| named(vec![[b"a".to_vec(), bytes].concat()])));
    files.extend([vec![233; 32], [vec![b'n'], vec![233; 32]].concat()].map(|points| named(vec![written(&points)])));
    // Ids in place of names; a name that is not needed.
    let ids = |ids: &[&[u8]]| at_one_position(ids.iter().map(|id| (id.to_vec(), None)).collect());
    files.extend([ids(&["\u{e9}".as_bytes(), "\u{c9}".as_bytes(), b"e"]), ids(&[b"\xc1\x81"])]);
    let unneeded = Stop { id: b"p".to_vec(), name: Some(vec![0xff]), ..Stop::default() };
    files.push(file(&plain(vec![0], vec![0], 0), &[Step::Stop(unneeded), Step::Search]));
    // Two stations whose ids differ in case: their hashes are of the bytes as they stand.
    let station = |id: &str| Step::Stop(Stop { id: id.into(), location_type: 1, ..Stop::default() });
    let platform = |id: &str, parent: &str| Step::Stop(Stop { id: id.into(), parent: Some(parent.into()), ..Stop::default() });
    let stations = [station("\u{c9}"), station("\u{e9}"), platform("p", "\u{c9}"), platform("q", "\u{e9}"), Step::Search];
    files.push(file(&plain(vec![0], vec![0], 0), &stations));
}
