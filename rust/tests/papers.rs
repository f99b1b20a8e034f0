//! The sample papers, read and built again step by step.
use std::fmt::Write;
use std::fs;
use std::path::{Path, PathBuf};
use timetable::{Accepted, Call, FILE_ROOM, List, LoadBuilder, NoList, Refusal, Rule, Settings, State, Stop, write};

fn papers(folder: &str) -> Vec<(PathBuf, Vec<u8>)> {
    let folder = Path::new(env!("CARGO_MANIFEST_DIR")).join("..").join(folder);
    let mut paths: Vec<PathBuf> = fs::read_dir(folder).unwrap().map(|entry| entry.unwrap().path()).collect();
    paths.retain(|path| path.extension().is_some_and(|ending| ending == "load"));
    paths.sort();
    paths.into_iter().map(|path| (path.clone(), fs::read(path).unwrap())).collect()
}

/// What `show` prints.
fn lines(read: &Result<List, Refusal>) -> String {
    let list = match read {
        Ok(list) => list,
        Err(refusal) => return format!("refused {}\n", refusal.number()),
    };
    let mut out = String::new();
    for j in list {
        writeln!(out, "journey {} {} {} {} {} {}", j.leave, j.arrival, j.rides().len(), j.walk, j.origin, j.target).unwrap();
    }
    writeln!(out, "horizon {} limits {}", list.horizon(), u8::from(list.is_cut())).unwrap();
    out
}

#[test]
fn printed() {
    for (path, file) in papers("papers").into_iter().chain(papers("papers/refused")) {
        let wanted = fs::read_to_string(path.with_extension("out")).unwrap();
        assert_eq!(lines(&List::read(&file)), wanted, "{}", path.display());
    }
}

#[test]
fn queries() {
    for (path, file) in papers("papers") {
        let list = List::read(&file).unwrap();
        if list.state() == State::Unsearched {
            assert_eq!(list.best(0), Err(NoList), "{}", path.display());
            continue;
        }
        for second in [-1, 0, 1, 3600, i64::from(list.horizon()), i64::from(list.horizon()) + 1, i64::MIN, i64::MAX] {
            let in_time = (0..=i64::from(list.horizon())).contains(&second);
            let first = list.journeys().iter().find(|j| i64::from(j.leave) >= second);
            assert_eq!(list.best(second), Ok(first.filter(|_| in_time).copied()), "{} at {second}", path.display());
        }
        for journey in &list {
            assert_eq!(list.next_after(0, journey), list.best(i64::from(journey.leave) + 1));
            assert!((1..=3).contains(&journey.rides().len()));
            assert_eq!(journey.into_iter().count(), journey.rides().len());
            let rides = journey.rides();
            assert_eq!(rides[0].departure - 60 * u16::from(journey.walk), journey.leave);
            assert!(rides.iter().all(|ride| ride.departure <= ride.arrival));
        }
    }
}

fn unsearched(path: &str) -> Vec<u8> {
    let (_, file) = papers("papers").into_iter().find(|(found, _)| found.ends_with(path)).unwrap();
    assert_eq!(file[file.len() - 3..], [0, 1, 5], "the search stands last");
    file[..file.len() - 3].to_vec()
}

#[test]
fn within() {
    let file = unsearched("town.load");
    let list = List::read(&file).unwrap();
    assert_eq!((list.state(), list.journeys().len(), list.best(0)), (State::Unsearched, 0, Err(NoList)));
    let full = List::read_within(&file, u64::MAX).unwrap();
    assert_eq!((full.state(), full.margin()), (State::Finished, None));
    let none = List::read_within(&file, 0).unwrap();
    assert_eq!((none.state(), none.joins()), (State::Stopped, 0));
}

/// The file's records, without their lengths.
fn records(file: &[u8]) -> Vec<&[u8]> {
    let mut rest = &file[1..];
    let mut found = Vec::new();
    while let [high, low, after @ ..] = rest {
        let (record, behind) = after.split_at(usize::from(u16::from_be_bytes([*high, *low])));
        found.push(record);
        rest = behind;
    }
    found
}

/// A paper's file of version 2, by `write` or as it is.
fn second_version(file: &[u8]) -> Vec<u8> {
    let mut out = vec![0; FILE_ROOM];
    match write(file, &mut out) {
        Ok(length) => out[..length].to_vec(),
        Err(refusal) => {
            assert_eq!(refusal, Refusal::LoadUnwritable);
            Vec::new()
        }
    }
}

#[test]
fn step_by_step() {
    for (path, file) in papers("papers") {
        let file = second_version(&file);
        if file.is_empty() {
            continue;
        }
        let mut buffer = vec![0; FILE_ROOM];
        // opened with settings of its own, then those of the paper are refused
        let mut load = LoadBuilder::new(&mut buffer, &Settings::default()).unwrap();
        let opened = load.file().len();
        assert_eq!(load.append(records(&file)[0]), Err(Refusal::RecordKind));
        assert_eq!(load.file().len(), opened);
        let mut buffer = vec![0; FILE_ROOM];
        let settings = settings_of(records(&file)[0]);
        let mut load = LoadBuilder::new(&mut buffer, &settings.lent()).unwrap();
        for record in &records(&file)[1..] {
            assert_eq!(step(&mut load, record), Ok(Accepted::Taken), "{}", path.display());
        }
        assert_eq!(load.file(), file, "{}", path.display());
        assert_eq!(load.list(), List::read(&file));
    }
}

/// Reads a record's fields one by one.
struct Fields<'a>(&'a [u8]);
impl<'a> Fields<'a> {
    fn bytes(&mut self, n: usize) -> &'a [u8] {
        let (head, rest) = self.0.split_at(n);
        self.0 = rest;
        head
    }
    fn u8(&mut self) -> u8 {
        self.bytes(1)[0]
    }
    fn u16(&mut self) -> u16 {
        u16::from_be_bytes(self.bytes(2).try_into().unwrap())
    }
    fn u32(&mut self) -> u32 {
        u32::from_be_bytes(self.bytes(4).try_into().unwrap())
    }
    fn f64(&mut self) -> f64 {
        f64::from_be_bytes(self.bytes(8).try_into().unwrap())
    }
    fn text(&mut self) -> &'a [u8] {
        let n = self.u8();
        self.bytes(usize::from(n))
    }
    fn option<T>(&mut self, field: impl FnOnce(&mut Self) -> T) -> Option<T> {
        (self.u8() == 1).then(|| field(self))
    }
}

/// Takes a record's step by its own method.
fn step(load: &mut LoadBuilder<'_>, record: &[u8]) -> Result<Accepted, Refusal> {
    let mut fields = Fields(&record[1..]);
    match record[0] {
        2 => {
            let (id, name, parent) = (fields.text(), fields.option(Fields::text), fields.option(Fields::text));
            let is_station = fields.u8() == 1;
            let position = fields.option(|fields| (fields.f64(), fields.f64()));
            let members = fields.u8();
            let stop = Stop { id, name, parent, is_station, position, origins: members & 15, targets: members >> 4 };
            load.stop(&stop).map(|_| Accepted::Taken)
        }
        3 => {
            let (trip, day, sequence, stop) = (fields.u16(), fields.u8(), fields.u32(), fields.u16());
            let (arrival, departure) = (fields.option(Fields::u32), fields.option(Fields::u32));
            load.call(&Call { trip, day, sequence, stop, arrival, departure, pickup: fields.u8(), drop_off: fields.u8() })
        }
        4 => {
            let (from, to, kind) = (fields.u16(), fields.u16(), fields.u8());
            load.rule(&Rule { from, to, kind, seconds: fields.option(Fields::u16) }).map(|()| Accepted::Taken)
        }
        _ => load.search().map(|()| Accepted::Taken),
    }
}

struct Read {
    origin_walks: Vec<u8>,
    target_walks: Vec<u8>,
    change_time: u16,
    max_transfers: u8,
    now: i64,
    epochs: [i64; 3],
}
impl Read {
    fn lent(&self) -> Settings<'_> {
        let Self { change_time, max_transfers, now, epochs, .. } = *self;
        Settings { origin_walks: &self.origin_walks, target_walks: &self.target_walks, change_time, max_transfers, now, epochs }
    }
}
fn settings_of(record: &[u8]) -> Read {
    let (origins, targets) = (usize::from(record[1]), usize::from(record[2]));
    let (walks, rest) = record[3..].split_at(origins + targets);
    let clock = |at: usize| i64::from_be_bytes(rest[3 + 8 * at..][..8].try_into().unwrap());
    Read {
        origin_walks: walks[..origins].to_vec(),
        target_walks: walks[origins..].to_vec(),
        change_time: u16::from_be_bytes([rest[0], rest[1]]),
        max_transfers: rest[2],
        now: clock(0),
        epochs: [clock(1), clock(2), clock(3)],
    }
}
