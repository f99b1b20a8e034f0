//! The records of a load file of version 2 (docs/RULES.md 13.1), put into bytes. Faults are told when a record is appended.

/// What a load is opened with.
#[derive(Clone, Copy, Debug, Default, PartialEq, Eq)]
pub struct Settings<'a> {
    /// Minutes on foot to each origin, at most 4.
    pub origin_walks: &'a [u8],
    /// Minutes on foot from each target, at most 4.
    pub target_walks: &'a [u8],
    /// What a change takes, in seconds.
    pub change_time: u16,
    /// The most changes of a journey, 0, 1 or 2.
    pub max_transfers: u8,
    /// The start of the window, in seconds of a clock of your own.
    pub now: i64,
    /// The starts of days 0, 1 and 2 by that clock.
    pub epochs: [i64; 3],
}

/// A stop or a station. Texts are bytes; of more than 255 the first 255 are written, which are refused as well.
#[derive(Clone, Copy, Debug, Default, PartialEq)]
pub struct Stop<'a> {
    /// 1 to 32 bytes, no two alike.
    pub id: &'a [u8],
    /// Up to 64 bytes.
    pub name: Option<&'a [u8]>,
    /// The id of a station taken before.
    pub parent: Option<&'a [u8]>,
    /// A station, at which stops may lie.
    pub is_station: bool,
    /// Latitude and longitude in degrees.
    pub position: Option<(f64, f64)>,
    /// Bit i says that it belongs to origin i.
    pub origins: u8,
    /// Bit i says that it belongs to target i.
    pub targets: u8,
}

/// A rule for changing from one stop to another.
#[derive(Clone, Copy, Debug, Default, PartialEq, Eq)]
pub struct Rule {
    /// The number of the stop, or station, that one comes to.
    pub from: u16,
    /// The number of the stop, or station, that one goes on from.
    pub to: u16,
    /// 0 and 1 the change time, 2 the seconds, 3 no change.
    pub kind: u8,
    /// Of kind 2.
    pub seconds: Option<u16>,
}

/// A call of a trip at a stop. One that lacks a time lies outside the window.
#[derive(Clone, Copy, Debug, Default, PartialEq, Eq)]
pub struct Call {
    /// The trip's number, up to 65534.
    pub trip: u16,
    /// The service day, 0 to 2.
    pub day: u8,
    /// The calls of a trip stand in the order of their sequences.
    pub sequence: u32,
    /// The stop's number.
    pub stop: u16,
    /// Seconds from the start of the day.
    pub arrival: Option<u32>,
    /// Seconds from the start of the day.
    pub departure: Option<u32>,
    /// 0 as usual, 1 not at all, 2 or 3 on request.
    pub pickup: u8,
    /// The same.
    pub drop_off: u8,
}

/// Room for any record: a stop with three texts of 255 bytes.
const MOST: usize = 790;

/// A record without its length.
pub(crate) struct Record {
    bytes: [u8; MOST],
    length: usize,
}

impl Record {
    fn new(kind: u8) -> Self {
        let mut record = Self { bytes: [0; MOST], length: 0 };
        record.put(&[kind]);
        record
    }
    pub(crate) fn bytes(&self) -> &[u8] {
        &self.bytes[..self.length]
    }
    /// What is put never exceeds the room: see `MOST`.
    fn put(&mut self, bytes: &[u8]) {
        let end = self.length + bytes.len();
        self.bytes[self.length..end].copy_from_slice(bytes);
        self.length = end;
    }
    fn put_option<const N: usize>(&mut self, bytes: Option<[u8; N]>) {
        self.put(&[u8::from(bytes.is_some())]);
        self.put(bytes.as_ref().map_or(&[], |bytes| bytes));
    }
    /// A length of one byte, and so many bytes; a text that is longer is cut to 255.
    fn put_text(&mut self, text: &[u8]) {
        let length = u8::try_from(text.len()).unwrap_or(u8::MAX);
        self.put(&[length]);
        self.put(&text[..usize::from(length)]);
    }
    fn put_text_option(&mut self, text: Option<&[u8]>) {
        self.put(&[u8::from(text.is_some())]);
        if let Some(text) = text {
            self.put_text(text);
        }
    }
    pub(crate) fn settings(settings: &Settings<'_>) -> Self {
        let mut record = Self::new(1);
        let count = |walks: &[u8]| u8::try_from(walks.len()).unwrap_or(u8::MAX);
        let (origins, targets) = (count(settings.origin_walks), count(settings.target_walks));
        record.put(&[origins, targets]);
        record.put(&settings.origin_walks[..usize::from(origins)]);
        record.put(&settings.target_walks[..usize::from(targets)]);
        record.put(&settings.change_time.to_be_bytes());
        record.put(&[settings.max_transfers]);
        record.put(&settings.now.to_be_bytes());
        for epoch in settings.epochs {
            record.put(&epoch.to_be_bytes());
        }
        record
    }
    pub(crate) fn stop(stop: &Stop<'_>) -> Self {
        let mut record = Self::new(2);
        record.put_text(stop.id);
        record.put_text_option(stop.name);
        record.put_text_option(stop.parent);
        record.put(&[u8::from(stop.is_station)]);
        record.put(&[u8::from(stop.position.is_some())]);
        if let Some((latitude, longitude)) = stop.position {
            record.put(&latitude.to_be_bytes());
            record.put(&longitude.to_be_bytes());
        }
        record.put(&[stop.origins & 15 | stop.targets << 4]);
        record
    }
    pub(crate) fn call(call: &Call) -> Self {
        let mut record = Self::new(3);
        record.put(&call.trip.to_be_bytes());
        record.put(&[call.day]);
        record.put(&call.sequence.to_be_bytes());
        record.put(&call.stop.to_be_bytes());
        record.put_option(call.arrival.map(u32::to_be_bytes));
        record.put_option(call.departure.map(u32::to_be_bytes));
        record.put(&[call.pickup, call.drop_off]);
        record
    }
    pub(crate) fn rule(rule: &Rule) -> Self {
        let mut record = Self::new(4);
        record.put(&rule.from.to_be_bytes());
        record.put(&rule.to.to_be_bytes());
        record.put(&[rule.kind]);
        record.put_option(rule.seconds.map(u16::to_be_bytes));
        record
    }
    pub(crate) fn search() -> Self {
        Self::new(5)
    }
}

#[cfg(test)]
mod tests {
    use super::*;
    use std::vec::Vec;

    #[test]
    fn a_call() {
        let call = Call { trip: 258, day: 1, sequence: 3, stop: 4, arrival: Some(5), departure: None, pickup: 2, drop_off: 1 };
        assert_eq!(Record::call(&call).bytes(), [3, 1, 2, 1, 0, 0, 0, 3, 0, 4, 1, 0, 0, 0, 5, 0, 2, 1]);
    }
    #[test]
    fn a_rule() {
        assert_eq!(Record::rule(&Rule { from: 1, to: 2, kind: 2, seconds: Some(3) }).bytes(), [4, 0, 1, 0, 2, 2, 1, 0, 3]);
        assert_eq!(Record::rule(&Rule { from: 1, to: 2, kind: 3, seconds: None }).bytes(), [4, 0, 1, 0, 2, 3, 0]);
    }
    #[test]
    fn a_stop() {
        let stop = Stop { id: b"a", name: Some(b"B"), position: Some((1.0, -2.0)), origins: 1, targets: 2, ..Stop::default() };
        let mut bytes: Vec<u8> = [2, 1, b'a', 1, 1, b'B', 0, 0, 1].to_vec();
        bytes.extend(1f64.to_be_bytes());
        bytes.extend((-2f64).to_be_bytes());
        bytes.push(0x21);
        assert_eq!(Record::stop(&stop).bytes(), bytes);
    }
    #[test]
    fn the_longest() {
        let long = [b'x'; 300];
        let stop = Stop { id: &long, name: Some(&long), parent: Some(&long), position: Some((0.0, 0.0)), ..Stop::default() };
        assert_eq!(Record::stop(&stop).bytes().len(), MOST);
        let settings = Settings { origin_walks: &long, target_walks: &long, ..Settings::default() };
        assert_eq!(Record::settings(&settings).bytes().len(), 1 + 2 + 2 * 255 + 3 + 32);
    }
}
