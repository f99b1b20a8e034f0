//! One load: 01's own refusals where the published functions have none, and the published functions for the rest.
use crate::file::{self, Record};
use display::journey::harness::{self, Run, Settings, StopRow, StopTimes};

#[derive(Clone, Copy, Debug, PartialEq, Eq)]
pub enum End {
    /// The published Rust errs.
    Refused(u8),
    /// 01 refuses (or request 01, for 17 to 19) and the published functions have no such test.
    Beyond(u8),
    /// A stop whose id is not UTF-8 would be taken: the Rust can't be asked.
    Skip,
}
use End::{Beyond, Refused};

pub struct Load {
    pub run: Run,
    pub answers: String,
    pub searched: bool,
    stops: Vec<(Vec<u8>, u8)>,
    rules: Vec<(u16, u16)>,
}

fn text(bytes: &[u8]) -> Option<String> {
    String::from_utf8(bytes.to_vec()).ok()
}
fn test(fault: bool, end: End) -> Result<(), End> {
    if fault { Err(end) } else { Ok(()) }
}

impl Load {
    /// The load that a file fills. With `searches` false, search records are passed over.
    pub fn of(bytes: &[u8], searches: bool) -> Result<Self, End> {
        let mut load = None;
        file::read(bytes, Beyond, |record| match (&mut load, record) {
            (None, record) => Self::open(record).map(|opened| load = Some(opened)),
            (Some(_), Record::Search) if !searches => Ok(()),
            (Some(load), record) => load.step(record),
        })?;
        let mut load: Load = load.ok_or(Beyond(19))?;
        load.run.publish();
        Ok(load)
    }
    fn open(record: Record) -> Result<Self, End> {
        let Record::Settings { origin_walks, target_walks, transfer_minutes, max_transfers, now, epochs } = record else {
            return Err(Beyond(19));
        };
        test(origin_walks.len() > 4 || target_walks.len() > 4 || max_transfers > 2, Beyond(1))?;
        test([now, epochs[0], epochs[1], epochs[2]].iter().any(|t| t.unsigned_abs() > 1 << 40), Beyond(2))?;
        let run = Run::open(&Settings { origin_walks, target_walks, transfer_minutes, max_transfers, now, epochs });
        Ok(Self { run, answers: String::new(), searched: false, stops: Vec::new(), rules: Vec::new() })
    }
    fn step(&mut self, record: Record) -> Result<(), End> {
        test(self.searched && !matches!(record, Record::Call { .. }), Beyond(15))?;
        match record {
            Record::Settings { .. } => Err(Beyond(19)),
            Record::Stop { id, name, parent, location_type, position, members } => {
                self.stop(id, name, parent, location_type, position, members)
            }
            Record::Call { trip, day, sequence, stop, arrival, departure, pickup_type, drop_off_type } => {
                self.call(StopTimes { trip, day, sequence, stop, arrival, departure, pickup_type, drop_off_type })
            }
            Record::Rule { from, to, transfer_type, seconds } => self.rule(from, to, transfer_type, seconds),
            Record::Search => self.search(),
        }
    }
    fn stop(
        &mut self,
        id: &[u8],
        name: Option<&[u8]>,
        parent: Option<&[u8]>,
        location_type: u8,
        position: Option<(f64, f64)>,
        members: u8,
    ) -> Result<(), End> {
        let id_text = text(id);
        test(id.is_empty(), Beyond(3))?;
        test(id_text.as_ref().is_some_and(|id| !harness::id_fits(id)), Refused(3))?;
        test(id.len() > 32, Beyond(3))?;
        test(self.stops.iter().any(|s| s.0 == id), Beyond(5))?;
        test(location_type > 1 || location_type == 1 && parent.is_some(), Beyond(6))?;
        test(parent.is_some_and(|p| !self.stops.iter().any(|s| s.0 == p && s.1 == 1)), Beyond(7))?;
        test(name.is_some_and(|n| n.len() > 64), Beyond(8))?;
        let usable = harness::microdegrees(position).is_some();
        let needed = location_type == 0 && parent.is_none() && usable;
        let row =
            id_text.map(|id| StopRow { id, name: name.and_then(text), parent: parent.and_then(text), location_type, position });
        if needed {
            let shown = name.unwrap_or(id);
            let readable = row.as_ref().filter(|_| text(shown).is_some());
            test(readable.is_some_and(|row| self.run.place_key(row).is_err()), Refused(8))?;
            // Request 07: ill-formed UTF-8 is 8, and so is a code point above 255, where the Rust would go on.
            let letters = text(shown).filter(|shown| shown.chars().all(|c| u32::from(c) < 256));
            test(letters.is_none_or(|letters| readable.is_none() && !named(&letters)), Beyond(8))?;
        }
        match row {
            Some(row) => self.run.stop(row, members).map_err(|_| Refused(4))?,
            None => return Err(if self.stops.len() == 128 { Beyond(4) } else { End::Skip }),
        }
        self.stops.push((id.to_vec(), location_type));
        Ok(())
    }
    fn call(&mut self, row: StopTimes) -> Result<(), End> {
        let known = usize::from(row.stop) < self.stops.len();
        let fault = !known || row.trip == u16::MAX || row.day > 2 || row.pickup_type > 3 || row.drop_off_type > 3;
        test(fault, Beyond(9))?;
        if self.searched {
            self.run.unsearch();
        }
        let taken = self.run.call(&row).map_err(|e| Refused(if e == harness::LATE { 10 } else { 11 }))?;
        self.answers.push(if taken { 't' } else { 'o' });
        // Request 11: a call after the search has the load searched again.
        if self.searched { self.search() } else { Ok(()) }
    }
    fn rule(&mut self, from: u16, to: u16, transfer_type: u8, seconds: Option<u16>) -> Result<(), End> {
        test([from, to].iter().any(|&s| usize::from(s) >= self.stops.len()), Beyond(9))?;
        test(transfer_type > 3 || transfer_type == 2 && seconds.is_none(), Beyond(12))?;
        test(self.rules.contains(&(from, to)), Beyond(13))?;
        self.run.rule(from, to, transfer_type, seconds.unwrap_or(0)).map_err(|_| Refused(11))?;
        self.rules.push((from, to));
        Ok(())
    }
    fn search(&mut self) -> Result<(), End> {
        self.run.search().map_err(|e| Refused(if e == harness::FULL { 11 } else { 14 }))?;
        self.searched = true;
        Ok(())
    }
}

/// A word and no control, for a name that can't be handed to the Rust because the stop's id is not UTF-8.
fn named(name: &str) -> bool {
    name.chars().any(|c| !c.is_whitespace()) && name.chars().all(|c| c.is_whitespace() || !c.is_control())
}
