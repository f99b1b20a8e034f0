//! A load file written step by step, or from another.
use crate::records::{Call, Record, Rule, Settings, Stop};
use crate::{List, Refusal, library};

/// Room, in bytes, for the file of any load that can be held, with its search. Each call that isn't held takes up to 24 bytes more.
pub const FILE_ROOM: usize = 34000;

/// How a step was taken.
#[derive(Clone, Copy, Debug, PartialEq, Eq, Hash)]
pub enum Accepted {
    /// The load has it now.
    Taken,
    /// A call that lies outside the window, so that the load doesn't hold it. The file has its record all the same: a full table may be
    /// cut by it.
    Outside,
}

/// A load file that is being written into a buffer that the caller lends. Every step is judged as it is taken; one that is refused
/// leaves the file as it was. Each step reads the whole file, so a load of a few hundred records takes some tens of milliseconds.
///
/// ```
/// use timetable::{Accepted, Call, FILE_ROOM, LoadBuilder, Settings, Stop};
///
/// let mut buffer = [0; FILE_ROOM];
/// let settings = Settings { origin_walks: &[5], target_walks: &[2], change_time: 120, max_transfers: 1, ..Settings::default() };
/// let mut load = LoadBuilder::new(&mut buffer, &settings)?;
/// let mill = load.stop(&Stop { id: b"mill", origins: 1, ..Stop::default() })?;
/// let quay = load.stop(&Stop { id: b"quay", targets: 1, ..Stop::default() })?;
/// let call = |sequence, stop, at| Call { trip: 1, sequence, stop, arrival: Some(at), departure: Some(at), ..Call::default() };
/// assert_eq!(load.call(&call(1, mill, 600))?, Accepted::Taken);
/// assert_eq!(load.call(&call(2, quay, 1200))?, Accepted::Taken);
/// assert_eq!(load.call(&call(3, quay, 30000))?, Accepted::Outside);
/// load.search()?;
/// let best = load.list()?.best(0)?.expect("a journey");
/// assert_eq!((best.leave, best.arrival, best.walk), (300, 1320, 5));
/// # Ok::<(), Box<dyn std::error::Error>>(())
/// ```
#[derive(Debug)]
pub struct LoadBuilder<'a> {
    file: &'a mut [u8],
    length: usize,
    stops: u16,
}

impl<'a> LoadBuilder<'a> {
    /// Opens a load, in a buffer for its file; [`FILE_ROOM`] is room for most.
    pub fn new(buffer: &'a mut [u8], settings: &Settings<'_>) -> Result<Self, Refusal> {
        *buffer.first_mut().ok_or(Refusal::BufferShort)? = 2;
        let mut load = Self { file: buffer, length: 1, stops: 0 };
        load.append(Record::settings(settings).bytes())?;
        Ok(load)
    }
    /// A stop or a station; answers its number.
    pub fn stop(&mut self, stop: &Stop<'_>) -> Result<u16, Refusal> {
        self.append(Record::stop(stop).bytes())?;
        Ok(self.stops - 1)
    }
    /// A rule for changes.
    pub fn rule(&mut self, rule: &Rule) -> Result<(), Refusal> {
        self.append(Record::rule(rule).bytes()).map(|_| ())
    }
    /// A call. After the search too: then the load is searched again.
    pub fn call(&mut self, call: &Call) -> Result<Accepted, Refusal> {
        self.append(Record::call(call).bytes())
    }
    /// The search. Only calls may come after it.
    pub fn search(&mut self) -> Result<(), Refusal> {
        self.append(Record::search().bytes()).map(|_| ())
    }
    /// A record as docs/RULES.md 13.1 has it, without its length.
    pub fn append(&mut self, record: &[u8]) -> Result<Accepted, Refusal> {
        // SAFETY: the pointers and lengths are those of two slices that don't overlap; of the first only `length` bytes at its head are
        // read, and what is written stays within it.
        let number = unsafe {
            let (room, lent) = (self.file.len(), record.len());
            library::timetable_append(self.file.as_mut_ptr(), room, &mut self.length, record.as_ptr(), lent)
        };
        if number == library::OUTSIDE {
            return Ok(Accepted::Outside);
        }
        Refusal::answered(number)?;
        self.stops += u16::from(record.first() == Some(&2));
        Ok(Accepted::Taken)
    }
    /// The file, as far as it is written.
    pub fn file(&self) -> &[u8] {
        &self.file[..self.length]
    }
    /// The file, for as long as the buffer is lent.
    pub fn into_file(self) -> &'a [u8] {
        &self.file[..self.length]
    }
    /// The list of the file: [`List::read`] of [`LoadBuilder::file`].
    pub fn list(&self) -> Result<List, Refusal> {
        List::read(self.file())
    }
}

/// Writes the load of a file as a file of version 2, at the start of the buffer; answers its length. Two files of one load come out the
/// same.
///
/// ```
/// # let file = std::fs::read(concat!(env!("CARGO_MANIFEST_DIR"), "/../papers/town.load")).unwrap();
/// use timetable::{FILE_ROOM, List, Refusal, write};
///
/// let mut buffer = [0; FILE_ROOM];
/// let length = write(&file, &mut buffer)?;
/// assert_eq!(List::read(&buffer[..length])?.journeys(), List::read(&file)?.journeys());
/// assert_eq!(write(&file, &mut [0; 99]), Err(Refusal::BufferShort));
/// # Ok::<(), Refusal>(())
/// ```
pub fn write(file: &[u8], out: &mut [u8]) -> Result<usize, Refusal> {
    let mut written = 0;
    // SAFETY: the pointers and lengths are those of two slices that don't overlap; the first is only read, and what is written stays
    // within the second.
    let number = unsafe { library::timetable_write(file.as_ptr(), file.len(), out.as_mut_ptr(), out.len(), &mut written) };
    Refusal::answered(number).map(|()| written)
}
