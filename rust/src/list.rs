//! What a load file's search found, and its queries.
use crate::library::{self, FOUND, NO_LIST};
use crate::{Refusal, known};
use core::fmt;

/// A ride. Times are seconds from the start of the window, stops their numbers from 0 in the order of the file.
#[repr(C)]
#[derive(Clone, Copy, Debug, Default, PartialEq, Eq, Hash)]
pub struct Ride {
    /// The trip's number.
    pub trip: u16,
    /// The stop where one boards.
    pub from: u16,
    /// The stop where one alights.
    pub to: u16,
    /// When it departs there.
    pub departure: u16,
    /// When it arrives there.
    pub arrival: u16,
    /// The service day, 0 to 2.
    pub day: u8,
    /// One boards on request.
    pub board_request: bool,
    /// One alights on request.
    pub alight_request: bool,
}

/// A journey of one to three rides.
#[repr(C)]
#[derive(Clone, Copy, Debug, Default, PartialEq, Eq, Hash)]
pub struct Journey {
    /// When one leaves, in seconds from the start of the window, before the walk to the first stop.
    pub leave: u16,
    /// When one arrives, after the walk from the last stop.
    pub arrival: u16,
    rides: u8,
    /// Minutes on foot to the first stop.
    pub walk: u8,
    /// The origin's number.
    pub origin: u8,
    /// The target's number.
    pub target: u8,
    ride: [Ride; 3],
}

impl Journey {
    /// Its rides, in order.
    ///
    /// ```
    /// # let file = std::fs::read(concat!(env!("CARGO_MANIFEST_DIR"), "/../papers/town.load")).unwrap();
    /// let list = timetable::List::read(&file)?;
    /// let journey = list.best(0)?.expect("a journey");
    /// let trips: Vec<u16> = journey.rides().iter().map(|ride| ride.trip).collect();
    /// assert_eq!(trips, [101, 201]);
    /// # Ok::<(), Box<dyn std::error::Error>>(())
    /// ```
    pub fn rides(&self) -> &[Ride] {
        self.ride.get(..usize::from(self.rides)).unwrap_or(&self.ride)
    }
}

impl<'a> IntoIterator for &'a Journey {
    type Item = &'a Ride;
    type IntoIter = core::slice::Iter<'a, Ride>;

    fn into_iter(self) -> Self::IntoIter {
        self.rides().iter()
    }
}

/// How far the search of a list went.
#[derive(Clone, Copy, Debug, PartialEq, Eq, Hash)]
pub enum State {
    /// The file has no search: there is no list.
    Unsearched,
    /// The search was stopped at its limit: what it found until then.
    Stopped,
    /// Everything was searched.
    Finished,
}

/// A query of a list that no search made.
#[derive(Clone, Copy, Debug, PartialEq, Eq, Hash)]
pub struct NoList;

impl fmt::Display for NoList {
    fn fmt(&self, f: &mut fmt::Formatter<'_>) -> fmt::Result {
        f.write_str("the file isn't searched")
    }
}

impl core::error::Error for NoList {}

/// What a load file's search found: up to 64 journeys, by arrival, then rides, then walk, then latest leave.
#[repr(C)]
#[derive(Clone, Debug, PartialEq, Eq, Hash)]
pub struct List {
    now: i64,
    joins: u64,
    horizon: u16,
    margin: u16,
    refusal: u8,
    state: u8,
    limits: u8,
    count: u8,
    journey: [Journey; 64],
}

impl List {
    const NONE: Self = {
        let ride =
            Ride { trip: 0, from: 0, to: 0, departure: 0, arrival: 0, day: 0, board_request: false, alight_request: false };
        let journey = Journey { leave: 0, arrival: 0, rides: 0, walk: 0, origin: 0, target: 0, ride: [ride; 3] };
        Self { now: 0, joins: 0, horizon: 0, margin: u16::MAX, refusal: 0, state: 0, limits: 0, count: 0, journey: [journey; 64] }
    };

    /// Reads a load file of version 1 or 2, which may end with its search.
    ///
    /// ```
    /// # let file = std::fs::read(concat!(env!("CARGO_MANIFEST_DIR"), "/../papers/town.load")).unwrap();
    /// use timetable::{List, Refusal, State};
    ///
    /// let list = List::read(&file)?;
    /// assert_eq!((list.state(), list.journeys().len(), list.horizon()), (State::Finished, 7, 21600));
    /// assert_eq!(List::read(&file[..file.len() - 1]), Err(Refusal::RecordLength));
    /// # Ok::<(), Box<dyn std::error::Error>>(())
    /// ```
    pub fn read(file: &[u8]) -> Result<Self, Refusal> {
        let mut list = Self::NONE;
        // SAFETY: the pointer and the length are those of a slice, which is only read.
        let number = unsafe { library::timetable_read(file.as_ptr(), file.len(), &mut list) };
        Refusal::answered(number).map(|()| list)
    }

    /// Reads a load file without a search, and searches it until `limit` joins are tested: pairs of rides that may join. With
    /// [`State::Stopped`] the list is what was found until then, and [`List::margin`] says how far it may be off.
    ///
    /// ```
    /// # let file = std::fs::read(concat!(env!("CARGO_MANIFEST_DIR"), "/../papers/town.load")).unwrap();
    /// # let file = &file[..file.len() - 3];
    /// use timetable::{List, State};
    ///
    /// let full = List::read_within(file, u64::MAX)?;
    /// assert_eq!(full.state(), State::Finished);
    /// let less = List::read_within(file, full.joins() - 1)?;
    /// assert_eq!(less.state(), State::Stopped);
    /// # Ok::<(), Box<dyn std::error::Error>>(())
    /// ```
    pub fn read_within(file: &[u8], limit: u64) -> Result<Self, Refusal> {
        let mut list = Self::NONE;
        // SAFETY: as in `read`.
        let number = unsafe { library::timetable_read_within(file.as_ptr(), file.len(), limit, &mut list) };
        Refusal::answered(number).map(|()| list)
    }

    /// Whether, and how far, it was searched.
    pub fn state(&self) -> State {
        known(match self.state {
            1 => Some(State::Unsearched),
            2 => Some(State::Stopped),
            3 => Some(State::Finished),
            _ => None,
        })
    }
    /// The start of the window, in seconds of the file's clock.
    pub fn now(&self) -> i64 {
        self.now
    }
    /// The last second at which a journey may arrive. Nothing is claimed of what arrives later.
    pub fn horizon(&self) -> u16 {
        self.horizon
    }
    /// Whether something was cut to fit, so that the horizon is earlier than it would be.
    pub fn is_cut(&self) -> bool {
        self.limits != 0
    }
    /// The joins that [`List::read_within`] tested; else 0.
    pub fn joins(&self) -> u64 {
        self.joins
    }
    /// Of a stopped list how much earlier, in seconds, the best at second 0 may still become; none where that isn't known.
    pub fn margin(&self) -> Option<u16> {
        (self.margin != u16::MAX).then_some(self.margin)
    }
    /// The journeys, best first.
    pub fn journeys(&self) -> &[Journey] {
        self.journey.get(..usize::from(self.count)).unwrap_or(&self.journey)
    }

    /// The best journey that leaves at or after the second: the earliest arrival, then the fewest rides, then the shortest walk. None
    /// before 0, after the horizon, or where none leaves in time.
    ///
    /// ```
    /// # let file = std::fs::read(concat!(env!("CARGO_MANIFEST_DIR"), "/../papers/town.load")).unwrap();
    /// let list = timetable::List::read(&file)?;
    /// assert_eq!(list.best(121)?.map(|journey| journey.leave), Some(960));
    /// assert_eq!(list.best(-1)?, None);
    /// # Ok::<(), Box<dyn std::error::Error>>(())
    /// ```
    pub fn best(&self, second: i64) -> Result<Option<Journey>, NoList> {
        let mut journey = Journey::default();
        let number = library::timetable_best(self, second, &mut journey);
        answer(number, journey)
    }

    /// The best journey from the second on that leaves after `missed` did.
    ///
    /// ```
    /// # let file = std::fs::read(concat!(env!("CARGO_MANIFEST_DIR"), "/../papers/town.load")).unwrap();
    /// let list = timetable::List::read(&file)?;
    /// let first = list.best(0)?.expect("a journey");
    /// let next = list.next_after(0, &first)?.expect("another");
    /// assert!(next.leave > first.leave);
    /// # Ok::<(), Box<dyn std::error::Error>>(())
    /// ```
    pub fn next_after(&self, second: i64, missed: &Journey) -> Result<Option<Journey>, NoList> {
        let mut journey = Journey::default();
        let number = library::timetable_next_after(self, second, missed, &mut journey);
        answer(number, journey)
    }
}

/// What a query's number says of the journey that it may have put.
pub(crate) fn answer(number: u8, journey: Journey) -> Result<Option<Journey>, NoList> {
    match number {
        FOUND => Ok(Some(journey)),
        NO_LIST => Err(NoList),
        _ => Ok(None),
    }
}

impl<'a> IntoIterator for &'a List {
    type Item = &'a Journey;
    type IntoIter = core::slice::Iter<'a, Journey>;

    fn into_iter(self) -> Self::IntoIter {
        self.journeys().iter()
    }
}
