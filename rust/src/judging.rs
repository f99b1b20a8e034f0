//! The verdict on a connection that somebody names.
use crate::{Refusal, known, library};

/// A ride that is named: a trip on a day, from the call of one sequence to that of another.
#[derive(Clone, Copy, Debug, Default, PartialEq, Eq, Hash)]
pub struct Leg {
    /// The trip's number.
    pub trip: u16,
    /// The service day, 0 to 2.
    pub day: u8,
    /// The sequence of the call where one boards.
    pub board: u32,
    /// The sequence of the call where one alights.
    pub alight: u32,
}

/// A connection that is named: its legs in order, with the origin and the target it is to be judged by.
#[derive(Clone, Copy, Debug, PartialEq, Eq)]
pub struct Connection<'a> {
    /// The origin's number.
    pub origin: u8,
    /// The target's number.
    pub target: u8,
    /// One to three legs; of any other number the verdict is [`Cause::RideCount`].
    pub legs: &'a [Leg],
}

/// What is said of a connection. Listed journeys are named by their place in the list, from 0.
#[derive(Clone, Copy, Debug, PartialEq, Eq, Hash)]
pub enum Verdict {
    /// Nothing, as the file has no search.
    NotFinished,
    /// Nothing, as it is due after the horizon.
    Late,
    /// It is a listed journey.
    Listed(usize),
    /// It can be made, with the leave, arrival, rides and walk of a listed one.
    AsGood(usize),
    /// It can be made, and a listed one beats it: the first that does.
    Beaten(usize),
    /// It can be made, and none of the list equals or beats it. That is so of no file, and proved.
    Uncovered,
    /// It can't be made.
    Impossible(Cause),
}

/// Why a connection can't be made: the first cause that holds. Legs and changes are counted from 0, times in seconds from the start.
#[derive(Clone, Copy, Debug, PartialEq, Eq, Hash)]
pub enum Cause {
    /// No leg, or more than three.
    RideCount {
        /// How many.
        rides: u32,
    },
    /// The table has no such call.
    NoCall {
        /// Of this leg.
        leg: u8,
        /// Its sequence.
        sequence: u32,
    },
    /// One can't board there.
    BoardingBarred {
        /// With this leg.
        leg: u8,
    },
    /// One can't alight there.
    AlightingBarred {
        /// With this leg.
        leg: u8,
    },
    /// It doesn't alight at a later call than it boards at.
    NotLater {
        /// This leg.
        leg: u8,
    },
    /// The first stop isn't of the origin.
    NotOrigin,
    /// The last stop isn't of the target.
    NotTarget,
    /// The first ride departs before the walk to it is done.
    TooEarly {
        /// Seconds that the walk takes.
        walk: u32,
        /// When the ride departs.
        departure: u32,
    },
    /// More changes than the settings have.
    TooManyChanges {
        /// So many may be made.
        most: u32,
    },
    /// It is to the trip and day that one comes by.
    SameRun {
        /// This change.
        change: u8,
    },
    /// A rule forbids it.
    Forbidden {
        /// This change.
        change: u8,
        /// The rule's number, from 0 in the order of the file.
        rule: u32,
    },
    /// No rule, and neither one stop, one station nor one place.
    NoChange {
        /// This change.
        change: u8,
    },
    /// There isn't time for it.
    TooShort {
        /// This change.
        change: u8,
        /// Seconds that it takes.
        needed: u32,
        /// When one arrives.
        arrival: u32,
        /// When the next ride departs.
        departure: u32,
    },
}

fn cause_of(said: &library::Verdict) -> Option<Cause> {
    let (at, a, b, c) = (said.at, said.a, said.b, said.c);
    Some(match said.cause {
        1 => Cause::RideCount { rides: a },
        2 => Cause::NoCall { leg: at, sequence: a },
        3 => Cause::BoardingBarred { leg: at },
        4 => Cause::AlightingBarred { leg: at },
        5 => Cause::NotLater { leg: at },
        6 => Cause::NotOrigin,
        7 => Cause::NotTarget,
        8 => Cause::TooEarly { walk: a, departure: b },
        9 => Cause::TooManyChanges { most: a },
        10 => Cause::SameRun { change: at },
        11 => Cause::Forbidden { change: at, rule: a },
        12 => Cause::NoChange { change: at },
        13 => Cause::TooShort { change: at, needed: a, arrival: b, departure: c },
        _ => return None,
    })
}

fn verdict_of(said: &library::Verdict) -> Option<Verdict> {
    let at = usize::from(said.at);
    Some(match said.kind {
        0 => Verdict::NotFinished,
        1 => Verdict::Late,
        2 => Verdict::Listed(at),
        3 => Verdict::AsGood(at),
        4 => Verdict::Beaten(at),
        5 => Verdict::Uncovered,
        6 => Verdict::Impossible(cause_of(said)?),
        _ => return None,
    })
}

/// The verdict on a connection, by a load file with its search.
///
/// ```
/// # let file = std::fs::read(concat!(env!("CARGO_MANIFEST_DIR"), "/../papers/town.load")).unwrap();
/// use timetable::{Cause, Connection, Leg, Verdict, judge};
///
/// let bus = Leg { trip: 192, day: 0, board: 1, alight: 2 };
/// let verdict = judge(&file, &Connection { origin: 0, target: 0, legs: &[bus] })?;
/// assert_eq!(verdict, Verdict::Beaten(4));
/// let none = judge(&file, &Connection { origin: 0, target: 0, legs: &[] })?;
/// assert_eq!(none, Verdict::Impossible(Cause::RideCount { rides: 0 }));
/// # Ok::<(), timetable::Refusal>(())
/// ```
pub fn judge(file: &[u8], connection: &Connection<'_>) -> Result<Verdict, Refusal> {
    let mut asked = library::Connection {
        leg: Default::default(),
        origin: connection.origin,
        target: connection.target,
        rides: u8::try_from(connection.legs.len()).unwrap_or(u8::MAX),
    };
    for (to, leg) in asked.leg.iter_mut().zip(connection.legs) {
        *to = library::Leg { board: leg.board, alight: leg.alight, trip: leg.trip, day: leg.day };
    }
    let mut said = library::Verdict::default();
    // SAFETY: the pointer and the length are those of a slice, which is only read.
    let number = unsafe { library::timetable_judge(file.as_ptr(), file.len(), &asked, &mut said) };
    Refusal::answered(number)?;
    Ok(known(verdict_of(&said)))
}

#[cfg(test)]
mod tests {
    use super::*;

    fn said(kind: u8, cause: u8) -> Option<Verdict> {
        verdict_of(&library::Verdict { a: 10, b: 20, c: 30, kind, cause, at: 1 })
    }

    #[test]
    fn kinds() {
        assert_eq!(said(0, 0), Some(Verdict::NotFinished));
        assert_eq!(said(2, 0), Some(Verdict::Listed(1)));
        assert_eq!(said(4, 0), Some(Verdict::Beaten(1)));
        assert_eq!(said(6, 7), Some(Verdict::Impossible(Cause::NotTarget)));
        assert_eq!(said(6, 0), None);
        assert_eq!(said(6, 14), None);
        assert_eq!(said(7, 0), None);
    }
    #[test]
    fn causes() {
        let cause = |number| cause_of(&library::Verdict { a: 10, b: 20, c: 30, kind: 6, cause: number, at: 1 });
        assert_eq!(cause(2), Some(Cause::NoCall { leg: 1, sequence: 10 }));
        assert_eq!(cause(8), Some(Cause::TooEarly { walk: 10, departure: 20 }));
        assert_eq!(cause(11), Some(Cause::Forbidden { change: 1, rule: 10 }));
        assert_eq!(cause(13), Some(Cause::TooShort { change: 1, needed: 10, arrival: 20, departure: 30 }));
    }
}
