//! Why something is sent back: the 26 causes of docs/RULES.md 16.
use core::fmt;

/// A refusal. What was refused is as it was.
///
/// ```
/// use timetable::{List, Refusal};
///
/// assert_eq!(List::read(b"").err(), Some(Refusal::FileVersion));
/// assert_eq!(Refusal::FileVersion.number(), 17);
/// ```
#[derive(Clone, Copy, Debug, PartialEq, Eq, Hash, PartialOrd, Ord)]
#[repr(u8)]
pub enum Refusal {
    /// More than 4 origins or targets, more than two changes, a change time above 15300; a limited search with two changes.
    SettingsRange = 1,
    /// The start or an epoch is beyond 2^40 either way.
    ClockRange,
    /// A stop's id is empty or over 32 bytes.
    IdLength,
    /// A 129th stop.
    StopsFull,
    /// A stop's id was taken before.
    IdTaken,
    /// A stop's type is above 1, or a station has a parent.
    LocationType,
    /// A parent is no station taken before.
    ParentUnknown,
    /// A name is over 64 bytes; or a name that is needed has no word, a control, a letter above code point 255, or isn't UTF-8.
    NameUnusable,
    /// A stop that isn't there, trip 65535, a day above 2, pickup or drop-off above 3.
    FieldRange,
    /// A call arrives after it departs.
    TimesReversed,
    /// A 129th rule; a horizon or a group's window that would fall below an hour.
    NoRoom,
    /// A rule's type is above 3, or it is of type 2 without seconds.
    RuleType,
    /// A second rule for the same two stops.
    PairTaken,
    /// Two calls of a trip and day have one sequence, or one departs after the next arrives.
    Neighbours,
    /// A stop, a rule or a search after the search.
    AlreadySearched,
    /// A time text that isn't one. No load file meets it.
    TimeText,
    /// A file of no version, or of another than 1 and 2.
    FileVersion,
    /// A record of length 0, one that runs past the end, or one that its fields don't fill exactly.
    RecordLength,
    /// A kind of record that isn't one, a first record that isn't settings, settings again, or a file without a record.
    RecordKind,
    /// A date that isn't in the calendar. No load file meets it.
    DateWrong,
    /// A service that wasn't taken. No load file meets it.
    ServiceUnknown,
    /// A 65th service. No load file meets it.
    ServicesFull,
    /// A display of a group above 3 or given twice, of a list that isn't searched, or of lists with different starts.
    DisplayGroups,
    /// A withdrawal of a call that isn't there. No load file meets it.
    CallUnknown,
    /// A load that can't be written, as its table was cut.
    LoadUnwritable,
    /// Too short a buffer.
    BufferShort,
}
use Refusal::*;

#[rustfmt::skip]
const ALL: [Refusal; 26] = [
    SettingsRange, ClockRange, IdLength, StopsFull, IdTaken, LocationType, ParentUnknown, NameUnusable, FieldRange, TimesReversed, NoRoom,
    RuleType, PairTaken, Neighbours, AlreadySearched, TimeText, FileVersion, RecordLength, RecordKind, DateWrong, ServiceUnknown,
    ServicesFull, DisplayGroups, CallUnknown, LoadUnwritable, BufferShort,
];

impl Refusal {
    /// Its number, 1 to 26.
    pub fn number(self) -> u8 {
        self as u8
    }
    /// The refusal of a number.
    ///
    /// ```
    /// use timetable::Refusal;
    ///
    /// assert_eq!(Refusal::from_number(14), Some(Refusal::Neighbours));
    /// assert_eq!(Refusal::from_number(0), None);
    /// ```
    pub fn from_number(number: u8) -> Option<Self> {
        ALL.get(usize::from(number).checked_sub(1)?).copied()
    }
    /// `Ok` for 0.
    pub(crate) fn answered(number: u8) -> Result<(), Self> {
        if number == 0 { Ok(()) } else { Err(crate::known(Self::from_number(number))) }
    }
    fn words(self) -> &'static str {
        match self {
            SettingsRange => "settings out of range, or a limited search with two changes",
            ClockRange => "the start or an epoch is out of range",
            IdLength => "an id is empty or too long",
            StopsFull => "too many stops",
            IdTaken => "the id is taken",
            LocationType => "a type of stop that is none, or a station with a parent",
            ParentUnknown => "the parent is no station taken",
            NameUnusable => "the name can't be used",
            FieldRange => "a stop, trip, day, pickup or drop-off that is none",
            TimesReversed => "a call arrives after it departs",
            NoRoom => "no room",
            RuleType => "a type of rule that is none, or seconds lack",
            PairTaken => "the two stops have a rule",
            Neighbours => "two calls of a trip have one sequence, or overlap",
            AlreadySearched => "after the search",
            TimeText => "not a time text",
            FileVersion => "a file of no known version",
            RecordLength => "a record isn't whole, or too long",
            RecordKind => "a record stands where it can't",
            DateWrong => "not a date",
            ServiceUnknown => "no such service",
            ServicesFull => "too many services",
            DisplayGroups => "groups that make no display",
            CallUnknown => "no such call",
            LoadUnwritable => "a load that can't be written",
            BufferShort => "too short a buffer",
        }
    }
}

impl fmt::Display for Refusal {
    fn fmt(&self, f: &mut fmt::Formatter<'_>) -> fmt::Result {
        write!(f, "refused {}: {}", self.number(), self.words())
    }
}

impl core::error::Error for Refusal {}

#[cfg(test)]
mod tests {
    use super::*;
    use std::string::ToString;

    #[test]
    fn numbers() {
        for (number, refusal) in (1..).zip(ALL) {
            assert_eq!(refusal.number(), number);
            assert_eq!(Refusal::from_number(number), Some(refusal));
        }
        assert_eq!([0, 27, 255].map(Refusal::from_number), [None; 3]);
    }
    #[test]
    fn words() {
        assert_eq!(BufferShort.to_string(), "refused 26: too short a buffer");
        assert_eq!(Refusal::answered(0), Ok(()));
        assert_eq!(Refusal::answered(26), Err(BufferShort));
    }
}
