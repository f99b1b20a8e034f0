//! A display of up to four lists that share 64 places.
use crate::list::answer;
use crate::{Journey, List, NoList, Refusal, library};

/// The most groups that a display shows.
pub const GROUPS: usize = 4;

/// What a display shows of each of its groups.
#[derive(Clone, Copy, Debug, PartialEq, Eq, Hash)]
pub struct Display(library::Display);

/// What is shown of one list: its first `share` journeys, due by `window`.
#[derive(Clone, Copy, Debug, PartialEq, Eq, Hash)]
pub struct Part(library::Part);

/// Deals the 64 places of a display to up to four lists, each given for the group of the number at its place, 0 to 3; of lists and numbers
/// the fewer count. The lists are searched and of one start.
///
/// ```
/// # let file = std::fs::read(concat!(env!("CARGO_MANIFEST_DIR"), "/../papers/town.load")).unwrap();
/// use timetable::{List, Refusal, deal};
///
/// let lists = [List::read(&file)?];
/// let display = deal(&lists, &[2])?;
/// let part = display.part(2).expect("group 2 is there")?;
/// assert_eq!((part.share(), part.window()), (7, 21600));
/// assert_eq!(part.best(&lists[0], 0)?, lists[0].best(0)?);
/// assert!(display.part(0).is_none());
/// assert_eq!(deal(&lists, &[4]), Err(Refusal::DisplayGroups));
/// # Ok::<(), Box<dyn std::error::Error>>(())
/// ```
pub fn deal(lists: &[List], numbers: &[u8]) -> Result<Display, Refusal> {
    let mut display = library::Display::default();
    // SAFETY: the pointers and lengths are those of two slices, which are only read.
    let number = unsafe { library::timetable_deal(lists.as_ptr(), lists.len(), numbers.as_ptr(), numbers.len(), &mut display) };
    Refusal::answered(number).map(|()| Display(display))
}

impl Display {
    /// What is shown of the group of a number: none where no list was given for it, an error where this group alone is refused, as too
    /// little of its list fits.
    pub fn part(&self, number: u8) -> Option<Result<Part, Refusal>> {
        let part = *self.0.part.get(usize::from(number))?;
        part.present.then(|| Refusal::answered(part.refusal).map(|()| Part(part)))
    }
}

impl Part {
    /// How many journeys are shown, the first of the list.
    pub fn share(&self) -> u8 {
        self.0.share
    }
    /// The last second at which a journey that is shown may arrive.
    pub fn window(&self) -> u16 {
        self.0.window
    }
    /// The best of the journeys shown that leaves at or after the second. The list is the one that this part was dealt for.
    pub fn best(&self, list: &List, second: i64) -> Result<Option<Journey>, NoList> {
        let mut journey = Journey::default();
        let number = library::timetable_shown_best(list, &self.0, second, &mut journey);
        answer(number, journey)
    }
    /// The best of the journeys shown, from the second on, that leaves after `missed` did.
    pub fn next_after(&self, list: &List, second: i64, missed: &Journey) -> Result<Option<Journey>, NoList> {
        let mut journey = Journey::default();
        let number = library::timetable_shown_next(list, &self.0, second, missed, &mut journey);
        answer(number, journey)
    }
}
