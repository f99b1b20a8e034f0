//! Compares the port's dates, weekdays and weeks of services (the static library of crate services_c) with the published ones.
use gtfs::{Calendar, Date};
use program::generate::rng::Rng;

#[link(name = "services_c", kind = "static")]
unsafe extern "C" {
    safe fn date_known(d: u32) -> bool;
    safe fn date_weekday(d: u32) -> u8;
    safe fn service_runs(weekdays: u8, start: u32, end: u32, added: u8, removed: u8, day: u8, date: u32) -> bool;
}

/// The published date of a number; none where its year, month and day are no date.
fn published(d: u32) -> Option<Date> {
    let year = u16::try_from(d / 10000).ok()?;
    Date::new(year, (d / 100 % 100) as u8, (d % 100) as u8).ok()
}
fn number(date: Date) -> u32 {
    u32::from(date.year()) * 10000 + u32::from(date.month()) * 100 + u32::from(date.day())
}
/// Stops with the number where both sides differ.
fn same(what: &str, d: u32, port: u32, rust: u32) {
    if port != rust {
        println!("{what} of {d}: port {port}, published {rust}");
        std::process::exit(1);
    }
}
/// Every number up to the first that has five digits of a year, and some beyond.
fn all_dates() -> Vec<Date> {
    let mut dates = Vec::new();
    let beyond = (0..1_000_000).map(|i| 100_000_000 + i * 4194);
    let mut others = 0u64;
    for d in (0..100_000_000).chain(beyond) {
        let date = published(d);
        same("known", d, date_known(d).into(), date.is_some().into());
        same("weekday", d, date_weekday(d).into(), date.map_or(7, |date| date.weekday() as u32));
        match date {
            Some(date) => dates.push(date),
            None => others += 1,
        }
    }
    println!("{} dates and {others} other numbers", dates.len());
    dates
}
/// A week of random marks from one date to another, asked on a third; near each other for the most part.
fn weeks(dates: &[Date], many: u64, rng: &mut Rng) {
    let mut ran = 0u64;
    for _ in 0..many {
        let marks = rng.below(128) as u8;
        let weekdays: [bool; 7] = std::array::from_fn(|k| marks >> k & 1 == 1);
        let at = rng.below(dates.len() as u64) as i64;
        let near = |rng: &mut Rng| dates[(at + rng.range(-9, 9)).clamp(0, dates.len() as i64 - 1) as usize];
        let (start, end, date) = (near(rng), near(rng), near(rng));
        let published = Calendar { service_id: "", weekdays, start, end }.runs_on(date);
        let port = service_runs(marks, number(start), number(end), 0, 0, rng.below(3) as u8, number(date));
        same("week", number(date), port.into(), published.into());
        ran += u64::from(published);
    }
    println!("{many} weeks, {ran} of them on a day that runs");
}
fn main() {
    let mut words = std::env::args().skip(1).map(|word| word.parse().expect("a number"));
    let many = words.next().unwrap_or(4_000_000);
    let mut rng = Rng::new(words.next().unwrap_or(2026));
    let dates = all_dates();
    weeks(&dates, many, &mut rng);
    println!("no difference");
}
