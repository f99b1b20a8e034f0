//! Lists and queries of load files, compared by the rules of oracle/agree.py: all of a journey, but for one of three rides its leave,
//! arrival, rides and walk alone, and nothing of a load with two changes where a side set a limit mark.
use crate::steps;
use display::journey::Path;
use display::journey::harness::{RideRow, Run};
use program::load::{End, Load};
use std::collections::BTreeMap;
use std::io;
use timetable::{Journey, List, NoList, Refusal, Ride, State};

/// In bytes, some 60 records.
const SHORT: usize = 1500;
type Figures = [u16; 4];
fn figures(j: &Journey) -> Figures {
    [j.leave, j.arrival, j.rides().len() as u16, u16::from(j.walk)]
}
fn figures_of(p: &Path) -> Figures {
    [p.leave, p.arrival, u16::from(p.len), u16::from(p.walk)]
}
fn same_ride(a: &Ride, b: &RideRow) -> bool {
    (a.trip, a.day, a.from, a.to, a.departure, a.arrival) == (b.trip, b.day, b.from, b.to, b.departure, b.arrival)
        && (a.board_request, a.alight_request) == (b.board_request, b.alight_request)
}
/// Their ends are compared too, but of three rides.
fn same_answer(ours: Option<&Journey>, theirs: Option<&Path>) -> bool {
    match (ours, theirs) {
        (Some(j), Some(p)) => figures(j) == figures_of(p) && (p.len == 3 || (j.origin, j.target) == (p.origin, p.target)),
        (None, None) => true,
        _ => false,
    }
}
/// The places of the kept journeys in list order: arrival, rides and walk, least first, then latest leave.
fn list_order(run: &Run) -> Vec<usize> {
    let mut order: Vec<usize> = (0..run.paths().len()).collect();
    order.sort_by_key(|&i| {
        let p = &run.paths()[i];
        (p.arrival, p.len, p.walk, std::cmp::Reverse(p.leave))
    });
    order
}
fn same_list(list: &List, run: &Run, order: &[usize]) -> bool {
    list.journeys().len() == order.len()
        && list.into_iter().zip(order).all(|(j, &i)| {
            let rides = run.rides(i);
            let whole = j.rides().len() == 3 || j.rides().iter().zip(&rides).all(|(a, b)| same_ride(a, b));
            same_answer(Some(j), Some(&run.paths()[i])) && j.rides().len() == rides.len() && whole
        })
}
fn same_queries(list: &List, run: &Run, order: &[usize]) -> bool {
    let horizon = i64::from(run.horizon());
    let leaves = run.paths().iter().flat_map(|p| [i64::from(p.leave), i64::from(p.leave) + 1]);
    let seconds = [i64::MIN, -1, 0, horizon, horizon + 1, i64::MAX].into_iter().chain(leaves);
    let best = |second| list.best(second).is_ok_and(|found| same_answer(found.as_ref(), run.best(second)));
    let next = |(j, &i): (&Journey, &usize)| {
        let theirs = run.next_after(0, &run.paths()[i]);
        list.next_after(0, j).is_ok_and(|found| same_answer(found.as_ref(), theirs))
    };
    seconds.into_iter().all(best) && list.into_iter().zip(order).all(next)
}

/// Whether the file built step by step has each call answered as the Rust does, and the same list in the end.
fn built_alike(file: &[u8], list: &List, answers: &str) -> bool {
    let mut buffer = vec![0; 2 * file.len() + 100];
    steps::built(file, &mut buffer).is_ok_and(|(built, told)| built == *list && told == answers)
}

/// What a file was, if both sides say the same of it.
fn agreed(file: &[u8], builds: bool) -> Option<&'static str> {
    let (list, load) = match (List::read(file), Load::of(file, true)) {
        (_, Err(End::Skip)) => return Some("skipped"),
        (Err(refusal), Err(End::Refused(n) | End::Beyond(n))) => return (refusal.number() == n).then_some("refused"),
        // An offer of three rides that would cut too far ends the Rust's search with a mark.
        (Err(Refusal::NoRoom), Ok(load)) if load.run.max_transfers() == 2 && load.run.limits() != 0 => {
            return Some("cut, two changes");
        }
        (Ok(list), Ok(load)) => (list, load),
        _ => return None,
    };
    let run = &load.run;
    if run.max_transfers() == 2 && (run.limits() != 0 || list.is_cut()) {
        return Some("cut, two changes");
    }
    if builds && !built_alike(file, &list, &load.answers) {
        return None;
    }
    let state = if load.searched { State::Finished } else { State::Unsearched };
    let ends = (list.state(), list.horizon(), list.is_cut(), list.margin(), list.joins());
    if ends != (state, run.horizon(), run.limits() != 0, None, 0) {
        return None;
    }
    if !load.searched {
        let unasked =
            list.journeys().is_empty() && list.best(0) == Err(NoList) && list.next_after(0, &Journey::default()) == Err(NoList);
        return unasked.then_some("unsearched");
    }
    let order = list_order(run);
    let same = same_list(&list, run, &order) && same_queries(&list, run, &order);
    same.then_some(if list.journeys().is_empty() { "empty" } else { "with journeys" })
}

/// Long files are built step by step one in so many, as each step reads all before it. Counts, and stops at the first file of which the sides differ. The oracle's reader takes version 1 alone; a damaged file may be of 2.
pub fn run(every: u64) -> io::Result<()> {
    let mut counts = BTreeMap::<&str, u64>::new();
    let compared = |file: &[u8], counts: &BTreeMap<&str, u64>| match file.first() {
        Some(2) => Some("of version 2, not compared"),
        _ => agreed(file, file.len() <= SHORT || counts.values().sum::<u64>() % every == 0),
    };
    super::parts(|file| match compared(file, &counts) {
        Some(what) => *counts.entry(what).or_default() += 1,
        None => {
            let hex: String = file.iter().map(|byte| format!("{byte:02x}")).collect();
            println!("differs: {hex}\nthe port: {:?}", List::read(file));
            std::process::exit(1)
        }
    })?;
    let told: Vec<String> = counts.iter().map(|(what, n)| format!("{what} {n}")).collect();
    println!("{} files, 0 differ; {}", counts.values().sum::<u64>(), told.join(", "));
    Ok(())
}
