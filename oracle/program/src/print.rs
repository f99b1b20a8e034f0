//! What both sides print for one load.
use crate::load::{End, Load};
use display::journey::Path;
use display::journey::harness::Run;
use std::fmt::Write;

fn flag(b: bool) -> u8 {
    u8::from(b)
}
fn figures(path: &Path) -> String {
    format!("{} {} {} {} {} {}", path.leave, path.arrival, path.len, path.walk, path.origin, path.target)
}
fn answer(path: Option<&Path>) -> String {
    path.map_or_else(|| "none".to_string(), figures)
}
/// A word, then fields, each after one space.
fn line(out: &mut String, word: &str, fields: impl IntoIterator<Item = String>) {
    out.push_str(word);
    for field in fields {
        out.push(' ');
        out.push_str(&field);
    }
    out.push('\n');
}

pub fn file(out: &mut String, bytes: &[u8]) {
    match Load::of(bytes, true) {
        Err(End::Refused(n)) => line(out, "refused", [n.to_string()]),
        Err(End::Beyond(n)) => line(out, "beyond", [n.to_string()]),
        Err(End::Skip) => line(out, "skip", []),
        Ok(load) => accepted(out, &load),
    }
}
fn calls(out: &mut String, run: &Run) {
    for c in run.calls() {
        let _ = writeln!(
            out,
            "call {} {} {} {} {} {} {} {} {} {}",
            c.trip,
            c.day,
            c.sequence,
            c.stop,
            c.arrival,
            c.departure,
            flag(c.board),
            flag(c.alight),
            flag(c.board_request),
            flag(c.alight_request)
        );
    }
}
/// The numbers of the kept journeys in request 09's order: arrival, rides and walk, least first, then latest leave.
fn list_order(run: &Run) -> Vec<usize> {
    let mut order: Vec<usize> = (0..run.paths().len()).collect();
    order.sort_by_key(|&i| {
        let p = &run.paths()[i];
        (p.arrival, p.len, p.walk, std::cmp::Reverse(p.leave))
    });
    order
}
fn journeys(out: &mut String, run: &Run) {
    for i in list_order(run) {
        let path = &run.paths()[i];
        let _ = write!(out, "journey {}", figures(path));
        for r in run.rides(i) {
            let _ = write!(
                out,
                " | {} {} {} {} {} {} {} {}",
                r.trip,
                r.day,
                r.from,
                r.to,
                r.departure,
                r.arrival,
                flag(r.board_request),
                flag(r.alight_request)
            );
        }
        out.push('\n');
    }
}
fn queries(out: &mut String, run: &Run) {
    let horizon = i64::from(run.horizon());
    let mut seconds = vec![-1, 0, horizon, horizon + 1];
    for path in run.paths() {
        seconds.extend([i64::from(path.leave), i64::from(path.leave) + 1]);
    }
    seconds.sort_unstable();
    seconds.dedup();
    for second in seconds {
        let _ = writeln!(out, "best {second} {}", answer(run.best(second)));
    }
    for path in list_order(run).into_iter().map(|i| &run.paths()[i]) {
        let _ = writeln!(out, "next {} {}", path.leave, answer(run.next_after(0, path)));
    }
}
fn accepted(out: &mut String, load: &Load) {
    let run = &load.run;
    if run.max_transfers() == 2 {
        line(out, "changes", ["2".to_string()]);
    }
    line(out, "answers", (!load.answers.is_empty()).then(|| load.answers.clone()));
    calls(out, run);
    if load.searched {
        line(out, "places", run.place_numbers().into_iter().map(|p| p.map_or("-".to_string(), |p| p.to_string())));
    }
    journeys(out, run);
    let _ = writeln!(out, "horizon {} limits {}", run.horizon(), run.limits());
    queries(out, run);
}
