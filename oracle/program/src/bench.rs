//! Times on recorded load files: `endpoint_paths` alone, the closing loop of `group_places`, and the whole load.
use crate::load::Load;
use std::time::{Duration, Instant};

/// Least, lower quartile, median and upper quartile, in microseconds.
fn summary(mut times: Vec<Duration>) -> String {
    times.sort_unstable();
    let last = times.len() - 1;
    let micro = |i: usize| format!("{:>12.1}", times[i].as_secs_f64() * 1e6);
    [0, last / 4, last / 2, last - last / 4].map(micro).join(" ")
}
/// As many repetitions as fit in about a second and a half, at least 5 and at most 1001.
fn repetitions(once: Duration) -> usize {
    ((1.5 / once.as_secs_f64().max(1e-9)) as usize).clamp(5, 1001)
}
/// The load filled and not searched; each part starts from such a one.
fn filled(bytes: &[u8]) -> Load {
    Load::of(bytes, false).expect("a load that is accepted")
}

pub fn run(names: &[String]) -> std::io::Result<()> {
    let heads = ["least us", "quarter", "median", "quarter"].map(|head| format!("{head:>12}"));
    println!("{:<28} {:<10} {:>7} {}", "table", "part", "times", heads.join(" "));
    for name in names {
        let bytes = std::fs::read(name)?;
        let shown = name.rsplit('/').next().unwrap_or(name);
        let once = filled(&bytes).run.time_paths(1).expect("an accepted search")[0];
        let n = repetitions(once);
        let paths = filled(&bytes).run.time_paths(n).expect("an accepted search");
        println!("{shown:<28} {:<10} {n:>7} {}", "paths", summary(paths));
        let places = filled(&bytes).run.time_closing_loop(1001).expect("accepted stops");
        println!("{shown:<28} {:<10} {:>7} {}", "places", 1001, summary(places));
        let whole = (0..n).map(|_| {
            let start = Instant::now();
            std::hint::black_box(Load::of(&bytes, true).is_ok());
            start.elapsed()
        });
        println!("{shown:<28} {:<10} {n:>7} {}", "load", summary(whole.collect()));
    }
    Ok(())
}
