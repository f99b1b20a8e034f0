//! Times the port (the static libraries of crates load_c and steps_c) beside the published Rust on load files, in turns: the search alone, and
//! the whole load from the file's bytes to the best journey at second 0. Both print the same lines of each file and find the same, or it stops.
mod port;
mod published;
mod rounds;
mod tables;

use rounds::Times;

fn check(name: &str, bytes: &[u8]) {
    let port = port::lines(bytes);
    for lines in published::lines(bytes) {
        assert!(port == lines, "{name}: the port prints\n{port}and the Rust\n{lines}");
    }
    assert!(port::best(bytes) == published::best(bytes), "{name}: the best journeys differ");
}
/// Milliseconds with three digits.
fn ms(seconds: f64) -> String {
    let ms = seconds * 1e3;
    let digits = (2.0 - ms.abs().max(1e-9).log10().floor()).clamp(0.0, 4.0) as usize;
    format!("{ms:.digits$}")
}
fn side(times: &Times) -> String {
    let [low, high] = times.quartiles().map(ms);
    format!("{}, {}, {low} to {high}", ms(times.least()), ms(times.median()))
}
fn row(name: &str, [port, published]: &[Times; 2]) {
    let ratio = port.median() / published.median();
    let digits = if ratio < 0.095 { 4 } else { 2 };
    println!("| {name} | {} | {} | {ratio:.digits$} | {} |", side(port), side(published), port.rounds());
}
fn head(what: &str) {
    println!("\n| {what} | port, ms: least, median, quartiles | Rust | ratio of the medians | rounds |\n|---|---|---|---|---|");
}
fn read(path: &str) -> (String, Vec<u8>) {
    let name = path.rsplit('/').next().unwrap_or(path).trim_end_matches(".load");
    (name.to_string(), std::fs::read(path).unwrap_or_else(|e| panic!("{path}: {e}")))
}

fn compare(paths: &[String]) {
    let files: Vec<_> = paths.iter().map(|path| read(path)).collect();
    files.iter().for_each(|(name, bytes)| check(name, bytes));
    head("search");
    files.iter().for_each(|(name, bytes)| row(name, &rounds::searches(bytes)));
    head("filling: the load without its search");
    files.iter().for_each(|(name, bytes)| row(name, &rounds::loads(&tables::unsearched(bytes))));
    head("whole load");
    files.iter().for_each(|(name, bytes)| row(name, &rounds::loads(bytes)));
}
/// The search by number of calls: the first 4, 8, 16 and 32 trips of tables of 32 trips with 16 calls, then the worst cases.
fn growth(paths: &[String]) {
    head("search by number of calls");
    let search = |name: String, bytes: &[u8]| {
        check(&name, bytes);
        row(&name, &rounds::searches(bytes));
    };
    for path in paths {
        let (name, bytes) = read(path);
        for trips in [4, 8, 16, 32] {
            search(format!("{name}, {} calls", 16 * trips), &tables::first_trips(&bytes, trips));
        }
    }
    for (name, table) in WORST {
        for calls in [16, 32, 64, 128] {
            search(format!("{name}, {calls} calls"), &table(calls));
        }
    }
}
/// Each file with one change and with two: the port's searches in turns. Beside the latter a plain loop over first, middle and last rides,
/// of files that it ends with in seconds: those of up to 128 calls, and the first trips of the others.
fn three(paths: &[String]) {
    println!(
        "\n| search | one change, ms: least, median, quartiles | two changes | journeys of three rides |\n|---|---|---|---|"
    );
    for (name, bytes) in paths.iter().map(|path| read(path)) {
        let [one, two] = [1, 2].map(|changes| tables::with_transfers(&bytes, changes));
        let lines = port::lines(&two);
        let found = lines.lines().filter(|line| line.split(' ').nth(3) == Some("3")).count();
        let [one, two] = rounds::port_searches([&one, &two]);
        println!("| {name} | {} | {} | {found} |", side(&one), side(&two));
    }
    head("two changes, beside the plain loop");
    let search = |name: String, bytes: &[u8]| {
        check(&name, bytes);
        row(&name, &rounds::searches(bytes));
    };
    for (name, bytes) in paths.iter().map(|path| read(path)) {
        let two = tables::with_transfers(&bytes, 2);
        match tables::calls(&two) {
            0..=128 => search(name, &two),
            _ if name.starts_with("32x16") => search(format!("{name}, 64 calls"), &tables::first_trips(&two, 4)),
            _ => {}
        }
    }
    for calls in [16, 32, 64] {
        search(format!("improving, {calls} calls"), &tables::improving(calls));
    }
}
type Table = fn(u16) -> Vec<u8>;
const WORST: [(&str, Table); 3] =
    [("two trips", tables::two_trips), ("near at last", tables::near_at_last), ("out of reach", tables::out_of_reach)];
/// Small papers, from the file's bytes to the best journey at second 0. The Rust's reader takes version 1 without dates and without calls
/// after the search: of the others the port's time alone.
fn papers(paths: &[String]) {
    let (both, alone): (Vec<_>, Vec<_>) = paths.iter().map(|path| read(path)).partition(|(_, bytes)| tables::is_plain(bytes));
    both.iter().for_each(|(name, bytes)| check(name, bytes));
    head("small paper: from its bytes to best");
    both.iter().for_each(|(name, bytes)| row(&sized(name, bytes), &rounds::loads(bytes)));
    println!("\n| small paper that the Rust doesn't read | port, ms: least, median, quartiles |\n|---|---|");
    alone.iter().for_each(|(name, bytes)| println!("| {} | {} |", sized(name, bytes), side(&rounds::port_loads(bytes))));
}
fn sized(name: &str, bytes: &[u8]) -> String {
    format!("{name}, {} calls", tables::calls(bytes))
}
/// The search of the worst cases with as many calls as a load holds, without the Rust; then that of files, each with its own changes.
fn worst(paths: &[String]) {
    let time = |name: &str, changes, bytes: &[u8]| {
        let bytes = tables::unsearched(&tables::with_transfers(bytes, changes));
        let [one, none] = [1, 0].map(|times| rounds::least(5, || port::searches(&bytes, times)));
        println!("{}, changes {changes}: {} ms", sized(name, &bytes), ms(one - none));
    };
    for (name, table) in WORST {
        [1, 2].into_iter().for_each(|changes| time(name, changes, &table(512)));
    }
    time("improving", 2, &tables::improving(512));
    for (name, bytes) in paths.iter().map(|path| read(path)) {
        time(&name, tables::transfers(&bytes), &bytes);
    }
}
/// The last call of a file withdrawn, and added to the file without it: unsearched and searched. Beside them its search.
fn altered(name: &str, bytes: &[u8]) {
    let (call, without) = tables::last_call(bytes);
    let us = |times: Times| format!("{:.2}", times.median() * 1e6);
    let both =
        |bytes: &[u8], adds| [tables::unsearched(bytes), bytes.to_vec()].map(|bytes| us(rounds::altered(&bytes, adds, &call)));
    let [[unsearched, searched], [before, after]] = [both(bytes, false), both(&without, true)];
    println!(
        "{name}: a call withdrawn {unsearched} us, after the search {searched}; added {before}, after the search {after}; the search {:.2}",
        rounds::searches(bytes)[0].median() * 1e6
    );
}
/// Runs in a thread with so much stack.
fn with_stack(bytes: usize, work: impl FnOnce() + Send + 'static) {
    let thread = std::thread::Builder::new().stack_size(bytes).spawn(work);
    thread.and_then(|thread| thread.join().map_err(|_| std::io::Error::other("it needs more"))).expect("enough stack");
}
/// A load of 128 stops, 128 rules and 512 calls, as a file and step by step, in a thread with 1 MB of stack; then calls withdrawn and
/// added, with a quarter more.
fn steps() {
    let full = tables::full();
    check("full", &full);
    let bytes = full.clone();
    with_stack(1 << 20, move || {
        let [port, published] = rounds::loads(&tables::unsearched(&full));
        head("128 stops, 128 rules, 512 calls");
        let times = [port, published];
        row("filled", &times);
        println!(
            "a step: {:.2} us (768 steps); {:.2} us in the Rust",
            times[0].median() * 1e6 / 768.0,
            times[1].median() * 1e6 / 768.0
        );
        row("filled and searched", &rounds::loads(&full));
        row("128 stops, then 128 rules and 128 calls in turn", &rounds::loads(&tables::in_turn()));
        let [stop, rule, call, all] = rounds::one_by_one();
        println!(
            "one by one, by the steps themselves: a stop {:.2} us, a rule {:.2}, a call {:.2}; all 768 with the opening {:.2} ms",
            stop.median() * 1e6,
            rule.median() * 1e6,
            call.median() * 1e6,
            all.median() * 1e3
        );
    });
    with_stack(5 << 18, move || {
        altered("this file", &bytes);
        for name in ["paper-0", "64x8-one", "256x2-one"] {
            altered(name, &read(&format!("tables/{name}.load")).1);
        }
    });
}

fn main() {
    let words: Vec<String> = std::env::args().skip(1).collect();
    match words.split_first() {
        Some((mode, paths)) if mode == "--growth" => growth(paths),
        Some((mode, paths)) if mode == "--three" => three(paths),
        Some((mode, [])) if mode == "--steps" => steps(),
        Some((mode, paths)) if mode == "--papers" => papers(paths),
        Some((mode, paths)) if mode == "--worst" => worst(paths),
        Some(_) => compare(&words),
        None => {
            eprintln!("usage: speed FILE ..   speed --growth|--three|--papers FILE ..   speed --worst [FILE ..]   speed --steps")
        }
    }
}
