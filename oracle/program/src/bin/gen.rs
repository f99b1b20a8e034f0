//! `gen --profile P --files N --seed S [--from I]` writes load files in batch form (a big-endian u32 length before each);
//! `gen --marked` writes 01's marked instances likewise, `gen --combined` each pair of causes of one step, `gen --damaged`
//! files that are malformed in each way, `gen --pruned` those where last rides are left out by a bound, `gen --chained` journeys of three
//! rides; `gen --profiles` lists the profiles; `gen --tables DIR` writes the benchmark's tables.
use program::generate::{self, PROFILES, chained, combined, damaged, marked, pruned, tables};
use std::io::{self, Write};

fn value(words: &[String], name: &str) -> Option<String> {
    let at = words.iter().position(|w| w == name)?;
    words.get(at + 1).cloned()
}
fn main() -> io::Result<()> {
    let words: Vec<String> = std::env::args().skip(1).collect();
    if words.iter().any(|w| w == "--profiles") {
        PROFILES.iter().for_each(|p| println!("{}", p.0));
        return Ok(());
    }
    if let Some(folder) = value(&words, "--tables") {
        for (name, bytes) in tables::recorded() {
            std::fs::write(format!("{folder}/{name}.load"), bytes)?;
        }
        return Ok(());
    }
    let mut output = io::BufWriter::with_capacity(1 << 16, io::stdout().lock());
    let mut write = |bytes: Vec<u8>| {
        output.write_all(&(bytes.len() as u32).to_be_bytes())?;
        output.write_all(&bytes)
    };
    if words.iter().any(|w| w == "--marked") {
        return marked::instances().into_iter().try_for_each(write);
    }
    if words.iter().any(|w| w == "--combined") {
        return combined::files().into_iter().try_for_each(write);
    }
    if words.iter().any(|w| w == "--damaged") {
        return damaged::files().into_iter().try_for_each(write);
    }
    if words.iter().any(|w| w == "--pruned") {
        return pruned::files().into_iter().try_for_each(write);
    }
    if words.iter().any(|w| w == "--chained") {
        return chained::files().into_iter().try_for_each(write);
    }
    let name = value(&words, "--profile").unwrap_or("all".to_string());
    let number = |word, other| value(&words, word).and_then(|n| n.parse().ok()).unwrap_or(other);
    let (files, seed, from) = (number("--files", 100), number("--seed", 1), number("--from", 0));
    let Some(profile) = generate::find(&name) else {
        eprintln!("gen: no such profile: {name}");
        std::process::exit(2)
    };
    (from..from + files).try_for_each(|i| write(generate::file(profile, seed, i)))
}
