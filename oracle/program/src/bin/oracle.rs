//! Answers of the published Rust for load files and single questions; oracle/README.md has the formats.
use program::{bench, modes, print};
use std::io::{self, BufRead, Read, Write};

fn one() -> io::Result<()> {
    let mut bytes = Vec::new();
    io::stdin().lock().read_to_end(&mut bytes)?;
    let mut out = String::new();
    print::file(&mut out, &bytes);
    io::stdout().write_all(out.as_bytes())
}
fn batch() -> io::Result<()> {
    let mut input = io::BufReader::with_capacity(1 << 16, io::stdin().lock());
    let mut output = io::BufWriter::with_capacity(1 << 16, io::stdout().lock());
    let mut out = String::new();
    let mut bytes = Vec::new();
    while !input.fill_buf()?.is_empty() {
        let mut length = [0; 4];
        input.read_exact(&mut length)?;
        bytes.resize(u32::from_be_bytes(length) as usize, 0);
        input.read_exact(&mut bytes)?;
        out.clear();
        print::file(&mut out, &bytes);
        out.push_str(".\n");
        output.write_all(out.as_bytes())?;
    }
    output.flush()
}
fn lines(answer: impl Fn(&str) -> Option<String>) -> io::Result<()> {
    let mut output = io::BufWriter::with_capacity(1 << 16, io::stdout().lock());
    for line in io::stdin().lock().lines() {
        let answer = answer(&line?).unwrap_or_else(|| "unreadable".to_string());
        writeln!(output, "{answer}")?;
    }
    output.flush()
}

fn main() -> io::Result<()> {
    let words: Vec<String> = std::env::args().skip(1).collect();
    match words.first().map(String::as_str) {
        None => one(),
        Some("--batch") => batch(),
        Some("--times") => lines(modes::time),
        Some("--places") => lines(modes::place),
        Some("--fnv") => lines(modes::fnv),
        Some("--best") => lines(modes::best),
        Some("--bench") => bench::run(&words[1..]),
        Some(word) => {
            eprintln!("oracle: no such mode: {word}; see oracle/README.md");
            std::process::exit(2)
        }
    }
}
