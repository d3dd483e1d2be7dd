//! The original as a program: a tree file on standard input, its answer on standard output.
//!
//! Options: `--runs N` (16), `--words N` (16384), `--room N` (no limit), and `--batch`: lines of
//! hex digits on standard input, each answered in turn with a blank line after it; a number after
//! the digits is that file's run limit. Each answer comes at once.

use original::{entry, WORDS};
use programs::on_deep_stack;
use std::io::{self, BufRead, BufWriter, Read, Write};
use tree_file::from_hex;

struct Options {
    runs: u32,
    words: usize,
    room: usize,
    batch: bool,
}

fn options() -> Option<Options> {
    let mut options = Options {
        runs: 16,
        words: WORDS,
        room: usize::MAX,
        batch: false,
    };
    let mut given = std::env::args().skip(1);
    while let Some(name) = given.next() {
        match &name[..] {
            "--runs" => options.runs = given.next()?.parse().ok()?,
            "--words" => options.words = given.next()?.parse().ok()?,
            "--room" => options.room = given.next()?.parse().ok()?,
            "--batch" => options.batch = true,
            _ => return None,
        }
    }
    Some(options)
}

fn run(options: &Options) -> io::Result<()> {
    let mut out = BufWriter::new(io::stdout().lock());
    let answer = |file: &[u8], runs: u32| entry(file, runs, options.words, options.room);
    if !options.batch {
        let mut file = Vec::new();
        io::stdin().lock().read_to_end(&mut file)?;
        return write!(out, "{}", answer(&file, options.runs));
    }
    for line in io::stdin().lock().lines() {
        let line = line?;
        let (hex, runs) = line.split_once(' ').unwrap_or((&line, ""));
        let runs = runs.parse().unwrap_or(options.runs);
        match from_hex(hex) {
            Some(file) => writeln!(out, "{}", answer(&file, runs))?,
            None => writeln!(out, "not hex\n")?,
        }
        // Whoever asks may wait for this answer before asking on.
        out.flush()?;
    }
    Ok(())
}

fn main() {
    let Some(options) = options() else {
        eprintln!("usage: oracle [--runs N] [--words N] [--room N] [--batch]");
        std::process::exit(2);
    };
    if let Err(error) = on_deep_stack(|| run(&options)) {
        eprintln!("oracle: {error}");
        std::process::exit(1);
    }
}
