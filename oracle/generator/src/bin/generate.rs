//! Random tree files as lines of hex digits.
//!
//! `generate SEED COUNT LOW HIGH [damaged|paired|near] [patterns]`: readable scripts of LOW to HIGH
//! nodes; with `damaged` a damaged copy of each; with `paired` each followed by a paired copy; with
//! `near` each brought near a limit; with `patterns` patterns in them.

use generator::rng::Rng;
use generator::{damage::damage, pairs::paired, Sort};
use std::io::{self, BufWriter, Write};
use tree_file::{on_deep_stack, to_hex, write};

fn run(numbers: &[u64], way: &str, sort: Sort) -> io::Result<()> {
    let mut rng = Rng::new(numbers[0]);
    let mut out = BufWriter::new(io::stdout().lock());
    for _ in 0..numbers[1] {
        let mut script = sort.script(&mut rng, numbers[2] as usize, numbers[3] as usize);
        if way == "near" {
            script = sort.near_limit(&mut rng, &script);
        }
        let file = write(&script);
        if way == "damaged" {
            writeln!(out, "{}", to_hex(&damage(&mut rng, &file)))?;
            continue;
        }
        writeln!(out, "{}", to_hex(&file))?;
        if way == "paired" {
            writeln!(out, "{}", to_hex(&write(&paired(&mut rng, &script))))?;
        }
    }
    Ok(())
}

fn main() {
    let given: Vec<String> = std::env::args().skip(1).collect();
    let numbers: Vec<u64> = given.iter().flat_map(|arg| arg.parse()).collect();
    let mut words: Vec<&str> = given.iter().skip(4).map(|word| &word[..]).collect();
    let sort = match words.last() {
        Some(&"patterns") => Sort::Patterns,
        _ => Sort::Plain,
    };
    words.truncate(words.len() - usize::from(sort == Sort::Patterns));
    let way = words.first().copied().unwrap_or_default();
    if numbers.len() != 4 || words.len() > 1 || !["", "damaged", "paired", "near"].contains(&way) {
        eprintln!("usage: generate SEED COUNT LOW HIGH [damaged|paired|near] [patterns]");
        std::process::exit(2);
    }
    if let Err(error) = on_deep_stack(|| run(&numbers, way, sort)) {
        eprintln!("generate: {error}");
        std::process::exit(1);
    }
}
