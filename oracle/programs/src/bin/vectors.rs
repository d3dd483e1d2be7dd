//! Writes the stored vectors, all from a seed: `vectors sample|small|patterns SEED`.
//!
//! All hold hand-written cases, random scripts over every kind and form, and damaged copies; the
//! sample also the files at every limit, and small only what a slow reader can take. The first two
//! are without patterns, the third has them in every place. Scripts that a request amends are left
//! out: `vectors amended SEED` writes these, from all three, and the hand-written cases of the
//! requests, as lines `HEX RUNS`, for the port to answer.

use generator::limits::{Family, FAMILIES, PATTERN_FAMILIES};
use generator::{damage::damage, rng::Rng, Sort};
use original::answer;
use programs::amended::file_leaves;
use programs::on_deep_stack;
use std::collections::HashMap;
use std::io::{self, BufWriter, Write};
use tree_file::parse::parse;
use tree_file::{kinds, read, to_hex, write, Answer, Script};

/// How many vectors of each sort, and how large the scripts are.
struct Plan {
    sort: Sort,
    cases: &'static str,
    /// The last kind that has to come.
    last_kind: u8,
    random: usize,
    high: usize,
    /// Scripts of 150 to 500 nodes besides.
    large: usize,
    damaged: usize,
    /// Files at a limit that pass are left out if they are longer.
    most_bytes: usize,
    families: &'static [Family],
    limits: fn(&str) -> bool,
}

const SAMPLE: Plan = Plan {
    sort: Sort::Plain,
    cases: include_str!("../../cases.txt"),
    last_kind: 44,
    random: 390,
    high: 75,
    large: 8,
    damaged: 110,
    most_bytes: usize::MAX,
    families: FAMILIES,
    limits: |_| true,
};

/// Rows 7 and 9 need many nodes; one family of each is enough here.
const SMALL: Plan = Plan {
    random: 160,
    high: 45,
    large: 0,
    damaged: 70,
    most_bytes: 2048,
    limits: |name| ["file_identifiers", "hoisted", "blocks"].contains(&name),
    ..SAMPLE
};

const PATTERNS: Plan = Plan {
    sort: Sort::Patterns,
    cases: include_str!("../../patterns.txt"),
    last_kind: 48,
    random: 240,
    high: 60,
    large: 6,
    damaged: 90,
    most_bytes: usize::MAX,
    families: PATTERN_FAMILIES,
    limits: |_| true,
};

struct Writer<W: Write> {
    out: W,
    /// Are the files that leave the comparison written, and not the others.
    amended: bool,
    written: usize,
}

impl<W: Write> Writer<W> {
    fn vector(&mut self, file: &[u8], runs: u32) -> io::Result<()> {
        if file_leaves(file) != self.amended {
            return Ok(());
        }
        self.written += 1;
        if self.amended {
            return writeln!(self.out, "{} {runs}", to_hex(file));
        }
        let answer = answer(file, runs);
        writeln!(self.out, "file {}\nruns {runs}\n{answer}", to_hex(file))
    }
}

fn cases(text: &str) -> Vec<Script> {
    let lines = text.lines();
    let scripts = lines.filter(|line| !line.starts_with('#'));
    scripts
        .map(|line| parse(line).unwrap_or_else(|what| panic!("{line}: {what}")))
        .collect()
}

/// Which kinds and forms were met how often in scripts that pass.
#[derive(Default)]
struct Met(HashMap<(u8, u8), usize>);

impl Met {
    fn times(&self, kind_and_form: (u8, u8)) -> usize {
        self.0.get(&kind_and_form).copied().unwrap_or(0)
    }

    fn is_rare(&self, script: &Script) -> bool {
        let nodes = script.tree.preorder();
        nodes.iter().any(|n| self.times((n.kind, n.form)) < 4)
    }

    fn add(&mut self, script: &Script) {
        if let Answer::Refused(_) = original::pass(script, 16) {
            return;
        }
        for node in script.tree.preorder() {
            *self.0.entry((node.kind, node.form)).or_default() += 1;
        }
    }

    fn is_complete(&self, last_kind: u8) -> bool {
        let mut pairs = kinds::all()
            .into_iter()
            .filter(|(kind, _)| *kind <= last_kind);
        pairs.all(|pair| self.times(pair) >= 4)
    }
}

/// Kept: what shows a rare kind or form, what the pass changes, and some of the rest.
fn is_kept(rng: &mut Rng, met: &Met, script: &Script) -> bool {
    let keeps = match original::pass(script, 16) {
        Answer::Done(done) if done.runs > 1 => true,
        Answer::Done(done) if done.tree != script.tree => rng.once_in(4),
        Answer::Done(_) => rng.once_in(20),
        Answer::Refused(_) => rng.once_in(8),
    };
    keeps || met.is_rare(script)
}

fn random(rng: &mut Rng, plan: &Plan) -> Vec<Script> {
    let mut met = Met::default();
    let mut list = Vec::new();
    while list.len() < plan.random || !met.is_complete(plan.last_kind) {
        let script = plan.sort.script(rng, 5, plan.high);
        let wanted = if list.len() < plan.random {
            is_kept(rng, &met, &script)
        } else {
            met.is_rare(&script)
        };
        if script.tree.count() >= 5 && wanted {
            met.add(&script);
            list.push(script);
        }
    }
    let large = list.len() + plan.large;
    while list.len() < large {
        let script = plan.sort.script(rng, 150, 500);
        if is_kept(rng, &met, &script) {
            list.push(script);
        }
    }
    list
}

fn write_limits<W: Write>(writer: &mut Writer<W>, plan: &Plan) -> io::Result<()> {
    let families = plan.families.iter();
    for family in families.filter(|family| (plan.limits)(family.name)) {
        for k in family.limit - 1..=family.limit + 1 {
            let file = (family.make)(k);
            if k > family.limit || file.len() <= plan.most_bytes {
                writer.vector(&file, 16)?;
            }
        }
    }
    Ok(())
}

/// Damaged copies, each row in turn as far as damage leads there.
fn write_damaged<W: Write>(
    writer: &mut Writer<W>,
    rng: &mut Rng,
    plan: &Plan,
    scripts: &[Script],
) -> io::Result<()> {
    let mut of_row = [0usize; 8];
    let mut left = plan.damaged;
    while left > 0 {
        let script = loop {
            let script = rng.pick(scripts);
            if script.tree.count() <= 40 {
                break script;
            }
        };
        let file = damage(rng, &write(script));
        let row = read(&file).err().unwrap_or(0) as usize;
        if of_row[row] > plan.damaged / 5 {
            continue;
        }
        of_row[row] += 1;
        left -= 1;
        writer.vector(&file, 16)?;
    }
    Ok(())
}

fn run(plan: &Plan, seed: u64, amended: bool) -> io::Result<usize> {
    let mut rng = Rng::new(seed);
    let mut writer = Writer {
        out: BufWriter::new(io::stdout().lock()),
        amended,
        written: 0,
    };
    for script in cases(plan.cases) {
        writer.vector(&write(&script), 16)?;
    }
    let scripts = random(&mut rng, plan);
    for script in &scripts {
        let runs = if rng.once_in(6) {
            rng.from(1, 15) as u32
        } else {
            16
        };
        writer.vector(&write(script), runs)?;
    }
    writer.vector(&[], 16)?;
    write_damaged(&mut writer, &mut rng, plan, &scripts)?;
    write_limits(&mut writer, plan)?;
    Ok(writer.written)
}

/// What the requests amend: their cases, whether they leave or not, then what leaves the others.
fn amended(seed: u64) -> io::Result<usize> {
    let scripts = cases(include_str!("../../requests.txt"));
    for script in &scripts {
        println!("{} 16", to_hex(&write(script)));
    }
    let mut written = scripts.len();
    for plan in [SMALL, SAMPLE, PATTERNS] {
        written += run(&plan, seed, true)?;
    }
    Ok(written)
}

fn main() {
    let given: Vec<String> = std::env::args().skip(1).collect();
    let seed = given.get(1).and_then(|seed| seed.parse().ok()).unwrap_or(1);
    let written = on_deep_stack(|| match given.first().map(|name| &name[..]) {
        Some("sample") => run(&SAMPLE, seed, false),
        Some("small") => run(&SMALL, seed, false),
        Some("patterns") => run(&PATTERNS, seed, false),
        Some("amended") => amended(seed),
        _ => {
            eprintln!("usage: vectors sample|small|patterns|amended SEED");
            std::process::exit(2);
        }
    });
    match written {
        Ok(written) => eprintln!("{written} vectors"),
        Err(error) => {
            eprintln!("vectors: {error}");
            std::process::exit(1);
        }
    }
}
