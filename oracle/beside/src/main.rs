//! The original and the port beside one another in one process: `beside SEED TREES DAMAGED [JOBS]`.
//!
//! TREES random scripts, one in 3 of them with patterns and one in 10 near a limit, and DAMAGED damaged copies of such scripts. Every answer is compared:
//! refusal, nodes, runs, mark, root bindings in their order; and each result has the assignments of its script. Of one tree in 8
//! also: rows 1 and 10 with their buffers, and two paired copies on the port. The files depend on SEED alone. What is answered
//! otherwise is made as small as it will go. Scripts that a request amends leave the comparison: they are counted, and their
//! paired copies tried all the same.

mod port;

use generator::{damage::damage, pairs, rng::Rng, Sort};
use negbosun::Inliner;
use programs::amended::{file_leaves, leaves};
use programs::shrink::small_file;
use std::sync::atomic::{AtomicU64, Ordering::Relaxed};
use std::sync::Mutex;
use tree_file::{assignments, on_deep_stack, to_hex, write, Answer, Script, Tree};

/// After so many differences there is nothing more to learn.
const ENOUGH: u64 = 10;
/// Files that share a generator.
const UNIT: u64 = 500;

/// What was met.
#[derive(Default)]
struct Tally {
    passed: u64,
    failed: u64,
    /// By refusal; 0 counts results.
    rows: [u64; 11],
    /// Left out of the comparison.
    amended: u64,
    /// Results that took more than one run.
    again: u64,
    /// Results that differ from their script.
    other: u64,
    paired: u64,
    buffers: u64,
    /// Assignments outside initialisers, in scripts that have a result.
    assignments: u64,
    /// Results with a pattern.
    patterns: u64,
}

impl Tally {
    fn add(&mut self, more: &Tally) {
        self.passed += more.passed;
        self.failed += more.failed;
        self.rows
            .iter_mut()
            .zip(more.rows)
            .for_each(|(sum, n)| *sum += n);
        self.amended += more.amended;
        self.again += more.again;
        self.other += more.other;
        self.paired += more.paired;
        self.buffers += more.buffers;
        self.assignments += more.assignments;
        self.patterns += more.patterns;
    }

    fn met(&mut self, answer: &Answer, script: Option<&Script>) {
        match answer {
            Answer::Refused(row) => self.rows[*row as usize] += 1,
            Answer::Done(done) => {
                self.rows[0] += 1;
                self.again += u64::from(done.runs > 1);
                self.patterns += u64::from(has_pattern(&done.tree));
                self.other += u64::from(script.is_some_and(|script| script.tree != done.tree));
            }
        }
    }
}

fn has_pattern(tree: &Tree) -> bool {
    matches!(tree.kind, 45 | 46) || tree.kids.iter().any(has_pattern)
}

fn next_script(rng: &mut Rng) -> Script {
    let high = *rng.pick(&[20, 40, 80, 160, 400, 1024]);
    let sort = Sort::any(rng);
    let script = sort.script(rng, 5, high);
    match rng.once_in(10) {
        true => sort.near_limit(rng, &script),
        false => script,
    }
}

fn next_runs(rng: &mut Rng) -> u32 {
    match rng.once_in(8) {
        true => rng.from(1, 15) as u32,
        false => 16,
    }
}

fn agrees(inliner: &mut Inliner, file: &[u8], runs: u32) -> bool {
    port::answer(inliner, file, runs) == Ok(original::answer(file, runs))
}

/// The file made small, with both answers.
fn report(inliner: &mut Inliner, file: &[u8], runs: u32) -> String {
    let differs = &mut |script: &Script| !leaves(script) && !agrees(inliner, &write(script), runs);
    let (file, text) = small_file(file, differs);
    let port = match port::answer(inliner, &file, runs) {
        Ok(answer) => answer.to_string(),
        Err(problem) => problem,
    };
    let original = original::answer(&file, runs);
    format!(
        "{text}\n{} {runs}\nthe original:\n{original}\nthe port:\n{port}\n",
        to_hex(&file)
    )
}

/// Two paired copies, one of them with literals that tell their origin, are treated alike by the port.
fn is_alike(
    rng: &mut Rng,
    inliner: &mut Inliner,
    script: &Script,
    answer: &Answer,
    runs: u32,
) -> bool {
    let copy = pairs::paired(rng, script);
    let files = [write(&copy), write(&pairs::tagged(script))];
    let [Ok(second), Ok(tagged)] = files.map(|file| port::answer(inliner, &file, runs)) else {
        return false;
    };
    pairs::alike(script, &copy, [answer, &second, &tagged])
}

struct Worker<'a> {
    inliner: Inliner,
    tally: Tally,
    reports: &'a Mutex<Vec<String>>,
}

impl Worker<'_> {
    fn fails(&mut self, report: String) {
        self.tally.failed += 1;
        self.reports.lock().expect("no panic").push(report);
    }

    fn compare(&mut self, file: &[u8], runs: u32, script: Option<&Script>) -> Option<Answer> {
        if file_leaves(file) {
            self.tally.amended += 1;
            return port::answer(&mut self.inliner, file, runs).ok();
        }
        let original = original::answer(file, runs);
        self.tally.met(&original, script);
        match port::answer(&mut self.inliner, file, runs) {
            Ok(port) if port == original => {
                self.tally.passed += 1;
                Some(port)
            }
            _ => {
                let report = report(&mut self.inliner, file, runs);
                self.fails(report);
                None
            }
        }
    }

    /// Every `=` outside an initialiser is in the result, with its target, in its order.
    fn keeps_assignments(&mut self, script: &Script, result: &Tree, runs: u32) {
        self.tally.assignments += assignments::outside(&script.tree) as u64;
        if !assignments::kept(&script.tree, result) {
            let file = to_hex(&write(script));
            self.fails(format!("assignments\n{file} {runs}\n"));
        }
    }

    /// Rows 1 and 10, and paired copies.
    fn more(&mut self, rng: &mut Rng, script: &Script, answer: &Answer, runs: u32) {
        let file = write(script);
        if let Some(length) = port::length(script, answer) {
            self.tally.buffers += 1;
            if !port::keeps_buffers(&file, runs, length) {
                self.fails(format!("buffers\n{} {runs}\n", to_hex(&file)));
            }
        }
        self.tally.paired += 1;
        if !is_alike(rng, &mut self.inliner, script, answer, runs) {
            self.fails(format!("paired copies\n{} {runs}\n", to_hex(&file)));
        }
    }

    fn unit(&mut self, rng: &mut Rng, count: u64, damaged: bool) {
        for _ in 0..count {
            let script = next_script(rng);
            let runs = next_runs(rng);
            if damaged {
                let file = damage(rng, &write(&script));
                self.compare(&file, runs, None);
                continue;
            }
            let answer = self.compare(&write(&script), runs, Some(&script));
            if let Some(Answer::Done(done)) = &answer {
                self.keeps_assignments(&script, &done.tree, runs);
            }
            if let (true, Some(answer)) = (rng.once_in(8), answer) {
                self.more(rng, &script, &answer, runs);
            }
        }
    }
}

/// One sort of files, in units that the jobs take one after another.
fn round(seed: u64, count: u64, damaged: bool, jobs: u64) -> (Tally, Vec<String>) {
    let next = AtomicU64::new(0);
    let (total, reports) = (Mutex::new(Tally::default()), Mutex::new(Vec::new()));
    let work = || {
        let mut worker = Worker {
            inliner: Inliner::new(),
            tally: Tally::default(),
            reports: &reports,
        };
        loop {
            let unit = next.fetch_add(1, Relaxed);
            let left = count.saturating_sub(unit * UNIT);
            if left == 0 || reports.lock().expect("no panic").len() as u64 >= ENOUGH {
                break;
            }
            let mut rng =
                Rng::new(Rng::new(seed ^ u64::from(damaged) << 63).word() ^ Rng::new(unit).word());
            worker.unit(&mut rng, left.min(UNIT), damaged);
        }
        total.lock().expect("no panic").add(&worker.tally);
    };
    std::thread::scope(|scope| {
        for _ in 0..jobs {
            scope.spawn(|| on_deep_stack(work));
        }
    });
    (
        total.into_inner().expect("no panic"),
        reports.into_inner().expect("no panic"),
    )
}

fn show(name: &str, tally: &Tally, reports: &[String]) {
    reports.iter().for_each(|report| println!("{report}"));
    println!(
        "{name}: {} alike, {} not, {} amended by a request",
        tally.passed, tally.failed, tally.amended
    );
    println!(
        "  results {}, of them {} after more than one run and {} with patterns",
        tally.rows[0], tally.again, tally.patterns
    );
    let rows: Vec<String> = (1..=10)
        .map(|row| format!("{row}: {}", tally.rows[row]))
        .collect();
    println!("  refusals {}", rows.join(", "));
    if tally.paired > 0 {
        println!(
            "  results that differ from their script {}; with rows 1 and 10 {}, with paired copies {}; assignments kept {}",
            tally.other, tally.buffers, tally.paired, tally.assignments
        );
    }
}

fn main() {
    let given: Vec<u64> = std::env::args().skip(1).flat_map(|n| n.parse()).collect();
    let (&[seed, trees, damaged], jobs) = (
        &given[..given.len().min(3)],
        given.get(3).copied().unwrap_or(1),
    ) else {
        eprintln!("usage: beside SEED TREES DAMAGED [JOBS]");
        std::process::exit(2);
    };
    let mut sum = Tally::default();
    for (name, count, is_damaged) in [("trees", trees, false), ("damaged files", damaged, true)] {
        let (tally, reports) = round(seed, count, is_damaged, jobs.max(1));
        show(name, &tally, &reports);
        sum.add(&tally);
    }
    println!("{} passed, {} failed", sum.passed, sum.failed);
    std::process::exit(i32::from(sum.failed > 0));
}
