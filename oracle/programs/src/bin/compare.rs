//! The original beside another program: `compare SEED COUNT COMMAND ARGUMENT..`.
//!
//! The command reads lines `HEX RUNS` and answers each at once as `oracle --batch` does. It gets
//! random scripts, one in three of them with patterns, scripts near a limit and damaged copies; every
//! answer is compared, root lines in their order. A script that is answered otherwise is made as small as it will go. Scripts
//! that a request amends are passed over.

use generator::{damage::damage, rng::Rng, Sort};
use original::answer;
use programs::amended::{file_leaves, leaves};
use programs::other::Other;
use programs::shrink::small_file;
use tree_file::{on_deep_stack, to_hex, write, Script};

/// After so many differences there is nothing more to learn.
const ENOUGH: u64 = 10;

fn next_file(rng: &mut Rng) -> (Vec<u8>, u32) {
    let high = *rng.pick(&[20, 40, 80, 160, 400, 1024]);
    let sort = Sort::any(rng);
    let mut script = sort.script(rng, 5, high);
    if rng.once_in(20) {
        script = sort.near_limit(rng, &script);
    }
    let runs = if rng.once_in(8) {
        rng.from(1, 15) as u32
    } else {
        16
    };
    let file = write(&script);
    match rng.once_in(3) {
        true => (damage(rng, &file), runs),
        false => (file, runs),
    }
}

/// A line of the other's answer as the original prints it: without how often a root binding was replaced.
fn uncounted(line: &str) -> &str {
    match line.strip_prefix("root ") {
        Some(fields) if fields.split(' ').count() == 4 => {
            line.rsplit_once(' ').map_or(line, |it| it.0)
        }
        _ => line,
    }
}

fn agrees(other: &mut Other, file: &[u8], runs: u32) -> bool {
    let told = other.answer(file, runs);
    answer(file, runs)
        .to_string()
        .lines()
        .eq(told.lines().map(uncounted))
}

fn report(other: &mut Other, file: &[u8], runs: u32) {
    let differs = &mut |script: &Script| !leaves(script) && !agrees(other, &write(script), runs);
    let (file, text) = small_file(file, differs);
    println!("{text}\n{} {runs}", to_hex(&file));
    println!("the original:\n{}", answer(&file, runs));
    println!("the other:\n{}", other.answer(&file, runs));
}

fn compare(seed: u64, count: u64, other: &mut Other) -> (u64, u64) {
    let mut rng = Rng::new(seed);
    let (mut passed, mut failed) = (0, 0);
    while passed + failed < count && failed < ENOUGH {
        let (file, runs) = next_file(&mut rng);
        if file_leaves(&file) {
            continue;
        }
        if agrees(other, &file, runs) {
            passed += 1;
        } else {
            failed += 1;
            report(other, &file, runs);
        }
    }
    (passed, failed)
}

fn main() {
    let given: Vec<String> = std::env::args().skip(1).collect();
    let number = |at: usize| given.get(at).and_then(|n| n.parse().ok());
    let (Some(seed), Some(count), true) = (number(0), number(1), given.len() > 2) else {
        eprintln!("usage: compare SEED COUNT COMMAND ARGUMENT..");
        std::process::exit(2);
    };
    let mut other = Other::start(&given[2..]).unwrap_or_else(|error| {
        eprintln!("compare: {error}");
        std::process::exit(1)
    });
    let (passed, failed) = on_deep_stack(|| compare(seed, count, &mut other));
    println!("{passed} passed, {failed} failed");
    drop(other);
    std::process::exit(i32::from(failed > 0));
}
