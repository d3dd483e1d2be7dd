//! Looks for scripts whose result an engine can tell from them: `differences SEED COUNT
//! [throwing|patterns]`, in the folder of this workspace. Each find is made as small as it will go;
//! equal ones are counted. Scripts that throw are judged only with `throwing`. With `patterns` the
//! scripts have patterns, and only what an engine tells apart with one in it is kept.
//!
//! `differences check FILE`: each line of FILE is a script that an engine must tell from its
//! result, but for lines that begin with `#`.

use generator::{rng::Rng, runnable};
use programs::engine::{Engine, Verdict};
use programs::{on_deep_stack, shrink};
use std::collections::BTreeMap;
use tree_file::javascript::print;
use tree_file::parse::parse;
use tree_file::Script;

fn has_pattern(script: &Script) -> bool {
    let nodes = script.tree.preorder();
    nodes.iter().any(|node| matches!(node.kind, 45 | 46 | 48))
}

fn search(engine: &mut Engine, seed: u64, count: u64, throwing: bool, patterns: bool) {
    let mut rng = Rng::new(seed);
    let mut found: BTreeMap<(usize, String), (usize, Verdict)> = BTreeMap::new();
    let (mut moved, mut differ) = (0, 0);
    for _ in 0..count {
        let size = rng.from(8, 60);
        let script = match patterns {
            true => runnable::pattern_script(&mut rng, size),
            false => runnable::script(&mut rng, size),
        };
        let verdict = engine.judge(&script);
        moved += usize::from(!matches!(verdict, Verdict::Unmoved));
        if !verdict.differs(throwing) || (patterns && !has_pattern(&script)) {
            continue;
        }
        differ += 1;
        // Without its patterns it would shrink to what is known.
        let small = shrink::shrink(&script, &mut |candidate| {
            shrink::is_text(candidate)
                && (!patterns || has_pattern(candidate))
                && engine.judge(candidate).differs(throwing)
        });
        let small = shrink::renamed(&small);
        let verdict = engine.judge(&small);
        let entry = found.entry((small.tree.count(), print(&small)));
        entry.or_insert((0, verdict)).0 += 1;
    }
    for ((nodes, text), (times, verdict)) in &found {
        println!("{times} times, {nodes} nodes: {text}\n{verdict}");
    }
    println!("{count} scripts, {moved} changed by the pass, {differ} told apart");
}

/// Prints each script's verdict; true if all are told apart.
fn check(engine: &mut Engine, text: &str) -> bool {
    let (mut passed, mut failed) = (0, 0);
    for line in text.lines().filter(|line| !line.is_empty()) {
        if line.starts_with('#') {
            println!("{line}");
            continue;
        }
        let verdict = parse(line).map(|script| engine.judge(&script));
        let good = verdict.as_ref().is_ok_and(|v| v.differs(true));
        *if good { &mut passed } else { &mut failed } += 1;
        match verdict {
            Ok(verdict) if good => print!("{line}\n{verdict}"),
            Ok(verdict) => print!("{line}\n{verdict}    not told apart\n"),
            Err(what) => println!("{line}\n    not understood: {what}"),
        }
    }
    println!("{passed} passed, {failed} failed");
    failed == 0
}

/// What the arguments ask for.
enum Task {
    Check(String),
    Search(u64, u64, bool, bool),
}

fn task(given: &[&str]) -> Option<Task> {
    match given {
        ["check", path] => Some(Task::Check(std::fs::read_to_string(path).ok()?)),
        [seed, count, rest @ ..] if rest.len() < 2 => {
            let (throwing, patterns) = match rest {
                [] => (false, false),
                ["throwing"] => (true, false),
                ["patterns"] => (false, true),
                _ => return None,
            };
            let (seed, count) = (seed.parse().ok()?, count.parse().ok()?);
            Some(Task::Search(seed, count, throwing, patterns))
        }
        _ => None,
    }
}

fn stop(message: &str) -> ! {
    eprintln!("{message}");
    std::process::exit(2)
}

fn main() {
    let given: Vec<String> = std::env::args().skip(1).collect();
    let given: Vec<&str> = given.iter().map(|word| &word[..]).collect();
    let Some(task) = task(&given) else {
        stop("usage: differences SEED COUNT [throwing|patterns] | check FILE");
    };
    let Ok(mut engine) = Engine::start("differences") else {
        stop("differences: node does not start");
    };
    let good = on_deep_stack(|| match task {
        Task::Check(text) => check(&mut engine, &text),
        Task::Search(seed, count, throwing, patterns) => {
            search(&mut engine, seed, count, throwing, patterns);
            true
        }
    });
    drop(engine);
    std::process::exit(i32::from(!good));
}
