//! Port and original on the same trees, in one process: `bench [REPEATS]`; `bench [REPEATS] SCRIPT`, that script alone; `bench doubling MOST`,
//! functions in one another; `bench only port|original SCRIPT TIMES`, for counting instructions from outside; or `bench tree SCRIPT`, the
//! script's tree file to standard output.
//!
//! SCRIPT is `gates:600` or `600` alone, `patterns:600`, `functions:10`, `right-functions:5`, or a part of the name of another row of the table, as
//! `bindings` or "values that move".
//!
//! The port's time is that of its whole C function: the file read and checked, the runs, the result written, the words cleared. The
//! original's is that of the runs alone, on a tree that was built before; `whole` adds what the port does besides: the file read,
//! the tree built, the result written.

// Which scripts the requests take out of the comparison; its package asks for the original with its limits watched, and is none of this one's.
#[allow(dead_code)]
#[path = "../../programs/src/amended.rs"]
mod amended;
mod clock;
mod scripts;

use negbosun::{inline_into, Done, MOST_BYTES, MOST_RUNS, WORDS};
use original::Built;
use std::hint::black_box;
use std::io::Write;
use std::time::Instant;
use tree_file::{on_deep_stack, read, write, Script};

/// Room that is used again for every call.
struct Port {
    result: Vec<u8>,
    words: Vec<u32>,
}

impl Port {
    fn new() -> Port {
        Port {
            result: vec![0; MOST_BYTES],
            words: vec![0; WORDS],
        }
    }

    fn run(&mut self, file: &[u8]) -> Done {
        let done = inline_into(
            black_box(file),
            &mut self.result,
            &mut self.words,
            MOST_RUNS,
        );
        black_box(done.expect("a script that passes"))
    }
}

/// Nanoseconds per call, and runs.
#[derive(Clone, Copy)]
struct Times {
    runs: f64,
    port: f64,
    original: f64,
    whole: f64,
}

/// Nanoseconds of the processor that a call takes; what else the machine does is not in them.
fn nanoseconds(calls: usize, work: impl FnOnce()) -> f64 {
    let start = clock::of_thread();
    work();
    (clock::of_thread() - start).as_nanos() as f64 / calls as f64
}

/// One turn of each, after one another, so that a busy machine slows all of them.
fn turn(port: &mut Port, files: &[Vec<u8>], all: &[Script], calls: usize) -> Times {
    let number = calls * files.len();
    let port = nanoseconds(number, || {
        for _ in 0..calls {
            files.iter().for_each(|file| {
                let _ = port.run(file);
            });
        }
    });
    let mut built: Vec<Built> = (0..calls)
        .flat_map(|_| all.iter().map(Built::new))
        .collect();
    let original = nanoseconds(number, || {
        built.iter_mut().for_each(|tree| {
            black_box(tree.run(MOST_RUNS));
        })
    });
    let whole = nanoseconds(number, || {
        for _ in 0..calls {
            files.iter().for_each(|file| {
                black_box(through(file));
            });
        }
    });
    Times {
        runs: 0.0,
        port,
        original,
        whole,
    }
}

/// From a file to the result's file by the original.
fn through(file: &[u8]) -> Vec<u8> {
    let script = read(black_box(file)).expect("a readable script");
    let mut built = Built::new(&script);
    built.run(MOST_RUNS);
    write(&Script {
        tree: built.tree(),
        texts: script.texts,
    })
}

/// The least times of all turns.
fn least(scripts: &[Script], repeats: usize, calls: usize) -> Times {
    let files: Vec<Vec<u8>> = scripts.iter().map(write).collect();
    let (mut port, mut runs) = (Port::new(), 0.0);
    for (file, script) in files.iter().zip(scripts) {
        let done = port.run(file);
        runs += f64::from(done.runs) / files.len() as f64;
        assert!(
            amended::leaves(script) || through(file) == port.result[..done.length],
            "port and original differ"
        );
    }
    // Another turn only while there is time.
    let start = Instant::now();
    let turns = (0..repeats).take_while(|done| *done == 0 || start.elapsed().as_secs() < 4);
    turns
        .map(|_| Times {
            runs,
            ..turn(&mut port, &files, scripts, calls)
        })
        .reduce(|a, b| Times {
            runs,
            port: a.port.min(b.port),
            original: a.original.min(b.original),
            whole: a.whole.min(b.whole),
        })
        .expect("some turns")
}

fn show(name: &str, nodes: usize, times: Times) {
    let micro = |time: f64| time / 1000.0;
    println!(
        "{name:32} {nodes:5} {:5.1} {:9.1} {:9.1} {:6.2} {:9.1} {:9.1}",
        times.runs,
        micro(times.port),
        micro(times.original),
        times.port / times.original,
        micro(times.whole),
        times.port / nodes as f64 / times.runs
    );
}

fn head(repeats: usize) {
    println!("microseconds, the least of {repeats} turns");
    println!(
        "{:32} nodes  runs      port  original  ratio     whole  port, ns for a node and run",
        ""
    );
}

/// One script alone; ten calls a turn where a call takes no time to speak of.
fn one(word: &str, repeats: usize) {
    let (name, script) = scripts::by_name(word).unwrap_or_else(|| panic!("no script {word}"));
    let (nodes, list) = (script.tree.count(), [script]);
    let calls = if least(&list, 1, 1).port < 1e6 { 10 } else { 1 };
    head(repeats);
    show(&name, nodes, least(&list, repeats, calls));
}

fn all(repeats: usize) {
    head(repeats);
    for nodes in [100, 200, 300, 400, 600, 800, 1000] {
        show("gates", nodes, least(&[scripts::gates(nodes)], repeats, 10));
        let patterns = [scripts::pattern_gates(nodes)];
        show("gates with patterns", nodes, least(&patterns, repeats, 10));
    }
    for nodes in [100, 300, 600, 1000] {
        let list = scripts::random(nodes, 100);
        let mean = list.iter().map(|script| script.tree.count()).sum::<usize>() / list.len();
        show(
            "100 random scripts, the mean",
            mean,
            least(&list, repeats.min(10), 1),
        );
    }
    for (name, script) in scripts::slow() {
        show(
            name,
            script.tree.count(),
            least(&[script], repeats.min(5), 1),
        );
    }
}

/// The families whose time doubles and quadruples with each function inside another.
fn doubling(most: usize) {
    println!("microseconds, the least of at most 5 turns");
    for count in (6..=most).step_by(2) {
        let script = scripts::functions(count);
        let name = format!("{count} functions");
        show(&name, script.tree.count(), least(&[script], 5, 1));
    }
    for count in 3..=most / 2 {
        let script = scripts::right_functions(count);
        let name = format!("{count} functions as right sides");
        show(&name, script.tree.count(), least(&[script], 5, 1));
    }
}

/// One side alone, the tree of the original built outside `Built::run`.
fn only(side: &str, word: &str, times: usize) {
    let (_, script) = scripts::by_name(word).unwrap_or_else(|| panic!("no script {word}"));
    let (file, mut port) = (write(&script), Port::new());
    for _ in 0..times {
        match side {
            "port" => black_box(port.run(&file).runs),
            _ => black_box(Built::new(&script).run(MOST_RUNS)),
        };
    }
}

/// The file of a script, to standard output.
fn tree(word: &str) {
    let (_, script) = scripts::by_name(word).unwrap_or_else(|| panic!("no script {word}"));
    let written = std::io::stdout().write_all(&write(&script));
    written.expect("standard output takes the file");
}

const USAGE: &str =
    "usage: bench [REPEATS] [SCRIPT] | bench doubling MOST | bench only port|original SCRIPT TIMES | bench tree SCRIPT";

fn main() {
    let given: Vec<String> = std::env::args().skip(1).collect();
    let words: Vec<&str> = given.iter().map(String::as_str).collect();
    let number = |word: &str| word.parse::<usize>().ok();
    on_deep_stack(|| match words[..] {
        [] => all(30),
        ["only", side @ ("port" | "original"), script, times] => match number(times) {
            Some(times) => only(side, script, times),
            None => eprintln!("{USAGE}"),
        },
        ["tree", script] => tree(script),
        ["doubling"] => doubling(22),
        ["doubling", most] => match number(most) {
            Some(most) => doubling(most),
            None => eprintln!("{USAGE}"),
        },
        [repeats, script] => match number(repeats) {
            Some(repeats) => one(script, repeats),
            None => eprintln!("{USAGE}"),
        },
        [word] => match number(word) {
            Some(repeats) => all(repeats),
            None => one(word, 30),
        },
        _ => eprintln!("{USAGE}"),
    });
}
