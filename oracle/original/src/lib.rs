//! The two source files of the original, run over stand-ins for what they lean on.

#[allow(unused, irrefutable_let_patterns, clippy::all)]
mod inlining {
    include!(concat!(env!("OUT_DIR"), "/inlining/mod.rs"));
}

mod build;
mod unbuild;

use inlining::{inlining, Config};
use limits::Refusal;
use std::panic::{catch_unwind, resume_unwind, AssertUnwindSafe};
use swc_common::pass::Repeated;
use swc_ecma_ast::{Measured, Pass, Program};
use swc_ecma_visit::VisitMut;
use tree_file::{Answer, Outcome, Script, Tree};

pub use limits::{Peaks, WATCHED};

pub const WORDS: usize = 16_384;

/// The whole entry: `words` is the length of the working memory, `room` that of the result buffer.
pub fn entry(file: &[u8], runs: u32, words: usize, room: usize) -> Answer {
    if !(1..=16).contains(&runs) || words < WORDS {
        return Answer::Refused(1);
    }
    let script = match tree_file::read(file) {
        Ok(script) => script,
        Err(row) => return Answer::Refused(row),
    };
    match pass(&script, runs) {
        Answer::Done(done) if result(&script, &done).len() > room => Answer::Refused(10),
        answer => answer,
    }
}

/// The result's file: the new nodes with the old texts.
pub fn result(script: &Script, done: &Outcome) -> Vec<u8> {
    tree_file::write(&Script {
        tree: done.tree.clone(),
        texts: script.texts.clone(),
    })
}

/// A file's answer where words and room suffice.
pub fn answer(file: &[u8], runs: u32) -> Answer {
    entry(file, runs, WORDS, usize::MAX)
}

/// The pass over a script that was read: rows 8 and 9, or the outcome.
pub fn pass(script: &Script, runs: u32) -> Answer {
    limits::begin();
    match catch_unwind(AssertUnwindSafe(|| repeat(script, runs))) {
        Ok(done) => Answer::Done(done),
        Err(payload) => match payload.downcast::<Refusal>() {
            Ok(refusal) => Answer::Refused(refusal.0),
            Err(other) => resume_unwind(other),
        },
    }
}

/// The highest figures of rows 8 and 9 in the last pass of this thread.
pub fn peaks() -> Peaks {
    limits::peaks()
}

fn repeat(script: &Script, limit: u32) -> Outcome {
    let mut built = Built::new(script);
    let (runs, pass) = built.runs(limit);
    let root = |(id, mark): (swc_ecma_ast::Id, bool)| (id.0.number, id.1 .0, mark);
    Outcome {
        runs,
        changed: pass.changed(),
        roots: pass.root_bindings().into_iter().map(root).collect(),
        tree: built.tree(),
    }
}

/// A script as the original's own tree.
pub struct Built(Program);

impl Built {
    pub fn new(script: &Script) -> Built {
        Built(build::program(script))
    }

    /// What the tree is now.
    pub fn tree(&self) -> Tree {
        unbuild::program(&self.0)
    }

    /// The original on its tree, until a run leaves no mark or `limit` runs are done; how many were.
    // Not inlined, so that a profiler finds it.
    #[inline(never)]
    pub fn run(&mut self, limit: u32) -> u32 {
        self.runs(limit).0
    }

    fn runs(&mut self, limit: u32) -> (u32, impl VisitMut + Repeated) {
        let mut pass = inlining(Config {});
        let mut runs = 0;
        loop {
            pass.process(&mut self.0);
            if limits::WATCHED {
                limits::run_ended(self.0.size());
            }
            runs += 1;
            if !pass.changed() || runs == limit {
                break;
            }
            pass.reset();
        }
        (runs, pass)
    }
}
