//! What the programs of the bench share.

pub mod amended;
pub mod engine;
pub mod other;
pub mod shrink;

use std::io::{self, BufRead};
use tree_file::from_hex;

pub use tree_file::on_deep_stack;

// The benchmark's feature must not reach what compares: build that package alone.
const _: () = assert!(original::WATCHED);

/// A stored file with its run limit and its answer as printed.
pub struct Vector {
    pub file: Vec<u8>,
    pub runs: u32,
    pub answer: String,
}

/// Blocks of `file HEX`, `runs N` and the program's output, a blank line between two.
pub fn read_vectors(input: impl BufRead) -> io::Result<Vec<Vector>> {
    let mut vectors: Vec<Vector> = Vec::new();
    for line in input.lines() {
        let line = line?;
        let bad = || io::Error::new(io::ErrorKind::InvalidData, line.clone());
        if let Some(hex) = line.strip_prefix("file") {
            vectors.push(Vector {
                file: from_hex(hex.trim()).ok_or_else(bad)?,
                runs: 16,
                answer: String::new(),
            });
        } else if let Some(runs) = line.strip_prefix("runs ") {
            let runs = runs.parse().map_err(|_| bad())?;
            vectors.last_mut().ok_or_else(bad)?.runs = runs;
        } else if !line.is_empty() && !line.starts_with('#') {
            let last = vectors.last_mut().ok_or_else(bad)?;
            last.answer.push_str(&line);
            last.answer.push('\n');
        }
    }
    Ok(vectors)
}
