//! Replays stored vectors against the original: `replay FILE..`. The last line counts.

use original::answer;
use programs::{on_deep_stack, read_vectors, Vector};
use std::fs::File;
use std::io::{self, BufReader};

fn agrees(path: &str, number: usize, vector: &Vector) -> bool {
    let found = answer(&vector.file, vector.runs).to_string();
    if found != vector.answer {
        println!("{path}: vector {number} differs");
        println!("stored:\n{}found:\n{found}", vector.answer);
    }
    found == vector.answer
}

fn replay(path: &str) -> io::Result<(usize, usize)> {
    let vectors = read_vectors(BufReader::new(File::open(path)?))?;
    let good = vectors
        .iter()
        .enumerate()
        .filter(|(number, vector)| agrees(path, *number, vector))
        .count();
    Ok((good, vectors.len() - good))
}

fn main() {
    let mut total = (0, 0);
    for path in std::env::args().skip(1) {
        match on_deep_stack(|| replay(&path)) {
            Ok((good, bad)) => total = (total.0 + good, total.1 + bad),
            Err(error) => {
                eprintln!("{path}: {error}");
                std::process::exit(1);
            }
        }
    }
    println!("{} passed, {} failed", total.0, total.1);
    std::process::exit(i32::from(total.1 > 0));
}
