//! The sample gate script through the pass: how many nodes it has before and after, and which variables of the root may not be
//! inlined.

use negbosun::{inline, TreeFile, MOST_RUNS};
use std::error::Error;

fn main() -> Result<(), Box<dyn Error>> {
    let path = concat!(env!("CARGO_MANIFEST_DIR"), "/../samples/tide.tree");
    let file = std::fs::read(path)?;
    let inlined = inline(&file, MOST_RUNS)?;
    println!(
        "{} nodes in, {} nodes out, {} runs",
        TreeFile::new(&file)?.nodes().len(),
        inlined.nodes().len(),
        inlined.runs()
    );
    for root in inlined.roots() {
        let state = if root.prevented() {
            "kept"
        } else {
            "may be inlined"
        };
        println!("{}: {state}", String::from_utf8_lossy(root.name()));
    }
    Ok(())
}
