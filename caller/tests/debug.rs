//! What is told of a value in a log is short, whatever file it comes from.
#![allow(clippy::expect_used)]

use negbosun::inline;

#[test]
fn a_root_binding_is_told_without_its_file() {
    let sample = concat!(env!("CARGO_MANIFEST_DIR"), "/../samples/tide.tree");
    let done = inline(&std::fs::read(sample).expect("the sample"), 16).expect("a result");
    let told: Vec<String> = done.roots().map(|root| format!("{root:?}")).collect();
    assert_eq!(
        told.first().map(String::as_str),
        Some("Root { name: \"open\", context: 0, prevented: true, count: 0 }")
    );
    assert!(told.iter().all(|line| line.len() < 100));
}
