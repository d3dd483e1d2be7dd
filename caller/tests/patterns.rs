//! Patterns (kinds 45 to 48): what a tree file shows of them, what the pass makes of them, and where they are refused.
#![allow(clippy::unwrap_used, clippy::indexing_slicing)]

mod files;

use files::{tree_file, Raw};
use negbosun::{inline, Kind, Node, Refusal, TreeFile, MOST_RUNS};

const TEXTS: [&str; 5] = ["f", "today", "before", "d", "g"];

/// `function f({today: today, before: before}) { var d = today; g(); d; }`
const GATE: [Raw; 17] = [
    (1, 0, 1, 0, 0),
    (7, 0, 3, 0, 0),
    (20, 0, 0, 0, 0),
    (45, 0, 2, 0, 0),
    (47, 0, 1, 1, 0),
    (20, 0, 0, 1, 0),
    (47, 0, 1, 2, 0),
    (20, 0, 0, 2, 0),
    (2, 0, 3, 0, 0),
    (5, 0, 1, 0, 0),
    (6, 0, 2, 0, 0),
    (20, 0, 0, 3, 0),
    (21, 0, 0, 1, 0),
    (4, 0, 1, 0, 0),
    (35, 0, 1, 0, 0),
    (21, 0, 0, 4, 0),
    (4, 0, 1, 0, 0),
];

fn gate() -> Vec<u8> {
    let mut nodes = GATE.to_vec();
    nodes.push((21, 0, 0, 3, 0));
    tree_file(&nodes, &TEXTS)
}

#[test]
fn a_file_shows_its_patterns() {
    let file = gate();
    let tree = TreeFile::new(&file).unwrap();
    let nodes: Vec<Node> = tree.nodes().collect();
    assert!(nodes[3].kind().is_pattern());
    assert_eq!((nodes[3].children(), nodes[3].text()), (2, None));
    assert_eq!(nodes[4].kind(), Kind::PatternProperty);
    assert_eq!(
        (nodes[4].text(), nodes[4].text_number(), nodes[4].context()),
        (Some(&b"today"[..]), Some(1), None)
    );
    assert_eq!(nodes[5].kind(), Kind::Binding);
    assert!(!nodes[4].kind().is_pattern() && !nodes[5].kind().is_pattern());
}

/// The alias of what a pattern binds is put in its place: `var d; g(); today;`.
#[test]
fn what_a_parameter_takes_apart_is_inlined() {
    let inlined = inline(&gate(), MOST_RUNS).unwrap();
    let mut expected = GATE.to_vec();
    expected[10] = (6, 0, 1, 0, 0);
    expected.remove(12);
    expected.push((21, 0, 0, 1, 0));
    assert_eq!(inlined.file(), tree_file(&expected, &TEXTS));
    assert_eq!((inlined.runs(), inlined.changed()), (2, false));
    let roots: Vec<_> = inlined.roots().map(|root| root.name().to_vec()).collect();
    assert_eq!(roots, [b"f".to_vec()]);
}

/// `kind` in the place of the name of `var a = null;`, and of the parameter of `(a) => null`.
fn numbers(kind: Raw, inner: &[Raw]) -> [Option<u32>; 2] {
    let null = (22, 0, 0, 0, 0);
    let declared = [(1, 0, 1, 0, 0), (5, 0, 1, 0, 0), (6, 0, 2, 0, 0), kind];
    let arrow = [(1, 0, 1, 0, 0), (4, 0, 1, 0, 0), (40, 1, 2, 0, 0), kind];
    [declared, arrow].map(|start| {
        let nodes: Vec<Raw> = start.iter().chain(inner).chain([&null]).copied().collect();
        let answer = inline(&tree_file(&nodes, &["a", "b"]), MOST_RUNS);
        answer.err().map(Refusal::number)
    })
}

#[test]
fn a_pattern_stands_in_its_places_alone() {
    let name: Raw = (20, 0, 0, 0, 0);
    let null: Raw = (22, 0, 0, 0, 0);
    let property: Raw = (47, 0, 1, 1, 0);
    let default: Raw = (48, 0, 2, 0, 0);
    let taken = [None, None];
    let refused = [Some(6), Some(6)];
    assert_eq!(numbers((45, 0, 0, 0, 0), &[]), taken);
    assert_eq!(numbers((45, 0, 1, 0, 0), &[property, name]), taken);
    assert_eq!(numbers((46, 0, 2, 0, 0), &[name, (45, 0, 0, 0, 0)]), taken);
    assert_eq!(numbers((46, 0, 1, 0, 0), &[default, name, null]), taken);
    // A default is a parameter, and no declarator's name.
    assert_eq!(numbers(default, &[name, null]), [Some(6), None]);
    assert_eq!(numbers(default, &[default, name, null, null]), refused);
    assert_eq!(numbers(default, &[null, null]), refused);
    assert_eq!(numbers(property, &[name]), refused);
    assert_eq!(numbers((45, 0, 1, 0, 0), &[name]), refused);
    assert_eq!(numbers((46, 0, 1, 0, 0), &[property, name]), refused);
    assert_eq!(numbers((46, 0, 1, 0, 0), &[null]), refused);
    // A text that the file has not, and fields that are not used.
    assert_eq!(
        numbers((45, 0, 1, 0, 0), &[(47, 0, 1, 2, 0), name]),
        refused
    );
    assert_eq!(numbers((45, 1, 0, 0, 0), &[]), refused);
    assert_eq!(numbers((46, 0, 0, 1, 0), &[]), refused);
    assert_eq!(numbers((46, 0, 0, 0, 1), &[]), refused);
}
