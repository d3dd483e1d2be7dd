//! The one file of a script: what is made one, what stays apart, refusals and what they keep.
#![allow(
    clippy::unwrap_used,
    clippy::indexing_slicing,
    clippy::cast_possible_truncation
)]

mod files;

use files::{functions, one, seven, tree_file, Raw};
use negbosun::{
    canon, canon_into, inline, Inliner, Refusal, TreeFile, MOST_BYTES, MOST_RUNS, WORDS,
};

fn marked_words(count: usize) -> Vec<u32> {
    (1..=count as u32).collect()
}

/// `x; y;` by text numbers and contexts.
fn names([t, u]: [u32; 2], [b, c]: [u64; 2]) -> [Raw; 5] {
    [
        (1, 0, 2, 0, 0),
        (4, 0, 1, 0, 0),
        (21, 0, 0, t, b),
        (4, 0, 1, 0, 0),
        (21, 0, 0, u, c),
    ]
}

#[test]
fn numbering_unused_texts_and_contexts_make_no_other_file() {
    let want = tree_file(&names([0, 1], [0, 1]), &["x", "y"]);
    for (file, texts) in [
        (names([2, 1], [5, 7]), &["a", "y", "x"][..]),
        (names([0, 1], [7, 5]), &["x", "y"]),
        (names([1, 0], [u64::MAX, 0]), &["y", "x", ""]),
        (names([0, 1], [0, 1]), &["x", "y"]),
    ] {
        assert_eq!(canon(&tree_file(&file, texts)), Ok(want.clone()));
    }
}

#[test]
fn another_script_has_another_file() {
    let one = canon(&tree_file(&names([0, 1], [5, 7]), &["x", "y"])).unwrap();
    for (file, texts) in [
        (names([0, 1], [5, 5]), &["x", "y"]),
        (names([0, 1], [5, 7]), &["x", "z"]),
        (names([0, 0], [5, 7]), &["x", "y"]),
    ] {
        assert_ne!(canon(&tree_file(&file, texts)), Ok(one.clone()));
    }
}

#[test]
fn a_number_keeps_its_bits() {
    let nodes = [
        (1, 0, 2, 0, 0),
        (4, 0, 1, 0, 0),
        (24, 0, 0, 0, 9),
        (4, 0, 1, 0, 0),
        (21, 0, 0, 0, 9),
    ];
    let file = canon(&tree_file(&nodes, &["x"])).unwrap();
    let kept: Vec<_> = TreeFile::new(&file)
        .unwrap()
        .nodes()
        .filter_map(|node| node.number().map(f64::to_bits).or(node.context()))
        .collect();
    assert_eq!(kept, [9, 0]);
}

#[test]
fn what_is_written_is_written_again_as_it_is_and_its_result_is_one() {
    let mut inliner = Inliner::new();
    for file in [seven(), one(), functions(4)] {
        let written = inliner.canon(&file).unwrap();
        assert_eq!(inliner.canon(&written), Ok(written.clone()));
        assert_eq!(canon(&file), Ok(written.clone()));
        let (a, b) = (
            inline(&file, MOST_RUNS).unwrap(),
            inline(&written, MOST_RUNS).unwrap(),
        );
        assert_eq!((a.runs(), a.changed()), (b.runs(), b.changed()));
        assert_eq!(canon(a.file()), canon(b.file()));
    }
}

#[test]
fn row_16_is_one_byte_below_and_keeps_the_result() {
    let (file, length) = (one(), one().len() - 5);
    let mut words = marked_words(WORDS + 5);
    let mut result = vec![7; length - 1];
    assert_eq!(
        canon_into(&file, &mut result, &mut words),
        Err(Refusal::CanonRoom)
    );
    assert_eq!(result, vec![7; length - 1]);
    assert!(words[..WORDS].iter().all(|word| *word == 0));
    assert_eq!(words[WORDS..], marked_words(WORDS + 5)[WORDS..]);
    let mut result = vec![7; length + 3];
    assert_eq!(canon_into(&file, &mut result, &mut words), Ok(length));
    assert_eq!(result[length..], [7; 3]);
}

#[test]
fn other_rows_come_first() {
    let mut words = marked_words(WORDS - 1);
    let mut result = vec![7; 9];
    assert_eq!(
        canon_into(&seven(), &mut result, &mut words),
        Err(Refusal::RunsOrWords)
    );
    assert_eq!((words, result), (marked_words(WORDS - 1), vec![7; 9]));
    let mut many = vec![(1, 0, 1, 0, 0), (4, 0, 1, 0, 0), (27, 0, 257, 0, 0)];
    many.extend((0..257).map(|context| (21, 0, 0, 0, context)));
    let many = tree_file(&many, &["a"]);
    assert_eq!(
        canon_into(&many, &mut [], &mut marked_words(WORDS)),
        Err(Refusal::Identifiers)
    );
    assert_eq!(canon(b""), Err(Refusal::Header));
    assert_eq!(canon(&vec![0; 3 * MOST_BYTES]), Err(Refusal::Header));
    assert_eq!(
        canon(&tree_file(&[(1, 0, 0, 0, 0)], &["a", "a"])),
        Err(Refusal::Texts)
    );
}
