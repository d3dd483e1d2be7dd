//! Both functions over buffers of the caller: refusals, what they keep, and document 01's example.
#![allow(
    clippy::unwrap_used,
    clippy::indexing_slicing,
    clippy::cast_possible_truncation
)]

mod files;

use files::{one, seven, tree_file};
use negbosun::{
    inline, inline_into, printed, root_of, roots_into, Inliner, Refusal, MOST_BYTES, MOST_RUNS,
    WORDS,
};

fn marked_words(count: usize) -> Vec<u32> {
    (1..=count as u32).collect()
}

#[test]
fn the_example_is_printed_as_document_01_has_it() {
    let expected = "\
ok runs 2 changed 0 nodes 7
1 0 2 0 0000000000000000
5 2 1 0 0000000000000000
6 0 2 0 0000000000000000
20 0 0 0 0000000000000000
24 0 0 0 401c000000000000
4 0 1 0 0000000000000000
24 0 0 0 401c000000000000
";
    assert_eq!(printed(&inline(&seven(), MOST_RUNS)), expected);
}

#[test]
fn root_bindings_have_their_context_whole() {
    let inlined = inline(&one(), MOST_RUNS).unwrap();
    let roots: Vec<_> = inlined
        .roots()
        .map(|root| {
            (
                root.name(),
                root.text_number(),
                root.context(),
                root.prevented(),
                root.count(),
            )
        })
        .collect();
    assert_eq!(roots, [(&b"x"[..], 1, 0x0000_0003_0000_0002, false, 1)]);
    assert_eq!(inlined.roots().len(), 1);
    assert_eq!((inlined.runs(), inlined.nodes().len()), (2, 6));
    assert!(inlined
        .to_string()
        .ends_with("root 1 0000000300000002 0 1\n"));
}

#[test]
fn root_bindings_have_numbers_from_0() {
    let mut words = marked_words(WORDS);
    let first = root_of(&one(), &mut words, MOST_RUNS, 0).unwrap().unwrap();
    assert_eq!(
        (first.text, first.context, first.prevented, first.count),
        (1, 0x0000_0003_0000_0002, false, 1)
    );
    assert!(words.iter().all(|word| *word == 0));
    for n in [1, 2, u32::MAX] {
        assert_eq!(root_of(&one(), &mut words, MOST_RUNS, n), Ok(None));
    }
    assert_eq!(root_of(&one(), &mut words, 0, 0), Err(Refusal::RunsOrWords));
    assert_eq!(root_of(b"", &mut words, 1, 0), Err(Refusal::Header));
    let inlined = inline(&one(), MOST_RUNS).unwrap();
    assert_eq!(inlined.root(0), inlined.roots().next());
    assert_eq!(inlined.root(1), None);
}

#[test]
fn runs_are_one_to_sixteen() {
    for runs in [0, 17, u32::MAX] {
        assert_eq!(inline(&seven(), runs), Err(Refusal::RunsOrWords));
    }
    assert_eq!(
        inline(&seven(), 1).map(|done| (done.runs(), done.changed())),
        Ok((1, true))
    );
    assert!(inline(&seven(), 16).is_ok());
}

#[test]
fn row_1_changes_no_buffer() {
    let mut words = marked_words(WORDS - 1);
    let (mut result, mut roots) = (vec![7; 200], vec![[7; 5]; 4]);
    assert_eq!(
        inline_into(&seven(), &mut result, &mut words, 16),
        Err(Refusal::RunsOrWords)
    );
    assert_eq!(
        roots_into(&seven(), &mut roots, &mut words, 16),
        Err(Refusal::RunsOrWords)
    );
    assert_eq!(
        (words, result, roots),
        (marked_words(WORDS - 1), vec![7; 200], vec![[7; 5]; 4])
    );
}

#[test]
fn row_10_is_one_byte_below_and_keeps_the_result() {
    let length = seven().len();
    let mut words = marked_words(WORDS + 5);
    let mut result = vec![7; length - 1];
    assert_eq!(
        inline_into(&seven(), &mut result, &mut words, 16),
        Err(Refusal::Room)
    );
    assert_eq!(result, vec![7; length - 1]);
    assert!(words[..WORDS].iter().all(|word| *word == 0));
    assert_eq!(words[WORDS..], marked_words(WORDS + 5)[WORDS..]);
    let mut result = vec![7; length + 3];
    let done = inline_into(&seven(), &mut result, &mut words, 16).unwrap();
    assert_eq!(done.length, length);
    assert_eq!(result[length..], [7; 3]);
}

#[test]
fn row_10_is_one_root_binding_below() {
    let mut words = marked_words(WORDS);
    assert_eq!(
        roots_into(&one(), &mut [], &mut words, 16),
        Err(Refusal::Room)
    );
    assert!(words.iter().all(|word| *word == 0));
    let mut roots = [[7; 5]; 2];
    assert_eq!(roots_into(&one(), &mut roots, &mut words, 16), Ok(1));
    assert_eq!(roots, [[1, 2, 3, 0, 1], [7; 5]]);
}

#[test]
fn unreadable_files_are_refused_by_their_row() {
    let file = seven();
    let with = |at: usize, byte: u8| {
        let mut copy = file.clone();
        copy[at] = byte;
        inline(&copy, 16).unwrap_err()
    };
    assert_eq!(inline(&[], 16), Err(Refusal::Header));
    assert_eq!(with(0, 2), Refusal::Header);
    assert_eq!(with(8, 0), Refusal::Counts);
    assert_eq!(with(4, 0), Refusal::Lengths);
    assert_eq!(with(32 + 7 * 16, 0), Refusal::Texts);
    assert_eq!(with(32, 2), Refusal::Nodes);
    assert_eq!(
        inline(&tree_file(&[(1, 0, 0, 0, 0)], &["a", "a"]), 16),
        Err(Refusal::Texts)
    );
    let mut longer = file.clone();
    longer.extend(vec![0; 2 * MOST_BYTES]);
    assert_eq!(inline(&longer, 16), Err(Refusal::Lengths));
}

#[test]
fn rows_7_to_9_are_met() {
    let mut many = vec![(1, 0, 1, 0, 0), (4, 0, 1, 0, 0), (27, 0, 257, 0, 0)];
    many.extend((0..257).map(|context| (21, 0, 0, 0, context)));
    assert_eq!(
        inline(&tree_file(&many, &["a"]), 16),
        Err(Refusal::Identifiers)
    );
    // const a = a; a;
    let mut circle = seven();
    circle[32 + 4 * 16..][..16].copy_from_slice(&[21, 0, 0, 0, 0, 0, 0, 0, 0, 0, 0, 0, 0, 0, 0, 0]);
    assert_eq!(inline(&circle, 16), Err(Refusal::Depth));
    // var x; x; in 1,024 nodes: `void 0` is one node more.
    let mut full = vec![
        (1, 0, 1020, 0, 0),
        (5, 0, 1, 0, 0),
        (6, 0, 1, 0, 0),
        (20, 0, 0, 0, 0),
        (4, 0, 1, 0, 0),
        (21, 0, 0, 0, 0),
    ];
    full.extend([(3, 0, 0, 0, 0); 1018]);
    assert_eq!(inline(&tree_file(&full, &["x"]), 16), Err(Refusal::Size));
}

#[test]
fn an_inliner_serves_many_files() {
    let mut inliner = Inliner::new();
    let first = inliner.inline(&seven(), 16).unwrap();
    assert_eq!(inliner.inline(&[], 16), Err(Refusal::Header));
    assert_eq!(inliner.inline(&one(), 16), inline(&one(), 16));
    assert_eq!(inliner.inline(&seven(), 16).unwrap(), first);
}
