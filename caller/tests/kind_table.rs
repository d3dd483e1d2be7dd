//! A mill's own kind table: what it forbids is refused, and nothing else is new.
#![allow(clippy::unwrap_used, clippy::indexing_slicing)]

mod files;

use files::{functions, one, seven, tree_file, Raw};
use negbosun::{
    inline, inline_into_under, inline_under, root_of, root_of_under, roots_into_under, Inliner,
    Kind, KindTable, Node, Refusal, TreeFile, MOST_BYTES, MOST_RUNS, TABLE_BYTES, WORDS,
};

/// `var a = [1]; a;`
const LIST: [Raw; 8] = [
    (1, 0, 2, 0, 0),
    (5, 0, 1, 0, 0),
    (6, 0, 2, 0, 0),
    (20, 0, 0, 0, 0),
    (27, 0, 1, 0, 0),
    (24, 0, 0, 0, 0x3ff0_0000_0000_0000),
    (4, 0, 1, 0, 0),
    (21, 0, 0, 0, 0),
];

fn list() -> Vec<u8> {
    tree_file(&LIST, &["a"])
}

/// Each pair of parent and child in a file.
fn pairs(file: &[u8]) -> Vec<(Kind, Kind)> {
    let mut open: Vec<(Kind, usize)> = Vec::new();
    let mut pairs = Vec::new();
    for node in TreeFile::new(file).unwrap().nodes() {
        while open.last().is_some_and(|(_, left)| *left == 0) {
            open.pop();
        }
        if let Some((parent, left)) = open.last_mut() {
            *left -= 1;
            pairs.push((*parent, node.kind()));
        }
        open.push((node.kind(), node.children()));
    }
    pairs
}

/// One entry more than everybody's table has.
fn too_wide() -> KindTable {
    let mut bytes = KindTable::whole().as_bytes().to_vec();
    bytes[0] = 1;
    KindTable::from_bytes(&bytes).unwrap()
}

#[test]
fn the_whole_table_refuses_nothing() {
    let whole = KindTable::whole();
    for file in [seven(), one(), list(), functions(6), b"no file".to_vec()] {
        for runs in [0, 1, MOST_RUNS] {
            assert_eq!(inline_under(&file, &whole, runs), inline(&file, runs));
        }
        let (mut words, mut others) = (vec![1; WORDS], vec![2; WORDS]);
        for n in 0..3 {
            assert_eq!(
                root_of_under(&file, &whole, &mut words, MOST_RUNS, n),
                root_of(&file, &mut others, MOST_RUNS, n)
            );
        }
    }
}

#[test]
fn each_pair_of_a_file_alone_forbidden_refuses_it() {
    let whole = KindTable::whole();
    for file in [seven(), one(), list(), functions(3)] {
        let has = pairs(&file);
        let answer = inline(&file, MOST_RUNS);
        for at in 0..TABLE_BYTES {
            let kind = |n: usize| Kind::from_number(u8::try_from(n + 1).unwrap());
            let (parent, child) = (kind(at / 48), kind(at % 48));
            let table = whole.clone().forbidding(parent, child);
            let under = inline_under(&file, &table, MOST_RUNS);
            if has.contains(&(parent, child)) {
                assert_eq!(under, Err(Refusal::Nodes));
                let found = Refusal::Nodes.found_under(&file, &table).unwrap();
                assert!(found.ends_with("which the kind table forbids"), "{found}");
            } else {
                assert_eq!(under, answer);
                assert_eq!(Refusal::Nodes.found_under(&file, &table), None);
            }
        }
    }
}

#[test]
fn what_is_forbidden_is_named() {
    let table = KindTable::whole().forbidding(Kind::Array, Kind::Number);
    assert_eq!(
        Refusal::Nodes.found_under(&list(), &table).as_deref(),
        Some("node 6 (kind 24) under node 5 (kind 27), which the kind table forbids")
    );
    assert_eq!(
        Refusal::Pairs.found_under(&list(), &too_wide()).as_deref(),
        Some("1 on line 1 in column 1: kind 1 stands nowhere under kind 1")
    );
}

/// Only the script as read is held to the table.
#[test]
fn a_result_may_have_a_forbidden_pair() {
    let table = KindTable::whole().forbidding(Kind::ExpressionStatement, Kind::Array);
    let inlined = inline_under(&list(), &table, MOST_RUNS).unwrap();
    let kinds: Vec<Kind> = inlined.nodes().map(Node::kind).collect();
    let end = [Kind::ExpressionStatement, Kind::Array, Kind::Number];
    assert_eq!(kinds[kinds.len() - 3..], end);
    assert_eq!(
        inline_under(inlined.file(), &table, MOST_RUNS),
        Err(Refusal::Nodes)
    );
}

#[test]
fn a_table_that_allows_too_much_is_refused_behind_row_1() {
    let table = too_wide();
    assert_eq!(inline_under(b"", &table, 16), Err(Refusal::Pairs));
    assert_eq!(inline_under(b"", &table, 0), Err(Refusal::RunsOrWords));
    let (mut result, mut words) = (vec![7; MOST_BYTES], vec![7; WORDS + 2]);
    assert_eq!(
        inline_into_under(&seven(), &table, &mut result, &mut words, 16),
        Err(Refusal::Pairs)
    );
    assert_eq!(result, vec![7; MOST_BYTES]);
    assert!(words[..WORDS].iter().all(|word| *word == 0));
    assert_eq!(words[WORDS..], [7; 2]);
    let (mut roots, mut words) = (vec![[7; 5]; 3], vec![7; WORDS]);
    assert_eq!(
        roots_into_under(&seven(), &table, &mut roots, &mut words, 16),
        Err(Refusal::Pairs)
    );
    assert_eq!((roots, words), (vec![[7; 5]; 3], vec![0; WORDS]));
}

#[test]
fn an_inliner_takes_a_table_or_none() {
    let table = KindTable::whole().without(Kind::Identifier);
    let mut inliner = Inliner::new();
    assert_eq!(
        inliner.inline_under(&one(), &table, 16),
        Err(Refusal::Nodes)
    );
    assert_eq!(inliner.inline(&one(), 16), inline(&one(), 16));
}
