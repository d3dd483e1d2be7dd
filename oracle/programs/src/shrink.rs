//! Makes a script smaller while something stays true of it.

use std::collections::HashMap;
use tree_file::javascript::print;
use tree_file::{read, write, Script, Tree};

/// The smallest script that single steps lead to.
pub fn shrink(script: &Script, holds: &mut dyn FnMut(&Script) -> bool) -> Script {
    let mut best = script.clone();
    while let Some(smaller) = step(&best, holds) {
        best = smaller;
    }
    best
}

/// A readable file made small while something stays true of its script, with the script's text; any other file as it is.
pub fn small_file(file: &[u8], holds: &mut dyn FnMut(&Script) -> bool) -> (Vec<u8>, String) {
    match read(file) {
        Ok(script) => {
            let small = shrink(&script, holds);
            let plain = renamed(&small);
            let small = if holds(&plain) { plain } else { small };
            (write(&small), print(&small))
        }
        Err(row) => (file.to_vec(), format!("a file of row {row}")),
    }
}

fn step(script: &Script, holds: &mut dyn FnMut(&Script) -> bool) -> Option<Script> {
    let places = paths(&script.tree);
    for path in places {
        for new in replacements(at(&script.tree, &path)) {
            let candidate = Script {
                tree: with(&script.tree, &path, new),
                texts: script.texts.clone(),
            };
            let smaller = weight(&candidate.tree) < weight(&script.tree);
            if smaller && read(&write(&candidate)).is_ok() && holds(&candidate) {
                return Some(candidate);
            }
        }
    }
    None
}

/// No text is a sequence of one, which the tree file allows.
pub fn is_text(script: &Script) -> bool {
    let nodes = script.tree.preorder();
    let odd = |node: &&Tree| node.kind == 42 && node.kids.len() < 2;
    !nodes.iter().any(odd)
}

/// Fewer nodes first; then plainer ones.
fn weight(tree: &Tree) -> (usize, usize) {
    let nodes = tree.preorder();
    let plain = |node: &&Tree| match (node.kind, node.form) {
        (24, _) => 1 + usize::from(node.bits != 0),
        (22, _) => 2,
        (23 | 25, _) => 3,
        (21, _) => 4,
        (5, form) => 1 + form as usize,
        (10 | 12, _) => 2,
        (_, form) => 3 + usize::from(form > 0),
    };
    (nodes.len(), nodes.iter().map(plain).sum())
}

type Path = Vec<usize>;

/// Every node's path, the root's first.
fn paths(tree: &Tree) -> Vec<Path> {
    let mut all = vec![vec![]];
    for (index, kid) in tree.kids.iter().enumerate() {
        for mut path in paths(kid) {
            path.insert(0, index);
            all.push(path);
        }
    }
    all
}

fn at<'a>(tree: &'a Tree, path: &[usize]) -> &'a Tree {
    path.iter().fold(tree, |tree, index| &tree.kids[*index])
}

fn with(tree: &Tree, path: &[usize], new: Tree) -> Tree {
    match path.split_first() {
        None => new,
        Some((index, rest)) => {
            let mut copy = tree.clone();
            copy.kids[*index] = with(&tree.kids[*index], rest, new);
            copy
        }
    }
}

/// What may stand in a node's place; the reader throws out what may not.
fn replacements(tree: &Tree) -> Vec<Tree> {
    let mut list = Vec::new();
    for index in 0..tree.kids.len() {
        let mut without = tree.clone();
        without.kids.remove(index);
        list.push(without.clone());
        // A part that the form tells of: try the other forms too.
        if matches!(tree.kind, 12 | 16 | 19 | 39) {
            list.extend((0..8).map(|form| Tree {
                form,
                ..without.clone()
            }));
        }
        // The children of a block in the block's place.
        if matches!(tree.kids[index].kind, 2) {
            let mut spread = tree.clone();
            spread
                .kids
                .splice(index..=index, tree.kids[index].kids.clone());
            list.push(spread);
        }
    }
    for inner in tree.preorder().into_iter().skip(1) {
        list.push(inner.clone());
    }
    if matches!(tree.kind, 21..=28 | 30..=42) {
        list.push(Tree {
            kind: 24,
            ..Tree::default()
        });
        list.push(Tree {
            kind: 24,
            bits: 1f64.to_bits(),
            ..Tree::default()
        });
    }
    if matches!(tree.kind, 5 | 33) {
        list.extend((0..tree.form).map(|form| Tree {
            form,
            ..tree.clone()
        }));
    }
    list
}

/// Declared names become a, b, c in the order of their first use, so that equal finds look equal.
pub fn renamed(script: &Script) -> Script {
    let mut numbers: HashMap<Vec<u8>, u32> = HashMap::new();
    let mut texts: Vec<Vec<u8>> = Vec::new();
    let mut letters = "abcdijklmnrstuvwxyz".chars();
    let mut tree = script.tree.clone();
    tree.for_each(&mut |node| {
        if !matches!(node.kind, 20 | 21 | 25 | 29 | 37 | 47) {
            return;
        }
        let old = script.texts[node.text as usize].clone();
        node.text = *numbers.entry(old.clone()).or_insert_with(|| {
            let numbered = old.len() > 1 && old[1..].iter().all(u8::is_ascii_digit);
            texts.push(
                match (numbered, numbered.then(|| letters.next()).flatten()) {
                    (true, Some(letter)) => letter.to_string().into_bytes(),
                    _ => old,
                },
            );
            texts.len() as u32 - 1
        });
    });
    Script { tree, texts }
}
