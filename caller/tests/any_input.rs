//! Any bytes, and any field of a file: nothing panics, and what is shown of a file agrees with what the pass says of it.
#![allow(
    clippy::unwrap_used,
    clippy::indexing_slicing,
    clippy::cast_possible_truncation
)]

mod files;

use files::{one, seven, tree_file, Random};
use negbosun::{printed, Inliner, Kind, Node, Refusal, TreeFile};

impl Random {
    fn below(&mut self, limit: usize) -> usize {
        (self.next() % limit as u64) as usize
    }
}

/// Everything that can be asked of a file, so that each accessor is called.
fn ask_all(tree: TreeFile) -> usize {
    let of_nodes = tree.nodes().map(|node| {
        let texts = node.text().map_or(0, <[u8]>::len) + node.token().map_or(0, str::len);
        let numbers = node.number().is_some() || node.context().is_some();
        texts + usize::from(numbers) + node.children() + node.to_string().len()
    });
    let texts = tree.texts().map(<[u8]>::len);
    let past = tree.text(u32::MAX).map_or(0, <[u8]>::len);
    of_nodes.sum::<usize>() + texts.sum::<usize>() + past
}

/// The rows that look at the header alone.
fn header_row(refusal: Refusal) -> bool {
    (2..=4).contains(&refusal.number())
}

fn agree(inliner: &mut Inliner, file: &[u8]) {
    let answer = inliner.inline(file, 1);
    let refused = answer
        .as_ref()
        .err()
        .copied()
        .filter(|row| header_row(*row));
    let tree = TreeFile::new(file);
    assert_eq!(tree.err(), refused, "{file:?}");
    tree.map(ask_all).ok();
    // What is said to be wrong with a file's texts or nodes is there exactly where the pass says so.
    let row = answer.as_ref().err().map_or(0, |row| row.number());
    if row == 5 || row == 6 {
        assert!(
            answer.as_ref().is_err_and(|row| row.found(file).is_some()),
            "{file:?}"
        );
    }
    if row == 0 || row > 6 {
        assert_eq!(Refusal::Texts.found(file), None, "{file:?}");
        assert_eq!(Refusal::Nodes.found(file), None, "{file:?}");
    }
    // Likewise which name is declared twice.
    let resolved = inliner.resolve(file);
    let found = Refusal::DeclaredTwice.found(file);
    let refused = resolved == Err(Refusal::DeclaredTwice);
    assert_eq!(found.is_some(), refused, "{file:?}");
    if let Ok(resolved) = &resolved {
        assert_eq!(resolved.len(), file.len());
    }
    // Likewise why there is no text; row 7 comes before 12.
    let text = inliner.text(file);
    if text != Err(Refusal::Identifiers) {
        let found = Refusal::NoText.found(file);
        assert_eq!(found.is_some(), text == Err(Refusal::NoText), "{file:?}");
    }
    if let (Ok(text), Ok(tree)) = (&text, tree) {
        assert!(text.len() <= tree.most_text_bytes());
    }
    if let Ok(inlined) = &answer {
        assert!(ask_all(inlined.tree()) > 0);
        assert_eq!(inlined.roots().count(), inlined.roots().len());
    }
    assert!(printed(&answer).ends_with('\n'));
}

#[test]
fn every_byte_of_a_file_may_be_anything() {
    let mut inliner = Inliner::new();
    for file in [seven(), one()] {
        for at in 0..file.len() {
            for byte in [0, 1, 2, 7, 0x7f, 0x80, 0xfe, 0xff] {
                let mut copy = file.clone();
                copy[at] = byte;
                agree(&mut inliner, &copy);
            }
        }
    }
}

#[test]
fn a_file_may_end_anywhere() {
    let mut inliner = Inliner::new();
    let file = one();
    for length in 0..=file.len() {
        agree(&mut inliner, &file[..length]);
    }
    agree(&mut inliner, &[file.clone(), vec![0; 70_000]].concat());
}

#[test]
fn random_bytes_are_refused_and_shown() {
    let (mut inliner, mut random) = (Inliner::new(), Random(88_172_645_463_325_252));
    for _ in 0..2000 {
        let length = random.below(300);
        let mut file: Vec<u8> = (0..length).map(|_| random.next() as u8).collect();
        agree(&mut inliner, &file);
        // With a header that agrees, and anything in nodes and texts.
        let (nodes, texts) = (1 + random.below(12), random.below(6));
        let blank = vec![(0, 0, 0, 0, 0); nodes];
        let names = vec!["abc"; texts];
        file = tree_file(&blank, &names);
        for byte in file.iter_mut().skip(32) {
            *byte = random.next() as u8;
        }
        assert!(TreeFile::new(&file).is_ok());
        agree(&mut inliner, &file);
    }
}

#[test]
fn nodes_tell_what_they_are() {
    let file = one();
    let tree = TreeFile::new(&file).unwrap();
    let kinds: Vec<Kind> = tree.nodes().map(Node::kind).collect();
    let expected = [
        Kind::Script,
        Kind::Declaration,
        Kind::Declarator,
        Kind::Binding,
        Kind::Number,
        Kind::ExpressionStatement,
        Kind::Identifier,
    ];
    assert_eq!(kinds, expected);
    let nodes: Vec<_> = tree.nodes().collect();
    assert_eq!((nodes[1].token(), nodes[1].children()), (Some("var"), 1));
    assert_eq!(
        (nodes[3].text(), nodes[3].text_number()),
        (Some(&b"x"[..]), Some(1))
    );
    assert_eq!(nodes[3].context(), Some(0x0000_0003_0000_0002));
    assert_eq!(
        (nodes[4].number(), nodes[4].text(), nodes[4].context()),
        (Some(1.0), None, None)
    );
    assert!(tree.texts().eq([&b"y"[..], b"x"]));
    assert_eq!((tree.text(0), tree.text(2)), (Some(&b"y"[..]), None));
}
