//! Scripts as JavaScript: small texts, refusals and what they keep, room, and why a script has no text, beside the library on random scripts.
#![allow(
    clippy::unwrap_used,
    clippy::indexing_slicing,
    clippy::cast_possible_truncation
)]

mod files;

use files::{one, seven, tree_file, Random, Raw};
use negbosun::{
    text, text_into, Inliner, NoTextReason, Refusal, TreeFile, Written, MOST_BYTES,
    MOST_TEXT_BYTES, WORDS,
};
use std::collections::HashSet;

/// A node with all below it, in preorder.
type Tree = Vec<Raw>;

fn node(kind: u8, form: u8, children: &[Tree]) -> Tree {
    let mut nodes = vec![(kind, form, children.len() as u16, 0, 0)];
    nodes.extend(children.concat());
    nodes
}

/// A node of a name, a string or a property.
fn texted(kind: u8, text: u32, children: &[Tree]) -> Tree {
    let mut nodes = node(kind, 0, children);
    nodes[0].3 = text;
    nodes
}

fn number(value: f64) -> Tree {
    vec![(24, 0, 0, 0, value.to_bits())]
}

const TEXTS: [&str; 8] = ["x", "y", "let", "async", "class", "7", "a\"\\b", "\n"];

fn read(text: u32) -> Tree {
    texted(21, text, &[])
}

fn bound(text: u32) -> Tree {
    texted(20, text, &[])
}

fn script(statements: &[Tree]) -> Vec<u8> {
    tree_file(&node(1, 0, statements), &TEXTS)
}

fn of_one(e: Tree) -> Result<String, Refusal> {
    text(&script(&[node(4, 0, &[e])]))
}

#[test]
fn texts_of_small_scripts() {
    assert_eq!(text(&seven()).as_deref(), Ok("const a = 7 ;\na ;\n"));
    assert_eq!(text(&one()).as_deref(), Ok("var x = 1 ;\nx ;\n"));
    assert_eq!(text(&script(&[])).as_deref(), Ok(""));
    let cases = [
        (node(30, 3, &[node(30, 3, &[read(0)])]), "- - x ;\n"),
        (
            node(32, 23, &[node(30, 3, &[read(0)]), read(1)]),
            "( - x ) ** y ;\n",
        ),
        (
            node(32, 24, &[node(32, 1, &[read(0), read(1)]), read(0)]),
            "( x || y ) ?? x ;\n",
        ),
        (
            node(36, 1, &[node(35, 0, &[read(0), read(1)])]),
            "new ( x ( y ) ) ( ) ;\n",
        ),
        (node(38, 0, &[read(2), read(0)]), "( let ) [ x ] ;\n"),
        (
            node(41, 0, &[node(39, 0, &[node(2, 0, &[])])]),
            "( function ( ) { } ) ;\n",
        ),
        (texted(25, 6, &[]), "\"a\\\"\\\\b\" ;\n"),
        (number(0.1), "0.1 ;\n"),
        (number(1e-7), "0.0000001 ;\n"),
        (number(1e23), "99999999999999991611392 ;\n"),
    ];
    for (tree, words) in cases {
        assert_eq!(of_one(tree).as_deref(), Ok(words));
    }
    let head = |kind, name| node(kind, 0, &[bound(name), read(0), node(3, 0, &[])]);
    assert_eq!(
        text(&script(&[head(14, 3), head(13, 3), head(14, 2)])).as_deref(),
        Ok("for ( ( async ) of x ) ;\nfor ( async in x ) ;\nfor ( ( let ) of x ) ;\n")
    );
}

fn marked_words(count: usize) -> Vec<u32> {
    (1..=count as u32).collect()
}

#[test]
fn refusals_keep_the_buffers_and_come_in_order() {
    let file = seven();
    let whole = "const a = 7 ;\na ;\n";
    let mut words = marked_words(WORDS + 5);
    let mut short = vec![7; whole.len() - 1];
    assert_eq!(
        text_into(&file, &mut short, &mut words),
        Err(Refusal::TextRoom)
    );
    assert_eq!(short, vec![7; whole.len() - 1]);
    assert!(words[..WORDS].iter().all(|word| *word == 0));
    assert_eq!(words[WORDS..], marked_words(WORDS + 5)[WORDS..]);
    let mut longer = vec![7; whole.len() + 3];
    assert_eq!(text_into(&file, &mut longer, &mut words), Ok(whole.len()));
    assert_eq!(longer, [whole.as_bytes(), &[7; 3]].concat());
    let mut few = marked_words(WORDS - 1);
    assert_eq!(
        text_into(b"", &mut longer, &mut few),
        Err(Refusal::RunsOrWords)
    );
    assert_eq!(few, marked_words(WORDS - 1));
    // 12 before 11, and behind 7
    let strange = script(&[node(4, 0, &[read(4)])]);
    let mut words = marked_words(WORDS);
    assert_eq!(
        text_into(&strange, &mut [], &mut words),
        Err(Refusal::NoText)
    );
    assert_eq!(words, vec![0; WORDS]);
    let many: Vec<Tree> = (0..257)
        .map(|context| vec![(21, 0, 0, 4, context)])
        .collect();
    let many = script(&[node(4, 0, &[node(27, 0, &many)])]);
    assert_eq!(text(&many), Err(Refusal::Identifiers));
    assert_eq!(text(b"no tree file"), Err(Refusal::Header));
    assert_eq!(text(&vec![0; 3 * MOST_BYTES]), Err(Refusal::Header));
}

#[test]
fn the_longest_text_is_as_long_as_is_said() {
    let strings = vec![texted(25, 0, &[]); 1021];
    let nodes = node(1, 0, &[node(18, 0, &[node(36, 1, &strings)])]);
    let file = tree_file(&nodes, &["\"".repeat(4096).as_str()]);
    assert_eq!(text(&file).map(|it| it.len()), Ok(MOST_TEXT_BYTES));
    let tree = TreeFile::new(&file).unwrap();
    assert!(tree.most_text_bytes() >= MOST_TEXT_BYTES);
    let mut short = vec![7; MOST_TEXT_BYTES - 1];
    let answer = text_into(&file, &mut short, &mut vec![0; WORDS]);
    assert_eq!(answer, Err(Refusal::TextRoom));
}

fn said(statements: &[Tree]) -> Option<String> {
    let file = script(statements);
    let refused = text(&file) == Err(Refusal::NoText);
    let found = Refusal::NoText.found(&file);
    assert_eq!(refused, found.is_some());
    found
}

fn e(tree: Tree) -> Tree {
    node(4, 0, &[tree])
}

#[test]
fn why_there_is_no_text_is_told_with_the_place() {
    let empty = || node(3, 0, &[]);
    let open = || node(9, 0, &[read(0), empty()]);
    let lexical = || node(5, 1, &[node(6, 0, &[bound(0)])]);
    let pattern = || node(46, 0, &[]);
    let default = || node(19, 0, &[]);
    let valued = node(5, 0, &[node(6, 0, &[bound(0), read(1)])]);
    let cases = [
        (
            e(read(4)),
            r#"node 3 (kind 21) with "class", a reserved word, as a variable"#,
        ),
        (
            e(texted(37, 5, &[read(0)])),
            r#"node 3 (kind 37) with "7", which is no name of letters, digits, $ and _"#,
        ),
        (
            e(texted(25, 7, &[])),
            r#"node 3 (kind 25) with "\n", a string of other bytes than 32 to 126"#,
        ),
        (
            e(number(-1.0)),
            "node 3 (kind 24) with -1.0, a number whose sign bit is set",
        ),
        (
            e(number(-0.0)),
            "node 3 (kind 24) with -0.0, a number whose sign bit is set",
        ),
        (
            e(number(f64::INFINITY)),
            "node 3 (kind 24) with inf, which is no finite number",
        ),
        (
            e(number(1e25)),
            "node 3 (kind 24) with 1e25, a number of over 25 digits",
        ),
        (
            e(number(1e-25)),
            "node 3 (kind 24) with 1e-25, a number of over 25 digits",
        ),
        (
            e(node(42, 0, &[read(0)])),
            "node 3 (kind 42), a sequence of one expression",
        ),
        (
            node(8, 0, &[]),
            "node 2 (kind 8), a return outside functions",
        ),
        (
            node(10, 0, &[read(0), lexical()]),
            "node 4 (kind 5), a let, a const or a function as a branch or a loop's body",
        ),
        (
            node(9, 0, &[read(0), node(10, 0, &[read(0), open()]), empty()]),
            "node 6 (kind 9), an if without else, which would take the else behind it",
        ),
        (
            node(18, 0, &[read(0), default(), default()]),
            "node 5 (kind 19), a second default of its switch",
        ),
        (
            node(13, 0, &[valued, read(0), empty()]),
            "node 6 (kind 21) with \"y\", a value in the head of a for-in or for-of",
        ),
        (
            node(5, 0, &[node(6, 0, &[pattern()])]),
            "node 3 (kind 6), a pattern that is declared without a value",
        ),
    ];
    for (statement, words) in cases {
        assert_eq!(said(&[statement]).as_deref(), Some(words));
    }
    let declared = node(5, 0, &[node(6, 0, &[pattern()])]);
    let good = [
        node(14, 0, &[declared, read(0), empty()]),
        node(9, 0, &[read(0), node(2, 0, &[open()]), empty()]),
        node(9, 0, &[read(0), node(11, 0, &[read(0), open()]), empty()]),
        e(texted(37, 4, &[read(0)])),
        e(number(1e24)),
        e(number(1e-24)),
        e(node(40, 0, &[node(2, 0, &[node(8, 0, &[])])])),
    ];
    for statement in good {
        assert_eq!(said(&[statement]), None);
    }
}

impl Random {
    fn below(&mut self, limit: u32) -> u32 {
        (self.next() % u64::from(limit)) as u32
    }

    /// A text that is a name most often.
    fn text(&mut self) -> u32 {
        match self.below(25) {
            0 => self.below(TEXTS.len() as u32),
            _ => self.below(4),
        }
    }

    fn expressions(&mut self, most: u32, deep: u32) -> Vec<Tree> {
        let count = self.below(most);
        (0..count).map(|_| self.expression(deep)).collect()
    }

    fn number(&mut self) -> Tree {
        match self.below(8) {
            0 => vec![(24, 0, 0, 0, self.next())],
            1 => number(f64::from(self.below(99)) * 1e23),
            2 => number(f64::from(self.below(9)) * 1e-24),
            _ => number(f64::from(self.below(10_000)) / 64.0),
        }
    }

    fn expression(&mut self, deep: u32) -> Tree {
        let Some(deep) = deep.checked_sub(1) else {
            return read(self.text());
        };
        match self.below(12) {
            0 => self.number(),
            1 => texted(25, self.text(), &[]),
            2 => texted(37, self.text(), &[self.expression(deep)]),
            3 => {
                let property = texted(29, self.text(), &[self.expression(deep)]);
                node(28, 0, &[property])
            }
            4 => {
                let mut all = self.expressions(3, deep);
                all.push(self.expression(deep));
                node(42, 0, &all)
            }
            5 => {
                let body = self.block(deep);
                node(39, 0, &[body])
            }
            6 => {
                let form = self.below(25) as u8;
                node(32, form, &[self.expression(deep), self.expression(deep)])
            }
            7 => {
                let body = self.block(deep);
                node(40, 0, &[texted(20, self.text(), &[]), body])
            }
            _ => read(self.text()),
        }
    }

    fn block(&mut self, deep: u32) -> Tree {
        let all = self.statements(deep);
        node(2, 0, &all)
    }

    fn statements(&mut self, deep: u32) -> Vec<Tree> {
        let count = self.below(3);
        (0..count).map(|_| self.statement(deep)).collect()
    }

    fn declaration(&mut self, deep: u32) -> Tree {
        let form = self.below(3) as u8;
        let name = match self.below(4) {
            0 => node(46, 0, &[bound(self.text())]),
            _ => bound(self.text()),
        };
        let mut parts = vec![name];
        if self.below(3) > 0 {
            parts.push(self.expression(deep));
        }
        node(5, form, &[node(6, 0, &parts)])
    }

    fn statement(&mut self, deep: u32) -> Tree {
        let Some(deep) = deep.checked_sub(1) else {
            return e(self.expression(1));
        };
        match self.below(10) {
            0 => node(9, 0, &[self.expression(deep), self.statement(deep)]),
            1 => node(
                9,
                0,
                &[
                    self.expression(deep),
                    self.statement(deep),
                    self.statement(deep),
                ],
            ),
            2 => node(10, 0, &[self.expression(deep), self.statement(deep)]),
            3 => node(11, 0, &[self.expression(deep), self.statement(deep)]),
            4 => {
                let kind = 13 + self.below(2) as u8;
                let parts = [
                    self.declaration(deep),
                    self.expression(deep),
                    self.statement(deep),
                ];
                node(kind, 0, &parts)
            }
            5 => {
                let cases = [0; 2].map(|_| {
                    let form = self.below(2) as u8;
                    let mut inside = self.statements(deep);
                    if form == 1 {
                        inside.insert(0, self.expression(deep));
                    }
                    node(19, form, &inside)
                });
                let [one, two] = cases;
                node(18, 0, &[self.expression(deep), one, two])
            }
            6 => self.declaration(deep),
            7 if self.below(4) == 0 => node(8, 0, &[]),
            8 => {
                let body = self.block(deep);
                node(7, 0, &[bound(self.text()), body])
            }
            _ => e(self.expression(deep)),
        }
    }
}

/// A reason is found exactly where the library refuses by 12, with the text or number of its node; what is said to suffice does.
#[test]
fn a_reason_is_found_exactly_where_the_library_refuses_by_12() {
    let (mut random, mut inliner) = (Random(20_261_127), Inliner::new());
    let (mut counts, mut reasons) = ([0; 2], HashSet::new());
    for _ in 0..6_000 {
        let file = script(&random.statements(4));
        let answer = inliner.text(&file);
        let Ok(tree) = TreeFile::new(&file) else {
            continue;
        };
        if answer == Err(Refusal::Nodes) {
            continue;
        }
        let found = tree.no_text();
        assert_eq!(found.is_some(), answer == Err(Refusal::NoText), "{file:?}");
        if let Some(found) = found {
            let there = tree.nodes().nth(found.node - 1).unwrap();
            assert_eq!(there.kind(), found.kind);
            match found.written {
                Written::Text(text) => assert_eq!(there.text(), Some(text)),
                Written::Number(_) => assert!(there.number().is_some()),
                _ => assert_eq!((there.text(), there.number()), (None, None)),
            }
            reasons.insert(found.reason);
        } else {
            assert!(answer.unwrap().len() <= tree.most_text_bytes());
        }
        counts[usize::from(found.is_some())] += 1;
    }
    assert!(counts.iter().all(|count| *count > 1000), "{counts:?}");
    for reason in [
        NoTextReason::NoName,
        NoTextReason::Reserved,
        NoTextReason::Byte,
        NoTextReason::Sign,
        NoTextReason::Digits,
        NoTextReason::Sequence,
        NoTextReason::Return,
        NoTextReason::Body,
        NoTextReason::Else,
        NoTextReason::Default,
        NoTextReason::HeadValue,
        NoTextReason::Pattern,
    ] {
        assert!(reasons.contains(&reason), "{reason:?}");
    }
}
