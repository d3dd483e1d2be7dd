//! Names resolved: contexts of small scripts, refusals and what they keep, and which name is declared twice, beside the library on random scripts.
#![allow(
    clippy::unwrap_used,
    clippy::indexing_slicing,
    clippy::cast_possible_truncation
)]

mod files;

use files::{one, seven, tree_file, Raw};
use negbosun::{
    inline, resolve, resolve_into, Inliner, Kind, Node, Refusal, TreeFile, MOST_BYTES, MOST_RUNS,
    WORDS,
};

/// A node with all below it, in preorder.
type Tree = Vec<Raw>;

fn node(kind: u8, form: u8, children: &[Tree]) -> Tree {
    let mut nodes = vec![(kind, form, children.len() as u16, 0, 0)];
    nodes.extend(children.concat());
    nodes
}

/// A name that is bound (20) or read (21), with a context that is not looked at.
fn name(kind: u8, text: u32) -> Tree {
    vec![(kind, 0, 0, text, u64::from(text) * 7 + 3)]
}

/// A declaration of a name by `var`, `let` or `const`, without a value.
fn declare(form: u8, text: u32) -> Tree {
    node(5, form, &[node(6, 0, &[name(20, text)])])
}

fn read(text: u32) -> Tree {
    node(4, 0, &[name(21, text)])
}

const TEXTS: [&str; 6] = ["x", "y", "z", "arguments", "f", "e"];

fn script(statements: &[Tree]) -> Vec<u8> {
    tree_file(&node(1, 0, statements), &TEXTS)
}

fn contexts(file: &[u8]) -> Vec<u64> {
    let tree = TreeFile::new(file).unwrap();
    tree.nodes().filter_map(Node::context).collect()
}

fn resolved(statements: &[Tree]) -> Result<Vec<u64>, Refusal> {
    resolve(&script(statements)).map(|file| contexts(&file))
}

#[test]
fn a_name_has_the_number_of_the_scope_that_declares_it() {
    let block = node(2, 0, &[declare(1, 0), read(0)]);
    assert_eq!(
        resolved(&[declare(0, 0), block, read(0), read(1)]),
        Ok(vec![1, 2, 2, 1, 0])
    );
    // function f(x) { arguments; x; } with a var arguments outside
    let body = node(2, 0, &[read(3), read(0)]);
    let function = node(7, 0, &[name(20, 4), name(20, 0), body]);
    assert_eq!(
        resolved(&[declare(0, 3), function]),
        Ok(vec![1, 1, 2, 0, 2])
    );
    // (function f() { f; }), whose name has a scope of its own
    let expression = node(39, 1, &[name(20, 4), node(2, 0, &[read(4)])]);
    assert_eq!(
        resolved(&[node(4, 0, &[node(41, 0, &[expression])])]),
        Ok(vec![2, 2])
    );
}

#[test]
fn a_resolved_file_is_resolved_and_its_contexts_are_all_that_was_changed() {
    let mut inliner = Inliner::new();
    for file in [seven(), one()] {
        let made = inliner.resolve(&file).unwrap();
        assert_eq!(inliner.resolve(&made), Ok(made.clone()));
        assert_eq!(made.len(), file.len());
        let nodes = |file: &[u8]| -> Vec<_> {
            let tree = TreeFile::new(file).unwrap();
            let fields = |it: Node| (it.kind(), it.form(), it.children(), it.text_number());
            tree.nodes().map(fields).collect()
        };
        assert_eq!(nodes(&made), nodes(&file));
        assert_eq!(
            inline(&made, MOST_RUNS).unwrap().runs(),
            inline(&file, MOST_RUNS).unwrap().runs()
        );
    }
}

fn marked_words(count: usize) -> Vec<u32> {
    (1..=count as u32).collect()
}

#[test]
fn refusals_keep_the_buffers_and_come_in_order() {
    let file = script(&[declare(0, 0)]);
    let mut words = marked_words(WORDS + 5);
    let mut result = vec![7; file.len() - 1];
    assert_eq!(
        resolve_into(&file, &mut result, &mut words),
        Err(Refusal::Room)
    );
    assert_eq!(result, vec![7; file.len() - 1]);
    assert!(words[..WORDS].iter().all(|word| *word == 0));
    assert_eq!(words[WORDS..], marked_words(WORDS + 5)[WORDS..]);
    let mut result = vec![7; file.len() + 3];
    assert_eq!(resolve_into(&file, &mut result, &mut words), Ok(file.len()));
    assert_eq!(result[file.len()..], [7; 3]);
    let mut few = marked_words(WORDS - 1);
    assert_eq!(
        resolve_into(b"", &mut result, &mut few),
        Err(Refusal::RunsOrWords)
    );
    assert_eq!(few, marked_words(WORDS - 1));
    // 13 behind 6 and before 7 and 10
    let arrow = || node(40, 1, &[name(20, 1), node(26, 0, &[])]);
    let arrows: Vec<Tree> = (0..257).map(|_| arrow()).collect();
    let arrows = node(4, 0, &[node(27, 0, &arrows)]);
    let mut many = vec![declare(1, 0), declare(1, 0), arrows];
    let clash = script(&many);
    assert_eq!(
        resolve_into(&clash, &mut [], &mut words),
        Err(Refusal::DeclaredTwice)
    );
    let seven = script(&many[1..]);
    assert_eq!(
        resolve_into(&seven, &mut [], &mut words),
        Err(Refusal::Identifiers)
    );
    many.push(vec![(3, 0, 0, 1, 0)]);
    assert_eq!(resolve(&script(&many)), Err(Refusal::Nodes));
    assert_eq!(resolve(&vec![0; 3 * MOST_BYTES]), Err(Refusal::Header));
}

#[test]
fn contexts_as_given_are_not_counted() {
    let many: Vec<Tree> = (0..257)
        .map(|context| vec![(21, 0, 0, 0, context)])
        .collect();
    let file = script(&[node(4, 0, &[node(27, 0, &many)])]);
    assert_eq!(inline(&file, 1), Err(Refusal::Identifiers));
    assert_eq!(resolve(&file).map(|it| contexts(&it)), Ok(vec![0; 257]));
}

fn said(statements: &[Tree]) -> Option<String> {
    let file = script(statements);
    let refused = resolve(&file) == Err(Refusal::DeclaredTwice);
    let found = Refusal::DeclaredTwice.found(&file);
    assert_eq!(refused, found.is_some());
    found
}

#[test]
fn a_name_twice_is_told_with_both_places() {
    let words = said(&[declare(1, 0), node(2, 0, &[declare(0, 0)])]);
    assert_eq!(
        words.as_deref(),
        Some(r#""x", declared by a let (node 4) and again by a var (node 8)"#)
    );
    let body = node(2, 0, &[declare(2, 1)]);
    let words = said(&[node(7, 0, &[name(20, 4), name(20, 1), body])]);
    assert_eq!(
        words.as_deref(),
        Some(r#""y", declared by a parameter (node 4) and again by a const (node 8)"#)
    );
    let function = || node(7, 0, &[name(20, 4), node(2, 0, &[])]);
    let words = said(&[node(2, 0, &[function(), function()])]);
    assert_eq!(
        words.as_deref(),
        Some(r#""f", declared by a function (node 4) and again by a function (node 7)"#)
    );
    let caught = node(17, 0, &[name(20, 5), node(2, 0, &[declare(0, 5)])]);
    let words = said(&[node(16, 1, &[node(2, 0, &[]), caught])]);
    assert_eq!(
        words.as_deref(),
        Some(r#""e", declared by a catch (node 5) and again by a var (node 9)"#)
    );
    assert_eq!(said(&[function(), function(), declare(0, 4)]), None);
    assert_eq!(said(&[declare(1, 0), node(2, 0, &[declare(1, 0)])]), None);
}

/// Numbers that look random, from a seed (xorshift).
struct Random(u64);

impl Random {
    fn below(&mut self, limit: u32) -> u32 {
        self.0 ^= self.0 << 13;
        self.0 ^= self.0 >> 7;
        self.0 ^= self.0 << 17;
        (self.0 % u64::from(limit)) as u32
    }

    fn text(&mut self) -> u32 {
        self.below(TEXTS.len() as u32)
    }

    /// A binding, a pattern, or, as a parameter, one with a default.
    fn target(&mut self, deep: u32, default: bool) -> Tree {
        match self.below(6) {
            0 if deep > 0 => node(46, 0, &self.targets(deep - 1, 2, true)),
            1 if deep > 0 => {
                let inner = self.target(deep - 1, true);
                node(45, 0, &[node(47, 0, &[inner])])
            }
            2 if deep > 0 && default => {
                let inner = self.target(deep - 1, false);
                node(48, 0, &[inner, self.expression(deep - 1)])
            }
            _ => name(20, self.text()),
        }
    }

    fn targets(&mut self, deep: u32, most: u32, default: bool) -> Vec<Tree> {
        let count = self.below(most + 1);
        (0..count).map(|_| self.target(deep, default)).collect()
    }

    fn function(&mut self, kind: u8, form: u8, deep: u32) -> Tree {
        let mut inside: Vec<Tree> = Vec::new();
        if kind == 7 || (kind == 39 && form == 1) {
            inside.push(name(20, self.text()));
        }
        inside.extend(self.targets(deep, 2, true));
        inside.push(match (kind, form) {
            (40, 1) => self.expression(deep),
            _ => self.block(deep),
        });
        node(kind, form, &inside)
    }

    fn expression(&mut self, deep: u32) -> Tree {
        match self.below(5) {
            0 if deep > 0 => {
                let form = self.below(2) as u8;
                self.function(39, form, deep - 1)
            }
            1 if deep > 0 => {
                let form = self.below(2) as u8;
                self.function(40, form, deep - 1)
            }
            2 => node(26, 0, &[]),
            _ => name(21, self.text()),
        }
    }

    fn statements(&mut self, deep: u32) -> Vec<Tree> {
        let count = self.below(4);
        (0..count).map(|_| self.statement(deep)).collect()
    }

    fn block(&mut self, deep: u32) -> Tree {
        node(2, 0, &self.statements(deep))
    }

    fn declaration(&mut self, deep: u32, count: u32) -> Tree {
        let form = self.below(3) as u8;
        let all: Vec<Tree> = (0..count)
            .map(|_| {
                let bound = self.target(deep, false);
                let value = self.expression(deep);
                let parts = [bound, value];
                node(6, 0, &parts[..=self.below(2) as usize])
            })
            .collect();
        node(5, form, &all)
    }

    fn head(&mut self, deep: u32) -> Tree {
        match self.below(3) {
            0 => self.target(deep, false),
            _ => self.declaration(deep, 1),
        }
    }

    fn catch(&mut self, deep: u32) -> Tree {
        let mut inside = vec![self.target(deep, false), self.block(deep)];
        if self.below(3) == 0 {
            inside.remove(0);
        }
        node(17, 0, &inside)
    }

    fn case(&mut self, deep: u32) -> Tree {
        let mut inside = vec![self.expression(deep)];
        inside.extend(self.statements(deep));
        node(19, 1, &inside)
    }

    fn statement(&mut self, deep: u32) -> Tree {
        let Some(deep) = deep.checked_sub(1) else {
            return self.declaration(0, 1);
        };
        match self.below(12) {
            0 => self.block(deep),
            1 => node(9, 0, &[self.expression(deep), self.statement(deep)]),
            2 => node(10, 0, &[self.expression(deep), self.statement(deep)]),
            3 => node(12, 1, &[self.declaration(deep, 1), self.statement(deep)]),
            4 => {
                let kind = 13 + self.below(2) as u8;
                let parts = [self.head(deep), self.expression(deep), self.statement(deep)];
                node(kind, 0, &parts)
            }
            5 => node(
                16,
                3,
                &[self.block(deep), self.catch(deep), self.block(deep)],
            ),
            6 => node(
                18,
                0,
                &[self.expression(deep), self.case(deep), self.case(deep)],
            ),
            7 => self.function(7, 0, deep),
            8 => node(4, 0, &[self.expression(deep)]),
            _ => {
                let count = 1 + self.below(2);
                self.declaration(deep, count)
            }
        }
    }
}

/// A name twice is found exactly where the library refuses by 13; both places are bindings of that name, the first of them first.
#[test]
fn a_name_twice_is_found_exactly_where_the_library_refuses_by_13() {
    let (mut random, mut inliner) = (Random(20_261_127), Inliner::new());
    let mut counts = [0; 2];
    for _ in 0..6_000 {
        let file = script(&random.statements(4));
        let answer = inliner.resolve(&file);
        let tree = TreeFile::new(&file);
        let found = tree.ok().and_then(TreeFile::declared_twice);
        let refused = answer == Err(Refusal::DeclaredTwice);
        assert_eq!(found.is_some(), refused, "{file:?}");
        if let (Some(found), Ok(tree)) = (found, tree) {
            let names = [found.first, found.again].map(|it| tree.nodes().nth(it.node - 1));
            for name in names {
                assert_eq!(name.map(Node::kind), Some(Kind::Binding), "{file:?}");
                assert_eq!(name.and_then(Node::text), Some(found.name), "{file:?}");
            }
            assert!(found.first.node < found.again.node, "{file:?}");
        }
        counts[usize::from(refused)] += 1;
    }
    assert!(counts.iter().all(|count| *count > 1000), "{counts:?}");
}
