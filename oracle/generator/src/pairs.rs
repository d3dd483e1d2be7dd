//! Paired scripts (document 01): a copy with other literals, other names and other property
//! texts; and whether the answers for two paired scripts are alike.

use crate::rng::Rng;
use std::collections::{HashMap, HashSet};
use tree_file::{Answer, Outcome, Script, Tree, ARGUMENTS};

/// A paired copy: identifiers renamed one to one, `arguments` kept, everything free changed.
pub fn paired(rng: &mut Rng, script: &Script) -> Script {
    let mut texts = Texts::default();
    let mut renamed: HashMap<(u32, u64), (u32, u64)> = HashMap::new();
    let mut taken: HashSet<(u32, u64)> = HashSet::new();
    let mut tree = script.tree.clone();
    tree.for_each(&mut |node| {
        if let Some(old) = node.identifier() {
            let is_arguments = script.texts[old.0 as usize] == ARGUMENTS;
            let new = *renamed
                .entry(old)
                .or_insert_with(|| fresh(rng, &mut texts, &mut taken, is_arguments));
            (node.text, node.bits) = new;
        } else if node.is_literal() {
            let other = literal(rng, &mut texts);
            *node = other;
        } else if matches!(node.kind, 29 | 37 | 47) {
            node.text = texts.number(property(rng));
        }
    });
    Script {
        tree,
        texts: texts.list,
    }
}

/// A paired copy whose literals are numbers that tell their node's number, counted from 1.
pub fn tagged(script: &Script) -> Script {
    let mut tree = script.tree.clone();
    let mut number = 0;
    tree.for_each(&mut |node| {
        number += 1;
        if node.is_literal() {
            *node = Tree {
                kind: 24,
                bits: number,
                ..Tree::default()
            };
        }
    });
    Script {
        tree,
        texts: script.texts.clone(),
    }
}

#[derive(Default)]
struct Texts {
    list: Vec<Vec<u8>>,
}

impl Texts {
    fn number(&mut self, text: Vec<u8>) -> u32 {
        let at = self.list.iter().position(|t| *t == text);
        at.unwrap_or_else(|| {
            self.list.push(text);
            self.list.len() - 1
        }) as u32
    }
}

/// An identifier that no other has.
fn fresh(
    rng: &mut Rng,
    texts: &mut Texts,
    taken: &mut HashSet<(u32, u64)>,
    is_arguments: bool,
) -> (u32, u64) {
    loop {
        let name = match is_arguments {
            true => ARGUMENTS.to_vec(),
            false => format!("n{}", rng.below(40)).into_bytes(),
        };
        let any = rng.word();
        let context = *rng.pick(&[0, 1, 5, u64::MAX, any]);
        let new = (texts.number(name), context);
        if taken.insert(new) {
            return new;
        }
    }
}

fn property(rng: &mut Rng) -> Vec<u8> {
    match rng.below(3) {
        0 => ARGUMENTS.to_vec(),
        _ => format!("n{}", rng.below(50)).into_bytes(),
    }
}

fn literal(rng: &mut Rng, texts: &mut Texts) -> Tree {
    let kind = rng.from(22, 25) as u8;
    Tree {
        kind,
        form: if kind == 23 { rng.below(2) as u8 } else { 0 },
        bits: if kind == 24 { rng.word() } else { 0 },
        text: if kind == 25 {
            texts.number(property(rng))
        } else {
            0
        },
        kids: vec![],
    }
}

/// Are the answers for two paired scripts alike? The origins of literals come from the answer for
/// the tagged copy of the first.
pub fn alike(one: &Script, two: &Script, answers: [&Answer; 3]) -> bool {
    match answers {
        [Answer::Refused(a), Answer::Refused(b), Answer::Refused(c)] => a == b && b == c,
        [Answer::Done(a), Answer::Done(b), Answer::Done(tags)] => {
            let paired = standing_together(one, two);
            same_course(a, b)
                && same_course(a, tags)
                && results_alike(one, two, [a, b, tags], &paired)
                && roots_alike(a, b, &paired)
        }
        _ => false,
    }
}

fn same_course(a: &Outcome, b: &Outcome) -> bool {
    a.runs == b.runs && a.changed == b.changed
}

type Identifier = (u32, u64);

/// The pairs of identifiers that stand at one number of the two inputs.
fn standing_together(one: &Script, two: &Script) -> HashSet<(Identifier, Identifier)> {
    let nodes = one.tree.preorder().into_iter().zip(two.tree.preorder());
    nodes
        .filter_map(|(a, b)| Some((a.identifier()?, b.identifier()?)))
        .collect()
}

fn results_alike(
    one: &Script,
    two: &Script,
    results: [&Outcome; 3],
    paired: &HashSet<(Identifier, Identifier)>,
) -> bool {
    let [a, b, tags] = results.map(|done| done.tree.preorder());
    let inputs = (one.tree.preorder(), two.tree.preorder());
    a.len() == b.len()
        && a.len() == tags.len()
        && (0..a.len()).all(|i| {
            if a[i].is_literal() {
                let from = tags[i].bits as usize;
                return is_from(a[i], &inputs.0, from) && is_from(b[i], &inputs.1, from);
            }
            let same =
                (a[i].kind, a[i].form, a[i].kids.len()) == (b[i].kind, b[i].form, b[i].kids.len());
            let names = match (a[i].identifier(), b[i].identifier()) {
                (Some(x), Some(y)) => paired.contains(&(x, y)),
                (x, y) => x == y,
            };
            same && names
        })
}

/// Is this literal the input's node of that number, or, of origin 0, the number 0?
fn is_from(literal: &Tree, input: &[&Tree], origin: usize) -> bool {
    match origin {
        0 => (literal.kind, literal.form, literal.text, literal.bits) == (24, 0, 0, 0),
        _ => literal == input[origin - 1],
    }
}

fn roots_alike(a: &Outcome, b: &Outcome, paired: &HashSet<(Identifier, Identifier)>) -> bool {
    a.roots.len() == b.roots.len()
        && a.roots
            .iter()
            .zip(&b.roots)
            .all(|(x, y)| paired.contains(&((x.0, x.1), (y.0, y.1))) && x.2 == y.2)
}
