//! Random scripts brought near a limit, so that refusals 8 and 9 come up in the middle of things.

use crate::node::*;
use crate::rng::Rng;
use tree_file::{read, write, Script, Tree, MAX_DEPTH, MAX_NODES};

/// The script, made larger in one respect; or as it was where that is not readable.
pub fn near_limit(rng: &mut Rng, script: &Script) -> Script {
    nearer(rng, script, 6)
}

/// The same, by a deep or a long pattern too.
pub fn near_limit_with_patterns(rng: &mut Rng, script: &Script) -> Script {
    nearer(rng, script, 8)
}

fn nearer(rng: &mut Rng, script: &Script, ways: usize) -> Script {
    let mut near = script.clone();
    match rng.below(ways) {
        0 => many_nodes(rng, &mut near),
        1 => many_scopes(rng, &mut near),
        2 => deep(rng, &mut near),
        3 => many_names(rng, &mut near),
        4 => large_value(rng, &mut near),
        5 => right_sides(rng, &mut near),
        6 => deep_pattern(rng, &mut near),
        _ => long_pattern(rng, &mut near),
    }
    if read(&write(&near)).is_ok() {
        near
    } else {
        script.clone()
    }
}

fn nulls(count: usize) -> Vec<Tree> {
    vec![node(22, 0, vec![]); count]
}

/// A text that the script does not have yet.
fn add_text(script: &mut Script, text: String) -> u32 {
    let text = text.into_bytes();
    let at = script.texts.iter().position(|t| *t == text);
    at.unwrap_or_else(|| {
        script.texts.push(text);
        script.texts.len() - 1
    }) as u32
}

/// A few nodes below 1,024.
fn many_nodes(rng: &mut Rng, script: &mut Script) {
    let room = MAX_NODES - script.tree.count();
    let spare = rng.below(6);
    if room > spare + 2 {
        let list = nulls(room - spare - 2);
        let place = rng.below(script.tree.kids.len() + 1);
        script.tree.kids.insert(place, statement(array(list)));
    }
}

/// A layer that opens one scope, or an arrow's two.
fn layer(rng: &mut Rng, name: u32, inner: Vec<Tree>) -> Tree {
    let test = node(22, 0, vec![]);
    match rng.below(8) {
        0 => function(binding(name), vec![], inner),
        1 => node(9, 0, vec![test, block(inner)]),
        2 => node(10, 0, vec![test, block(inner)]),
        3 => node(18, 0, vec![test, node(19, 0, inner)]),
        4 => statement(node(40, 0, vec![block(inner)])),
        5 => statement(node(39, 0, vec![block(inner)])),
        _ => block(inner),
    }
}

fn many_scopes(rng: &mut Rng, script: &mut Script) {
    let name = add_text(script, "w".into());
    let mut list = std::mem::take(&mut script.tree.kids);
    for _ in 0..rng.from(10, 30) {
        list = vec![layer(rng, name, list)];
    }
    script.tree.kids = list;
}

/// The paths of all expressions that may be replaced by any other.
fn expressions(tree: &Tree, at: &[usize], found: &mut Vec<Vec<usize>>) {
    for (index, kid) in tree.kids.iter().enumerate() {
        let path = [at, &[index]].concat();
        let is_target = index == 0 && matches!(tree.kind, 31 | 33);
        if matches!(kid.kind, 21..=28 | 30..=42) && !is_target {
            found.push(path.clone());
        }
        expressions(kid, &path, found);
    }
}

fn at<'a>(tree: &'a mut Tree, path: &[usize]) -> &'a mut Tree {
    path.iter().fold(tree, |tree, index| &mut tree.kids[*index])
}

/// Some expression, and its depth.
fn some_expression<'a>(rng: &mut Rng, script: &'a mut Script) -> Option<(&'a mut Tree, usize)> {
    let mut found = Vec::new();
    expressions(&script.tree, &[], &mut found);
    if found.is_empty() {
        return None;
    }
    let path = rng.pick(&found).clone();
    Some((at(&mut script.tree, &path), path.len() + 1))
}

/// Layers around an expression, until its deepest part is about 200 deep.
fn deep(rng: &mut Rng, script: &mut Script) {
    let spare = rng.below(5);
    if let Some((place, depth)) = some_expression(rng, script) {
        let room = (MAX_DEPTH + 1).saturating_sub(depth + place.height() + spare);
        let mut inner = std::mem::take(place);
        for _ in 0..room {
            inner = match rng.below(4) {
                0 => node(41, 0, vec![inner]),
                1 => node(30, 2, vec![inner]),
                _ => array(vec![inner]),
            };
        }
        *place = inner;
    }
}

/// Declarations of fresh names, in a list or in a block.
fn many_names(rng: &mut Rng, script: &mut Script) {
    let form = rng.below(3) as u8;
    let in_block = rng.once_in(2);
    let count = if in_block && form == 0 {
        rng.from(110, 130)
    } else {
        rng.from(225, 250)
    };
    let mut declarators = Vec::new();
    for number in 0..count {
        let name = binding(add_text(script, format!("n{number}")));
        let init = (form == 2 || rng.once_in(4)).then(|| node(22, 0, vec![]));
        declarators.push(node(6, 0, std::iter::once(name).chain(init).collect()));
    }
    let made = node(5, form, declarators);
    let made = if in_block { block(vec![made]) } else { made };
    let place = rng.below(script.tree.kids.len() + 1);
    script.tree.kids.insert(place, made);
}

/// A value of nearly 512 nodes that is read once.
fn large_value(rng: &mut Rng, script: &mut Script) {
    let name = add_text(script, "large".into());
    let size = rng.from(490, 512);
    let value = array(nulls(size - 1));
    let declared = declare(1, binding(name), Some(value));
    let read = statement(array(vec![ident(name)]));
    let place = rng.below(script.tree.kids.len() + 1);
    script.tree.kids.splice(place..place, [declared, read]);
}

/// Right sides of `&&` and `||` around an expression.
fn right_sides(rng: &mut Rng, script: &mut Script) {
    let count = rng.from(9, 14);
    if let Some((place, _)) = some_expression(rng, script) {
        let mut inner = std::mem::take(place);
        for _ in 0..count {
            let right = if rng.once_in(4) {
                inner
            } else {
                array(vec![inner])
            };
            let left = node(22, 0, vec![]);
            inner = node(32, rng.below(2) as u8, vec![left, right]);
        }
        *place = inner;
    }
}

/// A pattern in each place that takes one, around a statement or two.
fn placed(rng: &mut Rng, pattern: Tree, name: u32) -> Tree {
    let (null, empty) = (node(22, 0, vec![]), node(3, 0, vec![]));
    match rng.below(6) {
        0 => function(binding(name), vec![pattern], vec![]),
        1 => statement(node(40, 1, vec![pattern, null])),
        2 => declare(rng.below(3) as u8, pattern, Some(null)),
        3 => node(rng.from(13, 14) as u8, 0, vec![pattern, null, empty]),
        4 => statement(assign(pattern, null)),
        _ => {
            let catch = node(17, 0, vec![pattern, block(vec![])]);
            node(16, 1, vec![block(vec![]), catch])
        }
    }
}

/// A pattern of about 200 deep, with defaults on the way and an identifier inside.
fn deep_pattern(rng: &mut Rng, script: &mut Script) {
    let name = rng.below(script.texts.len()) as u32;
    let mut inner = node(48, 0, vec![binding(name), array(vec![ident(name)])]);
    let room = MAX_DEPTH - 6 - rng.below(5);
    while inner.height() < room {
        let target = match inner.kind {
            45 | 46 if rng.once_in(3) => node(48, 0, vec![inner, node(22, 0, vec![])]),
            _ => inner,
        };
        inner = match rng.below(2) {
            0 => node(46, 0, vec![target]),
            _ => node(45, 0, vec![named(47, name, 0, vec![target])]),
        };
    }
    let made = placed(rng, inner, name);
    let place = rng.below(script.tree.kids.len() + 1);
    script.tree.kids.insert(place, made);
}

/// A pattern of so many fresh names that the live bindings are near their limit.
fn long_pattern(rng: &mut Rng, script: &mut Script) {
    let name = rng.below(script.texts.len()) as u32;
    let count = rng.from(225, 250);
    let names = (0..count).map(|number| binding(add_text(script, format!("n{number}"))));
    let pattern = node(46, 0, names.collect());
    let made = placed(rng, pattern, name);
    let place = rng.below(script.tree.kids.len() + 1);
    script.tree.kids.insert(place, made);
}
