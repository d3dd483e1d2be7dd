//! Files just below, at and above each limit of document 01.

use crate::node::*;
use tree_file::{write, Script, Tree};

/// A family of files by the figure that its limit is about.
pub struct Family {
    pub name: &'static str,
    /// The last figure that passes.
    pub limit: usize,
    /// The row above it.
    pub row: u8,
    pub make: fn(usize) -> Vec<u8>,
}

macro_rules! families {
    ($($make:ident $limit:literal $row:literal;)*) => {
        &[$(Family { name: stringify!($make), limit: $limit, row: $row, make: $make },)*]
    };
}

pub const FAMILIES: &[Family] = families! {
    file_nodes 1024 3;
    file_texts 256 3;
    file_text_bytes 4096 3;
    file_depth 200 6;
    file_identifiers 256 7;
    constant_at_depth 199 8;
    constants_followed 30 8;
    value_at_depth 200 8;
    blocks 31 8;
    functions 31 8;
    function_expressions 31 8;
    block_arrows 15 8;
    expression_arrows 31 8;
    branches 31 8;
    loops 31 8;
    catches 31 8;
    cases 31 8;
    blocks_around_case 30 8;
    right_sides_in_arrays 12 8;
    right_sides 24 8;
    nodes_with_void 1024 9;
    recorded_value 512 9;
    recorded_together 512 9;
    live 256 9;
    hoisted 128 9;
};

/// The same with patterns.
pub const PATTERN_FAMILIES: &[Family] = families! {
    array_pattern_depth 200 6;
    object_pattern_depth 200 6;
    default_pattern_depth 200 6;
    constant_in_default 199 8;
    value_in_default 200 8;
    arrows_in_defaults 31 8;
    void_in_default 1024 9;
    bound_by_parameter 256 9;
    bound_by_head 256 9;
};

fn texts(list: &[&str]) -> Vec<Vec<u8>> {
    list.iter().map(|text| text.as_bytes().to_vec()).collect()
}

fn file(list: Vec<Tree>, names: &[&str]) -> Vec<u8> {
    write(&Script {
        tree: node(1, 0, list),
        texts: texts(names),
    })
}

/// `k` numbered names.
fn many(k: usize) -> Vec<Vec<u8>> {
    (0..k).map(|i| format!("{i:x}").into_bytes()).collect()
}

fn null() -> Tree {
    node(22, 0, vec![])
}

fn nulls(k: usize) -> Vec<Tree> {
    vec![null(); k]
}

/// `inner` inside `k` layers.
fn nested(k: usize, inner: Tree, layer: impl Fn(Tree) -> Tree) -> Tree {
    (0..k).fold(inner, |tree, _| layer(tree))
}

fn in_arrays(k: usize, inner: Tree) -> Tree {
    nested(k, inner, |tree| array(vec![tree]))
}

fn file_nodes(k: usize) -> Vec<u8> {
    let mut whole = file(vec![statement(array(nulls(k - 3)))], &[]);
    if k > 1024 {
        // The header alone is refused first.
        whole.truncate(32);
    }
    whole
}

fn file_texts(k: usize) -> Vec<u8> {
    write(&Script {
        tree: node(1, 0, vec![]),
        texts: many(k),
    })
}

fn file_text_bytes(k: usize) -> Vec<u8> {
    write(&Script {
        tree: node(1, 0, vec![]),
        texts: vec![vec![b'a'; k - 1], vec![b'b']],
    })
}

fn file_depth(k: usize) -> Vec<u8> {
    file(vec![statement(in_arrays(k - 3, null()))], &[])
}

fn file_identifiers(k: usize) -> Vec<u8> {
    let list = (0..k as u64).map(|context| named(21, 0, context, vec![]));
    file(vec![statement(array(list.collect()))], &["a"])
}

/// A constant named at depth `k` is followed one deeper.
fn constant_at_depth(k: usize) -> Vec<u8> {
    let use_ = statement(in_arrays(k - 3, ident(0)));
    file(vec![declare(2, binding(0), Some(null())), use_], &["a"])
}

/// `k` constants, each naming the next, followed from depth 170.
fn constants_followed(k: usize) -> Vec<u8> {
    let constant = |i: usize| {
        let next = if i + 1 < k {
            ident(i as u32 + 1)
        } else {
            null()
        };
        declare(2, binding(i as u32), Some(next))
    };
    let mut list = vec![statement(in_arrays(167, ident(0)))];
    list.extend((0..k).map(constant));
    write(&Script {
        tree: node(1, 0, list),
        texts: many(k),
    })
}

/// A value of height 100 that makes the tree `k` deep where it is read.
fn value_at_depth(k: usize) -> Vec<u8> {
    let value = in_arrays(99, null());
    let use_ = statement(in_arrays(k - 102, ident(0)));
    file(vec![declare(1, binding(0), Some(value)), use_], &["a"])
}

fn blocks(k: usize) -> Vec<u8> {
    file(vec![nested(k, node(3, 0, vec![]), |s| block(vec![s]))], &[])
}

fn functions(k: usize) -> Vec<u8> {
    let layer = |s| function(binding(0), vec![], vec![s]);
    file(vec![nested(k, node(3, 0, vec![]), layer)], &["f"])
}

fn function_expressions(k: usize) -> Vec<u8> {
    let layer = |e| node(39, 0, vec![block(vec![statement(e)])]);
    file(vec![statement(nested(k, null(), layer))], &[])
}

/// Two scopes each: the arrow's and its block's.
fn block_arrows(k: usize) -> Vec<u8> {
    let layer = |e| node(40, 0, vec![block(vec![statement(e)])]);
    file(vec![statement(nested(k, null(), layer))], &[])
}

fn expression_arrows(k: usize) -> Vec<u8> {
    let layer = |e| node(40, 1, vec![e]);
    file(vec![statement(nested(k, null(), layer))], &[])
}

fn branches(k: usize) -> Vec<u8> {
    let layer = |s| node(9, 0, vec![null(), s]);
    file(vec![nested(k, node(3, 0, vec![]), layer)], &[])
}

fn loops(k: usize) -> Vec<u8> {
    let kinds = [10, 11, 12, 13, 14];
    let mut tree = node(3, 0, vec![]);
    for i in 0..k {
        tree = match kinds[i % 5] {
            12 => node(12, 0, vec![tree]),
            13 => node(13, 0, vec![binding(0), null(), tree]),
            14 => node(14, 0, vec![binding(0), null(), tree]),
            kind => node(kind, 0, vec![null(), tree]),
        };
    }
    file(vec![tree], &["a"])
}

/// A catch without block: its own scope and its block's. The innermost has one more.
fn catches(k: usize) -> Vec<u8> {
    let layer = |s| {
        let catch = node(17, 0, vec![block(vec![s])]);
        node(16, 1, vec![block(vec![]), catch])
    };
    let inner = nested(k % 2, node(3, 0, vec![]), |s| block(vec![s]));
    file(vec![nested(k / 2, inner, layer)], &[])
}

fn cases(k: usize) -> Vec<u8> {
    let layer = |s| node(18, 0, vec![null(), node(19, 0, vec![s])]);
    file(vec![nested(k, node(3, 0, vec![]), layer)], &[])
}

/// An empty case opens a scope.
fn blocks_around_case(k: usize) -> Vec<u8> {
    let switch = node(18, 0, vec![null(), node(19, 0, vec![])]);
    file(vec![nested(k, switch, |s| block(vec![s]))], &[])
}

fn right_sides_in_arrays(k: usize) -> Vec<u8> {
    let layer = |e| node(32, 0, vec![ident(0), array(vec![e])]);
    file(vec![statement(nested(k, ident(0), layer))], &["b"])
}

fn right_sides(k: usize) -> Vec<u8> {
    let layer = |e| node(32, 1, vec![ident(0), e]);
    file(vec![statement(nested(k, ident(0), layer))], &["b"])
}

/// `var x; x;` and nulls: one node fewer than `k`, and `void 0` is one more.
fn nodes_with_void(k: usize) -> Vec<u8> {
    let list = vec![
        declare(0, binding(0), None),
        statement(ident(0)),
        statement(array(nulls(k - 9))),
    ];
    let made = file(list, &["x"]);
    debug_assert_eq!(tree_file::read(&made).map(|s| s.tree.count()), Ok(k - 1));
    made
}

fn recorded_value(k: usize) -> Vec<u8> {
    let value = array(nulls(k - 1));
    let list = vec![
        declare(1, binding(0), Some(value)),
        statement(array(vec![ident(0)])),
    ];
    file(list, &["v"])
}

/// Values of two nodes for some variables, constants and one larger value.
fn recorded_together(k: usize) -> Vec<u8> {
    let (variables, constants) = (40u32, 20u32);
    let mut list = Vec::new();
    for i in 0..constants {
        list.push(declare(2, binding(i), Some(null())));
    }
    for i in 0..variables {
        let value = node(30, 2, vec![null()]);
        list.push(declare(0, binding(constants + i), Some(value)));
    }
    let rest = k - (2 * variables + constants) as usize;
    let last = constants + variables;
    list.push(declare(0, binding(last), Some(array(nulls(rest - 1)))));
    let reads = (constants..=last).map(ident).collect();
    list.push(statement(array(reads)));
    write(&Script {
        tree: node(1, 0, list),
        texts: many(last as usize + 1),
    })
}

/// 128 variables, and constants of the same names.
fn live(k: usize) -> Vec<u8> {
    let declarators = |count: usize, init: Option<Tree>| -> Vec<Tree> {
        let one = |i: usize| {
            let kids = std::iter::once(binding(i as u32)).chain(init.clone());
            node(6, 0, kids.collect())
        };
        (0..count).map(one).collect()
    };
    let list = vec![
        node(5, 0, declarators(128, None)),
        node(5, 2, declarators(k - 128, Some(null()))),
    ];
    write(&Script {
        tree: node(1, 0, list),
        texts: many(128.max(k - 128)),
    })
}

/// `k` variables of a block are live in the block and, hoisted, outside it.
fn hoisted(k: usize) -> Vec<u8> {
    let declarators = (0..k).map(|i| node(6, 0, vec![binding(i as u32)]));
    let list = vec![block(vec![node(5, 0, declarators.collect())])];
    write(&Script {
        tree: node(1, 0, list),
        texts: many(k),
    })
}

fn array_pattern(list: Vec<Tree>) -> Tree {
    node(46, 0, list)
}

/// `var` and the pattern: script, declaration and declarator are above it.
fn taken_apart(pattern: Tree) -> Tree {
    declare(0, pattern, None)
}

/// A name in array patterns, `k` deep.
fn array_pattern_depth(k: usize) -> Vec<u8> {
    let pattern = nested(k - 4, binding(0), |p| array_pattern(vec![p]));
    file(vec![taken_apart(pattern)], &["a"])
}

/// A name in object patterns, two deeper with each.
fn object_pattern_depth(k: usize) -> Vec<u8> {
    let layer = |p| node(45, 0, vec![named(47, 0, 0, vec![p])]);
    let inner = nested(k % 2, binding(0), |p| array_pattern(vec![p]));
    file(vec![taken_apart(nested((k - 4) / 2, inner, layer))], &["a"])
}

/// The default of a pattern with a default, and so on: two deeper with each.
fn default_pattern_depth(k: usize) -> Vec<u8> {
    let layer = |p| array_pattern(vec![node(48, 0, vec![p, null()])]);
    let inner = nested(k % 2, array_pattern(vec![]), |p| array_pattern(vec![p]));
    file(vec![taken_apart(nested((k - 4) / 2, inner, layer))], &[])
}

/// A parameter with a default, at depth 3: the default is at depth 4.
fn with_default(name: u32, value: Tree) -> Tree {
    let param = node(48, 0, vec![binding(name), value]);
    function(binding(name), vec![param], vec![])
}

/// A constant named in a default at depth `k` is followed one deeper.
fn constant_in_default(k: usize) -> Vec<u8> {
    let use_ = with_default(1, in_arrays(k - 4, ident(0)));
    file(
        vec![declare(2, binding(0), Some(null())), use_],
        &["a", "f"],
    )
}

/// A value of height 100 that makes a default `k` deep.
fn value_in_default(k: usize) -> Vec<u8> {
    let value = in_arrays(99, null());
    let use_ = with_default(1, in_arrays(k - 103, ident(0)));
    file(vec![declare(1, binding(0), Some(value)), use_], &["a", "f"])
}

/// Each default is an arrow with a parameter whose default is the next.
fn arrows_in_defaults(k: usize) -> Vec<u8> {
    let layer = |e| {
        let param = node(48, 0, vec![binding(0), e]);
        node(40, 1, vec![param, null()])
    };
    file(vec![statement(nested(k, null(), layer))], &["a"])
}

/// `var x; let [y = x] = null;` and nulls: one node fewer than `k`, and `void 0` is one more.
fn void_in_default(k: usize) -> Vec<u8> {
    let pattern = array_pattern(vec![node(48, 0, vec![binding(1), ident(0)])]);
    let list = vec![
        declare(0, binding(0), None),
        declare(1, pattern, Some(null())),
        statement(array(nulls(k - 14))),
    ];
    let made = file(list, &["x", "y"]);
    debug_assert_eq!(tree_file::read(&made).map(|s| s.tree.count()), Ok(k - 1));
    made
}

/// `k` live bindings: the function, and what its one parameter binds, one of it by the function's name.
fn bound_by_parameter(k: usize) -> Vec<u8> {
    let names = (0..k as u32 - 1).map(binding).collect();
    let list = vec![function(binding(0), vec![array_pattern(names)], vec![])];
    write(&Script {
        tree: node(1, 0, list),
        texts: many(k - 1),
    })
}

/// A constant, and what a head without a declaration binds, one of it by the constant's name.
fn bound_by_head(k: usize) -> Vec<u8> {
    let pattern = array_pattern((0..k as u32 - 1).map(binding).collect());
    let list = vec![
        declare(2, binding(0), Some(null())),
        node(14, 0, vec![pattern, null(), node(3, 0, vec![])]),
    ];
    write(&Script {
        tree: node(1, 0, list),
        texts: many(k - 1),
    })
}
