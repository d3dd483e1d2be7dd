//! The assignments of a script that no pass may lose: each `=` outside the initialisers, by its target. Of a target that is a pattern
//! the defaults are passed over, which alone may have been rewritten; the `=` inside them are assignments of their own.

use crate::Tree;

const DECLARATOR: u8 = 6;
const ASSIGN: u8 = 33;
const DEFAULT: u8 = 48;

/// A target without its defaults.
fn bare(target: &Tree) -> Tree {
    let mut copy = target.clone();
    if copy.kind == DEFAULT {
        copy.kids.truncate(1);
    }
    copy.kids = copy.kids.iter().map(bare).collect();
    copy
}

/// The targets of the `=` of a tree in preorder: of all, or of those outside initialisers. Of a declarator then only the name is looked
/// at: what stands in an initialiser, at any depth, may be moved, copied or dropped with it.
fn targets(tree: &Tree, all: bool) -> Vec<Tree> {
    let mut found = Vec::new();
    list(tree, all, &mut found);
    found
}

fn list(tree: &Tree, all: bool, found: &mut Vec<Tree>) {
    if (tree.kind, tree.form) == (ASSIGN, 0) {
        found.extend(tree.kids.first().map(bare));
    }
    let looked_at = match tree.kind {
        DECLARATOR if !all => 1,
        _ => tree.kids.len(),
    };
    for kid in tree.kids.iter().take(looked_at) {
        list(kid, all, found);
    }
}

/// How many `=` stand outside the initialisers.
pub fn outside(script: &Tree) -> usize {
    targets(script, false).len()
}

/// Whether a result has the assignments of its script that stand outside initialisers, with their targets and in their order: nothing
/// else where the script has none in initialisers, otherwise among those that came from there.
pub fn kept(script: &Tree, result: &Tree) -> bool {
    let wanted = targets(script, false);
    let found = targets(result, true);
    if targets(script, true).len() == wanted.len() {
        return found == wanted;
    }
    let mut rest = found.iter();
    wanted
        .iter()
        .all(|target| rest.any(|other| other == target))
}

#[cfg(test)]
mod tests {
    use super::{kept, outside};
    use crate::parse::parse;
    use crate::Tree;

    fn tree(text: &str) -> Tree {
        parse(text).expect("a script").tree
    }

    #[test]
    fn initialisers_are_passed_over_at_any_depth() {
        assert_eq!(outside(&tree("y = 1; { z = y = 2; }")), 3);
        assert_eq!(outside(&tree("var a = y = 1;")), 0);
        assert_eq!(outside(&tree("var f = () => { y = 1; };")), 0);
        assert_eq!(outside(&tree("function f() { y = 1; } y += 1;")), 1);
        assert_eq!(
            outside(&tree("[y = z = 1] = x; var [a = y = 1] = z = 2;")),
            3
        );
        assert_eq!(outside(&tree("function f({p: a = y = 1} = z = 2) {}")), 2);
    }

    #[test]
    fn none_is_lost_doubled_or_put_elsewhere() {
        // the names first, so that they have the same numbers in each script
        let named = |text: &str| tree(&format!("x; y; z; {text}"));
        let script = named("x = 1; y = x; x = 2;");
        assert!(kept(&script, &named("x = 1; y = 1; x = 2;")));
        assert!(!kept(&script, &named("x = 1; x; x = 2;")));
        assert!(!kept(&script, &named("x = 1; y = x; y = x; x = 2;")));
        assert!(!kept(&script, &named("x = 1; x = 2; y = x;")));
        assert!(!kept(&script, &named("x = 1; z = x; x = 2;")));
        let script = named("[x, y = z] = 1;");
        assert!(kept(&script, &named("[x, y = 2] = 3;")));
        assert!(!kept(&script, &named("[x, y] = 1;")));
        assert!(!kept(&script, &named("[y, x = z] = 1;")));
        assert!(!kept(&script, &named("[x, [y] = z] = 1;")));
        assert!(!kept(&script, &named("({x: x, y: y = z} = 1);")));
        let script = named("[x = (y = z)] = 1;");
        assert!(kept(&script, &named("[x = (y = 2)] = 1;")));
        assert!(!kept(&script, &named("[x = 2] = 1;")));
        assert!(!kept(&script, &named("[x = (z = 2)] = 1;")));
        let moved = named("var z = y = 1; x = 2; z;");
        assert!(kept(&moved, &named("var z; x = 2; y = 1;")));
        assert!(!kept(&moved, &named("var z; y = 1;")));
    }
}
