//! The list of kinds: which form, children and fields a node may have.

use crate::Tree;

fn statement(tree: &Tree) -> bool {
    matches!(tree.kind, 2..=5 | 7..=16 | 18 | 43 | 44)
}

fn expression(tree: &Tree) -> bool {
    matches!(tree.kind, 21..=28 | 30..=42)
}

fn is(kind: u8) -> impl Fn(&Tree) -> bool {
    move |tree| tree.kind == kind
}

/// The children still to be matched.
struct Kids<'a>(&'a [Tree]);

impl Kids<'_> {
    fn one(&mut self, fits: impl Fn(&Tree) -> bool) -> bool {
        match self.0.split_first() {
            Some((first, rest)) if fits(first) => {
                self.0 = rest;
                true
            }
            _ => false,
        }
    }

    fn any(&mut self, fits: impl Fn(&Tree) -> bool) -> bool {
        while self.one(&fits) {}
        true
    }

    fn maybe(&mut self, fits: impl Fn(&Tree) -> bool) -> bool {
        self.one(fits);
        true
    }

    /// Present exactly if the form says so.
    fn when(&mut self, present: bool, fits: impl Fn(&Tree) -> bool) -> bool {
        !present || self.one(fits)
    }

    /// Parameters and body.
    fn function(&mut self) -> bool {
        self.any(target) && self.one(is(2))
    }
}

fn highest_form(kind: u8) -> u8 {
    match kind {
        5 => 2,
        12 => 7,
        16 => 3,
        19 | 23 | 36 | 39 | 40 => 1,
        30 => 6,
        31 => 3,
        32 => 24,
        33 => 15,
        _ => 0,
    }
}

/// Every kind with every form that it may have.
pub fn all() -> Vec<(u8, u8)> {
    let forms =
        |kind: u8| (u8::from(kind == 16)..=highest_form(kind)).map(move |form| (kind, form));
    (1..=48).flat_map(forms).collect()
}

/// A binding or a pattern.
fn name(tree: &Tree) -> bool {
    matches!(tree.kind, 20 | 45 | 46)
}

/// Of a parameter, or inside a pattern: the same, with a default or without.
fn target(tree: &Tree) -> bool {
    name(tree) || tree.kind == 48
}

/// Of a for-in or for-of: a declaration of one declarator, or a binding or pattern.
fn head(tree: &Tree) -> bool {
    match tree.kind {
        5 => tree.kids.len() == 1,
        _ => name(tree),
    }
}

fn update_target(tree: &Tree) -> bool {
    matches!(tree.kind, 21 | 37 | 38)
}

fn assign_target(tree: &Tree) -> bool {
    matches!(tree.kind, 20 | 37 | 38)
}

fn start(tree: &Tree) -> bool {
    tree.kind == 5 || expression(tree)
}

fn children(tree: &Tree) -> bool {
    let form = tree.form;
    let mut kids = Kids(&tree.kids);
    let fit = match tree.kind {
        1 | 2 => kids.any(statement),
        3 | 20..=26 | 43 | 44 => true,
        4 | 15 | 29 | 30 | 37 | 41 => kids.one(expression),
        5 => kids.one(is(6)) && kids.any(is(6)),
        6 => kids.one(name) && kids.maybe(expression),
        7 => kids.one(is(20)) && kids.function(),
        8 => kids.maybe(expression),
        9 => kids.one(expression) && kids.one(statement) && kids.maybe(statement),
        10 | 11 => kids.one(expression) && kids.one(statement),
        12 => {
            kids.when(form & 1 != 0, start)
                && kids.when(form & 2 != 0, expression)
                && kids.when(form & 4 != 0, expression)
                && kids.one(statement)
        }
        13 | 14 => kids.one(head) && kids.one(expression) && kids.one(statement),
        16 => {
            form != 0
                && kids.one(is(2))
                && kids.when(form & 1 != 0, is(17))
                && kids.when(form & 2 != 0, is(2))
        }
        17 => kids.maybe(name) && kids.one(is(2)),
        18 => kids.one(expression) && kids.any(is(19)),
        19 => kids.when(form == 1, expression) && kids.any(statement),
        27 => kids.any(expression),
        28 => kids.any(is(29)),
        31 => kids.one(update_target),
        32 | 38 => kids.one(expression) && kids.one(expression),
        33 => {
            // A pattern stands left of `=` alone.
            kids.one(|left| assign_target(left) || (form == 0 && name(left)))
                && kids.one(expression)
        }
        34 => kids.one(expression) && kids.one(expression) && kids.one(expression),
        35 | 42 => kids.one(expression) && kids.any(expression),
        36 => kids.one(expression) && (form == 0 || kids.any(expression)),
        39 => kids.when(form == 1, is(20)) && kids.function(),
        40 => {
            kids.any(target)
                && if form == 0 {
                    kids.one(is(2))
                } else {
                    kids.one(expression)
                }
        }
        45 => kids.any(is(47)),
        46 => kids.any(target),
        47 => kids.one(target),
        48 => kids.one(name) && kids.one(expression),
        _ => false,
    };
    fit && kids.0.is_empty()
}

/// Row 6 at one node; `texts` is how many texts there are.
pub fn allowed(tree: &Tree, texts: usize) -> bool {
    let text = match tree.kind {
        20 | 21 | 25 | 29 | 37 | 47 => (tree.text as usize) < texts,
        _ => tree.text == 0,
    };
    let bits = matches!(tree.kind, 20 | 21 | 24) || tree.bits == 0;
    tree.form <= highest_form(tree.kind) && text && bits && children(tree)
}

#[cfg(test)]
mod tests {
    use crate::parse::parse;
    use crate::{read, write, Script, Tree};

    fn row(script: &Script) -> u8 {
        read(&write(script)).err().unwrap_or(0)
    }

    fn all(wanted: u8, texts: &[&str]) {
        for text in texts {
            let script = parse(text).unwrap_or_else(|what| panic!("{text}: {what}"));
            assert_eq!(row(&script), wanted, "{text}");
        }
    }

    #[test]
    fn patterns_stand_in_their_places_alone() {
        let read = [
            "var {a: a};",
            "var [a] = b, {p: c = 1} = d;",
            "let [[a], {p: {q: b = 1}}] = c;",
            "const {} = a, [] = b;",
            "function f([a], {p: b}, c = 1, [d] = e, {q: g} = h) {}",
            "(function h([a] = b) {});",
            "([a], {p: b} = c) => a;",
            "try {} catch ([a]) {}",
            "try {} catch ({p: a = 1}) {}",
            "for ([a] of b) ;",
            "for ({p: a = 1} in b) ;",
            "for (var [a] of b) ;",
            "for (const {p: a} = 1 in b) ;",
            "for (let [a] = b; ; ) ;",
            "for ([a] = b; ; ) ;",
            "[a] = b;",
            "({p: a = 1, q: [b = [c] = d]} = e);",
        ];
        all(0, &read);
        let refused = [
            "[a] += 2;",
            "[a] ??= 2;",
            "({p: a} -= 2);",
            "[o.p] = b;",
            "[o[p]] = b;",
            "({p: o.q} = b);",
            "[(a)] = b;",
            "[1] = b;",
            "[a += 1] = b;",
            "[(a) = 1] = b;",
            "({p: 1} = b);",
            "[[a] = 1, o.p = 2] = b;",
            "try {} catch (a = 1) {}",
            "try {} catch ([a], b) {}",
            "try {} catch ([a] = 1) {}",
            "for ([a] = 1 of b) ;",
            "for ([o.p] of b) ;",
            "for (o.p of b) ;",
            "for (a = 1 of b) ;",
            "for ((a) of b) ;",
            "function f(a += 1) {}",
            "function f(o.p) {}",
            "([1]) => a;",
            "var [1] = a;",
            "var o.p = a;",
        ];
        all(6, &refused);
    }

    /// A script that has the tree in the place of the first node of this kind.
    fn with(text: &str, kind: u8, tree: &Tree) -> Script {
        let mut script = parse(text).expect("a script");
        let mut placed = false;
        script.tree.for_each(&mut |node| {
            if node.kind == kind && !placed {
                placed = true;
                *node = tree.clone();
            }
        });
        assert!(placed, "{text}");
        script
    }

    #[test]
    fn what_no_text_can_say_is_refused_too() {
        let name = Tree::new(20, 0, vec![]);
        let null = Tree::new(22, 0, vec![]);
        let property = Tree::new(47, 0, vec![name.clone()]);
        let default = Tree::new(48, 0, vec![name.clone(), null.clone()]);
        let object = Tree::new(45, 0, vec![property.clone()]);
        let array = Tree::new(46, 0, vec![name.clone()]);
        // a name's place, a pattern's element, a parameter
        for good in [&name, &object, &array] {
            assert_eq!(row(&with("var a = 1;", 20, good)), 0);
            assert_eq!(row(&with("[a] = 1;", 20, good)), 0);
            assert_eq!(row(&with("function f({p: b}) {}", 45, good)), 0);
        }
        assert_eq!(row(&with("[a] = 1;", 20, &default)), 0);
        assert_eq!(row(&with("function f({p: b}) {}", 45, &default)), 0);
        for bad in [&default, &property, &null] {
            assert_eq!(row(&with("var a = 1;", 20, bad)), 6);
            assert_eq!(row(&with("try {} catch (a) {}", 20, bad)), 6);
            assert_eq!(row(&with("for (a of 1) ;", 20, bad)), 6);
            assert_eq!(row(&with("a = 1;", 20, bad)), 6);
        }
        for bad in [&property, &null] {
            assert_eq!(row(&with("[a] = 1;", 20, bad)), 6);
            assert_eq!(row(&with("function f({p: b}) {}", 45, bad)), 6);
        }
        // a function's name, an expression and a statement are none of them
        for bad in [&object, &array, &default, &property] {
            assert_eq!(row(&with("function a() {}", 20, bad)), 6);
            assert_eq!(row(&with("(function a() {});", 20, bad)), 6);
            assert_eq!(row(&with("a;", 21, bad)), 6);
            assert_eq!(row(&with("a++;", 21, bad)), 6);
            assert_eq!(row(&with("var a = b;", 21, bad)), 6);
            assert_eq!(row(&with("{}", 2, bad)), 6);
        }
        // children and fields
        let fields = |kind, form, text, bits, kids: &[&Tree]| Tree {
            text,
            bits,
            ..Tree::new(kind, form, kids.iter().map(|kid| (*kid).clone()).collect())
        };
        let wrong = [
            fields(45, 0, 0, 0, &[&name]),
            fields(45, 0, 0, 0, &[&default]),
            fields(45, 0, 0, 0, &[&array]),
            fields(46, 0, 0, 0, &[&property]),
            fields(46, 0, 0, 0, &[&name, &null]),
            fields(45, 1, 0, 0, &[]),
            fields(46, 1, 0, 0, &[]),
            fields(45, 0, 1, 0, &[]),
            fields(46, 0, 1, 0, &[]),
            fields(45, 0, 0, 1, &[]),
            fields(46, 0, 0, 1, &[]),
        ];
        for bad in &wrong {
            assert_eq!(row(&with("var a; b;", 20, bad)), 6, "{bad:?}");
        }
        let wrong = [
            fields(47, 0, 0, 0, &[]),
            fields(47, 0, 0, 0, &[&name, &name]),
            fields(47, 0, 0, 0, &[&property]),
            fields(47, 1, 0, 0, &[&name]),
            fields(47, 0, 2, 0, &[&name]),
            fields(47, 0, 0, 1, &[&name]),
        ];
        for bad in &wrong {
            assert_eq!(row(&with("var {p: a};", 47, bad)), 6, "{bad:?}");
        }
        let wrong = [
            fields(48, 0, 0, 0, &[&name]),
            fields(48, 0, 0, 0, &[&name, &null, &null]),
            fields(48, 0, 0, 0, &[&null, &null]),
            fields(48, 0, 0, 0, &[&default, &null]),
            fields(48, 0, 0, 0, &[&name, &name]),
            fields(48, 0, 0, 0, &[&name, &array]),
            fields(48, 1, 0, 0, &[&name, &null]),
            fields(48, 0, 1, 0, &[&name, &null]),
            fields(48, 0, 0, 1, &[&name, &null]),
        ];
        for bad in &wrong {
            assert_eq!(row(&with("function f(a = 1) {}", 48, bad)), 6, "{bad:?}");
        }
    }
}
