//! Which scripts leave the comparison with the original: those on which a request of document 02 amends the definition.
//! Each rule looks at the script as read alone; a script that stays must be answered as the original answers it.

use std::collections::{HashMap, HashSet};
use tree_file::{read, Script, Tree};

type Identifier = (u32, u64);

/// The identifiers that a node targets, if it is an assignment, an update or a for-in or for-of, declaring or not: of a pattern all bound
/// names.
fn targets(node: &Tree) -> Vec<Identifier> {
    if !matches!(node.kind, 13 | 14 | 31 | 33) {
        return vec![];
    }
    let mut aim = &node.kids[0];
    while matches!(aim.kind, 5 | 6) {
        aim = &aim.kids[0];
    }
    match aim.kind {
        21 => aim.identifier().into_iter().collect(),
        _ => bound(aim).collect(),
    }
}

fn bound(name: &Tree) -> impl Iterator<Item = Identifier> + '_ {
    name.bound_names().into_iter().filter_map(Tree::identifier)
}

/// The identifier that is the whole initialiser of a declarator; what a pattern takes apart is recorded for none of its names.
fn initialiser(declarator: &Tree) -> Option<Identifier> {
    if declarator.kids[0].kind != 20 {
        return None;
    }
    let value = declarator.kids.get(1).filter(|value| value.kind == 21);
    value.and_then(Tree::identifier)
}

/// Request 8: a constant is initialised with an identifier that is targeted anywhere in the script.
pub fn names_a_variable(script: &Script) -> bool {
    let nodes = script.tree.preorder();
    let targets: HashSet<Identifier> = nodes.iter().flat_map(|node| targets(node)).collect();
    let constants = nodes.iter().filter(|node| node.kind == 5 && node.form == 2);
    let mut named = constants
        .flat_map(|node| &node.kids)
        .filter_map(initialiser);
    named.any(|name| targets.contains(&name))
}

/// What a function, or the script itself, declares by `var`: of each identifier how often, and whether one of its initialisers is no literal.
#[derive(Default)]
struct Declared(HashMap<Identifier, (usize, bool)>);

impl Declared {
    /// A name, or each bound name of a pattern, whose initialiser is no literal whatever it is; a default is no initialiser.
    fn add(&mut self, name: &Tree, value: Option<&Tree>) {
        let is_computed = value.is_some_and(|value| name.kind != 20 || !value.is_literal());
        for name in bound(name) {
            let (times, computed) = self.0.entry(name).or_default();
            *times += 1;
            *computed |= is_computed;
        }
    }

    /// Every `var` below a node, wherever it stands, but not those of nested functions.
    fn add_all(&mut self, node: &Tree) {
        if is_function(node) {
            return;
        }
        if node.kind == 5 && node.form == 0 {
            for declarator in &node.kids {
                self.add(&declarator.kids[0], declarator.kids.get(1));
            }
        }
        for kid in &node.kids {
            self.add_all(kid);
        }
    }

    fn has_a_second(&self) -> bool {
        let mut declared = self.0.values();
        declared.any(|(times, computed)| *times > 1 && *computed)
    }
}

fn is_function(node: &Tree) -> bool {
    matches!(node.kind, 7 | 39 | 40)
}

/// A function's parameters and its body.
fn parts(function: &Tree) -> (&[Tree], &Tree) {
    let named = function.kind == 7 || (function.kind == 39 && function.form == 1);
    let (body, before) = function.kids.split_last().expect("a body");
    (&before[usize::from(named)..], body)
}

fn has_a_second(function: &Tree) -> bool {
    let (parameters, body) = parts(function);
    let mut declared = Declared::default();
    for parameter in parameters {
        declared.add(parameter, None);
    }
    declared.add_all(body);
    declared.has_a_second()
}

/// Request 3: a function, or the script itself, declares one identifier more than once by `var`, parameters counted, nested functions
/// not, and one initialiser is no literal.
pub fn declares_again(script: &Script) -> bool {
    let mut own = Declared::default();
    own.add_all(&script.tree);
    let nodes = script.tree.preorder();
    let mut functions = nodes.into_iter().filter(|node| is_function(node));
    own.has_a_second() || functions.any(has_a_second)
}

/// Is a script held to the amended definition, and not to the original.
pub fn leaves(script: &Script) -> bool {
    names_a_variable(script) || declares_again(script)
}

/// The same of a file; one that is not read stays.
pub fn file_leaves(file: &[u8]) -> bool {
    read(file).is_ok_and(|script| leaves(&script))
}

#[cfg(test)]
mod tests {
    use super::{declares_again, leaves, names_a_variable};
    use tree_file::parse::parse;
    use tree_file::Script;

    fn script(text: &str) -> Script {
        parse(text).unwrap_or_else(|what| panic!("{text}: {what}"))
    }

    fn all(rule: fn(&Script) -> bool, wanted: bool, texts: &[&str]) {
        for text in texts {
            assert_eq!(rule(&script(text)), wanted, "{text}");
        }
    }

    #[test]
    fn a_second_declaration_and_one_initialiser_that_is_no_literal() {
        let twice = [
            "var o = t; var o = t + c;",
            "var o = t; var o;",
            "var o; var o = t;",
            "var o = 1; var o = t; var o = 2;",
            "var o = t, o;",
            "var o = 1; var o = -1;",
            "var o = void 0; var o;",
            "var o = (1); var o;",
            "var o = this; var o;",
            "var o = o; var o;",
            "var o$1 = t; var o$1;",
        ];
        all(declares_again, true, &twice);
        let not = [
            "",
            "var o = t;",
            "var o; var o;",
            "var o = 1; var o = true; var o = null; var o = \"s\";",
            "var o = t; var o$1 = t;",
            "var o = t; var p = t;",
            "var o = t; let o = t;",
            "let o = t; let o = t;",
            "const o = t; const o = t;",
            "var o = t; o = u;",
            "var o = t; function o() { }",
            "var o = t; (function o() { });",
            "var o = t; try { } catch (o) { }",
            "var o = t; for (o of u) ;",
        ];
        all(declares_again, false, &not);
    }

    #[test]
    fn parameters_count_and_have_no_initialiser() {
        let twice = [
            "function f(o) { var o = t; }",
            "(function (o) { var o = t; });",
            "(function f(o) { var o = t; });",
            "(o) => { var o = t; };",
            "function f(a, o) { var o = t; }",
            "function f(o, o) { var o = t; }",
            "function f() { (o) => { var o = t; }; }",
        ];
        all(declares_again, true, &twice);
        let not = [
            "function f(o, o) { }",
            "function f(o) { var o; }",
            "function f(o) { var o = 1; }",
            "function o() { var o = t; }",
            "(function o() { var o = t; });",
            "function o(o) { }",
            "(o) => [o];",
            "function f(o) { } var o = t;",
        ];
        all(declares_again, false, &not);
    }

    #[test]
    fn anywhere_in_the_function_but_not_in_nested_ones() {
        let twice = [
            "{ var o = t; } var o;",
            "if (a) var o = t; else var o;",
            "while (a) var o = t; do { var o; } while (a);",
            "for (var o = t; ; ) ; for (var o; ; ) ;",
            "for (var o in t) ; for (var o of t) ; var o = t;",
            "for (var o = t in u) ; var o;",
            "try { var o = t; } catch (e) { var o; }",
            "try { } catch (e) { var o; } finally { var o = t; }",
            "switch (s) { case 1: var o = t; default: var o; }",
            "function f() { { { var o = t; } } var o; }",
        ];
        all(declares_again, true, &twice);
        let not = [
            "var o = t; function f() { var o; }",
            "function f() { var o = t; } function g() { var o = t; }",
            "var o = () => { var o = t; };",
            "var o; k[function () { var o = t; }];",
            "function f(o) { () => { var o = t; }; }",
        ];
        all(declares_again, false, &not);
    }

    #[test]
    fn each_bound_name_of_a_pattern_is_declared() {
        let twice = [
            "var a = 1; var [a] = 2;",
            "var [a] = 2; var a;",
            "var [a] = 2; var a = 1;",
            "var {p: a} = o; var {q: [b, a]} = o;",
            "var [a, a] = o;",
            "var [[a], {p: a = 1}] = o;",
            "function f([a]) { var a = t; }",
            "function f({p: {q: a = 1}}) { var a = t; }",
            "function f(a = 1) { var a = t; }",
            "function f(a) { var [a] = 1; }",
            "([a]) => { var {p: a} = 1; };",
            "(function ([a] = 1) { var a = t; });",
            "for (var [a] of b) ; var a = t;",
            "for (var [a] = 1 of b) ; var a;",
            "for (var [a] = 1; ; ) ; var a = 1;",
        ];
        all(declares_again, true, &twice);
        let not = [
            "var [a] = o;",
            "var [a] = o; var [b] = o;",
            "var [a] = o; let [a] = o;",
            "var {a: b} = o; var a = t;",
            "var [b = a] = o; var a = t;",
            "var a = 1; for (var [a] of b) ;",
            "for (var [a] of b) ; for (var {p: a} in b) ;",
            "var {a: a}; var a;",
            "function f([a, a]) {}",
            "function f(a = t, a = t) { var a; }",
            "function f(a = t) { var a = 1; }",
            "function f([a = t] = t) { var a; }",
            "var [a] = () => { var a = t; };",
            "function f(b = (a) => { var c = t; }) { var a = t; }",
            "var a = t; [a] = o;",
            "var a = t; for ([a] of o) ;",
            "var a = t; try { } catch ([a]) { }",
            "var [a] = o; var a$1 = t;",
        ];
        all(declares_again, false, &not);
    }

    #[test]
    fn a_pattern_targets_each_bound_name() {
        let leaving = [
            "const a = b; [b] = c;",
            "const a = b; ({p: [b = 1]} = c);",
            "const a = b; [d = 1, {p: b}] = c;",
            "const a = b; [d = b = 1] = c;",
            "const a = b; var [d = b = 1] = c;",
            "const a = b; for ([b] of c) ;",
            "const a = b; for ({p: b = 1} in c) ;",
            "const a = b; for (let [b] of c) ;",
            "const a = b; for (var {p: {q: b}} in c) ;",
            "const a = b; (d = b++) => d;",
            "const a = b; try { } finally { [b] = c; }",
        ];
        all(names_a_variable, true, &leaving);
        let staying = [
            "const a = b; [c = b] = d;",
            "const a = b; ({b: c} = d);",
            "const a = b; var [b] = c;",
            "const a = b; ([b]) => b;",
            "const a = b; try { } catch ([b]) { }",
            "const a = b; for ([c = b] of d) ;",
            "const [a] = b; b = 2;",
            "const {p: a} = b; [b] = c;",
            "const a = b; [b$1] = c;",
        ];
        all(names_a_variable, false, &staying);
    }

    #[test]
    fn a_script_leaves_by_either_request() {
        assert!(leaves(&script("var o = t; var o;")));
        assert!(leaves(&script("const a = b; b = 2;")));
        assert!(!leaves(&script("var o = 1; var o = 2; const a = b;")));
    }

    #[test]
    fn a_constant_that_names_a_variable() {
        let leaving = [
            "const a = b; b = 2;",
            "const a = b; b++;",
            "const a = b; for (b of c) ;",
            "const a = b; for (var b in c) ;",
            "const a = b; try { } finally { b = 2; }",
        ];
        all(names_a_variable, true, &leaving);
        let staying = [
            "const a = b; b.p = 2;",
            "const a = b; var b = 2;",
            "const a = b; b$1 = 2;",
            "const a = 1; a = 2;",
            "let a = b; b = 2;",
        ];
        all(names_a_variable, false, &staying);
    }
}
