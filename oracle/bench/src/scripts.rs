//! What is timed: ordinary gate scripts of a given size, random scripts, and scripts that take long.

use crate::amended;
use generator::node::{array, assign, binding, block, declare, ident, node, statement};
use generator::rng::Rng;
use tree_file::parse::parse;
use tree_file::{write, Script, Tree};

/// What all gates share.
const HEAD: &str = "const day = 1440; const lead = 35, hold = 190; var open = false;";

/// What a gate has: its minutes, whether they are between two others across midnight, and when it opens. `x$N` is a variable of its
/// own for each function, `@` the gate's number.
const PARTS: [&str; 3] = [
    "function minutes@(hour$1@, minute$1@) {
       var total$1@ = hour$1@ * 60 + minute$1@;
       if (total$1@ >= day) total$1@ -= day;
       return total$1@;
     }",
    "function between@(now$3@, from$3@, to$3@) {
       var wraps$3@ = to$3@ < from$3@;
       return wraps$3@ ? now$3@ >= from$3@ || now$3@ < to$3@ : now$3@ >= from$3@ && now$3@ < to$3@;
     }",
    r#"function gate@(clock$2@, tide$2@) {
       var start$2@ = minutes@(tide$2@.hour, tide$2@.minute) + lead;
       if (start$2@ >= day) { start$2@ -= day; }
       const end$2@ = (start$2@ + hold) % day;
       let now$2@ = minutes@(clock$2@.hour, clock$2@.minute);
       open = between@(now$2@, start$2@, end$2@);
       if (typeof log === "function") log("gate", open);
       return open ? 1 : void 0;
     }"#,
];

/// The same gate by patterns: what it is given is taken apart, with defaults.
const PATTERN_PARTS: [&str; 3] = [
    "function minutes@({hour: hour$1@, minute: minute$1@ = 0}) {
       var total$1@ = hour$1@ * 60 + minute$1@;
       if (total$1@ >= day) total$1@ -= day;
       return total$1@;
     }",
    "function between@(now$3@, [from$3@, to$3@]) {
       if (to$3@ < from$3@) { [from$3@, to$3@] = [to$3@, from$3@]; }
       return now$3@ >= from$3@ && now$3@ < to$3@;
     }",
    r#"function gate@({today: today$2@, before: before$2@ = today$2@}) {
       var start$2@ = minutes@(today$2@) + lead;
       const [rise$2@, end$2@ = hold] = before$2@.levels;
       for (const {at: at$4@, shut: [from$4@, to$4@] = [0, day]} of today$2@.plan) {
         if (between@(at$4@, [from$4@, to$4@])) log("gate", rise$2@);
       }
       open = between@(minutes@(before$2@), [start$2@, end$2@]);
       return open ? 1 : void 0;
     }"#,
];

/// Parts of gates, each of them left out that would be over `nodes`, then calls and empty statements up to exactly `nodes`.
pub fn gates(nodes: usize) -> Script {
    filled(nodes, &PARTS)
}

/// The same with patterns.
pub fn pattern_gates(nodes: usize) -> Script {
    filled(nodes, &PATTERN_PARTS)
}

fn filled(nodes: usize, parts: &[&str]) -> Script {
    let read = |source: &str| parse(source).unwrap_or_else(|what| panic!("{what}"));
    let mut source = HEAD.to_string();
    let mut add = |part: &str| {
        let longer = format!("{source}\n{part}");
        if read(&longer).tree.count() <= nodes {
            source = longer;
        }
    };
    for number in 10..30 {
        parts
            .iter()
            .for_each(|part| add(&part.replace('@', &number.to_string())));
    }
    (0..3).for_each(|_| add("open = gate10(clock, tide);"));
    let mut script = read(&source);
    while script.tree.count() < nodes {
        script.tree.kids.push(node(3, 0, vec![]));
    }
    script
}

/// Random scripts of about `nodes` nodes that the port does not refuse, and that no request takes out of the comparison. The original,
/// unwatched, knows no limits.
pub fn random(nodes: usize, count: usize) -> Vec<Script> {
    let (mut rng, mut inliner) = (Rng::new(1), negbosun::Inliner::new());
    let mut list = Vec::new();
    while list.len() < count {
        let script = generator::scripts::script(&mut rng, nodes);
        if !amended::leaves(&script) && inliner.inline(&write(&script), 16).is_ok() {
            list.push(script);
        }
    }
    list
}

fn named(texts: &[&str], tree: Tree) -> Script {
    Script {
        tree,
        texts: texts.iter().map(|text| text.as_bytes().to_vec()).collect(),
    }
}

/// Twelve right sides, an array around each inner one: the innermost is walked 2^12 times in each phase.
fn right_sides() -> Script {
    let mut inner = ident(0);
    for _ in 0..12 {
        inner = array(vec![node(32, 0, vec![ident(0), inner])]);
    }
    named(&["b"], node(1, 0, vec![statement(inner)]))
}

/// Twelve right sides, a function with a list of statements in each, around assignments inside one another.
fn right_sides_of_functions() -> Script {
    let mut inner = chain(145);
    for _ in 0..12 {
        let function = node(39, 0, vec![block(vec![statement(inner)])]);
        inner = node(32, 0, vec![ident(0), function]);
    }
    named(&["a"], node(1, 0, vec![statement(inner)]))
}

fn chain(count: usize) -> Tree {
    (0..count).fold(ident(0), |inner, _| assign(binding(0), inner))
}

/// Blocks inside one another: the lists of statements of the inner ones are walked again from each outer one.
fn blocks() -> Script {
    let mut list = vec![declare(0, binding(0), Some(ident(1))), statement(ident(0))];
    for _ in 0..30 {
        list.extend((0..15).map(|_| statement(ident(1))));
        list = vec![block(list)];
    }
    named(&["a", "b"], node(1, 0, list))
}

/// Assignments inside one another: each looks through all that it assigns.
fn assignments() -> Script {
    named(&["a"], node(1, 0, vec![statement(chain(190))]))
}

/// As many bindings of the root as may be, each read once, by turns.
fn bindings() -> Script {
    let names: Vec<String> = (0..180).map(|n| format!("n{n}")).collect();
    let mut list: Vec<Tree> = (0..180).map(|n| declare(0, binding(n), None)).collect();
    list.extend((0..180).rev().map(|n| statement(ident(n))).take(60));
    let texts: Vec<&str> = names.iter().map(|name| &name[..]).collect();
    named(&texts, node(1, 0, list))
}

/// A value read once at the front of a long script moves all that is behind it.
fn moves() -> Script {
    let names: Vec<String> = (0..60).map(|n| format!("n{n}")).collect();
    let value = || array(vec![node(22, 0, vec![]), node(22, 0, vec![])]);
    let mut list = Vec::new();
    for n in 0..60 {
        list.push(declare(1, binding(n), Some(value())));
        list.push(statement(ident(n)));
    }
    list.extend((0..400).map(|_| node(3, 0, vec![])));
    let texts: Vec<&str> = names.iter().map(|name| &name[..]).collect();
    named(&texts, node(1, 0, list))
}

/// Functions in one another, `var v = function () { … };`, the innermost with an empty block: each one more doubles the time.
pub fn functions(count: usize) -> Script {
    nested(count, |function| function)
}

/// The same with `var v = b && function () { … };`: each one more quadruples it.
pub fn right_functions(count: usize) -> Script {
    nested(count, |function| node(32, 0, vec![ident(1), function]))
}

fn nested(count: usize, value: impl Fn(Tree) -> Tree) -> Script {
    let list = (0..count).fold(vec![], |list, _| {
        let function = node(39, 0, vec![block(list)]);
        vec![declare(0, binding(0), Some(value(function)))]
    });
    named(&["v", "b"], node(1, 0, list))
}

/// The slow ones by name.
pub fn slow() -> Vec<(&'static str, Script)> {
    vec![
        ("12 right sides of &&", right_sides()),
        ("30 blocks in one another", blocks()),
        ("190 assignments in one another", assignments()),
        ("180 bindings of the root", bindings()),
        ("60 values that move", moves()),
        ("12 right sides of functions", right_sides_of_functions()),
    ]
}

/// The script that a word names: `FAMILY:COUNT`, a number of nodes of `gates`, or a part of a slow one's name.
pub fn by_name(word: &str) -> Option<(String, Script)> {
    let (family, count) = word.split_once(':').unwrap_or(("gates", word));
    if let Ok(count) = count.parse() {
        let script = match family {
            "gates" => gates(count),
            "patterns" => pattern_gates(count),
            "functions" => functions(count),
            "right-functions" => right_functions(count),
            _ => return None,
        };
        return Some((family.to_string(), script));
    }
    let mut all = slow().into_iter();
    all.find(|(name, _)| name.contains(word))
        .map(|(name, script)| (name.to_string(), script))
}
