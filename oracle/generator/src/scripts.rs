//! Random readable scripts over every kind and form.
//!
//! Few names and many declarations, so that most reads meet a binding; each script draws its own
//! weights, so that rare kinds are common in some scripts.

use crate::node::*;
use crate::rng::Rng;
use tree_file::{Script, Tree, ARGUMENTS};

/// One begins like another, and one is nearly `arguments`.
const NAMES: [&str; 11] = [
    "a",
    "ab",
    "b",
    "c",
    "f",
    "g",
    "o",
    "v",
    "x",
    "y",
    "argumentz",
];
const OTHERS: [&str; 3] = ["q", "", "key-1"];

struct Maker<'a> {
    rng: &'a mut Rng,
    /// Text numbers of variables.
    names: Vec<u32>,
    texts: Vec<Vec<u8>>,
    contexts: &'static [u64],
    statement_weights: Vec<usize>,
    expression_weights: Vec<usize>,
    /// How often, out of ten times, a group of statements that belong together is written.
    idioms: usize,
    /// How often, out of ten times, a pattern stands where one may. Where it is 0 nothing is drawn for it, so that scripts without
    /// patterns are those of their seed whatever patterns there are.
    patterns: usize,
}

/// Kinds of statements, with the fewest nodes and the usual weight of each.
const STATEMENTS: [(u8, usize, usize); 17] = [
    (2, 1, 3),
    (3, 1, 1),
    (4, 2, 14),
    (5, 3, 20),
    (7, 3, 5),
    (8, 1, 2),
    (9, 3, 4),
    (10, 3, 2),
    (11, 3, 2),
    (12, 2, 3),
    (13, 4, 2),
    (14, 4, 2),
    (15, 2, 1),
    (16, 3, 3),
    (18, 2, 3),
    (43, 1, 1),
    (44, 1, 1),
];

/// Kinds of expressions likewise.
const EXPRESSIONS: [(u8, usize, usize); 21] = [
    (21, 1, 20),
    (22, 1, 2),
    (23, 1, 2),
    (24, 1, 5),
    (25, 1, 2),
    (26, 1, 1),
    (27, 1, 6),
    (28, 1, 2),
    (30, 2, 3),
    (31, 2, 2),
    (32, 3, 8),
    (33, 3, 9),
    (34, 4, 2),
    (35, 2, 6),
    (36, 2, 3),
    (37, 2, 4),
    (38, 3, 2),
    (39, 2, 3),
    (40, 2, 4),
    (41, 2, 2),
    (42, 2, 2),
];

/// A readable script without patterns, of at most `nodes` nodes, 1 to 1,024.
pub fn script(rng: &mut Rng, nodes: usize) -> Script {
    Maker::new(rng).script(nodes)
}

/// The same with patterns in every place that takes one.
pub fn pattern_script(rng: &mut Rng, nodes: usize) -> Script {
    let mut maker = Maker::new(rng);
    maker.patterns = *maker.rng.pick(&[2, 4, 6, 9]);
    maker.script(nodes)
}

fn nodes_of(list: &[Tree]) -> usize {
    list.iter().map(Tree::count).sum()
}

impl<'a> Maker<'a> {
    fn new(rng: &'a mut Rng) -> Maker<'a> {
        let mut list: Vec<&str> = NAMES.to_vec();
        let count = rng.from(2, 6);
        while list.len() > count {
            let at = rng.below(list.len());
            list.remove(at);
        }
        let mut texts: Vec<Vec<u8>> = list.iter().map(|name| name.as_bytes().to_vec()).collect();
        if rng.once_in(3) {
            texts.push(ARGUMENTS.to_vec());
        }
        let names = (0..texts.len() as u32).collect();
        let others = rng.below(OTHERS.len() + 1);
        texts.extend(OTHERS[..others].iter().map(|text| text.as_bytes().to_vec()));
        // Two contexts agree in their lower half.
        let contexts: &[u64] = if rng.once_in(3) {
            &[0, 1, 1 << 32]
        } else {
            &[0]
        };
        let mut weights = |table: &[(u8, usize, usize)]| -> Vec<usize> {
            // Names, expressions and declarations are never left out.
            let mut vary = |row: &(u8, usize, usize)| match row.0 {
                4 | 5 | 21 => row.2 * *rng.pick(&[1, 1, 2, 4]),
                _ => row.2 * *rng.pick(&[0, 1, 1, 1, 2, 4]),
            };
            table.iter().map(&mut vary).collect()
        };
        let (statement_weights, expression_weights) = (weights(&STATEMENTS), weights(&EXPRESSIONS));
        let idioms = *rng.pick(&[0, 3, 5, 8]);
        Maker {
            rng,
            names,
            texts,
            contexts,
            statement_weights,
            expression_weights,
            idioms,
            patterns: 0,
        }
    }

    fn script(mut self, nodes: usize) -> Script {
        let tree = node(1, 0, self.statements(nodes - 1));
        Script {
            tree,
            texts: self.texts,
        }
    }

    fn name(&mut self, kind: u8) -> Tree {
        let text = *self.rng.pick(&self.names);
        let context = *self.rng.pick(self.contexts);
        named(kind, text, context, vec![])
    }

    fn any_text(&mut self) -> u32 {
        self.rng.below(self.texts.len()) as u32
    }

    /// Which row of a table fits into `n` nodes.
    fn choose(&mut self, table: &[(u8, usize, usize)], weights: &[usize], n: usize) -> u8 {
        // Where the budget is large, what has no children is chosen seldom, else sizes are never met.
        let fit = |(row, weight): (&(u8, usize, usize), &usize)| match row {
            (_, least, _) if *least > n => 0,
            (_, least, _) if n > 3 && *least == 1 => *weight,
            _ => weight * 6,
        };
        let weights: Vec<usize> = table.iter().zip(weights).map(fit).collect();
        match weights.iter().sum() {
            0 => table[0].0,
            _ => table[self.rng.weighted(&weights)].0,
        }
    }

    /// Statements of `n` nodes together, or a few less.
    fn statements(&mut self, n: usize) -> Vec<Tree> {
        let mut list = Vec::new();
        let mut left = n;
        while left > 0 {
            let most = if self.rng.once_in(5) {
                left
            } else {
                left.min(16)
            };
            // A share of one or two nodes has room for little of interest.
            let least = if self.rng.once_in(6) { 1 } else { left.min(4) };
            let share = self.rng.from(least, most);
            let made = if share >= 7 && self.rng.below(10) < self.idioms {
                self.idiom(share)
            } else {
                vec![self.any_statement(share)]
            };
            let size = nodes_of(&made);
            assert!(size <= share, "statements larger than their share");
            left -= size;
            list.extend(made);
        }
        list
    }

    fn any_statement(&mut self, n: usize) -> Tree {
        let weights = self.statement_weights.clone();
        let kind = self.choose(&STATEMENTS, &weights, n);
        self.statement(n, kind)
    }

    fn inner_statement(&mut self, n: usize) -> Tree {
        let weights = self.statement_weights.clone();
        match self.choose(&STATEMENTS, &weights, n) {
            // Loops and branches take a block most of the time.
            kind if kind != 2 && n > 1 && self.rng.once_in(2) => {
                block(vec![self.statement(n - 1, kind)])
            }
            kind => self.statement(n, kind),
        }
    }

    fn block(&mut self, n: usize) -> Tree {
        block(self.statements(n - 1))
    }

    /// A block of exactly or nearly `n` nodes, `n` at least 1, and parameters before it.
    fn function(&mut self, n: usize) -> Vec<Tree> {
        let mut kids = self.params(n - 1);
        kids.push(self.block(n - nodes_of(&kids)));
        kids
    }

    /// Up to two parameters, of at most `n` nodes together.
    fn params(&mut self, n: usize) -> Vec<Tree> {
        let count = self.rng.below(3).min(n);
        let mut kids = Vec::new();
        for still in (0..count).rev() {
            kids.push(self.binding_target(n - nodes_of(&kids) - still));
        }
        kids
    }

    fn declaration(&mut self, n: usize, most: usize) -> Tree {
        let mut kids = Vec::new();
        let mut left = n - 1;
        while left >= 2 && kids.len() < most {
            let share = match left {
                2 => 2,
                _ if kids.len() + 1 == most || self.rng.once_in(2) => left,
                _ => self.rng.from(2, left),
            };
            let mut declarator = vec![self.name_or_pattern(share - 1 - usize::from(share > 2))];
            let rest = share - 1 - nodes_of(&declarator);
            if rest > 0 {
                declarator.push(self.value(rest));
            }
            kids.push(node(6, 0, declarator));
            left -= share;
        }
        node(5, *self.rng.pick(&[0, 0, 1, 1, 2]), kids)
    }

    /// An initialiser or right side: often a name or a literal, whatever the room.
    fn value(&mut self, n: usize) -> Tree {
        match self.rng.below(4) {
            0 => self.leaf(),
            _ => self.expression(n),
        }
    }

    fn leaf(&mut self) -> Tree {
        self.expression(1)
    }

    fn for_stmt(&mut self, n: usize) -> Tree {
        let (mut kids, mut form, mut room) = (Vec::new(), 0, n - 2);
        for bit in [1, 2, 4] {
            if room == 0 || self.rng.once_in(2) {
                continue;
            }
            let size = self.rng.from(1, room.min(6));
            let part = match bit {
                1 if size >= 3 => self.declaration(size, 2),
                _ => self.expression(size),
            };
            room -= part.count();
            kids.push(part);
            form |= bit;
        }
        kids.push(self.inner_statement(room + 1));
        node(12, form, kids)
    }

    fn for_head(&mut self, n: usize) -> Tree {
        if n >= 3 && self.rng.once_in(2) {
            if self.takes_pattern() {
                let form = self.rng.below(3) as u8;
                return declare(form, self.pattern(n - 2), None);
            }
            let room = if self.rng.once_in(5) { n.min(6) } else { 3 };
            self.declaration(room, 1)
        } else {
            self.name_or_pattern(n)
        }
    }

    fn try_stmt(&mut self, n: usize) -> Tree {
        let form = match n {
            3 => 2,
            4 => self.rng.from(1, 2),
            _ => self.rng.from(1, 3),
        };
        let parts = if form == 3 { 3 } else { 2 };
        // A catch is one node more than its block.
        let shares = self.rng.shares(n - 1 - (form & 1), parts);
        let mut kids = vec![self.block(shares[0])];
        if form & 1 != 0 {
            kids.push(self.catch(shares[1] + 1));
        }
        if form & 2 != 0 {
            kids.push(self.block(shares[parts - 1]));
        }
        node(16, form as u8, kids)
    }

    fn catch(&mut self, n: usize) -> Tree {
        let mut kids = Vec::new();
        if n > 2 && !self.rng.once_in(4) {
            kids.push(self.name_or_pattern(n - 2));
        }
        kids.push(self.block(n - 1 - nodes_of(&kids)));
        node(17, 0, kids)
    }

    fn switch(&mut self, n: usize) -> Tree {
        let test = self.rng.from(1, (n - 1).min(4));
        let mut kids = vec![self.expression(test)];
        let mut left = n - 1 - kids[0].count();
        while left > 0 {
            let share = self.rng.from(1, left);
            let case = self.case(share);
            left -= case.count();
            kids.push(case);
        }
        node(18, 0, kids)
    }

    fn case(&mut self, n: usize) -> Tree {
        let mut kids = Vec::new();
        if n > 1 && !self.rng.once_in(3) {
            let test = self.rng.from(1, (n - 1).min(3));
            kids.push(self.expression(test));
        }
        let form = kids.len() as u8;
        let used = nodes_of(&kids);
        kids.extend(self.statements(n - 1 - used));
        node(19, form, kids)
    }

    /// Two or three parts of an `if`, a loop or a for-in, sharing what is left.
    fn test_and_statement(&mut self, n: usize) -> Vec<Tree> {
        let test = self.rng.from(1, (n - 2).min(8));
        let test = self.expression(test);
        let rest = n - 1 - test.count();
        vec![test, self.inner_statement(rest)]
    }

    fn if_stmt(&mut self, n: usize) -> Tree {
        if n < 4 || self.rng.once_in(2) {
            return node(9, 0, self.test_and_statement(n));
        }
        let alt = self.rng.from(1, n - 3);
        let alt = self.inner_statement(alt);
        let mut kids = self.test_and_statement(n - alt.count());
        kids.push(alt);
        node(9, 0, kids)
    }

    fn statement(&mut self, n: usize, kind: u8) -> Tree {
        match kind {
            2 => self.block(n),
            3 | 43 | 44 => node(kind, 0, vec![]),
            4 | 15 if n >= 2 => node(kind, 0, vec![self.expression(n - 1)]),
            5 if n >= 3 => self.declaration(n, 3),
            7 if n >= 3 => {
                let mut kids = vec![self.name(20)];
                kids.extend(self.function(n - 2));
                node(7, 0, kids)
            }
            8 if n >= 2 => node(8, 0, vec![self.expression(n - 1)]),
            8 => node(8, 0, vec![]),
            9 if n >= 3 => self.if_stmt(n),
            10 | 11 if n >= 3 => node(kind, 0, self.test_and_statement(n)),
            12 if n >= 2 => self.for_stmt(n),
            13 | 14 if n >= 4 => {
                let head = self.for_head(n - 3);
                let mut kids = vec![head];
                let rest = n - kids[0].count();
                kids.extend(self.test_and_statement(rest));
                node(kind, 0, kids)
            }
            16 if n >= 3 => self.try_stmt(n),
            18 if n >= 2 => self.switch(n),
            _ => node(3, 0, vec![]),
        }
    }

    fn expressions(&mut self, n: usize, least: usize) -> Vec<Tree> {
        if n == 0 {
            return vec![];
        }
        let count = self.rng.from(least.max(1), n.min(least.max(3)));
        let shares = self.rng.shares(n, count);
        shares
            .into_iter()
            .map(|share| self.expression(share))
            .collect()
    }

    /// What an update or an assignment may be to; a name has the given kind.
    fn target(&mut self, n: usize, kind: u8) -> Tree {
        match n {
            2.. if self.rng.once_in(4) => {
                named(37, self.any_text(), 0, vec![self.expression(n - 1)])
            }
            3.. if self.rng.once_in(4) => node(38, 0, self.pair(n - 1)),
            _ => self.name(kind),
        }
    }

    fn pair(&mut self, n: usize) -> Vec<Tree> {
        let left = self.rng.from(1, n - 1);
        vec![self.expression(left), self.expression(n - left)]
    }

    fn expression(&mut self, n: usize) -> Tree {
        let weights = self.expression_weights.clone();
        let kind = self.choose(&EXPRESSIONS, &weights, n);
        match kind {
            21 => self.name(21),
            22 | 26 => node(kind, 0, vec![]),
            23 => node(23, self.rng.below(2) as u8, vec![]),
            24 => number(*self.rng.pick(&[0.0, 1.0, 2.0, 7.0, -0.0, 0.5, f64::NAN])),
            25 => named(25, self.any_text(), 0, vec![]),
            27 => node(27, 0, self.expressions(n - 1, 0)),
            28 => self.object(n),
            30 => {
                let form = self.rng.below(7) as u8;
                node(30, form, vec![self.expression(n - 1)])
            }
            31 => {
                let form = self.rng.below(4) as u8;
                node(31, form, vec![self.target(n - 1, 21)])
            }
            32 => {
                let any = self.rng.below(25) as u8;
                let form = *self.rng.pick(&[0, 0, 1, 1, 13, any, any]);
                node(32, form, self.pair(n - 1))
            }
            33 => self.assignment(n),
            34 => {
                let shares = self.rng.shares(n - 1, 3);
                node(
                    34,
                    0,
                    shares.into_iter().map(|s| self.expression(s)).collect(),
                )
            }
            35 | 42 => node(kind, 0, self.expressions(n - 1, 1)),
            36 if self.rng.once_in(2) => node(36, 0, vec![self.expression(n - 1)]),
            36 => node(36, 1, self.expressions(n - 1, 1)),
            37 => named(37, self.any_text(), 0, vec![self.expression(n - 1)]),
            38 => node(38, 0, self.pair(n - 1)),
            39 if n >= 3 && self.rng.once_in(2) => {
                let mut kids = vec![self.name(20)];
                kids.extend(self.function(n - 2));
                node(39, 1, kids)
            }
            39 => node(39, 0, self.function(n - 1)),
            40 if self.rng.once_in(2) => node(40, 0, self.function(n - 1)),
            40 => self.expression_arrow(n),
            _ => node(41, 0, vec![self.expression(n - 1)]),
        }
    }

    fn object(&mut self, n: usize) -> Tree {
        let mut kids = Vec::new();
        let mut left = n - 1;
        while left >= 2 {
            let share = if self.rng.once_in(2) {
                left
            } else {
                self.rng.from(2, left)
            };
            let property = named(29, self.any_text(), 0, vec![self.expression(share - 1)]);
            left -= share;
            kids.push(property);
        }
        node(28, 0, kids)
    }

    fn assignment(&mut self, n: usize) -> Tree {
        let form = match self.rng.below(3) {
            0 => self.rng.below(16) as u8,
            _ => 0,
        };
        let room = if n > 4 { self.rng.from(1, n - 3) } else { 1 };
        let target = match form {
            0 if self.takes_pattern() => self.pattern(room.max(n.min(9) - 2)),
            _ => self.target(room.min(5), 20),
        };
        let rest = n - 1 - target.count();
        let value = self.value(rest);
        node(33, form, vec![target, value])
    }

    fn expression_arrow(&mut self, n: usize) -> Tree {
        let mut kids = self.params(n - 2);
        kids.push(self.expression(n - 1 - nodes_of(&kids)));
        node(40, 1, kids)
    }
}

/// Patterns, of at most `n` nodes, `n` at least 1.
impl Maker<'_> {
    fn takes_pattern(&mut self) -> bool {
        self.patterns > 0 && self.rng.below(10) < self.patterns
    }

    /// Where a name or a pattern may stand.
    fn name_or_pattern(&mut self, n: usize) -> Tree {
        match self.takes_pattern() {
            true => self.pattern(n),
            false => self.name(20),
        }
    }

    /// A target: a name or a pattern, with a default or without.
    fn binding_target(&mut self, n: usize) -> Tree {
        if n < 3 || !self.takes_pattern() || self.rng.once_in(2) {
            return self.name_or_pattern(n);
        }
        let name = self.name_or_pattern(n - 2);
        let room = self.rng.from(1, (n - 1 - name.count()).min(8));
        // An assignment in a default changes how the names after it are taken.
        let value = match room {
            3.. if self.rng.once_in(3) => self.assignment(room),
            _ => self.value(room),
        };
        node(48, 0, vec![name, value])
    }

    /// An object pattern or an array pattern; seldom one that takes all the room.
    fn pattern(&mut self, n: usize) -> Tree {
        let kind = self.rng.from(45, 46) as u8;
        let most = if self.rng.once_in(6) { n } else { n.min(9) };
        let mut left = self.rng.from(most.min(3), most) - 1;
        let key = usize::from(kind == 45);
        let mut kids = Vec::new();
        while left > key && !(kids.len() > 1 && self.rng.once_in(3)) {
            let share = self.rng.from(1 + key, left);
            let mut target = self.binding_target(share - key);
            if kind == 45 {
                target = named(47, self.any_text(), 0, vec![target]);
            }
            left -= target.count();
            kids.push(target);
        }
        node(kind, 0, kids)
    }

    /// A pattern that binds the given name, of up to six nodes more.
    fn pattern_of(&mut self, name: Tree) -> Tree {
        let bare = match self.rng.once_in(4) {
            true => node(48, 0, vec![name, self.leaf()]),
            false => name,
        };
        let kind = self.rng.from(45, 46) as u8;
        let mut kids = vec![bare];
        if self.rng.once_in(2) {
            let at = self.rng.below(2);
            let other = self.name(20);
            kids.insert(at, other);
        }
        if kind == 45 {
            for kid in &mut kids {
                *kid = named(47, self.any_text(), 0, vec![std::mem::take(kid)]);
            }
        }
        node(kind, 0, kids)
    }

    /// Groups of statements around a name that a pattern binds or sets.
    fn pattern_idiom(&mut self, name: Tree, read: Tree) -> Vec<Tree> {
        let form = self.rng.below(3) as u8;
        let pattern = self.pattern_of(name.clone());
        let other = self.name(20);
        match self.rng.below(6) {
            // a parameter taken apart, an alias of what it binds, something between, and a read
            0 => {
                let alias = declare(form, other.clone(), Some(as_ident(&name)));
                let between = self.statement(3, 4);
                let body = vec![alias, between, statement(as_ident(&other))];
                vec![function(self.name(20), vec![pattern], body)]
            }
            // a value, set again by a pattern
            1 => vec![
                declare(form.min(1), name, Some(self.leaf())),
                statement(assign(pattern, self.leaf())),
                statement(read),
            ],
            // a declaration taken apart, and a read
            2 => vec![
                declare(form, pattern, Some(self.leaf())),
                statement(array(vec![read])),
            ],
            // the same after a declaration of the name
            3 => vec![
                declare(0, name, Some(self.leaf())),
                declare(0, pattern, Some(self.leaf())),
                statement(read),
            ],
            // caught and read
            4 => {
                let body = block(vec![statement(read)]);
                let catch = node(17, 0, vec![pattern, body]);
                vec![node(16, 1, vec![block(vec![]), catch])]
            }
            // a constant that names a variable, which a pattern or a head then sets
            _ => vec![
                declare(2, other.clone(), Some(read)),
                match self.rng.once_in(2) {
                    true => statement(assign(pattern, self.leaf())),
                    false => {
                        let kind = self.rng.from(13, 14) as u8;
                        node(kind, 0, vec![pattern, self.leaf(), node(3, 0, vec![])])
                    }
                },
                statement(as_ident(&other)),
            ],
        }
    }
}

/// Groups of statements that the pass treats as one story.
impl Maker<'_> {
    fn idiom(&mut self, n: usize) -> Vec<Tree> {
        let name = self.name(20);
        let read = as_ident(&name);
        if n >= 10 && self.takes_pattern() {
            let list = self.pattern_idiom(name, read);
            return if nodes_of(&list) <= n {
                list
            } else {
                vec![self.statement(n, 4)]
            };
        }
        let form = *self.rng.pick(&[0, 0, 1, 2]);
        let size = self.rng.from(1, n.min(12).saturating_sub(4).max(1));
        let list = match self.rng.below(9) {
            // a value read once
            0 => vec![
                declare(form, name, Some(self.expression(size))),
                statement(array(vec![read])),
            ],
            // declared empty, then written
            1 => vec![
                declare(form.min(1), name.clone(), None),
                statement(assign(name, self.leaf())),
                statement(read),
            ],
            // a constant that names a variable, which is then written
            2 => {
                let other = self.name(20);
                vec![
                    declare(2, name, Some(as_ident(&other))),
                    statement(assign(other, self.leaf())),
                    statement(read),
                ]
            }
            // declared twice
            3 => vec![
                declare(0, name.clone(), Some(self.leaf())),
                declare(0, name, Some(self.expression(size))),
                statement(read),
            ],
            // an alias of a parameter, something between, and a read
            4 => {
                let param = self.name(20);
                let between = self.inner_statement(size);
                let body = vec![
                    declare(form, name, Some(as_ident(&param))),
                    between,
                    statement(read),
                ];
                vec![function(self.name(20), vec![param], body)]
            }
            // a member kept in a variable and called
            5 => vec![
                declare(
                    form,
                    name,
                    Some(named(37, self.any_text(), 0, vec![self.name(21)])),
                ),
                statement(call(read.clone(), vec![])),
                statement(read),
            ],
            // an alias across a call
            6 => {
                let other = self.name(20);
                vec![
                    declare(form, other.clone(), Some(self.leaf())),
                    statement(call(self.name(21), vec![])),
                    declare(form, name, Some(as_ident(&other))),
                    statement(read),
                ]
            }
            // declared in a block, read outside
            7 => vec![
                block(vec![declare(0, name, Some(self.leaf()))]),
                statement(read),
            ],
            // nested right sides
            _ => vec![statement(self.logical(size))],
        };
        if nodes_of(&list) <= n {
            list
        } else {
            vec![self.statement(n, 4)]
        }
    }

    fn logical(&mut self, n: usize) -> Tree {
        if n < 4 {
            return self.leaf();
        }
        let inner = self.logical(n - 3);
        let right = if self.rng.once_in(2) {
            array(vec![inner])
        } else {
            inner
        };
        node(32, self.rng.below(2) as u8, vec![self.leaf(), right])
    }
}
