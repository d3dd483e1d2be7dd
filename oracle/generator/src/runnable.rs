//! Random scripts that an engine can run: free of early errors, and, as the pass assumes, every
//! declared name belongs to one variable.
//!
//! What they can see of the host: `g` traces its arguments and changes `h` and `o.p`; `o.q` is a
//! method that traces its `this`; `k[e]` traces e without a call, which the pass would take for a
//! barrier and for a write; `o.m` is true a few times, so that loops end.

use crate::node::*;
use crate::rng::Rng;
use tree_file::{Script, Tree, ARGUMENTS};

#[derive(Clone, Copy, PartialEq)]
enum Sort {
    Var,
    Let,
    Const,
    Function,
}

#[derive(Clone, Copy)]
struct Name {
    text: u32,
    sort: Sort,
}

#[derive(Clone, Copy, Default)]
struct Place {
    in_function: bool,
    in_loop: bool,
    /// Directly in a function's or the script's own list, where functions may be declared.
    at_top: bool,
}

/// What a script may use. Each script draws its own, since the commonest differences would
/// otherwise hide the rarer ones.
struct Allowed {
    again: bool,
    constants: bool,
    /// The host's `h` and `o.p`, which calls change.
    changing: bool,
    /// Initialisers other than names and literals.
    subtrees: bool,
    before: bool,
    arrows: bool,
    /// Where they are not, nothing is drawn for them.
    patterns: bool,
}

impl Allowed {
    fn draw(rng: &mut Rng) -> Allowed {
        Allowed {
            again: rng.once_in(4),
            constants: rng.once_in(3),
            changing: rng.once_in(3),
            subtrees: rng.once_in(2),
            before: rng.once_in(3),
            arrows: rng.once_in(2),
            patterns: false,
        }
    }
}

struct Maker<'a> {
    rng: &'a mut Rng,
    allowed: Allowed,
    texts: Vec<Vec<u8>>,
    made: usize,
    /// The names of the open scopes, innermost last.
    visible: Vec<Vec<Name>>,
    /// Where the innermost function's own scope lies in `visible`.
    functions: Vec<usize>,
}

/// A script of about `size` nodes without patterns.
pub fn script(rng: &mut Rng, size: usize) -> Script {
    let allowed = Allowed::draw(rng);
    made(rng, size, allowed)
}

/// One with patterns.
pub fn pattern_script(rng: &mut Rng, size: usize) -> Script {
    let allowed = Allowed {
        patterns: true,
        ..Allowed::draw(rng)
    };
    made(rng, size, allowed)
}

fn made(rng: &mut Rng, size: usize, allowed: Allowed) -> Script {
    let mut maker = Maker {
        rng,
        allowed,
        texts: Vec::new(),
        made: 0,
        visible: vec![vec![]],
        functions: vec![0],
    };
    let place = Place {
        at_top: true,
        ..Place::default()
    };
    let list = maker.statements(size, place);
    Script {
        tree: node(1, 0, list),
        texts: maker.texts,
    }
}

impl Maker<'_> {
    fn text(&mut self, text: &[u8]) -> u32 {
        let at = self.texts.iter().position(|t| t == text);
        at.unwrap_or_else(|| {
            self.texts.push(text.to_vec());
            self.texts.len() - 1
        }) as u32
    }

    fn host(&mut self, name: &str) -> Tree {
        ident(self.text(name.as_bytes()))
    }

    fn host_member(&mut self, name: &str) -> Tree {
        let object = self.host("o");
        named(37, self.text(name.as_bytes()), 0, vec![object])
    }

    fn fresh(&mut self) -> u32 {
        self.made += 1;
        let name = format!("v{}", self.made);
        self.text(name.as_bytes())
    }

    fn add(&mut self, text: u32, sort: Sort) {
        let at = match sort {
            Sort::Var | Sort::Function => *self.functions.last().expect("a function"),
            _ => self.visible.len() - 1,
        };
        self.visible[at].push(Name { text, sort });
    }

    fn names(&self) -> Vec<Name> {
        self.visible.iter().flatten().copied().collect()
    }

    fn any_name(&mut self) -> Option<Name> {
        let names = self.names();
        // The youngest are the most interesting.
        match names.len() {
            0 => None,
            count if self.rng.once_in(2) => Some(names[count - 1 - self.rng.below(count.min(3))]),
            count => Some(names[self.rng.below(count)]),
        }
    }

    fn in_scope<T>(&mut self, function: bool, make: impl FnOnce(&mut Self) -> T) -> T {
        self.visible.push(vec![]);
        if function {
            self.functions.push(self.visible.len() - 1);
        }
        let made = make(self);
        if function {
            self.functions.pop();
        }
        self.visible.pop();
        made
    }

    fn statements(&mut self, size: usize, place: Place) -> Vec<Tree> {
        let mut list = Vec::new();
        let mut used = 0;
        while used < size {
            let share = self.rng.from(3, (size - used).clamp(3, 14));
            let made = self.statement(share, place);
            used += made.count();
            let ends = matches!(made.kind, 8 | 15 | 43 | 44);
            list.push(made);
            if ends {
                break;
            }
        }
        list
    }

    fn block(&mut self, size: usize, place: Place) -> Tree {
        let place = Place {
            at_top: false,
            ..place
        };
        block(self.in_scope(false, |maker| maker.statements(size, place)))
    }

    fn trace(&mut self, size: usize) -> Tree {
        let value = self.expression(size);
        if !self.rng.once_in(3) {
            let traced = self.host("k");
            return statement(node(38, 0, vec![traced, value]));
        }
        let mut args = vec![value];
        if self.rng.once_in(3) {
            args.push(self.expression(1));
        }
        statement(call(self.host("g"), args))
    }

    /// The variables of the innermost function, which `var` may declare again.
    fn own_vars(&self) -> Vec<u32> {
        let function = *self.functions.last().expect("a function");
        let names = self.visible[function].iter();
        let vars = names.filter(|name| name.sort == Sort::Var);
        vars.map(|name| name.text).collect()
    }

    fn takes_pattern(&mut self) -> bool {
        self.allowed.patterns && self.rng.once_in(3)
    }

    /// A pattern over these names, and a value that it takes apart without an error of its own.
    fn taken_apart(&mut self, names: &[u32]) -> (Tree, Tree) {
        let mut targets: Vec<Tree> = names.iter().map(|name| binding(*name)).collect();
        for target in &mut targets {
            if self.rng.once_in(3) {
                let value = self.expression(3);
                *target = node(48, 0, vec![std::mem::take(target), value]);
            }
        }
        if self.rng.once_in(2) {
            let count = self.rng.from(names.len() - 1, names.len());
            let value = array((0..count).map(|_| self.expression(1)).collect());
            return (node(46, 0, targets), value);
        }
        let keys = ["p", "q"].map(|key| self.text(key.as_bytes()));
        let value = match self.rng.once_in(2) {
            true => self.host("o"),
            false => {
                let properties = keys.map(|key| named(29, key, 0, vec![self.expression(1)]));
                node(28, 0, properties.into())
            }
        };
        let targets = targets.into_iter().zip(keys.into_iter().cycle());
        let properties = targets.map(|(target, key)| named(47, key, 0, vec![target]));
        (node(45, 0, properties.collect()), value)
    }

    /// One or two fresh names.
    fn fresh_names(&mut self) -> Vec<u32> {
        (0..self.rng.from(1, 2)).map(|_| self.fresh()).collect()
    }

    fn declared_pattern(&mut self, form: u8) -> Tree {
        let old = self.own_vars();
        let mut names = self.fresh_names();
        if form == 0 && !old.is_empty() && self.rng.once_in(3) {
            names[0] = *self.rng.pick(&old);
        }
        let (pattern, value) = self.taken_apart(&names);
        for name in names.into_iter().filter(|name| !old.contains(name)) {
            self.add(name, [Sort::Var, Sort::Let, Sort::Const][form as usize]);
        }
        declare(form, pattern, Some(value))
    }

    fn declaration(&mut self, size: usize) -> Tree {
        let form = match *self.rng.pick(&[0, 0, 0, 1, 1, 2]) {
            2 if !self.allowed.constants => 1,
            form => form,
        };
        if self.takes_pattern() {
            return self.declared_pattern(form);
        }
        let old = self.own_vars();
        let again = self.allowed.again && form == 0 && !old.is_empty() && self.rng.once_in(3);
        let text = if again {
            *self.rng.pick(&old)
        } else {
            self.fresh()
        };
        // The name may be known in its own initialiser.
        let early = self.allowed.before && !again && self.rng.once_in(3);
        if early {
            self.add(text, [Sort::Var, Sort::Let, Sort::Const][form as usize]);
        }
        let init = (form == 2 || !self.rng.once_in(4)).then(|| {
            if !self.allowed.subtrees || self.rng.once_in(2) {
                self.expression(1)
            } else {
                self.expression(size)
            }
        });
        if !again && !early {
            self.add(text, [Sort::Var, Sort::Let, Sort::Const][form as usize]);
        }
        declare(form, binding(text), init)
    }

    fn function(&mut self, size: usize) -> Vec<Tree> {
        self.in_scope(true, |maker| {
            let params: Vec<u32> = (0..maker.rng.below(3)).map(|_| maker.fresh()).collect();
            params.iter().for_each(|text| maker.add(*text, Sort::Var));
            let mut kids: Vec<Tree> = params.iter().map(|text| binding(*text)).collect();
            if maker.takes_pattern() {
                let names = maker.fresh_names();
                let (pattern, value) = maker.taken_apart(&names);
                kids.push(node(48, 0, vec![pattern, value]));
                names.iter().for_each(|text| maker.add(*text, Sort::Var));
            }
            let place = Place {
                in_function: true,
                in_loop: false,
                at_top: true,
            };
            let mut body = maker.statements(size, place);
            if maker.rng.once_in(2) {
                let value = maker.expression(2);
                body.push(node(8, 0, vec![value]));
            }
            kids.push(block(body));
            kids
        })
    }

    fn test(&mut self) -> Tree {
        self.host_member("m")
    }

    /// The start of a `for`.
    fn start(&mut self) -> Tree {
        let text = self.fresh();
        self.add(text, Sort::Var);
        let value = self.expression(1);
        declare(0, binding(text), Some(value))
    }

    fn looped(&mut self, size: usize, place: Place) -> Tree {
        let inner = Place {
            in_loop: true,
            ..place
        };
        match self.rng.below(5) {
            0 => node(10, 0, vec![self.test(), self.block(size, inner)]),
            1 => {
                let body = self.block(size, inner);
                node(11, 0, vec![self.test(), body])
            }
            2 => {
                let start = self.start();
                let test = self.test();
                let update = self.expression(3);
                let body = self.block(size, inner);
                node(12, 7, vec![start, test, update, body])
            }
            3 => {
                let mut body = self.block(size, inner);
                body.kids.push(node(43, 0, vec![]));
                node(12, 0, vec![body])
            }
            _ => self.for_each(size, inner),
        }
    }

    fn for_each(&mut self, size: usize, inner: Place) -> Tree {
        let kind = *self.rng.pick(&[13, 14]);
        let list = array(vec![number(1.0), number(2.0)]);
        let old = self
            .any_name()
            .filter(|name| matches!(name.sort, Sort::Var | Sort::Let));
        if self.takes_pattern() {
            return self.for_each_pattern(size, inner, old);
        }
        self.in_scope(false, |maker| {
            let head = match old {
                Some(name) if maker.rng.once_in(2) => binding(name.text),
                _ => {
                    let form = maker.rng.below(2) as u8;
                    let text = maker.fresh();
                    maker.add(text, if form == 0 { Sort::Var } else { Sort::Let });
                    declare(form, binding(text), None)
                }
            };
            let body = maker.block(size, inner);
            node(kind, 0, vec![head, list, body])
        })
    }

    fn for_each_pattern(&mut self, size: usize, inner: Place, old: Option<Name>) -> Tree {
        self.in_scope(false, |maker| {
            let (names, form) = match old {
                Some(name) if maker.rng.once_in(2) => (vec![name.text], None),
                _ => (maker.fresh_names(), Some(maker.rng.below(2) as u8)),
            };
            let (pattern, value) = maker.taken_apart(&names);
            let head = match form {
                None => pattern,
                Some(form) => {
                    let sort = if form == 0 { Sort::Var } else { Sort::Let };
                    names.iter().for_each(|text| maker.add(*text, sort));
                    declare(form, pattern, None)
                }
            };
            let body = maker.block(size, inner);
            node(14, 0, vec![head, array(vec![value.clone(), value]), body])
        })
    }

    fn try_stmt(&mut self, size: usize, place: Place) -> Tree {
        let mut inside = self.block(size / 2 + 1, place);
        if self.rng.once_in(2) && !ends(&inside) {
            let thrown = self.expression(1);
            inside.kids.push(node(15, 0, vec![thrown]));
        }
        let catch = self.in_scope(false, |maker| {
            let text = maker.fresh();
            maker.add(text, Sort::Let);
            let mut name = binding(text);
            if maker.takes_pattern() {
                let key = maker.text(b"length");
                name = node(45, 0, vec![named(47, key, 0, vec![name])]);
            }
            let body = maker.block(size / 2 + 1, place);
            node(17, 0, vec![name, body])
        });
        if self.rng.once_in(4) {
            let last = self.block(3, Place::default());
            return node(16, 3, vec![inside, catch, last]);
        }
        node(16, 1, vec![inside, catch])
    }

    fn switch(&mut self, size: usize, place: Place) -> Tree {
        let place = Place {
            at_top: false,
            ..place
        };
        let on = self.expression(1);
        self.in_scope(false, |maker| {
            let mut kids = vec![on];
            for _ in 0..maker.rng.from(1, 3) {
                let test = maker.expression(1);
                let mut case = vec![test];
                case.extend(maker.statements(size / 3 + 1, place));
                kids.push(node(19, 1, case));
            }
            if maker.rng.once_in(2) {
                let list = maker.statements(3, place);
                kids.push(node(19, 0, list));
            }
            node(18, 0, kids)
        })
    }

    fn statement(&mut self, size: usize, place: Place) -> Tree {
        let big = size > 6;
        match self.rng.below(26) {
            0..=6 => self.declaration(size - 2),
            7..=11 => self.trace(size - 2),
            12..=15 => statement(self.written(size - 1)),
            16 => self.block(size - 1, place),
            17 | 18 if big => {
                let test = self.expression(3);
                let mut kids = vec![test, self.block(size / 2, place)];
                if self.rng.once_in(2) {
                    kids.push(self.block(size / 2, place));
                }
                node(9, 0, kids)
            }
            19 | 20 if big => self.looped(size - 4, place),
            21 if big => self.try_stmt(size - 3, place),
            22 if big => self.switch(size - 2, place),
            23 | 24 if place.at_top => {
                let text = self.fresh();
                self.add(text, Sort::Function);
                let mut kids = vec![binding(text)];
                kids.extend(self.function(size));
                node(7, 0, kids)
            }
            25 if place.in_loop && self.rng.once_in(2) => {
                node(*self.rng.pick(&[43, 44]), 0, vec![])
            }
            25 if place.in_function && self.rng.once_in(2) => node(8, 0, vec![self.expression(2)]),
            _ => self.trace(size - 2),
        }
    }

    /// Something that writes a variable, or calls one.
    fn written(&mut self, size: usize) -> Tree {
        let Some(name) = self.any_name() else {
            return self.expression(size);
        };
        if name.sort == Sort::Function || self.rng.once_in(8) {
            let args = (0..self.rng.below(3)).map(|_| self.expression(1)).collect();
            return call(ident(name.text), args);
        }
        if self.rng.once_in(4) {
            return node(31, self.rng.below(4) as u8, vec![ident(name.text)]);
        }
        if name.sort == Sort::Const && !self.rng.once_in(6) {
            return self.expression(size);
        }
        if self.takes_pattern() {
            let other = self.any_name();
            let other = other.filter(|other| matches!(other.sort, Sort::Var | Sort::Let));
            let names: Vec<u32> = std::iter::once(name)
                .chain(other)
                .map(|name| name.text)
                .collect();
            let (pattern, value) = self.taken_apart(&names);
            return assign(pattern, value);
        }
        let value = if self.rng.once_in(2) {
            self.expression(1)
        } else {
            self.expression(size)
        };
        let form = *self.rng.pick(&[0, 0, 0, 1, 13, 14, 15]);
        node(33, form, vec![binding(name.text), value])
    }

    fn leaf(&mut self) -> Tree {
        match self.rng.below(12) {
            0 => node(22, 0, vec![]),
            1 => node(23, self.rng.below(2) as u8, vec![]),
            2 | 3 => number(self.rng.below(9) as f64),
            4 if self.allowed.changing => self.host("h"),
            5 if self.allowed.changing => self.host_member("p"),
            6 if self.functions.len() > 1 && self.rng.once_in(2) => {
                let arguments = ident(self.text(ARGUMENTS));
                node(38, 0, vec![arguments, number(0.0)])
            }
            _ => match self.any_name() {
                Some(name) => ident(name.text),
                None => number(self.rng.below(9) as f64),
            },
        }
    }

    fn expression(&mut self, size: usize) -> Tree {
        if size < 2 {
            return self.leaf();
        }
        let half = size / 2;
        match self.rng.below(22) {
            0..=3 => self.leaf(),
            4 | 5 => node(27, 0, vec![self.expression(size - 1)]),
            6 => node(28, 0, vec![]),
            7..=9 => {
                let form = *self.rng.pick(&[0, 0, 1, 1, 13, 4, 6, 24]);
                node(32, form, vec![self.expression(half), self.expression(half)])
            }
            10 | 11 => self.written(size),
            12 => {
                let test = self.expression(1);
                node(
                    34,
                    0,
                    vec![test, self.expression(half), self.expression(half)],
                )
            }
            13 | 14 => {
                let args = vec![self.expression(half)];
                call(self.host("g"), args)
            }
            15 => {
                let method = self.host_member("q");
                call(method, vec![])
            }
            16 => self.host_member("q"),
            18 if self.allowed.arrows => {
                let body = self.in_scope(true, |maker| maker.expression(half));
                node(40, 1, vec![body])
            }
            17 | 18 => node(39, 0, self.function(half)),
            19 => node(41, 0, vec![self.expression(size - 1)]),
            20 => node(
                30,
                *self.rng.pick(&[0, 1, 2, 3]),
                vec![self.expression(size - 1)],
            ),
            _ => node(42, 0, vec![self.expression(half), self.expression(half)]),
        }
    }
}

fn ends(block: &Tree) -> bool {
    block
        .kids
        .last()
        .is_some_and(|last| matches!(last.kind, 8 | 15 | 43 | 44))
}
