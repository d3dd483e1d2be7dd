//! Which name a script declares twice in a scope, and where: what the resolver refuses by 13, looked for here anew.

use crate::{found, places, Kind, Node, TreeFile};
use std::collections::HashMap;
use std::fmt;

/// By what a name is declared.
#[derive(Clone, Copy, Debug, PartialEq, Eq, Hash)]
#[non_exhaustive]
pub enum DeclaredBy {
    /// A `var`.
    Var,
    /// A `let`.
    Let,
    /// A `const`.
    Const,
    /// A function, which has the name.
    Function,
    /// A parameter.
    Parameter,
    /// A catch, for what was caught.
    Catch,
}

impl fmt::Display for DeclaredBy {
    fn fmt(&self, out: &mut fmt::Formatter) -> fmt::Result {
        out.write_str(match self {
            DeclaredBy::Var => "a var",
            DeclaredBy::Let => "a let",
            DeclaredBy::Const => "a const",
            DeclaredBy::Function => "a function",
            DeclaredBy::Parameter => "a parameter",
            DeclaredBy::Catch => "a catch",
        })
    }
}

/// Where a name is declared.
#[derive(Clone, Copy, Debug, PartialEq, Eq)]
#[non_exhaustive]
pub struct Declaration {
    /// The number of the name's node, from 1 on in the order of the file.
    pub node: usize,
    /// By what.
    pub by: DeclaredBy,
}

/// A name that a script declares twice where it may not, with the first of the two places and the second. Its text is "x", declared by a let (node 4) and
/// again by a var (node 12).
#[derive(Clone, Copy, Debug, PartialEq, Eq)]
#[non_exhaustive]
pub struct DeclaredTwice<'a> {
    /// The name. It is any bytes; those of scripts are UTF-8.
    pub name: &'a [u8],
    /// Where it was declared before.
    pub first: Declaration,
    /// Where it is declared again.
    pub again: Declaration,
}

impl fmt::Display for DeclaredTwice<'_> {
    fn fmt(&self, out: &mut fmt::Formatter) -> fmt::Result {
        let name = String::from_utf8_lossy(self.name);
        let [first, again] =
            [self.first, self.again].map(|it| format!("by {} (node {})", it.by, it.node));
        write!(out, "{name:?}, declared {first} and again {again}")
    }
}

/// A node with its number and what is below it.
pub(crate) struct Tree<'a> {
    pub node: Node<'a>,
    pub number: usize,
    pub children: Vec<Tree<'a>>,
}

impl<'a> Tree<'a> {
    /// The next of the nodes with all below it. A script is at most 200 deep.
    pub fn take(nodes: &mut impl Iterator<Item = (usize, Node<'a>)>) -> Option<Tree<'a>> {
        let (number, node) = nodes.next()?;
        let children = (0..node.children())
            .map(|_| Tree::take(nodes))
            .collect::<Option<_>>()?;
        Some(Tree {
            node,
            number,
            children,
        })
    }

    pub fn kind(&self) -> Kind {
        self.node.kind()
    }

    /// Whether the node of that number is this one or stands below it.
    pub fn holds(&self, number: usize) -> bool {
        self.number == number || self.children.iter().any(|it| it.holds(number))
    }

    /// The names that a binding or a pattern binds; what stands in a default's value is none of them.
    fn bound(&self) -> Vec<&Tree<'a>> {
        match self.kind() {
            Kind::Binding => vec![self],
            Kind::Default => self.children.first().map_or(Vec::new(), Tree::bound),
            Kind::ObjectPattern | Kind::ArrayPattern | Kind::PatternProperty => {
                self.children.iter().flat_map(Tree::bound).collect()
            }
            _ => Vec::new(),
        }
    }
}

/// The names that stand in a scope, each with its first place: declared as of the scope alone; by `var` in it or in what it holds; as a parameter.
#[derive(Default)]
struct Scope {
    lexical: HashMap<u32, Declaration>,
    var: HashMap<u32, Declaration>,
    parameters: HashMap<u32, Declaration>,
    /// A script or a function, which a `var` does not pass.
    holds_vars: bool,
}

/// Two declarations of a text's number.
type Found = (u32, Declaration, Declaration);

/// The scopes that are open, the innermost last. What is looked for ends the walk.
struct Scopes(Vec<Scope>);

fn declaration(name: &Tree, by: DeclaredBy) -> Option<(u32, Declaration)> {
    let text = name.node.text_number()?;
    let node = name.number;
    Some((text, Declaration { node, by }))
}

impl Scopes {
    /// A name that its scope may have once, and that no `var` or parameter there may have.
    fn lexical(&mut self, name: &Tree, by: DeclaredBy) -> Result<(), Found> {
        let found = declaration(name, by).zip(self.0.last_mut());
        let Some(((text, again), scope)) = found else {
            return Ok(());
        };
        let before = [&scope.lexical, &scope.parameters, &scope.var];
        if let Some(first) = before.iter().find_map(|names| names.get(&text)) {
            return Err((text, *first, again));
        }
        scope.lexical.insert(text, again);
        Ok(())
    }

    /// A name of a `var`, in each scope around up to the script's or the function's.
    fn var(&mut self, name: &Tree, by: DeclaredBy) -> Result<(), Found> {
        let Some((text, again)) = declaration(name, by) else {
            return Ok(());
        };
        for scope in self.0.iter_mut().rev() {
            if let Some(first) = scope.lexical.get(&text) {
                return Err((text, *first, again));
            }
            scope.var.entry(text).or_insert(again);
            if scope.holds_vars {
                break;
            }
        }
        Ok(())
    }

    fn open(
        &mut self,
        holds_vars: bool,
        inside: impl FnOnce(&mut Scopes) -> Result<(), Found>,
    ) -> Result<(), Found> {
        self.0.push(Scope {
            holds_vars,
            ..Scope::default()
        });
        inside(self)?;
        self.0.pop();
        Ok(())
    }

    fn all(&mut self, trees: &[Tree]) -> Result<(), Found> {
        trees.iter().try_for_each(|tree| self.walk(tree))
    }

    /// Statements at the top of a script or of a function's body, where functions are declared as by `var`.
    fn top(&mut self, statements: &[Tree]) -> Result<(), Found> {
        for statement in statements {
            match (statement.kind(), statement.children.split_first()) {
                (Kind::Function, Some((name, inside))) => {
                    self.var(name, DeclaredBy::Function)?;
                    self.function(inside)?;
                }
                _ => self.walk(statement)?,
            }
        }
        Ok(())
    }

    /// A function's parameters and its body, as one scope, whether or not the body's own names are apart from the parameters.
    fn function(&mut self, inside: &[Tree]) -> Result<(), Found> {
        self.open(true, |scopes| {
            let Some((body, parameters)) = inside.split_last() else {
                return Ok(());
            };
            for name in parameters.iter().flat_map(Tree::bound) {
                let known = declaration(name, DeclaredBy::Parameter).zip(scopes.0.last_mut());
                if let Some(((text, it), scope)) = known {
                    scope.parameters.entry(text).or_insert(it);
                }
            }
            scopes.all(parameters)?;
            match body.kind() {
                Kind::Block => scopes.top(&body.children),
                _ => scopes.walk(body),
            }
        })
    }

    /// A catch's binding and its block, as one scope, likewise.
    fn catch(&mut self, inside: &[Tree]) -> Result<(), Found> {
        self.open(false, |scopes| {
            let Some((block, binding)) = inside.split_last() else {
                return Ok(());
            };
            for name in binding.iter().flat_map(Tree::bound) {
                scopes.lexical(name, DeclaredBy::Catch)?;
            }
            scopes.all(binding)?;
            scopes.all(&block.children)
        })
    }

    fn declarators(&mut self, tree: &Tree) -> Result<(), Found> {
        let names = tree.children.iter().filter_map(|it| it.children.first());
        for name in names.flat_map(Tree::bound) {
            match tree.node.form() {
                0 => self.var(name, DeclaredBy::Var)?,
                1 => self.lexical(name, DeclaredBy::Let)?,
                _ => self.lexical(name, DeclaredBy::Const)?,
            }
        }
        self.all(&tree.children)
    }

    fn walk(&mut self, tree: &Tree) -> Result<(), Found> {
        let children = &tree.children[..];
        match (tree.kind(), children.split_first()) {
            (Kind::Script, _) => self.open(true, |scopes| scopes.top(children)),
            (Kind::Block | Kind::For | Kind::ForIn | Kind::ForOf | Kind::Switch, _) => {
                self.open(false, |scopes| scopes.all(children))
            }
            (Kind::Declaration, _) => self.declarators(tree),
            // One that stands in a block, a case, a branch or a loop.
            (Kind::Function, Some((name, inside))) => {
                self.lexical(name, DeclaredBy::Function)?;
                self.function(inside)
            }
            (Kind::FunctionExpression, Some((_, inside))) if tree.node.form() == 1 => {
                self.function(inside)
            }
            (Kind::FunctionExpression | Kind::Arrow, _) => self.function(children),
            (Kind::Catch, _) => self.catch(children),
            _ => self.all(children),
        }
    }
}

impl<'a> TreeFile<'a> {
    /// The first name, in the order of the file, that the script declares twice where it may not: what a `let`, a `const`, a block's function or a catch
    /// declares may be declared once in its scope, by no `var` that stands in it, and in a function's body be no parameter. There is one exactly if
    /// [`resolve`](crate::resolve) refuses the file with [`Refusal::DeclaredTwice`](crate::Refusal::DeclaredTwice).
    #[must_use]
    pub fn declared_twice(self) -> Option<DeclaredTwice<'a>> {
        if found::texts(self).is_some() || places::fault(self, None).is_some() {
            return None;
        }
        let tree = Tree::take(&mut (1..).zip(self.nodes()))?;
        let (text, first, again) = Scopes(Vec::new()).walk(&tree).err()?;
        Some(DeclaredTwice {
            name: self.text(text)?,
            first,
            again,
        })
    }
}
