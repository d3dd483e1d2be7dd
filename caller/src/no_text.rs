//! Why a script has no text: what the printer refuses by 12, looked for here anew.

use crate::twice::Tree;
use crate::{found, places, Kind, TreeFile};
use std::fmt;

/// What stands against a text.
#[derive(Clone, Copy, Debug, PartialEq, Eq, Hash)]
#[non_exhaustive]
pub enum NoTextReason {
    /// A variable or a property whose name is not `[A-Za-z$_][A-Za-z0-9$_]*`.
    NoName,
    /// A variable whose name is a reserved word of ECMA-262.
    Reserved,
    /// A string with a byte outside 32 to 126.
    Byte,
    /// A number whose sign bit is set.
    Sign,
    /// A number that is infinite, or none.
    NotFinite,
    /// A number that has over 25 digits when it is written out.
    Digits,
    /// A sequence of one expression.
    Sequence,
    /// A `return` outside functions.
    Return,
    /// A `let`, a `const` or a function that is itself a branch or a loop's body.
    Body,
    /// A branch before `else` that ends in an `if` without one, which would take it.
    Else,
    /// A second `default` in a `switch`.
    Default,
    /// A value of what the head of a for-in or for-of declares.
    HeadValue,
    /// A pattern that is declared without a value.
    Pattern,
}

impl NoTextReason {
    fn words(self) -> &'static str {
        match self {
            NoTextReason::NoName => "which is no name of letters, digits, $ and _",
            NoTextReason::Reserved => "a reserved word, as a variable",
            NoTextReason::Byte => "a string of other bytes than 32 to 126",
            NoTextReason::Sign => "a number whose sign bit is set",
            NoTextReason::NotFinite => "which is no finite number",
            NoTextReason::Digits => "a number of over 25 digits",
            NoTextReason::Sequence => "a sequence of one expression",
            NoTextReason::Return => "a return outside functions",
            NoTextReason::Body => "a let, a const or a function as a branch or a loop's body",
            NoTextReason::Else => "an if without else, which would take the else behind it",
            NoTextReason::Default => "a second default of its switch",
            NoTextReason::HeadValue => "a value in the head of a for-in or for-of",
            NoTextReason::Pattern => "a pattern that is declared without a value",
        }
    }
}

/// What a text or a number of a node is.
#[derive(Clone, Copy, Debug, PartialEq)]
#[non_exhaustive]
pub enum Written<'a> {
    /// A construct has neither.
    Construct,
    /// A name, or a string. It is any bytes.
    Text(&'a [u8]),
    /// A number.
    Number(f64),
}

/// A node for which no text of ECMA-262's grammar stands: of several the first in the order of the file, but one that is wrong by where it stands comes behind what
/// is wrong in it. Printed it is node 4 (kind 21) with "class", a reserved word, as a
/// variable.
#[derive(Clone, Copy, Debug, PartialEq)]
#[non_exhaustive]
pub struct NoText<'a> {
    /// The node's number, from 1 on in the order of the file.
    pub node: usize,
    /// Its kind.
    pub kind: Kind,
    /// What is wrong there.
    pub reason: NoTextReason,
    /// Its text or number.
    pub written: Written<'a>,
}

impl fmt::Display for NoText<'_> {
    fn fmt(&self, out: &mut fmt::Formatter) -> fmt::Result {
        let words = self.reason.words();
        write!(out, "node {} (kind {})", self.node, self.kind.number())?;
        match self.written {
            Written::Text(text) => {
                write!(out, " with {:?}, {words}", String::from_utf8_lossy(text))
            }
            Written::Number(value) => write!(out, " with {value:?}, {words}"),
            Written::Construct => write!(out, ", {words}"),
        }
    }
}

/// ECMA-262's reserved words but `await` and `yield`, which are names in a script.
const RESERVED: [&str; 36] = [
    "break",
    "case",
    "catch",
    "class",
    "const",
    "continue",
    "debugger",
    "default",
    "delete",
    "do",
    "else",
    "enum",
    "export",
    "extends",
    "false",
    "finally",
    "for",
    "function",
    "if",
    "import",
    "in",
    "instanceof",
    "new",
    "null",
    "return",
    "super",
    "switch",
    "this",
    "throw",
    "true",
    "try",
    "typeof",
    "var",
    "void",
    "while",
    "with",
];

const MOST_DIGITS: usize = 25;

fn is_name(text: &[u8]) -> bool {
    let begins = |byte: &u8| byte.is_ascii_alphabetic() || *byte == b'$' || *byte == b'_';
    text.first().is_some_and(begins) && text.iter().all(|it| begins(it) || it.is_ascii_digit())
}

/// Of a name, a property, a string or a number: what is wrong with it by itself.
fn token(kind: Kind, text: &[u8], value: f64) -> Option<NoTextReason> {
    let is_variable = matches!(kind, Kind::Binding | Kind::Identifier);
    match kind {
        Kind::Binding
        | Kind::Identifier
        | Kind::Property
        | Kind::Member
        | Kind::PatternProperty => {
            let is_reserved = || RESERVED.iter().any(|word| word.as_bytes() == text);
            if !is_name(text) {
                return Some(NoTextReason::NoName);
            }
            (is_variable && is_reserved()).then_some(NoTextReason::Reserved)
        }
        Kind::String => {
            let plain = text.iter().all(|byte| (32..=126).contains(byte));
            (!plain).then_some(NoTextReason::Byte)
        }
        Kind::Number if value.is_sign_negative() => Some(NoTextReason::Sign),
        Kind::Number if !value.is_finite() => Some(NoTextReason::NotFinite),
        Kind::Number => {
            // The standard library writes the fewest digits that are read as the number, without an exponent, and as many in all before the point.
            let digits = value.to_string().bytes().filter(u8::is_ascii_digit).count();
            (digits > MOST_DIGITS).then_some(NoTextReason::Digits)
        }
        _ => None,
    }
}

/// The if without else in which a statement ends.
fn open_if<'t, 'a>(tree: &'t Tree<'a>) -> Option<&'t Tree<'a>> {
    match (tree.kind(), &tree.children[..]) {
        (Kind::If, [_, _]) => Some(tree),
        (Kind::If | Kind::While | Kind::For | Kind::ForIn | Kind::ForOf, [.., last]) => {
            open_if(last)
        }
        _ => None,
    }
}

/// Whether a statement may not be a branch or a loop's body.
fn is_no_body(tree: &Tree) -> bool {
    match tree.kind() {
        Kind::Function => true,
        Kind::Declaration => tree.node.form() > 0,
        _ => false,
    }
}

fn at<'a>(tree: &Tree<'a>, reason: NoTextReason) -> NoText<'a> {
    let text = tree.node.text().map(Written::Text);
    let number = tree.node.number().map(Written::Number);
    NoText {
        node: tree.number,
        kind: tree.kind(),
        reason,
        written: text.or(number).unwrap_or(Written::Construct),
    }
}

/// The branches of an if, the body of a loop.
fn bodies<'t, 'a>(tree: &'t Tree<'a>) -> &'t [Tree<'a>] {
    let children = &tree.children[..];
    match tree.kind() {
        Kind::If | Kind::While | Kind::DoWhile => children.get(1..).unwrap_or_default(),
        Kind::For | Kind::ForIn | Kind::ForOf => children
            .get(children.len().saturating_sub(1)..)
            .unwrap_or_default(),
        _ => &[],
    }
}

/// A child of a node that no production takes there, and why.
fn child<'t, 'a>(tree: &'t Tree<'a>) -> Option<(&'t Tree<'a>, NoTextReason)> {
    let because = |found: Option<&'t Tree<'a>>, reason| found.map(|it| (it, reason));
    let body = because(
        bodies(tree).iter().find(|it| is_no_body(it)),
        NoTextReason::Body,
    );
    body.or_else(|| match (tree.kind(), &tree.children[..]) {
        (Kind::If, [_, then, _]) => because(open_if(then), NoTextReason::Else),
        (Kind::Switch, [_, cases @ ..]) => {
            let mut defaults = cases.iter().filter(|it| it.node.form() == 0);
            because(defaults.nth(1), NoTextReason::Default)
        }
        (Kind::ForIn | Kind::ForOf, [head, ..]) if head.kind() == Kind::Declaration => {
            let value = head.children.first().and_then(|it| it.children.get(1));
            because(value, NoTextReason::HeadValue)
        }
        _ => None,
    })
}

/// What is wrong in a tree; `returns` tells whether a return may stand there, `head` whether it is declared in the head of a for-in or for-of.
fn wrong<'a>(tree: &Tree<'a>, returns: bool, head: bool) -> Result<(), NoText<'a>> {
    let value = tree.node.number().unwrap_or_default();
    let text = tree.node.text().unwrap_or_default();
    let kind = tree.kind();
    let own = match (kind, &tree.children[..]) {
        (Kind::Return, _) if !returns => Some(NoTextReason::Return),
        (Kind::Sequence, [_]) => Some(NoTextReason::Sequence),
        (Kind::Declarator, [name]) if !head && name.kind() != Kind::Binding => {
            Some(NoTextReason::Pattern)
        }
        _ => token(kind, text, value),
    };
    if let Some(reason) = own {
        return Err(at(tree, reason));
    }
    let known = child(tree);
    let returns = returns
        || matches!(
            kind,
            Kind::Function | Kind::FunctionExpression | Kind::Arrow
        );
    for (number, it) in tree.children.iter().enumerate() {
        let looped = matches!(kind, Kind::ForIn | Kind::ForOf) && number == 0;
        wrong(it, returns, looped || (head && kind == Kind::Declaration))?;
        // What is wrong with it where it stands comes behind what is wrong in it.
        if let Some((there, reason)) = known {
            if it.holds(there.number) {
                return Err(at(there, reason));
            }
        }
    }
    Ok(())
}

impl<'a> TreeFile<'a> {
    /// The first node for which no text of ECMA-262's grammar stands, or whose name, string or number has no token. If none of refusals 2 to 7 keeps the file
    /// back, there is one exactly if [`text`](crate::text) refuses it with [`Refusal::NoText`](crate::Refusal::NoText).
    #[must_use]
    pub fn no_text(self) -> Option<NoText<'a>> {
        if found::texts(self).is_some() || places::fault(self, None).is_some() {
            return None;
        }
        let tree = Tree::take(&mut (1..).zip(self.nodes()))?;
        wrong(&tree, false, false).err()
    }

    /// So many bytes suffice for the script's text: 32 for each node, and each node's text twice. A node has at most 29 bytes of its own, a number of 25 digits
    /// with its point, a comma and two blanks; a string has two quotes besides its bytes, of which each may have a `\` before it.
    #[must_use]
    pub fn most_text_bytes(self) -> usize {
        let bytes = |node: crate::Node| 32 + 2 * node.text().map_or(0, <[u8]>::len);
        self.nodes().map(bytes).sum()
    }
}
