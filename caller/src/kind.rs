//! The kinds of nodes, and what their forms stand for.

/// What a node is. [`Kind::number`] is its number in the tree file. A later version may have further kinds.
#[derive(Clone, Copy, Debug, PartialEq, Eq, Hash, PartialOrd, Ord)]
#[non_exhaustive]
pub enum Kind {
    /// 1: The root, of statements.
    Script,
    /// 2: `{ … }`, of statements.
    Block,
    /// 3: `;`
    Empty,
    /// 4: An expression as a statement.
    ExpressionStatement,
    /// 5: `var`, `let` or `const`, of declarators.
    Declaration,
    /// 6: A name or a pattern, and its initialiser if there is one.
    Declarator,
    /// 7: A function declaration: its name, its parameters (names, patterns, or either with a default), its block.
    Function,
    /// 8: `return`, with or without an expression.
    Return,
    /// 9: `if`, with or without `else`.
    If,
    /// 10: `while`.
    While,
    /// 11: `do … while`; the test comes first.
    DoWhile,
    /// 12: `for (;;)`; the form's bits 1, 2 and 4 tell whether start, test and update are there.
    For,
    /// 13: `for (… in …)`; a declaration, a name or a pattern comes first.
    ForIn,
    /// 14: `for (… of …)`, likewise.
    ForOf,
    /// 15: `throw`.
    Throw,
    /// 16: `try`; the form's bits 1 and 2 tell whether catch and finalizer are there.
    Try,
    /// 17: `catch`, with or without a name or a pattern for what was caught.
    Catch,
    /// 18: `switch`.
    Switch,
    /// 19: `case` (form 1), or `default` (form 0).
    Case,
    /// 20: A name that is bound or assigned to.
    Binding,
    /// 21: A name that is read.
    Identifier,
    /// 22: `null`.
    Null,
    /// 23: `false` (form 0) or `true` (form 1).
    Boolean,
    /// 24: A number.
    Number,
    /// 25: A string.
    String,
    /// 26: `this`.
    This,
    /// 27: `[ … ]`
    Array,
    /// 28: `{ … }`, of properties.
    Object,
    /// 29: A property: its name as text, and its value.
    Property,
    /// 30: A sign or word before an expression.
    Unary,
    /// 31: `++` or `--`, before (forms 0 and 1) or behind (forms 2 and 3) its operand.
    Update,
    /// 32: A sign or word between two expressions.
    Binary,
    /// 33: An assignment, to a name or a member; by `=` to a pattern too.
    Assignment,
    /// 34: `… ? … : …`
    Conditional,
    /// 35: A call: what is called, and the arguments.
    Call,
    /// 36: `new`, with (form 1) or without a list of arguments.
    New,
    /// 37: `object.name`; the name is its text.
    Member,
    /// 38: `object[ … ]`
    ComputedMember,
    /// 39: A function expression, with (form 1) or without a name.
    FunctionExpression,
    /// 40: An arrow function, of a block (form 0) or an expression (form 1).
    Arrow,
    /// 41: `( … )`
    Parenthesis,
    /// 42: `…, …`
    Sequence,
    /// 43: `break`.
    Break,
    /// 44: `continue`.
    Continue,
    /// 45: `{ … }` where names are bound or assigned, of pattern properties.
    ObjectPattern,
    /// 46: `[ … ]` likewise, of names and patterns, each with a default or without.
    ArrayPattern,
    /// 47: A property of an object pattern: its name as text, and the name or pattern that takes it. `{today}` is written out, as
    /// `{today: today}`.
    PatternProperty,
    /// 48: `… = …`, a name or a pattern with its default, as a parameter or inside a pattern.
    Default,
    /// A number that this version of the crate has no name for. A file with such a node is refused.
    Unlisted(u8),
}

/// The kinds of the numbers from 1 on.
const LISTED: [Kind; 48] = [
    Kind::Script,
    Kind::Block,
    Kind::Empty,
    Kind::ExpressionStatement,
    Kind::Declaration,
    Kind::Declarator,
    Kind::Function,
    Kind::Return,
    Kind::If,
    Kind::While,
    Kind::DoWhile,
    Kind::For,
    Kind::ForIn,
    Kind::ForOf,
    Kind::Throw,
    Kind::Try,
    Kind::Catch,
    Kind::Switch,
    Kind::Case,
    Kind::Binding,
    Kind::Identifier,
    Kind::Null,
    Kind::Boolean,
    Kind::Number,
    Kind::String,
    Kind::This,
    Kind::Array,
    Kind::Object,
    Kind::Property,
    Kind::Unary,
    Kind::Update,
    Kind::Binary,
    Kind::Assignment,
    Kind::Conditional,
    Kind::Call,
    Kind::New,
    Kind::Member,
    Kind::ComputedMember,
    Kind::FunctionExpression,
    Kind::Arrow,
    Kind::Parenthesis,
    Kind::Sequence,
    Kind::Break,
    Kind::Continue,
    Kind::ObjectPattern,
    Kind::ArrayPattern,
    Kind::PatternProperty,
    Kind::Default,
];

const DECLARATIONS: [&str; 3] = ["var", "let", "const"];
const BOOLEANS: [&str; 2] = ["false", "true"];
const UNARY: [&str; 7] = ["void", "typeof", "!", "-", "+", "~", "delete"];
const UPDATES: [&str; 4] = ["++", "--", "++", "--"];
const BINARY: [&str; 25] = [
    "&&",
    "||",
    "==",
    "!=",
    "===",
    "!==",
    "<",
    "<=",
    ">",
    ">=",
    "<<",
    ">>",
    ">>>",
    "+",
    "-",
    "*",
    "/",
    "%",
    "|",
    "^",
    "&",
    "in",
    "instanceof",
    "**",
    "??",
];
const ASSIGNMENTS: [&str; 16] = [
    "=", "+=", "-=", "*=", "/=", "%=", "<<=", ">>=", ">>>=", "|=", "^=", "&=", "**=", "&&=", "||=",
    "??=",
];

impl Kind {
    /// The kind of a number.
    #[must_use]
    pub fn from_number(number: u8) -> Kind {
        let listed = usize::from(number)
            .checked_sub(1)
            .and_then(|at| LISTED.get(at));
        *listed.unwrap_or(&Kind::Unlisted(number))
    }

    /// Its number in the tree file.
    #[must_use]
    pub fn number(self) -> u8 {
        match self {
            Kind::Unlisted(number) => number,
            listed => (1..=48)
                .find(|number| Kind::from_number(*number) == listed)
                .unwrap_or(0),
        }
    }

    /// Whether a node of this kind has a text: a name, a string, or a property's name.
    #[must_use]
    pub fn has_text(self) -> bool {
        let properties = matches!(self, Kind::Property | Kind::Member | Kind::PatternProperty);
        self.has_context() || self == Kind::String || properties
    }

    /// Whether a node of this kind takes a value apart.
    #[must_use]
    pub fn is_pattern(self) -> bool {
        matches!(self, Kind::ObjectPattern | Kind::ArrayPattern)
    }

    /// Whether a node of this kind has a context: a name that stands for a variable.
    #[must_use]
    pub fn has_context(self) -> bool {
        matches!(self, Kind::Binding | Kind::Identifier)
    }

    /// The sign or word that a form of this kind stands for, as JavaScript writes it.
    pub(crate) fn token(self, form: u8) -> Option<&'static str> {
        let all: &[&str] = match self {
            Kind::Declaration => &DECLARATIONS,
            Kind::Boolean => &BOOLEANS,
            Kind::Unary => &UNARY,
            Kind::Update => &UPDATES,
            Kind::Binary => &BINARY,
            Kind::Assignment => &ASSIGNMENTS,
            _ => &[],
        };
        all.get(usize::from(form)).copied()
    }
}

#[cfg(test)]
mod tests {
    use super::Kind;

    #[test]
    fn every_number_has_a_kind_of_its_own() {
        for number in 0..=u8::MAX {
            let kind = Kind::from_number(number);
            assert_eq!(kind.number(), number);
            let unlisted = matches!(kind, Kind::Unlisted(_));
            assert_eq!(unlisted, !(1..=48).contains(&number));
        }
    }

    #[test]
    fn kinds_have_the_numbers_of_the_tree_file() {
        let some = [
            (Kind::Script, 1),
            (Kind::ForOf, 14),
            (Kind::Binding, 20),
            (Kind::String, 25),
            (Kind::Unary, 30),
            (Kind::Member, 37),
            (Kind::Continue, 44),
            (Kind::ObjectPattern, 45),
            (Kind::ArrayPattern, 46),
            (Kind::PatternProperty, 47),
            (Kind::Default, 48),
        ];
        for (kind, number) in some {
            assert_eq!(kind.number(), number);
        }
    }

    #[test]
    fn tokens_are_by_form() {
        assert_eq!(Kind::Declaration.token(2), Some("const"));
        assert_eq!(Kind::Binary.token(22), Some("instanceof"));
        assert_eq!(Kind::Assignment.token(15), Some("??="));
        assert_eq!(Kind::Update.token(3), Some("--"));
        assert_eq!(Kind::Unary.token(7), None);
        assert_eq!(Kind::Script.token(0), None);
    }
}
