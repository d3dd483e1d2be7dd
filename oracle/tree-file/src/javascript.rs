//! A script as JavaScript text, for reading and for running. Parentheses are added freely; the
//! text means what the tree means, a pair of kind 41 more or less.

use crate::{Script, Tree};

const UNARY: [&str; 7] = ["void ", "typeof ", "!", "-", "+", "~", "delete "];
pub(crate) const BINARY: [&str; 25] = [
    "&&",
    "||",
    "==",
    "!=",
    "===",
    "!==",
    "<",
    "<=",
    ">",
    ">=",
    "<<",
    ">>",
    ">>>",
    "+",
    "-",
    "*",
    "/",
    "%",
    "|",
    "^",
    "&",
    "in",
    "instanceof",
    "**",
    "??",
];
pub(crate) const ASSIGN: [&str; 16] = [
    "=", "+=", "-=", "*=", "/=", "%=", "<<=", ">>=", ">>>=", "|=", "^=", "&=", "**=", "&&=", "||=",
    "??=",
];

/// The whole script on one line, statements a blank apart.
pub fn print(script: &Script) -> String {
    Printer {
        texts: &script.texts,
    }
    .stmts(&script.tree.kids)
}

struct Printer<'a> {
    texts: &'a [Vec<u8>],
}

fn is_name(text: &str) -> bool {
    !text.is_empty()
        && text
            .chars()
            .all(|c| c.is_ascii_alphanumeric() || c == '_' || c == '$')
        && !text.starts_with(|c: char| c.is_ascii_digit())
}

fn quoted(text: &str) -> String {
    let escape = |c: char| match c {
        '"' | '\\' => format!("\\{c}"),
        ' '..='~' => c.to_string(),
        _ => format!("\\u{{{:x}}}", c as u32),
    };
    format!("\"{}\"", text.chars().map(escape).collect::<String>())
}

fn number(value: f64) -> String {
    if value.is_nan() {
        "(0 / 0)".into()
    } else if value.is_infinite() {
        format!("({}1 / 0)", if value < 0.0 { "-" } else { "" })
    } else if value.is_sign_negative() {
        format!("(-{:e})", -value)
    } else if value < 1e15 && value.fract() == 0.0 {
        format!("{value}")
    } else {
        format!("{value:e}")
    }
}

/// What an expression's text begins with, as far as no parenthesis is before it.
fn first(t: &Tree) -> &Tree {
    match t.kind {
        33 | 42 => first(&t.kids[0]),
        _ => t,
    }
}

impl Printer<'_> {
    fn text(&self, t: &Tree) -> String {
        String::from_utf8_lossy(&self.texts[t.text as usize]).into_owned()
    }

    /// A variable; contexts other than 0 are part of the name.
    fn ident(&self, t: &Tree) -> String {
        match t.bits {
            0 => self.text(t),
            context => format!("{}${context}", self.text(t)),
        }
    }

    fn list(&self, list: &[Tree]) -> String {
        let items: Vec<String> = list.iter().map(|e| self.assigned(e)).collect();
        items.join(", ")
    }

    fn stmts(&self, list: &[Tree]) -> String {
        let items: Vec<String> = list.iter().map(|s| self.stmt(s)).collect();
        items.join(" ")
    }

    fn block(&self, t: &Tree) -> String {
        if t.kids.is_empty() {
            return "{}".into();
        }
        format!("{{ {} }}", self.stmts(&t.kids))
    }

    fn params(&self, list: &[Tree]) -> String {
        let names: Vec<String> = list.iter().map(|b| self.expr(b)).collect();
        names.join(", ")
    }

    fn function(&self, name: &str, list: &[Tree]) -> String {
        let (body, params) = list.split_last().expect("a body");
        let gap = if name.is_empty() { "" } else { " " };
        format!(
            "function{gap}{name}({}) {}",
            self.params(params),
            self.block(body)
        )
    }

    fn declaration(&self, t: &Tree) -> String {
        let declarator = |d: &Tree| match d.kids.get(1) {
            None => self.expr(&d.kids[0]),
            Some(e) => format!("{} = {}", self.expr(&d.kids[0]), self.assigned(e)),
        };
        let list: Vec<String> = t.kids.iter().map(declarator).collect();
        let word = ["var", "let", "const"][t.form as usize];
        format!("{word} {}", list.join(", "))
    }

    fn head(&self, t: &Tree) -> String {
        match t.kind {
            5 => self.declaration(t),
            _ => self.expr(t),
        }
    }

    fn for_stmt(&self, t: &Tree) -> String {
        let mut kids = t.kids.iter();
        let mut part = |bit: u8| match t.form & bit {
            0 => String::new(),
            _ => self.head(kids.next().expect("a part")),
        };
        let (start, test, update) = (part(1), part(2), part(4));
        let body = self.stmt(kids.next().expect("a body"));
        format!("for ({start}; {test}; {update}) {body}")
    }

    fn if_stmt(&self, t: &Tree) -> String {
        let test = self.expr(&t.kids[0]);
        let cons = self.stmt(&t.kids[1]);
        match t.kids.get(2) {
            None => format!("if ({test}) {cons}"),
            // Braces keep an inner `if` from taking the `else`.
            Some(alt) if t.kids[1].kind != 2 => {
                format!("if ({test}) {{ {cons} }} else {}", self.stmt(alt))
            }
            Some(alt) => format!("if ({test}) {cons} else {}", self.stmt(alt)),
        }
    }

    fn try_stmt(&self, t: &Tree) -> String {
        let mut out = format!("try {}", self.block(&t.kids[0]));
        for part in &t.kids[1..] {
            out += &match (part.kind, part.kids.len()) {
                (17, 2) => format!(
                    " catch ({}) {}",
                    self.expr(&part.kids[0]),
                    self.block(&part.kids[1])
                ),
                (17, _) => format!(" catch {}", self.block(&part.kids[0])),
                _ => format!(" finally {}", self.block(part)),
            };
        }
        out
    }

    fn case(&self, t: &Tree) -> String {
        let (test, list) = t.kids.split_at(t.form as usize);
        match test.first() {
            Some(e) => format!("case {}: {}", self.expr(e), self.stmts(list)),
            None => format!("default: {}", self.stmts(list)),
        }
    }

    fn stmt(&self, t: &Tree) -> String {
        let kids = &t.kids;
        match t.kind {
            2 => self.block(t),
            3 => ";".into(),
            4 if matches!(first(&kids[0]).kind, 28 | 39 | 45) => {
                format!("({});", self.expr(&kids[0]))
            }
            4 => format!("{};", self.expr(&kids[0])),
            5 => format!("{};", self.declaration(t)),
            7 => self.function(&self.ident(&kids[0]), &kids[1..]),
            8 => match kids.first() {
                None => "return;".into(),
                Some(e) => format!("return {};", self.expr(e)),
            },
            9 => self.if_stmt(t),
            10 => format!("while ({}) {}", self.expr(&kids[0]), self.stmt(&kids[1])),
            11 => format!(
                "do {} while ({});",
                self.stmt(&kids[1]),
                self.expr(&kids[0])
            ),
            12 => self.for_stmt(t),
            13 | 14 => {
                let word = if t.kind == 13 { "in" } else { "of" };
                let (head, right) = (self.head(&kids[0]), self.assigned(&kids[1]));
                format!("for ({head} {word} {right}) {}", self.stmt(&kids[2]))
            }
            15 => format!("throw {};", self.expr(&kids[0])),
            16 => self.try_stmt(t),
            18 => {
                let cases: Vec<String> = kids[1..].iter().map(|c| self.case(c)).collect();
                format!("switch ({}) {{ {} }}", self.expr(&kids[0]), cases.join(" "))
            }
            43 => "break;".into(),
            44 => "continue;".into(),
            kind => unreachable!("no statement: {kind}"),
        }
    }

    /// Where a sequence would be taken apart by the comma, and `in` by a head.
    fn assigned(&self, t: &Tree) -> String {
        match (t.kind, t.form) {
            (42, _) | (32, 21) => format!("({})", self.expr(t)),
            _ => self.expr(t),
        }
    }

    /// As an operand, the object of a member, or a callee.
    fn operand(&self, t: &Tree) -> String {
        match t.kind {
            21..=23 | 25..=27 | 35 | 37 | 38 | 41 => self.expr(t),
            _ => format!("({})", self.expr(t)),
        }
    }

    fn member(&self, t: &Tree) -> String {
        let name = self.text(t);
        let object = self.operand(&t.kids[0]);
        if is_name(&name) {
            format!("{object}.{name}")
        } else {
            format!("{object}[{}]", quoted(&name))
        }
    }

    fn construction(&self, t: &Tree) -> String {
        let callee = match t.kids[0].kind {
            21 | 26 | 41 => self.expr(&t.kids[0]),
            _ => format!("({})", self.expr(&t.kids[0])),
        };
        match t.form {
            0 => format!("new {callee}"),
            _ => format!("new {callee}({})", self.list(&t.kids[1..])),
        }
    }

    fn arrow(&self, t: &Tree) -> String {
        let (body, params) = t.kids.split_last().expect("a body");
        let body = match (t.form, body.kind) {
            (0, _) => self.block(body),
            (_, 42) => self.assigned(body),
            _ if matches!(first(body).kind, 28 | 45) => format!("({})", self.expr(body)),
            _ => self.assigned(body),
        };
        format!("({}) => {body}", self.params(params))
    }

    fn property(&self, t: &Tree) -> String {
        let name = self.text(t);
        let key = if is_name(&name) { name } else { quoted(&name) };
        format!("{key}: {}", self.assigned(&t.kids[0]))
    }

    fn unary(&self, t: &Tree) -> String {
        let arg = match t.kids[0].kind {
            24 => self.expr(&t.kids[0]),
            _ => self.operand(&t.kids[0]),
        };
        format!("{}{arg}", UNARY[t.form as usize])
    }

    fn side(&self, t: &Tree) -> String {
        match t.kind {
            24 => self.expr(t),
            _ => self.operand(t),
        }
    }

    fn expr(&self, t: &Tree) -> String {
        let kids = &t.kids;
        let form = t.form as usize;
        match t.kind {
            20 | 21 => self.ident(t),
            22 => "null".into(),
            23 => ["false", "true"][form].into(),
            24 => number(f64::from_bits(t.bits)),
            25 => quoted(&self.text(t)),
            26 => "this".into(),
            27 | 46 => format!("[{}]", self.list(kids)),
            28 | 45 => {
                let list: Vec<String> = kids.iter().map(|p| self.property(p)).collect();
                format!("{{{}}}", list.join(", "))
            }
            30 => self.unary(t),
            31 => match (form, self.expr(&kids[0])) {
                (0, arg) => format!("++{arg}"),
                (1, arg) => format!("--{arg}"),
                (2, arg) => format!("{arg}++"),
                (_, arg) => format!("{arg}--"),
            },
            32 => {
                let (left, right) = (self.side(&kids[0]), self.side(&kids[1]));
                format!("{left} {} {right}", BINARY[form])
            }
            33 => {
                let (left, right) = (self.expr(&kids[0]), self.assigned(&kids[1]));
                format!("{left} {} {right}", ASSIGN[form])
            }
            34 => {
                let parts: Vec<String> = kids.iter().map(|e| self.operand(e)).collect();
                format!("{} ? {} : {}", parts[0], parts[1], parts[2])
            }
            35 => format!("{}({})", self.operand(&kids[0]), self.list(&kids[1..])),
            36 => self.construction(t),
            37 => self.member(t),
            38 => format!("{}[{}]", self.operand(&kids[0]), self.expr(&kids[1])),
            39 => {
                let (name, rest) = kids.split_at(form);
                let name = name.first().map(|b| self.ident(b)).unwrap_or_default();
                self.function(&name, rest)
            }
            40 => self.arrow(t),
            41 => format!("({})", self.expr(&kids[0])),
            42 => self.list(kids),
            48 => format!("{} = {}", self.expr(&kids[0]), self.assigned(&kids[1])),
            kind => unreachable!("no expression: {kind}"),
        }
    }
}
