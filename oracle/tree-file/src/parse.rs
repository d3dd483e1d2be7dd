//! Scripts written as JavaScript text, for tests and documents: the kinds of the tree file, every
//! `;` written, no regular expressions or templates. `x$2` is the variable `x` of context 2.

use crate::javascript::{ASSIGN, BINARY};
use crate::{Script, Tree};

/// The script, or what was not understood.
pub fn parse(source: &str) -> Result<Script, String> {
    let tokens = tokens(source)?;
    let mut parser = Parser {
        tokens,
        at: 0,
        texts: Vec::new(),
        no_in: false,
    };
    let mut list = Vec::new();
    while parser.peek() != "" {
        list.push(parser.statement()?);
    }
    Ok(Script {
        tree: Tree::new(1, 0, list),
        texts: parser.texts,
    })
}

/// Longer ones first.
const SIGNS: &[&str] = &[
    ">>>=", "===", "!==", ">>>", "<<=", ">>=", "**=", "&&=", "||=", "??=", "=>", "==", "!=", "<=",
    ">=", "<<", ">>", "&&", "||", "??", "++", "--", "+=", "-=", "*=", "/=", "%=", "|=", "^=", "&=",
    "**", "{", "}", "(", ")", "[", "]", ";", ",", "<", ">", "+", "-", "*", "/", "%", "|", "&", "^",
    "!", "~", "?", ":", "=", ".",
];

fn in_name(c: char) -> bool {
    c.is_ascii_alphanumeric() || c == '_' || c == '$'
}

fn tokens(source: &str) -> Result<Vec<String>, String> {
    let mut list = Vec::new();
    let mut rest = source.trim_start();
    while let Some(first) = rest.chars().next() {
        let length = if first.is_ascii_digit() {
            rest.find(|c: char| !(in_name(c) || c == '.'))
                .unwrap_or(rest.len())
        } else if in_name(first) {
            rest.find(|c| !in_name(c)).unwrap_or(rest.len())
        } else if first == '"' {
            2 + rest[1..].find('"').ok_or("an open string")?
        } else {
            let sign = SIGNS.iter().find(|s| rest.starts_with(**s));
            sign.ok_or(format!("unknown sign at {rest}"))?.len()
        };
        list.push(rest[..length].to_string());
        rest = rest[length..].trim_start();
    }
    Ok(list)
}

/// An expression as the name or pattern that it is; what is none is left, and no file with it is read.
fn pattern(mut t: Tree) -> Tree {
    t.kind = match (t.kind, t.form) {
        (21, _) => 20,
        (27, _) => 46,
        (28, _) => 45,
        (29, _) => 47,
        // the left side of an assignment is a pattern already
        (33, 0) => 48,
        (kind, _) => kind,
    };
    if (45..=47).contains(&t.kind) {
        t.kids = t.kids.into_iter().map(pattern).collect();
    }
    t
}

type Parsed = Result<Tree, String>;

struct Parser {
    tokens: Vec<String>,
    at: usize,
    texts: Vec<Vec<u8>>,
    /// In the start of a `for`, where `in` is no operator.
    no_in: bool,
}

/// How strongly a binary operator binds; 0 for what is none.
fn strength(sign: &str) -> u8 {
    match sign {
        "??" => 1,
        "||" => 2,
        "&&" => 3,
        "|" => 4,
        "^" => 5,
        "&" => 6,
        "==" | "!=" | "===" | "!==" => 7,
        "<" | "<=" | ">" | ">=" | "in" | "instanceof" => 8,
        "<<" | ">>" | ">>>" => 9,
        "+" | "-" => 10,
        "*" | "/" | "%" => 11,
        "**" => 12,
        _ => 0,
    }
}

impl Parser {
    fn look(&self, ahead: usize) -> &str {
        self.tokens.get(self.at + ahead).map_or("", |t| t)
    }

    fn peek(&self) -> &str {
        self.look(0)
    }

    fn next(&mut self) -> String {
        self.at += 1;
        self.tokens.get(self.at - 1).cloned().unwrap_or_default()
    }

    fn accept(&mut self, token: &str) -> bool {
        let found = self.peek() == token;
        self.at += usize::from(found);
        found
    }

    fn expect(&mut self, token: &str) -> Result<(), String> {
        if self.accept(token) {
            return Ok(());
        }
        Err(format!("{token} expected, not {}", self.peek()))
    }

    fn text(&mut self, text: &str) -> u32 {
        let at = self.texts.iter().position(|t| t == text.as_bytes());
        at.unwrap_or_else(|| {
            self.texts.push(text.as_bytes().to_vec());
            self.texts.len() - 1
        }) as u32
    }

    fn name(&mut self, kind: u8) -> Parsed {
        let token = self.next();
        if !token.starts_with(|c| in_name(c) && !c.is_ascii_digit()) {
            return Err(format!("a name expected, not {token}"));
        }
        let (name, context) = match token.rsplit_once('$') {
            Some((name, context)) => (name, context.parse().map_err(|_| token.clone())?),
            None => (&token[..], 0),
        };
        Ok(Tree {
            text: self.text(name),
            bits: context,
            ..Tree::new(kind, 0, vec![])
        })
    }

    fn block(&mut self) -> Parsed {
        self.expect("{")?;
        let mut list = Vec::new();
        while !self.accept("}") {
            list.push(self.statement()?);
        }
        Ok(Tree::new(2, 0, list))
    }

    fn params(&mut self) -> Result<Vec<Tree>, String> {
        self.expect("(")?;
        let mut list = Vec::new();
        while !self.accept(")") {
            list.push(pattern(self.assigned()?));
            if self.peek() != ")" {
                self.expect(",")?;
            }
        }
        Ok(list)
    }

    fn in_parens(&mut self) -> Parsed {
        self.expect("(")?;
        let e = self.expression()?;
        self.expect(")")?;
        Ok(e)
    }

    fn declaration(&mut self) -> Parsed {
        let form = match &self.next()[..] {
            "var" => 0,
            "let" => 1,
            _ => 2,
        };
        let mut list = Vec::new();
        loop {
            let mut kids = vec![pattern(self.unary()?)];
            if self.accept("=") {
                kids.push(self.assigned()?);
            }
            list.push(Tree::new(6, 0, kids));
            if !self.accept(",") {
                return Ok(Tree::new(5, form, list));
            }
        }
    }

    fn ended(&mut self, tree: Tree) -> Parsed {
        self.expect(";")?;
        Ok(tree)
    }

    fn statement(&mut self) -> Parsed {
        match self.peek() {
            "{" => self.block(),
            ";" => {
                self.at += 1;
                Ok(Tree::new(3, 0, vec![]))
            }
            "var" | "let" | "const" => {
                let declaration = self.declaration()?;
                self.ended(declaration)
            }
            "function" => {
                self.at += 1;
                let mut kids = vec![self.name(20)?];
                kids.extend(self.params()?);
                kids.push(self.block()?);
                Ok(Tree::new(7, 0, kids))
            }
            "if" | "while" | "do" | "for" | "try" | "switch" => self.compound(),
            "return" | "throw" | "break" | "continue" => self.jump(),
            _ => {
                let e = self.expression()?;
                self.ended(Tree::new(4, 0, vec![e]))
            }
        }
    }

    fn jump(&mut self) -> Parsed {
        let tree = match &self.next()[..] {
            "return" if self.peek() == ";" => Tree::new(8, 0, vec![]),
            "return" => Tree::new(8, 0, vec![self.expression()?]),
            "throw" => Tree::new(15, 0, vec![self.expression()?]),
            "break" => Tree::new(43, 0, vec![]),
            _ => Tree::new(44, 0, vec![]),
        };
        self.ended(tree)
    }

    fn compound(&mut self) -> Parsed {
        match &self.next()[..] {
            "if" => {
                let mut kids = vec![self.in_parens()?, self.statement()?];
                if self.accept("else") {
                    kids.push(self.statement()?);
                }
                Ok(Tree::new(9, 0, kids))
            }
            "while" => Ok(Tree::new(10, 0, vec![self.in_parens()?, self.statement()?])),
            "do" => {
                let body = self.statement()?;
                self.expect("while")?;
                let test = self.in_parens()?;
                self.ended(Tree::new(11, 0, vec![test, body]))
            }
            "for" => self.for_stmt(),
            "try" => self.try_stmt(),
            _ => self.switch(),
        }
    }

    fn for_stmt(&mut self) -> Parsed {
        self.expect("(")?;
        let declares = matches!(self.peek(), "var" | "let" | "const");
        let mut kids = Vec::new();
        self.no_in = true;
        if declares {
            kids.push(self.declaration()?);
        } else if self.peek() != ";" {
            let start = self.expression()?;
            let is_head = matches!(self.peek(), "in" | "of");
            kids.push(if is_head { pattern(start) } else { start });
        }
        self.no_in = false;
        if let "in" | "of" = self.peek() {
            let kind = if self.next() == "in" { 13 } else { 14 };
            kids.push(self.expression()?);
            self.expect(")")?;
            kids.push(self.statement()?);
            return Ok(Tree::new(kind, 0, kids));
        }
        let mut form = kids.len() as u8;
        for (bit, end) in [(2, ";"), (4, ")")] {
            self.expect(";")?;
            if self.peek() != end {
                kids.push(self.expression()?);
                form |= bit;
            }
        }
        self.expect(")")?;
        kids.push(self.statement()?);
        Ok(Tree::new(12, form, kids))
    }

    fn try_stmt(&mut self) -> Parsed {
        let mut kids = vec![self.block()?];
        let mut form = 0;
        if self.accept("catch") {
            let mut catch = if self.peek() == "(" {
                self.params()?
            } else {
                vec![]
            };
            catch.push(self.block()?);
            kids.push(Tree::new(17, 0, catch));
            form |= 1;
        }
        if self.accept("finally") {
            kids.push(self.block()?);
            form |= 2;
        }
        Ok(Tree::new(16, form, kids))
    }

    fn switch(&mut self) -> Parsed {
        let mut kids = vec![self.in_parens()?];
        self.expect("{")?;
        while !self.accept("}") {
            let mut case = Vec::new();
            if !self.accept("default") {
                self.expect("case")?;
                case.push(self.expression()?);
            }
            let form = case.len() as u8;
            self.expect(":")?;
            while !matches!(self.peek(), "case" | "default" | "}" | "") {
                case.push(self.statement()?);
            }
            kids.push(Tree::new(19, form, case));
        }
        Ok(Tree::new(18, 0, kids))
    }

    fn expression(&mut self) -> Parsed {
        let first = self.assigned()?;
        if self.peek() != "," {
            return Ok(first);
        }
        let mut list = vec![first];
        while self.accept(",") {
            list.push(self.assigned()?);
        }
        Ok(Tree::new(42, 0, list))
    }

    /// Does the parenthesis here hold the parameters of an arrow?
    fn at_arrow(&self) -> bool {
        if self.peek() != "(" {
            return false;
        }
        let (mut open, mut at) = (0, 0);
        loop {
            match self.look(at) {
                "(" => open += 1,
                ")" => open -= 1,
                "" => return false,
                _ => {}
            }
            at += 1;
            if open == 0 {
                return self.look(at) == "=>";
            }
        }
    }

    fn arrow(&mut self) -> Parsed {
        let mut kids = self.params()?;
        self.expect("=>")?;
        if self.peek() == "{" {
            kids.push(self.block()?);
            return Ok(Tree::new(40, 0, kids));
        }
        kids.push(self.assigned()?);
        Ok(Tree::new(40, 1, kids))
    }

    fn assigned(&mut self) -> Parsed {
        if self.at_arrow() {
            return self.arrow();
        }
        let mut left = self.binary(1)?;
        if self.accept("?") {
            let cons = self.assigned()?;
            self.expect(":")?;
            let alt = self.assigned()?;
            return Ok(Tree::new(34, 0, vec![left, cons, alt]));
        }
        let Some(form) = ASSIGN.iter().position(|sign| *sign == self.peek()) else {
            return Ok(left);
        };
        self.at += 1;
        if matches!(left.kind, 21 | 27 | 28) {
            left = pattern(left);
        }
        let right = self.assigned()?;
        Ok(Tree::new(33, form as u8, vec![left, right]))
    }

    fn binary(&mut self, least: u8) -> Parsed {
        let mut left = self.unary()?;
        loop {
            let sign = self.peek().to_string();
            let bound = strength(&sign);
            if bound < least || bound == 0 || (sign == "in" && self.no_in) {
                return Ok(left);
            }
            self.at += 1;
            // `**` binds to the right, all others to the left.
            let right = self.binary(bound + u8::from(sign != "**"))?;
            let form = BINARY.iter().position(|s| *s == sign).expect("an operator");
            left = Tree::new(32, form as u8, vec![left, right]);
        }
    }

    fn unary(&mut self) -> Parsed {
        let words = ["void", "typeof", "!", "-", "+", "~", "delete"];
        if let Some(form) = words.iter().position(|word| *word == self.peek()) {
            self.at += 1;
            return Ok(Tree::new(30, form as u8, vec![self.unary()?]));
        }
        if let "++" | "--" = self.peek() {
            let form = u8::from(self.next() == "--");
            return Ok(Tree::new(31, form, vec![self.unary()?]));
        }
        let arg = self.chain()?;
        match self.peek() {
            sign @ ("++" | "--") => {
                let form = 2 + u8::from(sign == "--");
                self.at += 1;
                Ok(Tree::new(31, form, vec![arg]))
            }
            _ => Ok(arg),
        }
    }

    fn list(&mut self, end: &str) -> Result<Vec<Tree>, String> {
        let no_in = std::mem::take(&mut self.no_in);
        let mut list = Vec::new();
        while !self.accept(end) {
            list.push(self.assigned()?);
            if self.peek() != end {
                self.expect(",")?;
            }
        }
        self.no_in = no_in;
        Ok(list)
    }

    /// Members and calls after a primary expression.
    fn chain(&mut self) -> Parsed {
        let mut tree = if self.accept("new") {
            let callee = self.members()?;
            let mut kids = vec![callee];
            let form = u8::from(self.accept("("));
            if form == 1 {
                kids.extend(self.list(")")?);
            }
            Tree::new(36, form, kids)
        } else {
            self.primary()?
        };
        loop {
            if self.accept("(") {
                let mut kids = vec![tree];
                kids.extend(self.list(")")?);
                tree = Tree::new(35, 0, kids);
            } else if let "." | "[" = self.peek() {
                tree = self.member(tree)?;
            } else {
                return Ok(tree);
            }
        }
    }

    /// What `new` takes: no call.
    fn members(&mut self) -> Parsed {
        let mut tree = self.primary()?;
        while let "." | "[" = self.peek() {
            tree = self.member(tree)?;
        }
        Ok(tree)
    }

    fn member(&mut self, object: Tree) -> Parsed {
        if self.accept(".") {
            let name = self.next();
            return Ok(Tree {
                text: self.text(&name),
                ..Tree::new(37, 0, vec![object])
            });
        }
        self.expect("[")?;
        let property = self.expression()?;
        self.expect("]")?;
        Ok(Tree::new(38, 0, vec![object, property]))
    }

    fn object(&mut self) -> Parsed {
        let no_in = std::mem::take(&mut self.no_in);
        let mut kids = Vec::new();
        while !self.accept("}") {
            let key = self.next();
            self.expect(":")?;
            kids.push(Tree {
                text: self.text(&key),
                ..Tree::new(29, 0, vec![self.assigned()?])
            });
            if self.peek() != "}" {
                self.expect(",")?;
            }
        }
        self.no_in = no_in;
        Ok(Tree::new(28, 0, kids))
    }

    fn function_expression(&mut self) -> Parsed {
        let mut kids = Vec::new();
        if self.peek() != "(" {
            kids.push(self.name(20)?);
        }
        let form = kids.len() as u8;
        kids.extend(self.params()?);
        kids.push(self.block()?);
        Ok(Tree::new(39, form, kids))
    }

    fn primary(&mut self) -> Parsed {
        let token = self.peek().to_string();
        if token == "(" {
            let no_in = std::mem::take(&mut self.no_in);
            let inner = self.in_parens()?;
            self.no_in = no_in;
            return Ok(Tree::new(41, 0, vec![inner]));
        }
        if token.starts_with(|c: char| c.is_ascii_digit()) {
            self.at += 1;
            let value: f64 = token.parse().map_err(|_| token)?;
            return Ok(Tree {
                bits: value.to_bits(),
                ..Tree::new(24, 0, vec![])
            });
        }
        if let Some(text) = token.strip_prefix('"') {
            self.at += 1;
            return Ok(Tree {
                text: self.text(text.trim_end_matches('"')),
                ..Tree::new(25, 0, vec![])
            });
        }
        let leaf = match &token[..] {
            "null" => Tree::new(22, 0, vec![]),
            "false" => Tree::new(23, 0, vec![]),
            "true" => Tree::new(23, 1, vec![]),
            "this" => Tree::new(26, 0, vec![]),
            "[" => {
                self.at += 1;
                return Ok(Tree::new(27, 0, self.list("]")?));
            }
            "{" => {
                self.at += 1;
                return self.object();
            }
            "function" => {
                self.at += 1;
                return self.function_expression();
            }
            _ => return self.name(21),
        };
        self.at += 1;
        Ok(leaf)
    }
}
