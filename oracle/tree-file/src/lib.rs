//! The tree file of document 01: reading with rows 2 to 7, writing, and the printed answer.

use std::collections::HashSet;
use std::fmt;

pub mod assignments;
pub mod javascript;
pub mod kinds;
pub mod parse;

pub const MAX_NODES: usize = 1024;
pub const MAX_TEXTS: usize = 256;
pub const MAX_TEXT_BYTES: usize = 4096;
pub const MAX_DEPTH: usize = 200;
pub const MAX_IDENTIFIERS: usize = 256;
pub const HEADER: usize = 32;
pub const NODE: usize = 16;
pub const ARGUMENTS: &[u8] = b"arguments";

/// A node of a script, with its children.
#[derive(Clone, Debug, Default, PartialEq, Eq)]
pub struct Tree {
    pub kind: u8,
    pub form: u8,
    /// The number of its text, or 0.
    pub text: u32,
    /// A context, a number's bits, or 0.
    pub bits: u64,
    pub kids: Vec<Tree>,
}

/// A tree and the texts that its nodes name by number.
#[derive(Clone, Debug, PartialEq, Eq)]
pub struct Script {
    pub tree: Tree,
    pub texts: Vec<Vec<u8>>,
}

impl Tree {
    pub fn new(kind: u8, form: u8, kids: Vec<Tree>) -> Tree {
        Tree {
            kind,
            form,
            kids,
            ..Tree::default()
        }
    }

    pub fn count(&self) -> usize {
        1 + self.kids.iter().map(Tree::count).sum::<usize>()
    }

    pub fn height(&self) -> usize {
        1 + self.kids.iter().map(Tree::height).max().unwrap_or(0)
    }

    /// The nodes in preorder.
    pub fn preorder(&self) -> Vec<&Tree> {
        let mut nodes = vec![self];
        for kid in &self.kids {
            nodes.extend(kid.preorder());
        }
        nodes
    }

    /// Every node in preorder, to change its own fields.
    pub fn for_each(&mut self, change: &mut impl FnMut(&mut Tree)) {
        change(self);
        for kid in &mut self.kids {
            kid.for_each(change);
        }
    }

    pub fn is_literal(&self) -> bool {
        (22..=25).contains(&self.kind)
    }

    /// The identifier of a binding or identifier: text and context.
    pub fn identifier(&self) -> Option<(u32, u64)> {
        matches!(self.kind, 20 | 21).then_some((self.text, self.bits))
    }

    /// BoundNames: the bindings that a name or pattern has, in tree order; what stands in a default is none of them.
    pub fn bound_names(&self) -> Vec<&Tree> {
        match self.kind {
            20 => vec![self],
            45..=47 => self.kids.iter().flat_map(Tree::bound_names).collect(),
            48 => self.kids[0].bound_names(),
            _ => vec![],
        }
    }

    fn bytes(&self, out: &mut Vec<u8>) {
        out.extend([self.kind, self.form]);
        out.extend((self.kids.len() as u16).to_le_bytes());
        out.extend(self.text.to_le_bytes());
        out.extend(self.bits.to_le_bytes());
        for kid in &self.kids {
            kid.bytes(out);
        }
    }
}

fn u32_at(file: &[u8], at: usize) -> u32 {
    u32::from_le_bytes(file[at..at + 4].try_into().expect("four bytes"))
}

/// A script, or the number of the row that refuses the file: 2 to 7, the first that holds.
pub fn read(file: &[u8]) -> Result<Script, u8> {
    if file.len() < HEADER || u32_at(file, 0) != 1 {
        return Err(2);
    }
    let field = |number: usize| u32_at(file, 4 * number) as usize;
    let (nodes, texts, text_bytes) = (field(2), field(4), field(7));
    if !(1..=MAX_NODES).contains(&nodes) || texts > MAX_TEXTS || text_bytes > MAX_TEXT_BYTES {
        return Err(3);
    }
    let ends_at = HEADER + NODE * nodes;
    let bytes_at = ends_at + 4 * texts;
    let total = bytes_at + text_bytes;
    if [field(1), field(3), field(5), field(6)] != [total, HEADER, ends_at, bytes_at]
        || file.len() != total
    {
        return Err(4);
    }
    let texts = read_texts(&file[ends_at..bytes_at], &file[bytes_at..]).ok_or(5)?;
    let mut nodes = file[HEADER..ends_at].chunks(NODE);
    let tree = read_tree(&mut nodes, texts.len(), 1).ok_or(6)?;
    if tree.kind != 1 || nodes.next().is_some() {
        return Err(6);
    }
    let all = tree.preorder();
    let different: HashSet<_> = all.iter().filter_map(|node| node.identifier()).collect();
    if different.len() > MAX_IDENTIFIERS {
        return Err(7);
    }
    Ok(Script { tree, texts })
}

/// The texts by their ends; none if the ends fall, the last is not the byte count, or two are equal.
fn read_texts(ends: &[u8], bytes: &[u8]) -> Option<Vec<Vec<u8>>> {
    let mut texts: Vec<Vec<u8>> = Vec::new();
    let mut from = 0;
    for end in ends.chunks(4) {
        let end = u32_at(end, 0) as usize;
        texts.push(bytes.get(from..end)?.to_vec());
        from = end;
    }
    let different: HashSet<_> = texts.iter().collect();
    (from == bytes.len() && different.len() == texts.len()).then_some(texts)
}

/// The next subtree in preorder, if it is allowed by the kinds.
fn read_tree(nodes: &mut std::slice::Chunks<u8>, texts: usize, depth: usize) -> Option<Tree> {
    let node = nodes.next()?;
    if depth > MAX_DEPTH {
        return None;
    }
    let mut tree = Tree {
        kind: node[0],
        form: node[1],
        text: u32_at(node, 4),
        bits: u64::from_le_bytes(node[8..].try_into().expect("eight bytes")),
        kids: Vec::new(),
    };
    for _ in 0..u16::from_le_bytes([node[2], node[3]]) {
        tree.kids.push(read_tree(nodes, texts, depth + 1)?);
    }
    kinds::allowed(&tree, texts).then_some(tree)
}

/// A script's file.
pub fn write(script: &Script) -> Vec<u8> {
    let mut nodes = Vec::new();
    script.tree.bytes(&mut nodes);
    let text_bytes = script.texts.concat();
    let ends_at = HEADER + nodes.len();
    let bytes_at = ends_at + 4 * script.texts.len();
    let header = [
        1,
        bytes_at + text_bytes.len(),
        nodes.len() / NODE,
        HEADER,
        script.texts.len(),
        ends_at,
        bytes_at,
        text_bytes.len(),
    ];
    let mut file: Vec<u8> = Vec::new();
    header
        .iter()
        .for_each(|field| file.extend((*field as u32).to_le_bytes()));
    file.extend(nodes);
    let mut end = 0;
    for text in &script.texts {
        end += text.len();
        file.extend((end as u32).to_le_bytes());
    }
    file.extend(text_bytes);
    file
}

/// What the pass answers for a file.
#[derive(Clone, Debug, PartialEq, Eq)]
pub enum Answer {
    Refused(u8),
    Done(Outcome),
}

#[derive(Clone, Debug, PartialEq, Eq)]
pub struct Outcome {
    pub runs: u32,
    pub changed: bool,
    pub tree: Tree,
    /// Text number, context and own mark of each root binding, oldest first.
    pub roots: Vec<(u32, u64, bool)>,
}

impl fmt::Display for Answer {
    fn fmt(&self, out: &mut fmt::Formatter) -> fmt::Result {
        let done = match self {
            Answer::Refused(row) => return writeln!(out, "refused {row}"),
            Answer::Done(done) => done,
        };
        let nodes = done.tree.preorder();
        let changed = u8::from(done.changed);
        let count = nodes.len();
        writeln!(out, "ok runs {} changed {changed} nodes {count}", done.runs)?;
        for node in nodes {
            let kids = node.kids.len();
            let (kind, form, text, bits) = (node.kind, node.form, node.text, node.bits);
            writeln!(out, "{kind} {form} {kids} {text} {bits:016x}")?;
        }
        for (text, context, mark) in &done.roots {
            writeln!(out, "root {text} {context:016x} {}", u8::from(*mark))?;
        }
        Ok(())
    }
}

pub fn to_hex(bytes: &[u8]) -> String {
    bytes.iter().map(|byte| format!("{byte:02x}")).collect()
}

pub fn from_hex(line: &str) -> Option<Vec<u8>> {
    let digits: Option<Vec<u8>> = line
        .chars()
        .map(|c| c.to_digit(16).map(|d| d as u8))
        .collect();
    let digits = digits.filter(|d| d.len() % 2 == 0)?;
    Some(digits.chunks(2).map(|d| d[0] * 16 + d[1]).collect())
}

/// Deep trees need a deep stack: 200 levels, each of several calls.
pub fn on_deep_stack<T: Send>(work: impl FnOnce() -> T + Send) -> T {
    std::thread::scope(|scope| {
        std::thread::Builder::new()
            .stack_size(256 << 20)
            .spawn_scoped(scope, work)
            .expect("a thread")
            .join()
            .unwrap_or_else(|panic| std::panic::resume_unwind(panic))
    })
}
