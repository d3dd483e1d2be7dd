//! A result, its nodes and its root bindings, and how the program prints them.

use crate::tree::{Nodes, TreeFile};
use crate::{Refusal, ROOT_WORDS};
use std::fmt;
use std::iter::FusedIterator;
use std::slice::Iter;

/// What the pass made of a script.
#[derive(Clone, Debug, PartialEq, Eq)]
#[must_use = "the result is the whole work of the pass"]
pub struct Inlined {
    pub(crate) file: Vec<u8>,
    pub(crate) runs: u32,
    pub(crate) changed: bool,
    /// Text number, context's low and high half, mark and count of each.
    pub(crate) roots: Vec<[u32; ROOT_WORDS]>,
}

impl Inlined {
    /// The result as a tree file.
    #[must_use]
    pub fn file(&self) -> &[u8] {
        &self.file
    }

    /// The result as a tree file, without a copy.
    #[must_use]
    pub fn into_file(self) -> Vec<u8> {
        self.file
    }

    /// The runs done, at least 1.
    #[must_use]
    pub fn runs(&self) -> u32 {
        self.runs
    }

    /// Whether the last run still changed something: the run limit then ended the pass.
    #[must_use]
    pub fn changed(&self) -> bool {
        self.changed
    }

    /// The result's nodes and texts. The texts are those of the script that was given.
    #[must_use]
    pub fn tree(&self) -> TreeFile<'_> {
        // What the pass writes is a tree file.
        TreeFile::new(&self.file).unwrap_or_default()
    }

    /// The result's nodes in preorder.
    pub fn nodes(&self) -> Nodes<'_> {
        self.tree().nodes()
    }

    /// Each root binding once, the oldest first.
    pub fn roots(&self) -> Roots<'_> {
        Roots {
            file: self.tree(),
            rest: self.roots.iter(),
        }
    }

    /// The n-th root binding, counted from 0, the oldest first.
    #[must_use]
    pub fn root(&self, n: usize) -> Option<Root<'_>> {
        let words = self.roots.get(n)?;
        Some(Root::new(self.tree(), *words))
    }
}

/// What [`root_of`](crate::root_of) tells of a root binding.
#[derive(Clone, Copy, Debug, PartialEq, Eq)]
#[non_exhaustive]
pub struct RootBinding {
    /// The number of its name among the file's texts.
    pub text: u32,
    /// Its context, which tells apart variables of one name.
    pub context: u64,
    /// Its own mark: whether it must not be inlined.
    pub prevented: bool,
    /// How many identifiers were replaced by its value, in all runs, modulo 2³².
    pub count: u32,
}

/// A binding of the root scope.
#[derive(Clone, Copy, PartialEq, Eq)]
pub struct Root<'a> {
    file: TreeFile<'a>,
    text: u32,
    context: u64,
    prevented: bool,
    count: u32,
}

impl<'a> Root<'a> {
    fn new(file: TreeFile<'a>, [text, low, high, mark, count]: [u32; ROOT_WORDS]) -> Root<'a> {
        Root {
            file,
            text,
            context: u64::from(high) << 32 | u64::from(low),
            prevented: mark != 0,
            count,
        }
    }

    /// Its name. A name is any bytes; those of scripts are UTF-8.
    #[must_use]
    pub fn name(self) -> &'a [u8] {
        self.file.text(self.text).unwrap_or_default()
    }

    /// The number of its name among the file's texts.
    #[must_use]
    pub fn text_number(self) -> u32 {
        self.text
    }

    /// Its context, which tells apart variables of one name.
    #[must_use]
    pub fn context(self) -> u64 {
        self.context
    }

    /// Its own mark: whether it must not be inlined.
    #[must_use]
    pub fn prevented(self) -> bool {
        self.prevented
    }

    /// How many identifiers were replaced by its value, in all runs, modulo 2³². `void 0`, a constant's value and an identifier in its own place
    /// do not count.
    #[must_use]
    pub fn count(self) -> u32 {
        self.count
    }
}

/// What it is, without the whole file.
impl fmt::Debug for Root<'_> {
    fn fmt(&self, out: &mut fmt::Formatter) -> fmt::Result {
        out.debug_struct("Root")
            .field("name", &String::from_utf8_lossy(self.name()))
            .field("context", &self.context)
            .field("prevented", &self.prevented)
            .field("count", &self.count)
            .finish()
    }
}

/// The line of a root binding as the program prints it.
impl fmt::Display for Root<'_> {
    fn fmt(&self, out: &mut fmt::Formatter) -> fmt::Result {
        let mark = u8::from(self.prevented);
        let (text, context, count) = (self.text, self.context, self.count);
        write!(out, "root {text} {context:016x} {mark} {count}")
    }
}

/// The root bindings of a result.
#[derive(Clone, Debug)]
#[must_use = "an iterator does nothing by itself"]
pub struct Roots<'a> {
    file: TreeFile<'a>,
    rest: Iter<'a, [u32; ROOT_WORDS]>,
}

impl<'a> Iterator for Roots<'a> {
    type Item = Root<'a>;

    fn next(&mut self) -> Option<Root<'a>> {
        self.rest.next().map(|words| Root::new(self.file, *words))
    }

    fn size_hint(&self) -> (usize, Option<usize>) {
        self.rest.size_hint()
    }
}

impl ExactSizeIterator for Roots<'_> {}
impl FusedIterator for Roots<'_> {}

/// The head line, a line for each node, and a line for each root binding.
impl fmt::Display for Inlined {
    fn fmt(&self, out: &mut fmt::Formatter) -> fmt::Result {
        let (nodes, changed) = (self.nodes(), u8::from(self.changed));
        let count = nodes.len();
        writeln!(out, "ok runs {} changed {changed} nodes {count}", self.runs)?;
        for node in nodes {
            writeln!(out, "{node}")?;
        }
        for root in self.roots() {
            writeln!(out, "{root}")?;
        }
        Ok(())
    }
}

/// What the program prints for an answer, a refusal included.
#[must_use]
pub fn printed(answer: &Result<Inlined, Refusal>) -> String {
    match answer {
        Ok(inlined) => inlined.to_string(),
        Err(refusal) => format!("refused {}\n", refusal.number()),
    }
}
