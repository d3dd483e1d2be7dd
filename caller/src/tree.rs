//! A tree file as nodes and texts.

use crate::header::{word, Header, END, NODE};
use crate::{Kind, Refusal};
use std::fmt;
use std::iter::FusedIterator;
use std::slice::ChunksExact;

/// A tree file's nodes and texts, over its bytes.
///
/// ```
/// use negbosun::{Kind, Node, TreeFile};
/// # let header: [u32; 8] = [1, 48, 1, 32, 0, 48, 48, 0];
/// # let mut file: Vec<u8> = header.iter().flat_map(|field| field.to_le_bytes()).collect();
/// # file.extend([1, 0, 0, 0, 0, 0, 0, 0, 0, 0, 0, 0, 0, 0, 0, 0]);
/// let tree = TreeFile::new(&file)?;
/// assert!(tree.nodes().map(Node::kind).eq([Kind::Script]));
/// assert_eq!(tree.texts().len(), 0);
/// # Ok::<(), negbosun::Refusal>(())
/// ```
#[derive(Clone, Copy, Debug, Default, PartialEq, Eq)]
pub struct TreeFile<'a> {
    nodes: &'a [u8],
    ends: &'a [u8],
    bytes: &'a [u8],
}

impl<'a> TreeFile<'a> {
    /// A file whose header, counts and lengths agree with its bytes; the nodes and texts themselves are not looked at.
    ///
    /// # Errors
    ///
    /// [`Refusal::Header`], [`Refusal::Counts`] and [`Refusal::Lengths`], exactly where the pass would refuse the file with them.
    pub fn new(file: &'a [u8]) -> Result<TreeFile<'a>, Refusal> {
        let header = Header::checked(file)?;
        let part = |from, to| file.get(from..to).ok_or(Refusal::Lengths);
        Ok(TreeFile {
            nodes: part(header.nodes_at, header.ends_at)?,
            ends: part(header.ends_at, header.bytes_at)?,
            bytes: part(header.bytes_at, header.total)?,
        })
    }

    /// The nodes in preorder.
    pub fn nodes(self) -> Nodes<'a> {
        Nodes {
            file: self,
            rest: self.nodes.chunks_exact(NODE),
        }
    }

    /// The texts by their numbers, from 0 on; empty where the file's ends of texts fall.
    #[must_use]
    pub fn texts(self) -> impl ExactSizeIterator<Item = &'a [u8]> {
        let count = self.ends.len() / END;
        (0..count).map(move |number| self.stretch(number).unwrap_or_default())
    }

    /// The text of a number; none where the file has no such text. A text is any bytes; those of scripts are UTF-8.
    #[must_use]
    pub fn text(self, number: u32) -> Option<&'a [u8]> {
        self.stretch(number as usize)
    }

    /// Where each text ends, as the file says it.
    pub(crate) fn ends(self) -> impl Iterator<Item = usize> + 'a {
        let count = self.ends.len() / END;
        (0..count).map_while(move |number| word(self.ends, number).map(|end| end as usize))
    }

    /// How many bytes the texts have together.
    pub(crate) fn text_bytes(self) -> usize {
        self.bytes.len()
    }

    fn stretch(self, number: usize) -> Option<&'a [u8]> {
        let from = match number.checked_sub(1) {
            Some(before) => word(self.ends, before)?,
            None => 0,
        };
        let to = word(self.ends, number)?;
        self.bytes.get(from as usize..to as usize)
    }
}

/// A node of a tree file.
#[derive(Clone, Copy, Debug, PartialEq, Eq)]
pub struct Node<'a> {
    file: TreeFile<'a>,
    kind: u8,
    form: u8,
    children: u16,
    text: u32,
    bits: u64,
}

/// The fields of a node as the file has them.
#[derive(Clone, Copy)]
pub(crate) struct Fields {
    pub kind: u8,
    pub form: u8,
    pub children: usize,
    pub text: u32,
    pub bits: u64,
}

impl<'a> Node<'a> {
    pub(crate) fn fields(self) -> Fields {
        Fields {
            kind: self.kind,
            form: self.form,
            children: self.children(),
            text: self.text,
            bits: self.bits,
        }
    }

    fn new(file: TreeFile<'a>, bytes: [u8; NODE]) -> Node<'a> {
        let [kind, form, c0, c1, t0, t1, t2, t3, bits @ ..] = bytes;
        Node {
            file,
            kind,
            form,
            children: u16::from_le_bytes([c0, c1]),
            text: u32::from_le_bytes([t0, t1, t2, t3]),
            bits: u64::from_le_bytes(bits),
        }
    }

    /// What it is.
    #[must_use]
    pub fn kind(self) -> Kind {
        Kind::from_number(self.kind)
    }

    /// Its form, by kind; 0 where a kind has one form only.
    #[must_use]
    pub fn form(self) -> u8 {
        self.form
    }

    /// The sign or word that its form stands for: `const`, `true`, `typeof`, `++`, `&&`, `+=`. None for kinds whose form says something else.
    #[must_use]
    pub fn token(self) -> Option<&'static str> {
        self.kind().token(self.form)
    }

    /// How many children it has; they come next in preorder, each with what is below it.
    #[must_use]
    pub fn children(self) -> usize {
        usize::from(self.children)
    }

    /// Its name, string or property's name; none for kinds without a text.
    #[must_use]
    pub fn text(self) -> Option<&'a [u8]> {
        self.text_number().and_then(|number| self.file.text(number))
    }

    /// The number of its text among the file's; none for kinds without a text.
    #[must_use]
    pub fn text_number(self) -> Option<u32> {
        self.kind().has_text().then_some(self.text)
    }

    /// The context of a name, which tells apart variables of one name; none for other kinds.
    #[must_use]
    pub fn context(self) -> Option<u64> {
        self.kind().has_context().then_some(self.bits)
    }

    /// The value of a number; none for other kinds.
    #[must_use]
    pub fn number(self) -> Option<f64> {
        (self.kind() == Kind::Number).then_some(f64::from_bits(self.bits))
    }
}

/// The node's line as the program prints it: the numbers of its fields, the last in 16 hex digits.
impl fmt::Display for Node<'_> {
    fn fmt(&self, out: &mut fmt::Formatter) -> fmt::Result {
        let Node {
            kind,
            form,
            children,
            text,
            bits,
            ..
        } = self;
        write!(out, "{kind} {form} {children} {text} {bits:016x}")
    }
}

/// The nodes of a tree file in preorder.
#[derive(Clone, Debug)]
#[must_use = "an iterator does nothing by itself"]
pub struct Nodes<'a> {
    file: TreeFile<'a>,
    rest: ChunksExact<'a, u8>,
}

impl<'a> Iterator for Nodes<'a> {
    type Item = Node<'a>;

    fn next(&mut self) -> Option<Node<'a>> {
        let bytes = self.rest.next()?.try_into().ok()?;
        Some(Node::new(self.file, bytes))
    }

    fn size_hint(&self) -> (usize, Option<usize>) {
        self.rest.size_hint()
    }
}

impl ExactSizeIterator for Nodes<'_> {}
impl FusedIterator for Nodes<'_> {}
