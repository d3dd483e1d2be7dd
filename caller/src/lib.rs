//! The variable inliner for gate scripts, called from Rust.
//!
//! The pass itself is written and proved in Rattle (crates/pass) and comes as a static library with nine C functions. This crate
//! declares them once and puts safe functions over them. A script goes in and comes out as a *tree file*; docs/TREE.md has its format.
//!
//! [`inline`] is all that most callers need; [`resolve`] works out which variable each name of a script means, so that a file can be made without
//! contexts; [`canon`] writes the one file of a script, by which an archive tells scripts apart; [`text`] prints a script as JavaScript; [`Inliner`] keeps its
//! memory between files;
//! [`inline_into`], [`roots_into`], [`root_of`], [`canon_into`], [`resolve_into`] and [`text_into`] are C functions over the caller's own buffers; each of the first three has a twin, `.._under`, which takes a mill's own [`KindTable`]; [`TreeFile`] shows a tree
//! file's nodes and texts, [`Kind`] what each node is. Scripts may take values apart by patterns: `{today, before}` as a parameter stands
//! in a file as [`Kind::ObjectPattern`], written out as `{today: today, before: before}`.
//!
//! ```
//! use negbosun::{inline, Kind, Node, Refusal, MOST_RUNS};
//!
//! // The empty script: a header of eight fields, and one node of kind 1.
//! let header: [u32; 8] = [1, 48, 1, 32, 0, 48, 48, 0];
//! let mut file: Vec<u8> = header.iter().flat_map(|field| field.to_le_bytes()).collect();
//! file.extend([1, 0, 0, 0, 0, 0, 0, 0, 0, 0, 0, 0, 0, 0, 0, 0]);
//!
//! let inlined = inline(&file, MOST_RUNS)?;
//! assert_eq!(inlined.file(), file);
//! assert_eq!((inlined.runs(), inlined.changed()), (1, false));
//! assert!(inlined.nodes().map(Node::kind).eq([Kind::Script]));
//!
//! let refusal = inline(b"no tree file", MOST_RUNS).unwrap_err();
//! assert_eq!(refusal, Refusal::Header);
//! assert_eq!(refusal.number(), 2);
//! # Ok::<(), Refusal>(())
//! ```
//!
//! No function here panics, whatever it is given.
//!
//! # Time
//!
//! Every call ends, and an ordinary gate script of 1,000 nodes takes under a millisecond. Yet a small file can take very long, in the
//! port as in the original: a list of statements is walked again inside each list around it, and a right side of `&&` or `||` is walked
//! twice. With functions in one another, `var v = function () { … };`, each further one doubles the time: 18 take a tenth of a
//! second, 22 take two seconds, and 31, the most that the limits let through, would at that rate take a quarter of an hour, in a file
//! of 156 nodes; with hundreds of statements in the innermost, days. docs/PERFORMANCE.md has figures.
//!
//! A call cannot be interrupted. Whoever takes scripts from strangers makes it in a process of its own and ends that after a time, as
//! the tool `negbosun-inline` does with itself (`--time-limit`).
//!
//! # Building
//!
//! `tools/build pass` in the repository proves the pass and writes target/staticlib/libpass.a (x86-64). The build of this crate
//! links it from there; an installed copy of the crate links the installed libnegbosun.a. The environment variable `NEGBOSUN_LIB` may
//! name another folder that holds one of the two.

mod answer;
mod entries;
mod found;
mod header;
mod kind;
mod kind_table;
mod no_text;
mod places;
mod refusal;
mod tree;
mod twice;

pub use answer::{printed, Inlined, Root, RootBinding, Roots};
pub use kind::Kind;
pub use kind_table::{KindTable, KindTableError, TABLE_BYTES};
pub use no_text::{NoText, NoTextReason, Written};
pub use refusal::Refusal;
pub use tree::{Node, Nodes, TreeFile};
pub use twice::{Declaration, DeclaredBy, DeclaredTwice};

/// A pass does at most so many runs.
pub const MOST_RUNS: u32 = 16;
/// How many working words a pass takes; it leaves further ones alone.
pub const WORDS: usize = 16_384;
/// No readable file and no result is longer: the header, 1,024 nodes, the ends of 256 texts and 4,096 bytes of text.
pub const MOST_BYTES: usize = 32 + 16 * 1024 + 4 * 256 + 4096;
/// No script's text is longer: `switch (new S(S, …)) { }` with 1,021 strings S of 4,096 bytes `"`, each of which takes 8,194 bytes; the other tokens take 1,034,
/// blanks and the line end 2,048.
/// [`TreeFile::most_text_bytes`] has what suffices for a file, most often some thousands.
pub const MOST_TEXT_BYTES: usize = 1021 * (2 + 2 * 4096) + 1034 + 2048;
/// No script has more root bindings.
pub const MOST_ROOTS: usize = 256;

/// A root binding takes so many words.
pub const ROOT_WORDS: usize = 5;

/// What stands in the result buffer, and how the pass went.
#[derive(Clone, Copy, Debug, PartialEq, Eq)]
#[non_exhaustive]
#[must_use = "only its length tells where the result ends"]
pub struct Done {
    /// The result is the buffer's first `length` bytes; later ones are as they were.
    pub length: usize,
    /// The runs done, at least 1.
    pub runs: u32,
    /// Whether the last run still changed something: the run limit then ended the pass.
    pub changed: bool,
}

impl entries::Inlined {
    fn done(&self) -> Result<Done, Refusal> {
        match Refusal::from_number(self.refused) {
            Some(refusal) => Err(refusal),
            None => Ok(Done {
                length: self.length,
                runs: self.runs,
                changed: self.changed != 0,
            }),
        }
    }
}

impl entries::Roots {
    fn counted(&self) -> Result<usize, Refusal> {
        match Refusal::from_number(self.refused) {
            Some(refusal) => Err(refusal),
            None => Ok(self.count),
        }
    }
}

impl entries::Written {
    fn length(&self) -> Result<usize, Refusal> {
        match Refusal::from_number(self.refused) {
            Some(refusal) => Err(refusal),
            None => Ok(self.length),
        }
    }
}

impl entries::Binding {
    fn found(&self) -> Result<Option<RootBinding>, Refusal> {
        match Refusal::from_number(self.refused) {
            Some(refusal) => Err(refusal),
            None => Ok((self.found != 0).then_some(RootBinding {
                text: self.text,
                context: self.context,
                prevented: self.prevented != 0,
                count: self.count,
            })),
        }
    }
}

/// Runs the pass on a tree file, at most `runs` times, and writes the result's file into `result`.
///
/// All arguments are allowed; what will not do is refused. [`MOST_BYTES`] bytes of room always suffice, and [`WORDS`] words are
/// needed; what they hold does not matter. After [`Refusal::RunsOrWords`] both buffers are as they were; after anything else the first
/// [`WORDS`] words are 0 and the others as they were.
///
/// # Errors
///
/// Refusals 1 to 10, the first that applies. A refusal leaves `result` as it was.
pub fn inline_into(
    file: &[u8],
    result: &mut [u8],
    words: &mut [u32],
    runs: u32,
) -> Result<Done, Refusal> {
    // SAFETY: pointers and lengths are those of three slices, which are valid, do not overlap, and are lent for the call; the
    // function demands nothing else of its caller.
    let answer = unsafe {
        entries::negbosun_inline(
            file.as_ptr(),
            file.len(),
            result.as_mut_ptr(),
            result.len(),
            words.as_mut_ptr(),
            words.len(),
            runs,
        )
    };
    answer.done()
}

/// The same under a mill's own kind table: a file is read exactly if it is read without one and the table allows each node of the script
/// under its parent. Only the script as read is held to the table: `var a = [1]; a;` becomes `var a; [1];`, also where `[1]` may not stand there.
///
/// # Errors
///
/// [`Refusal::Pairs`] where the table allows what the kinds forbid, before all but [`Refusal::RunsOrWords`]; [`Refusal::Nodes`] also where the
/// table forbids a node under its parent; the others are those of [`inline_into`]. A refusal leaves `result` as it was.
pub fn inline_into_under(
    file: &[u8],
    table: &KindTable,
    result: &mut [u8],
    words: &mut [u32],
    runs: u32,
) -> Result<Done, Refusal> {
    let lent = table.as_bytes();
    // SAFETY: as in `inline_into`, with four slices.
    let answer = unsafe {
        entries::negbosun_inline_under(
            file.as_ptr(),
            file.len(),
            lent.as_ptr(),
            lent.len(),
            result.as_mut_ptr(),
            result.len(),
            words.as_mut_ptr(),
            words.len(),
            runs,
        )
    };
    answer.done()
}

/// Runs the same pass and writes the root bindings instead, the oldest first: text number, the context's low and high half, the prevented mark
/// and the count of each. Answers how many there are; [`MOST_ROOTS`] always suffice. The words are as with [`inline_into`].
///
/// # Errors
///
/// Those of [`inline_into`]; [`Refusal::Room`] if the root bindings do not fit. A refusal leaves `roots` as it was.
pub fn roots_into(
    file: &[u8],
    roots: &mut [[u32; ROOT_WORDS]],
    words: &mut [u32],
    runs: u32,
) -> Result<usize, Refusal> {
    let flat = roots.as_flattened_mut();
    // SAFETY: as in `inline_into`.
    let answer = unsafe {
        entries::negbosun_roots(
            file.as_ptr(),
            file.len(),
            flat.as_mut_ptr(),
            flat.len(),
            words.as_mut_ptr(),
            words.len(),
            runs,
        )
    };
    answer.counted()
}

/// The same under a mill's own kind table.
///
/// # Errors
///
/// Those of [`inline_into_under`]; [`Refusal::Room`] if the root bindings do not fit. A refusal leaves `roots` as it was.
pub fn roots_into_under(
    file: &[u8],
    table: &KindTable,
    roots: &mut [[u32; ROOT_WORDS]],
    words: &mut [u32],
    runs: u32,
) -> Result<usize, Refusal> {
    let (lent, flat) = (table.as_bytes(), roots.as_flattened_mut());
    // SAFETY: as in `inline_into`, with four slices.
    let answer = unsafe {
        entries::negbosun_roots_under(
            file.as_ptr(),
            file.len(),
            lent.as_ptr(),
            lent.len(),
            flat.as_mut_ptr(),
            flat.len(),
            words.as_mut_ptr(),
            words.len(),
            runs,
        )
    };
    answer.counted()
}

/// Runs the same pass and tells its n-th root binding, counted from 0 in the order of [`roots_into`], or that there is none. Any `n` will
/// do. The words are as with [`inline_into`]. [`Inlined::roots`] has all of them after one pass.
///
/// # Errors
///
/// Those of [`inline_into`] but [`Refusal::Room`].
pub fn root_of(
    file: &[u8],
    words: &mut [u32],
    runs: u32,
    n: u32,
) -> Result<Option<RootBinding>, Refusal> {
    // SAFETY: as in `inline_into`, with two slices.
    let answer = unsafe {
        entries::negbosun_root(
            file.as_ptr(),
            file.len(),
            words.as_mut_ptr(),
            words.len(),
            runs,
            n,
        )
    };
    answer.found()
}

/// The same under a mill's own kind table.
///
/// # Errors
///
/// Those of [`inline_into_under`] but [`Refusal::Room`].
pub fn root_of_under(
    file: &[u8],
    table: &KindTable,
    words: &mut [u32],
    runs: u32,
    n: u32,
) -> Result<Option<RootBinding>, Refusal> {
    let lent = table.as_bytes();
    // SAFETY: as in `inline_into`, with three slices.
    let answer = unsafe {
        entries::negbosun_root_under(
            file.as_ptr(),
            file.len(),
            lent.as_ptr(),
            lent.len(),
            words.as_mut_ptr(),
            words.len(),
            runs,
            n,
        )
    };
    answer.found()
}

/// Writes the one file of a tree file's script into `result`, and answers its length: its texts stand in the order of their first use by
/// nodes, none that no node uses, and its contexts are numbered from 0 in the order of their first use; all else is as it was.
///
/// Two files have equal canonical files exactly when they differ only in text numbering, in unused texts, and by a one-to-one change of
/// contexts. A canonical file is a readable file, no longer than the given one, and its own canonical file. The pass on it gives the same
/// refusal, or the same runs and mark and a result of the same canonical file, unless one of both is [`Refusal::Room`].
///
/// The words are as with [`inline_into`]; [`Refusal::RunsOrWords`] asks here for the words alone.
///
/// # Errors
///
/// Refusals 1 to 7, the first that applies, then [`Refusal::CanonRoom`]. A refusal leaves `result` as it was.
pub fn canon_into(file: &[u8], result: &mut [u8], words: &mut [u32]) -> Result<usize, Refusal> {
    // SAFETY: as in `inline_into`.
    let answer = unsafe {
        entries::negbosun_canon(
            file.as_ptr(),
            file.len(),
            result.as_mut_ptr(),
            result.len(),
            words.as_mut_ptr(),
            words.len(),
        )
    };
    answer.length()
}

/// Writes a tree file again into `result`, with each name's context worked out from the script, and answers its length, which is the given file's. A context
/// is the number of the innermost scope around the name that declares it, as ECMA-262 lays down (Annex B left out), scopes numbered from 1 in node order, and 0
/// where none does; `arguments` that its function does not declare is 0. docs/TREE.md says which nodes have a scope. The contexts of the given file are not
/// looked at; all else is as it was.
///
/// Two names have one text and one context then exactly when they mean the same variable, or are one name that nothing declares. Resolving a resolved file
/// changes nothing.
///
/// The words are as with [`inline_into`]; [`Refusal::RunsOrWords`] asks here for the words alone.
///
/// # Errors
///
/// Refusals 1 to 6, then [`Refusal::DeclaredTwice`], then [`Refusal::Identifiers`], which counts the identifiers with their new contexts, and
/// [`Refusal::Room`]. A refusal leaves `result` as it was.
pub fn resolve_into(file: &[u8], result: &mut [u8], words: &mut [u32]) -> Result<usize, Refusal> {
    // SAFETY: as in `inline_into`.
    let answer = unsafe {
        entries::negbosun_resolve(
            file.as_ptr(),
            file.len(),
            result.as_mut_ptr(),
            result.len(),
            words.as_mut_ptr(),
            words.len(),
        )
    };
    answer.length()
}

/// Prints a tree file's script as JavaScript into `text`, and answers the text's length: tokens one blank apart, a line end behind each statement of the script,
/// and parentheses where the tree has them or the reading needs them. docs/TREE.md has how numbers, strings and the rest are written.
///
/// The text, read by ECMA-262's grammar of a script, is the tree again, contexts and parentheses passed over; none of the added parentheses is needless. What
/// contexts a file has does not show: two variables of one name print alike.
///
/// [`TreeFile::most_text_bytes`] of room suffices, and [`MOST_TEXT_BYTES`] always. The words are as with [`inline_into`]; [`Refusal::RunsOrWords`] asks here for
/// the words alone.
///
/// # Errors
///
/// Refusals 1 to 7, then [`Refusal::NoText`], then [`Refusal::TextRoom`]. A refusal leaves `text` as it was.
pub fn text_into(file: &[u8], text: &mut [u8], words: &mut [u32]) -> Result<usize, Refusal> {
    // SAFETY: as in `inline_into`.
    let answer = unsafe {
        entries::negbosun_text(
            file.as_ptr(),
            file.len(),
            text.as_mut_ptr(),
            text.len(),
            words.as_mut_ptr(),
            words.len(),
        )
    };
    answer.length()
}

/// The pass with memory of its own, for many files one after another.
#[derive(Clone, Debug)]
pub struct Inliner {
    words: Vec<u32>,
    result: Vec<u8>,
    roots: Vec<[u32; ROOT_WORDS]>,
}

impl Default for Inliner {
    fn default() -> Inliner {
        Inliner {
            words: vec![0; WORDS],
            result: vec![0; MOST_BYTES],
            roots: vec![[0; ROOT_WORDS]; MOST_ROOTS],
        }
    }
}

/// The first elements of a buffer, of which a C function wrote `count`; its contract has no more of them than there is room for.
fn written<T: Clone>(buffer: &[T], count: usize) -> Vec<T> {
    buffer.iter().take(count).cloned().collect()
}

impl Inliner {
    /// One with its memory, about 90 KB.
    #[must_use]
    pub fn new() -> Inliner {
        Inliner::default()
    }

    /// The result of at most `runs` runs with its root bindings. The pass is done twice, since the root bindings have a C function of
    /// their own; use [`inline_into`] where they are not wanted.
    ///
    /// # Errors
    ///
    /// Refusals 1 to 9.
    pub fn inline(&mut self, file: &[u8], runs: u32) -> Result<Inlined, Refusal> {
        let done = inline_into(file, &mut self.result, &mut self.words, runs)?;
        let count = roots_into(file, &mut self.roots, &mut self.words, runs)?;
        Ok(self.inlined(done, count))
    }

    /// The same under a mill's own kind table, as [`inline_into_under`] has it.
    ///
    /// # Errors
    ///
    /// Those of [`inline_into_under`] but [`Refusal::Room`].
    pub fn inline_under(
        &mut self,
        file: &[u8],
        table: &KindTable,
        runs: u32,
    ) -> Result<Inlined, Refusal> {
        let done = inline_into_under(file, table, &mut self.result, &mut self.words, runs)?;
        let count = roots_into_under(file, table, &mut self.roots, &mut self.words, runs)?;
        Ok(self.inlined(done, count))
    }

    fn inlined(&self, done: Done, count: usize) -> Inlined {
        Inlined {
            file: written(&self.result, done.length),
            runs: done.runs,
            changed: done.changed,
            roots: written(&self.roots, count),
        }
    }

    /// The one file of the file's script, as [`canon_into`] writes it.
    ///
    /// # Errors
    ///
    /// Refusals 2 to 7.
    pub fn canon(&mut self, file: &[u8]) -> Result<Vec<u8>, Refusal> {
        let length = canon_into(file, &mut self.result, &mut self.words)?;
        Ok(written(&self.result, length))
    }

    /// The file with the contexts of its names worked out, as [`resolve_into`] writes it.
    ///
    /// # Errors
    ///
    /// Refusals 2 to 6, then [`Refusal::DeclaredTwice`] and [`Refusal::Identifiers`].
    pub fn resolve(&mut self, file: &[u8]) -> Result<Vec<u8>, Refusal> {
        let length = resolve_into(file, &mut self.result, &mut self.words)?;
        Ok(written(&self.result, length))
    }

    /// The script as JavaScript, as [`text_into`] prints it.
    ///
    /// # Errors
    ///
    /// Refusals 2 to 7, then [`Refusal::NoText`].
    pub fn text(&mut self, file: &[u8]) -> Result<String, Refusal> {
        // A file that is no tree file is refused before any room is asked for.
        let room = TreeFile::new(file).map_or(0, TreeFile::most_text_bytes);
        let mut text = vec![0; room];
        let length = text_into(file, &mut text, &mut self.words)?;
        text.truncate(length);
        // All of it is bytes 32 to 126 and line ends.
        Ok(String::from_utf8(text).unwrap_or_default())
    }
}

/// [`Inliner::inline`] for a single file.
///
/// # Errors
///
/// As there.
pub fn inline(file: &[u8], runs: u32) -> Result<Inlined, Refusal> {
    Inliner::new().inline(file, runs)
}

/// [`Inliner::inline_under`] for a single file.
///
/// # Errors
///
/// As there.
pub fn inline_under(file: &[u8], table: &KindTable, runs: u32) -> Result<Inlined, Refusal> {
    Inliner::new().inline_under(file, table, runs)
}

/// [`Inliner::canon`] for a single file.
///
/// ```
/// use negbosun::{canon, Refusal};
///
/// // The empty script with a text that no node uses, `a`: a header of eight fields, a node of kind 1, the end of the text and its byte.
/// let header: [u32; 8] = [1, 53, 1, 32, 1, 48, 52, 1];
/// let mut file: Vec<u8> = header.iter().flat_map(|field| field.to_le_bytes()).collect();
/// file.extend([1, 0, 0, 0, 0, 0, 0, 0, 0, 0, 0, 0, 0, 0, 0, 0]);
/// file.extend([1, 0, 0, 0, b'a']);
///
/// let one = canon(&file)?;
/// assert_eq!(one.len(), 48);
/// assert_eq!(canon(&one)?, one);
/// assert_eq!(canon(b"no tree file"), Err(Refusal::Header));
/// # Ok::<(), Refusal>(())
/// ```
///
/// # Errors
///
/// As there.
pub fn canon(file: &[u8]) -> Result<Vec<u8>, Refusal> {
    Inliner::new().canon(file)
}

/// [`Inliner::resolve`] for a single file.
///
/// ```
/// use negbosun::{resolve, Node, Refusal, TreeFile};
///
/// // `var x; { let x; x; }`, or, with the form 0 of `var` in place of 1, `var x; { var x; x; }`; each name with the context 0.
/// let script = |form| {
///     let (name, text) = ([20, 0, 0, 0, 0, 0, 0, 0, 0, 0, 0, 0, 0, 0, 0, 0], [1, 0, 0, 0, b'x']);
///     let node = |kind, form, children| [kind, form, children, 0, 0, 0, 0, 0, 0, 0, 0, 0, 0, 0, 0, 0];
///     let nodes = [
///         node(1, 0, 2), node(5, 0, 1), node(6, 0, 1), name,
///         node(2, 0, 2), node(5, form, 1), node(6, 0, 1), name, node(4, 0, 1), node(21, 0, 0),
///     ];
///     let header: [u32; 8] = [1, 197, 10, 32, 1, 192, 196, 1];
///     let header: Vec<u8> = header.iter().flat_map(|field| field.to_le_bytes()).collect();
///     [&header[..], nodes.as_flattened(), &text].concat()
/// };
/// let contexts = |file: &[u8]| -> Result<Vec<u64>, Refusal> {
///     Ok(TreeFile::new(file)?.nodes().filter_map(Node::context).collect())
/// };
///
/// assert_eq!(contexts(&resolve(&script(1))?)?, [1, 2, 2]);
/// assert_eq!(contexts(&resolve(&script(0))?)?, [1, 1, 1]);
///
/// // `let x; { var x; x; }`
/// let mut clash = script(0);
/// clash[32 + 16 + 1] = 1;
/// assert_eq!(resolve(&clash), Err(Refusal::DeclaredTwice));
/// let twice = TreeFile::new(&clash)?.declared_twice().expect("a name");
/// assert_eq!(twice.to_string(), r#""x", declared by a let (node 4) and again by a var (node 8)"#);
/// # Ok::<(), Refusal>(())
/// ```
///
/// # Errors
///
/// As there.
pub fn resolve(file: &[u8]) -> Result<Vec<u8>, Refusal> {
    Inliner::new().resolve(file)
}

/// [`Inliner::text`] for a single file.
///
/// ```
/// use negbosun::{text, Refusal, TreeFile};
///
/// // `-(-x);`, with x named by the bytes that are given: a script of one statement, two signs and a name.
/// let script = |name: &[u8; 1]| {
///     let node = |kind, form, children| [kind, form, children, 0, 0, 0, 0, 0, 0, 0, 0, 0, 0, 0, 0, 0];
///     let nodes = [node(1, 0, 1), node(4, 0, 1), node(30, 3, 1), node(30, 3, 1), node(21, 0, 0)];
///     let header: [u32; 8] = [1, 117, 5, 32, 1, 112, 116, 1];
///     let header: Vec<u8> = header.iter().flat_map(|field| field.to_le_bytes()).collect();
///     [&header[..], nodes.as_flattened(), &[1, 0, 0, 0], name].concat()
/// };
///
/// assert_eq!(text(&script(b"x"))?, "- - x ;\n");
///
/// let strange = script(b"7");
/// assert_eq!(text(&strange), Err(Refusal::NoText));
/// let none = TreeFile::new(&strange)?.no_text().expect("a node");
/// assert_eq!(none.to_string(), r#"node 5 (kind 21) with "7", which is no name of letters, digits, $ and _"#);
/// # Ok::<(), Refusal>(())
/// ```
///
/// # Errors
///
/// As there.
pub fn text(file: &[u8]) -> Result<String, Refusal> {
    Inliner::new().text(file)
}
