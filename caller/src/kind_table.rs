//! A mill's own table of kinds: which kinds of nodes may stand under which.

use crate::{places, Kind};
use std::error::Error;
use std::fmt;
use std::str::FromStr;

/// A table has a line for each parent kind and in it an entry for each child kind.
const KINDS: usize = 48;

/// So many bytes has a kind table.
pub const TABLE_BYTES: usize = 48 * 48;

/// A mill's own kind table: which kinds of nodes may stand under which. A script is read under it if it is read without one and the table
/// allows every node under its parent; otherwise the pass refuses it with [`Refusal::Nodes`](crate::Refusal::Nodes).
///
/// Its text is 48 lines of 48 digits, a line for each parent kind and a digit for each child kind, 1 if that child may stand under that parent
/// and 0 if it may not; as bytes it is the 2,304 numbers. [`KindTable::whole`] is the table that everybody has; a mill's own one allows fewer pairs.
///
/// ```
/// use negbosun::{Kind, KindTable};
///
/// let table = KindTable::whole().without(Kind::For).without(Kind::New);
/// assert!(table.allows(Kind::Block, Kind::While));
/// assert!(!table.allows(Kind::Block, Kind::For));
/// assert_eq!(table.to_string().parse(), Ok(table.clone()));
///
/// let wrong = table.to_string().replacen('0', "x", 1);
/// let error = wrong.parse::<KindTable>().unwrap_err();
/// assert_eq!(error.to_string(), "line 1, column 1: `x`, where 0 or 1 belongs");
/// ```
#[derive(Clone, PartialEq, Eq, Hash)]
pub struct KindTable {
    entries: [u8; TABLE_BYTES],
}

/// Where the entry of two kinds stands; none where one of them is no kind of this version.
fn place(parent: Kind, child: Kind) -> Option<usize> {
    let from_0 = |kind: Kind| {
        let number = usize::from(kind.number());
        number.checked_sub(1).filter(|at| *at < KINDS)
    };
    Some(from_0(parent)? * KINDS + from_0(child)?)
}

/// The kinds of the entry at a place.
fn pair(at: usize) -> (Kind, Kind) {
    let kind = |from_0: usize| Kind::from_number(u8::try_from(from_0 + 1).unwrap_or(0));
    (kind(at / KINDS), kind(at % KINDS))
}

impl KindTable {
    fn filled(entry: impl Fn(Kind, Kind) -> bool) -> KindTable {
        let mut entries = [0; TABLE_BYTES];
        for (at, byte) in entries.iter_mut().enumerate() {
            let (parent, child) = pair(at);
            *byte = u8::from(entry(parent, child));
        }
        KindTable { entries }
    }

    /// The table that everybody has: every pair that the kinds allow somewhere. Lending it is lending none.
    #[must_use]
    pub fn whole() -> KindTable {
        KindTable::filled(|parent, child| places::stands(parent.number(), child.number()))
    }

    /// The table of 2,304 bytes, each 0 or 1.
    ///
    /// # Errors
    ///
    /// The first byte that is neither, by its line and column, or where there are too few or too many.
    pub fn from_bytes(bytes: &[u8]) -> Result<KindTable, KindTableError> {
        let wrong = bytes.iter().take(TABLE_BYTES).position(|byte| *byte > 1);
        if let Some((at, byte)) = wrong.and_then(|at| Some((at, *bytes.get(at)?))) {
            return Err(KindTableError::at(at, Problem::Byte(byte)));
        }
        match bytes.try_into() {
            Ok(entries) => Ok(KindTable { entries }),
            Err(_) => Err(KindTableError::at(
                bytes.len().min(TABLE_BYTES),
                Problem::Length(bytes.len()),
            )),
        }
    }

    /// The 2,304 bytes, as the C functions take them.
    #[must_use]
    pub fn as_bytes(&self) -> &[u8] {
        &self.entries
    }

    /// Whether it allows a node of one kind under one of another.
    #[must_use]
    pub fn allows(&self, parent: Kind, child: Kind) -> bool {
        place(parent, child).is_some_and(|at| self.entries.get(at) == Some(&1))
    }

    /// The same table, in which that child may not stand under that parent.
    #[must_use]
    pub fn forbidding(mut self, parent: Kind, child: Kind) -> KindTable {
        if let Some(entry) = place(parent, child).and_then(|at| self.entries.get_mut(at)) {
            *entry = 0;
        }
        self
    }

    /// The same table, in which a node of that kind may stand nowhere.
    #[must_use]
    pub fn without(self, child: Kind) -> KindTable {
        (0..KINDS).fold(self, |table, at| {
            table.forbidding(pair(at * KINDS).0, child)
        })
    }

    /// The first pair, of parent and child, that it allows although no kind takes that child: the pass refuses such a table with
    /// [`Refusal::Pairs`](crate::Refusal::Pairs).
    #[must_use]
    pub fn too_wide(&self) -> Option<(Kind, Kind)> {
        let whole = KindTable::whole();
        let entries = self.entries.iter().zip(whole.entries).enumerate();
        let mut over = entries.filter(|(_, (own, most))| **own > *most);
        over.next().map(|(at, _)| pair(at))
    }
}

/// Its 48 lines.
impl fmt::Display for KindTable {
    fn fmt(&self, out: &mut fmt::Formatter) -> fmt::Result {
        for line in self.entries.chunks(KINDS) {
            let digits: String = line.iter().map(|entry| char::from(b'0' + entry)).collect();
            writeln!(out, "{digits}")?;
        }
        Ok(())
    }
}

impl fmt::Debug for KindTable {
    fn fmt(&self, out: &mut fmt::Formatter) -> fmt::Result {
        let pairs: usize = self.entries.iter().copied().map(usize::from).sum();
        write!(out, "KindTable {{ {pairs} pairs }}")
    }
}

impl TryFrom<&[u8]> for KindTable {
    type Error = KindTableError;

    fn try_from(bytes: &[u8]) -> Result<KindTable, KindTableError> {
        KindTable::from_bytes(bytes)
    }
}

/// From 48 lines of 48 digits; the last line may have its end or not.
impl FromStr for KindTable {
    type Err = KindTableError;

    fn from_str(text: &str) -> Result<KindTable, KindTableError> {
        let mut entries = Vec::with_capacity(TABLE_BYTES);
        let mut lines = 0;
        for line in text.lines() {
            if lines == KINDS {
                return Err(KindTableError::new(
                    lines,
                    0,
                    Problem::Lines(text.lines().count()),
                ));
            }
            entries.extend(line_of(lines, line)?);
            lines += 1;
        }
        match KindTable::from_bytes(&entries) {
            Ok(table) => Ok(table),
            Err(_) => Err(KindTableError::new(lines, 0, Problem::Lines(lines))),
        }
    }
}

/// The entries of a line, which is counted from 0.
fn line_of(line: usize, text: &str) -> Result<Vec<u8>, KindTableError> {
    let entries = text.chars().enumerate().map(|(at, digit)| match digit {
        _ if at >= KINDS => Err(KindTableError::new(
            line,
            at,
            Problem::Columns(text.chars().count()),
        )),
        '0' => Ok(0),
        '1' => Ok(1),
        _ => Err(KindTableError::new(line, at, Problem::Digit(digit))),
    });
    let entries: Vec<u8> = entries.collect::<Result<_, _>>()?;
    if entries.len() < KINDS {
        return Err(KindTableError::new(
            line,
            entries.len(),
            Problem::Columns(entries.len()),
        ));
    }
    Ok(entries)
}

#[derive(Clone, Copy, Debug, PartialEq, Eq)]
enum Problem {
    Byte(u8),
    Digit(char),
    /// So many bytes.
    Length(usize),
    /// So many lines.
    Lines(usize),
    /// So many digits in a line.
    Columns(usize),
}

/// What is no kind table, and where: the line is that of a parent kind, the column that of a child kind, both from 1 on.
#[derive(Clone, Copy, Debug, PartialEq, Eq)]
pub struct KindTableError {
    line: usize,
    column: usize,
    problem: Problem,
}

impl KindTableError {
    fn new(line_from_0: usize, column_from_0: usize, problem: Problem) -> KindTableError {
        KindTableError {
            line: line_from_0 + 1,
            column: column_from_0 + 1,
            problem,
        }
    }

    fn at(byte: usize, problem: Problem) -> KindTableError {
        KindTableError::new(byte / KINDS, byte % KINDS, problem)
    }

    /// The line, from 1 on.
    #[must_use]
    pub fn line(self) -> usize {
        self.line
    }

    /// The column, from 1 on.
    #[must_use]
    pub fn column(self) -> usize {
        self.column
    }
}

impl fmt::Display for KindTableError {
    fn fmt(&self, out: &mut fmt::Formatter) -> fmt::Result {
        let KindTableError { line, column, .. } = self;
        write!(out, "line {line}, column {column}: ")?;
        match self.problem {
            Problem::Byte(byte) => write!(out, "a byte {byte}, where 0 or 1 belongs"),
            Problem::Digit(digit) => {
                write!(out, "`{}`, where 0 or 1 belongs", digit.escape_debug())
            }
            Problem::Length(bytes) => write!(out, "{bytes} bytes, where a table has {TABLE_BYTES}"),
            Problem::Lines(lines) => write!(out, "{lines} lines, where a table has {KINDS}"),
            Problem::Columns(digits) => write!(out, "{digits} digits, where a line has {KINDS}"),
        }
    }
}

impl Error for KindTableError {}

#[cfg(test)]
mod tests {
    use super::{pair, place, KindTable, TABLE_BYTES};
    use crate::Kind;

    fn said(text: &str) -> String {
        text.parse::<KindTable>()
            .map_or_else(|error| error.to_string(), |_| String::new())
    }

    #[test]
    fn places_and_pairs_are_the_same() {
        for at in 0..TABLE_BYTES {
            let (parent, child) = pair(at);
            assert_eq!(place(parent, child), Some(at));
        }
        assert_eq!(place(Kind::Script, Kind::Unlisted(49)), None);
        assert_eq!(place(Kind::Unlisted(0), Kind::Script), None);
    }

    #[test]
    fn lines_and_bytes_are_one_table() {
        let table = KindTable::whole().without(Kind::For);
        assert_eq!(table.to_string().parse(), Ok(table.clone()));
        assert_eq!(KindTable::from_bytes(table.as_bytes()), Ok(table.clone()));
        let unended = table.to_string().trim_end().to_owned();
        assert_eq!(unended.parse(), Ok(table.clone()));
        assert_eq!(table.to_string().replace('\n', "\r\n").parse(), Ok(table));
    }

    #[test]
    fn an_error_names_line_and_column() {
        let text = KindTable::whole().to_string();
        let lines: Vec<&str> = text.lines().collect();
        let with = |at: usize, line: &str| {
            let mut other = lines.clone();
            if let Some(old) = other.get_mut(at) {
                *old = line;
            }
            said(&other.join("\n"))
        };
        let zeros = "0".repeat(48);
        assert_eq!(with(4, &zeros), "");
        assert_eq!(
            with(4, &zeros.replacen('0', "2", 1)),
            "line 5, column 1: `2`, where 0 or 1 belongs"
        );
        assert_eq!(
            with(47, &format!("{}\t", "0".repeat(47))),
            "line 48, column 48: `\\t`, where 0 or 1 belongs"
        );
        assert_eq!(
            with(0, &"0".repeat(47)),
            "line 1, column 48: 47 digits, where a line has 48"
        );
        assert_eq!(
            with(8, &"0".repeat(50)),
            "line 9, column 49: 50 digits, where a line has 48"
        );
        assert_eq!(
            with(8, ""),
            "line 9, column 1: 0 digits, where a line has 48"
        );
        assert_eq!(said(""), "line 1, column 1: 0 lines, where a table has 48");
        assert_eq!(
            said(&format!("{text}{zeros}")),
            "line 49, column 1: 49 lines, where a table has 48"
        );
        let short = lines
            .iter()
            .take(47)
            .copied()
            .collect::<Vec<_>>()
            .join("\n");
        assert_eq!(
            said(&short),
            "line 48, column 1: 47 lines, where a table has 48"
        );
    }

    #[test]
    fn bytes_are_0_and_1_and_as_many_as_pairs() {
        let said = |bytes: &[u8]| {
            let error = KindTable::from_bytes(bytes).err();
            error.map(|it| (it.line(), it.column(), it.to_string()))
        };
        assert_eq!(said(&[0; TABLE_BYTES]), None);
        let mut bytes = [0; TABLE_BYTES];
        bytes[49] = 2;
        assert_eq!(
            said(&bytes),
            Some((
                2,
                2,
                "line 2, column 2: a byte 2, where 0 or 1 belongs".into()
            ))
        );
        assert_eq!(
            said(&[b'0'; TABLE_BYTES]),
            Some((
                1,
                1,
                "line 1, column 1: a byte 48, where 0 or 1 belongs".into()
            ))
        );
        for (length, line, column) in [(0, 1, 1), (2303, 48, 48), (2305, 49, 1), (9999, 49, 1)] {
            let words =
                format!("line {line}, column {column}: {length} bytes, where a table has 2304");
            assert_eq!(said(&vec![1; length]), Some((line, column, words)));
        }
    }

    #[test]
    fn a_table_forbids_pairs_or_kinds() {
        let whole = KindTable::whole();
        assert!(whole.allows(Kind::Array, Kind::String));
        let one = whole.clone().forbidding(Kind::Array, Kind::String);
        assert!(!one.allows(Kind::Array, Kind::String));
        assert!(one.allows(Kind::Array, Kind::Number) && one.allows(Kind::Call, Kind::String));
        let none = whole.clone().without(Kind::New);
        for at in 0..48 {
            assert!(!none.allows(pair(at * 48).0, Kind::New));
        }
        assert_eq!(whole.too_wide(), None);
        assert_eq!(none.too_wide(), None);
        let wide = KindTable::from_bytes(&[1; TABLE_BYTES]);
        assert_eq!(
            wide.ok().and_then(|it| it.too_wide()),
            Some((Kind::Script, Kind::Script))
        );
    }

    /// The table that the program `kind_table` prints, where this crate stands in the repository.
    #[test]
    fn the_whole_table_is_the_printed_one() {
        let printed = concat!(env!("CARGO_MANIFEST_DIR"), "/../crates/kind_table/stdout");
        if let Ok(text) = std::fs::read_to_string(printed) {
            assert_eq!(KindTable::whole().to_string(), text);
        }
    }
}
