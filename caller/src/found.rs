//! What a refused file has where a limit is, with the count.

use crate::header::{Header, MOST_NODES, MOST_TEXTS, MOST_TEXT_BYTES};
use crate::{places, KindTable, Refusal, TreeFile};
use std::collections::{HashMap, HashSet};

/// A count with a comma before each three digits.
pub(crate) fn grouped(count: usize) -> String {
    let digits = count.to_string();
    let first = digits.len() % 3;
    let parts = digits.char_indices().map(|(at, digit)| {
        let comma = if at > 0 && at % 3 == first { "," } else { "" };
        format!("{comma}{digit}")
    });
    parts.collect()
}

fn version(file: &[u8]) -> String {
    match Header::read(file) {
        None => format!("{} bytes", file.len()),
        Some(header) => format!("version {}", header.version),
    }
}

fn counts(header: Header) -> Option<String> {
    let limits = [
        (header.nodes, MOST_NODES, "nodes"),
        (header.texts, MOST_TEXTS, "texts"),
        (header.bytes, MOST_TEXT_BYTES, "bytes of text"),
    ];
    let over = limits.into_iter().find(|(count, most, _)| count > most);
    over.map_or((header.nodes == 0).then(|| "no node".into()), |met| {
        let (count, most, what) = met;
        let (count, most) = (grouped(count), grouped(most));
        Some(format!("{count} {what}, at most {most}"))
    })
}

fn lengths(header: Header, length: usize) -> Option<String> {
    let sums = header.summed();
    let fields = [
        (header.total, sums.total, "its length"),
        (header.nodes_at, sums.nodes_at, "where its nodes begin"),
        (
            header.ends_at,
            sums.ends_at,
            "where the ends of its texts begin",
        ),
        (
            header.bytes_at,
            sums.bytes_at,
            "where the bytes of its texts begin",
        ),
        (header.total, length, "its length"),
    ];
    let wrong = fields.into_iter().find(|(said, is, _)| said != is);
    wrong.map(|(said, is, what)| {
        let (said, is) = (grouped(said), grouped(is));
        format!("{said} as {what}, which is {is}")
    })
}

/// How many different identifiers there are.
fn different(tree: TreeFile) -> String {
    let names = tree.nodes().filter(|node| node.kind().has_context());
    let all: HashSet<_> = names
        .map(|node| (node.text_number(), node.context()))
        .collect();
    grouped(all.len())
}

fn identifiers(tree: TreeFile) -> String {
    format!("{} identifiers, at most 256", different(tree))
}

/// The first text that ends wrongly, or the first that was there before.
pub(crate) fn texts(tree: TreeFile) -> Option<String> {
    let mut before = 0;
    for (number, end) in tree.ends().enumerate() {
        if end < before {
            return Some(format!(
                "text {number} ending at byte {end}, where the one before it ends at {before}"
            ));
        }
        before = end;
    }
    let length = tree.text_bytes();
    if before != length {
        return Some(format!(
            "{length} bytes of text, of which the last text ends at {before}"
        ));
    }
    let mut seen: HashMap<&[u8], usize> = HashMap::new();
    let twice = tree.texts().enumerate().find_map(|(number, text)| {
        let first = seen.insert(text, number)?;
        Some((first, number, text))
    });
    twice.map(|(first, number, text)| {
        let text = String::from_utf8_lossy(text);
        format!("texts {first} and {number} both as {text:?}")
    })
}

/// How deep the tree of a readable file is, the root as 1.
fn depth(tree: TreeFile) -> usize {
    // Children still to come, of each node around.
    let mut open: Vec<usize> = Vec::new();
    let mut deepest = 0;
    for node in tree.nodes() {
        while open.last() == Some(&0) {
            open.pop();
        }
        if let Some(left) = open.last_mut() {
            *left -= 1;
        }
        deepest = deepest.max(open.len() + 1);
        open.push(node.children());
    }
    deepest
}

/// Rows 8 and 9 are met while running; what the script had before is told, so that one sees how near it was.
fn depth_as_read(tree: TreeFile) -> String {
    format!("a tree {} deep before the first run", depth(tree))
}

fn size_as_read(tree: TreeFile) -> String {
    let nodes = grouped(tree.nodes().len());
    let names = different(tree);
    format!("{nodes} nodes and {names} identifiers before the first run")
}

impl Refusal {
    /// What the file that was so refused has where the limit is: "1,240 nodes, at most 1,024". Rows 8 and 9 are met while running; what the script has before
    /// its first run is told of them. Row 7 is told of the contexts that the file has, which the resolver passes over. Rows 1, 10, 11 and 16 are no matter of the file, and 14 and 15 are one of the kind table.
    #[must_use]
    pub fn found(self, file: &[u8]) -> Option<String> {
        let tree = || TreeFile::new(file).ok();
        match self {
            Refusal::Header => Some(version(file)),
            Refusal::Counts => Header::read(file).and_then(counts),
            Refusal::Lengths => Header::read(file).and_then(|header| lengths(header, file.len())),
            Refusal::Texts => tree().and_then(texts),
            Refusal::Nodes => tree().and_then(|tree| places::fault(tree, None)),
            Refusal::Identifiers => tree().map(identifiers),
            Refusal::Depth => tree().map(depth_as_read),
            Refusal::Size => tree().map(size_as_read),
            Refusal::DeclaredTwice => tree()?.declared_twice().map(|twice| twice.to_string()),
            Refusal::NoText => tree()?.no_text().map(|none| none.to_string()),
            Refusal::RunsOrWords
            | Refusal::Room
            | Refusal::TextRoom
            | Refusal::Table
            | Refusal::Pairs
            | Refusal::CanonRoom
            | Refusal::Unlisted(_) => None,
        }
    }

    /// The same of a file that was refused under a kind table: "node 12 (kind 36) under node 11 (kind 4), which the kind table forbids"; of
    /// [`Refusal::Pairs`] the first pair that the table allows too much.
    #[must_use]
    pub fn found_under(self, file: &[u8], table: &KindTable) -> Option<String> {
        match self {
            Refusal::Nodes => {
                let tree = TreeFile::new(file).ok()?;
                places::fault(tree, Some(table))
            }
            Refusal::Pairs => {
                let (parent, child) = table.too_wide()?;
                let (line, column) = (parent.number(), child.number());
                Some(format!("1 on line {line} in column {column}: kind {column} stands nowhere under kind {line}"))
            }
            _ => self.found(file),
        }
    }
}

#[cfg(test)]
mod tests {
    use super::grouped;
    use crate::Refusal;

    fn found(refusal: Refusal, fields: [u32; 8]) -> Option<String> {
        let bytes = fields.iter().flat_map(|field| field.to_le_bytes());
        refusal.found(&bytes.collect::<Vec<u8>>())
    }

    #[test]
    fn counts_are_grouped() {
        let all = [0, 7, 999, 1000, 21_536, 123_456, 4_294_967_295];
        let texts = all.map(grouped).join(" ");
        assert_eq!(texts, "0 7 999 1,000 21,536 123,456 4,294,967,295");
    }

    #[test]
    fn what_was_met_is_said_with_its_count() {
        let cases = [
            (Refusal::Header, [5, 0, 0, 0, 0, 0, 0, 0], "version 5"),
            (Refusal::Counts, [1, 0, 0, 0, 0, 0, 0, 0], "no node"),
            (
                Refusal::Counts,
                [1, 0, 1240, 0, 0, 0, 0, 0],
                "1,240 nodes, at most 1,024",
            ),
            (
                Refusal::Counts,
                [1, 0, 1, 0, 257, 0, 0, 0],
                "257 texts, at most 256",
            ),
            (
                Refusal::Counts,
                [1, 0, 1, 0, 0, 0, 0, 4097],
                "4,097 bytes of text, at most 4,096",
            ),
            (
                Refusal::Lengths,
                [1, 49, 1, 32, 0, 48, 48, 0],
                "49 as its length, which is 48",
            ),
            (
                Refusal::Lengths,
                [1, 48, 1, 33, 0, 48, 48, 0],
                "33 as where its nodes begin, which is 32",
            ),
            (
                Refusal::Lengths,
                [1, 48, 1, 32, 0, 48, 48, 0],
                "48 as its length, which is 32",
            ),
        ];
        for (refusal, fields, words) in cases {
            assert_eq!(found(refusal, fields).as_deref(), Some(words));
        }
        assert_eq!(Refusal::Header.found(b"short").as_deref(), Some("5 bytes"));
    }

    /// Kind, form, children and text.
    type Fields = (u8, u8, u16, u32);

    /// A file of these nodes and texts, with a header that agrees.
    fn file(nodes: &[Fields], texts: &[&str], ends: &[u32]) -> Vec<u8> {
        let text = texts.concat();
        let ends_at = 32 + 16 * nodes.len();
        let bytes_at = ends_at + 4 * ends.len();
        let counts = [nodes.len(), 32, ends.len(), ends_at, bytes_at, text.len()];
        let header = [1, bytes_at + text.len()].into_iter().chain(counts);
        let mut file: Vec<u8> = header
            .flat_map(|n| u32::try_from(n).unwrap_or(u32::MAX).to_le_bytes())
            .collect();
        for (kind, form, children, number) in nodes {
            file.extend([*kind, *form]);
            file.extend(children.to_le_bytes());
            file.extend(number.to_le_bytes());
            file.extend([0; 8]);
        }
        file.extend(ends.iter().flat_map(|end| end.to_le_bytes()));
        file.extend(text.bytes());
        file
    }

    #[test]
    fn texts_are_named() {
        let cases = [
            (&["a", "a"][..], &[1, 2][..], "texts 0 and 1 both as \"a\""),
            (
                &["ab"],
                &[2, 1],
                "text 1 ending at byte 1, where the one before it ends at 2",
            ),
            (
                &["ab"],
                &[1],
                "2 bytes of text, of which the last text ends at 1",
            ),
        ];
        for (texts, ends, words) in cases {
            let file = file(&[(1, 0, 0, 0)], texts, ends);
            assert_eq!(Refusal::Texts.found(&file).as_deref(), Some(words));
        }
    }

    #[test]
    fn nodes_are_named() {
        let cases: [(&[Fields], &str); 9] = [
            (
                &[(2, 0, 0, 0)],
                "node 1 (kind 2) where a script (kind 1) belongs",
            ),
            (
                &[(1, 0, 1, 0), (99, 0, 0, 0)],
                "node 2 (kind 99) with kind 99, which is none",
            ),
            (&[(1, 0, 1, 0), (5, 3, 1, 0)], "node 2 (kind 5) with form 3"),
            (
                &[(1, 0, 1, 0), (3, 0, 0, 4)],
                "node 2 (kind 3) with text 4, where 0 belongs",
            ),
            (
                &[(1, 0, 1, 0), (4, 0, 1, 0), (21, 0, 0, 1)],
                "node 3 (kind 21) with text 1 of 1 texts",
            ),
            (
                &[(1, 0, 1, 0), (4, 0, 1, 0), (3, 0, 0, 0)],
                "node 3 (kind 3) where an expression belongs",
            ),
            (
                &[(1, 0, 1, 0), (4, 0, 0, 0)],
                "node 2 (kind 4) with 0 children",
            ),
            (
                &[(1, 0, 2, 0), (3, 0, 0, 0)],
                "node 1 (kind 1) after which 2 nodes are wanted, and 1 follow",
            ),
            (&[(1, 0, 0, 0), (3, 0, 0, 0)], "1 nodes left over"),
        ];
        for (nodes, words) in cases {
            let file = file(nodes, &["a"], &[1]);
            assert_eq!(Refusal::Nodes.found(&file).as_deref(), Some(words));
        }
    }

    #[test]
    fn what_the_script_had_is_told_of_rows_met_while_running() {
        let nodes = [(1, 0, 2, 0), (4, 0, 1, 0), (21, 0, 0, 0), (3, 0, 0, 0)];
        let file = file(&nodes, &["a"], &[1]);
        let found = |refusal: Refusal| refusal.found(&file);
        assert_eq!(
            found(Refusal::Depth).as_deref(),
            Some("a tree 3 deep before the first run")
        );
        let size = "4 nodes and 1 identifiers before the first run";
        assert_eq!(found(Refusal::Size).as_deref(), Some(size));
    }

    #[test]
    fn any_file_may_be_asked_about() {
        for refusal in Refusal::ALL {
            for file in [&[][..], &[0xff; 32], &[0; 48]] {
                assert_ne!(refusal.found(file), Some(String::new()));
            }
        }
    }
}
