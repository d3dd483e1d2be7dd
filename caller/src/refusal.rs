//! The refusals, by their numbers.

use std::error::Error;
use std::fmt;

/// Why there is no result.
///
/// [`Refusal::number`] is the number that the library answers, [`Refusal::words`] says the condition. A later version may have
/// further refusals.
#[derive(Clone, Copy, Debug, PartialEq, Eq, Hash, PartialOrd, Ord)]
#[non_exhaustive]
pub enum Refusal {
    /// 1: The run limit is outside 1 to 16, or there are fewer than 16,384 working words.
    RunsOrWords,
    /// 2: Under 32 bytes, or a version other than 1.
    Header,
    /// 3: Too few or too many nodes, too many texts or bytes of text.
    Counts,
    /// 4: An offset or a length is not the sum of its parts, or not the bytes given.
    Lengths,
    /// 5: The ends of the texts fall or miss the last byte, or two texts are equal.
    Texts,
    /// 6: The nodes are no script.
    Nodes,
    /// 7: Over 256 different identifiers.
    Identifiers,
    /// 8: While running: too deep, too many scopes, or inside too many right sides.
    Depth,
    /// 9: While running: too many nodes, recorded values or bindings.
    Size,
    /// 10: The buffer is shorter than what is to be written.
    Room,
    /// 11: The buffer is shorter than the text.
    TextRoom,
    /// 12: No text of ECMA-262's grammar reads as the script, or a name, a string or a number of it has no token.
    /// [`TreeFile::no_text`](crate::TreeFile::no_text) says which.
    NoText,
    /// 13: A name is declared twice in a scope, in the resolver alone: what a `let`, a `const`, a block's function or a catch declares, once more, by a `var`
    /// that stands in the scope, or as a parameter. [`TreeFile::declared_twice`](crate::TreeFile::declared_twice) says which.
    DeclaredTwice,
    /// 14: The lent kind table is not 2,304 bytes, each 0 or 1. A [`KindTable`](crate::KindTable) always is.
    Table,
    /// 15: The lent kind table allows a pair that the kinds forbid.
    Pairs,
    /// 16: The buffer is shorter than the canonical file.
    CanonRoom,
    /// A number that this version of the crate has no name for. The library that it was made for answers none.
    Unlisted(u32),
}

impl Refusal {
    /// The sixteen that have a name, by their numbers; those of one function are checked in this order, but 14 and 15 behind 1, 13 behind 6, and 12 before 11.
    pub const ALL: [Refusal; 16] = [
        Refusal::RunsOrWords,
        Refusal::Header,
        Refusal::Counts,
        Refusal::Lengths,
        Refusal::Texts,
        Refusal::Nodes,
        Refusal::Identifiers,
        Refusal::Depth,
        Refusal::Size,
        Refusal::Room,
        Refusal::TextRoom,
        Refusal::NoText,
        Refusal::DeclaredTwice,
        Refusal::Table,
        Refusal::Pairs,
        Refusal::CanonRoom,
    ];

    /// The number that the library answers.
    #[must_use]
    pub fn number(self) -> u32 {
        match self {
            Refusal::RunsOrWords => 1,
            Refusal::Header => 2,
            Refusal::Counts => 3,
            Refusal::Lengths => 4,
            Refusal::Texts => 5,
            Refusal::Nodes => 6,
            Refusal::Identifiers => 7,
            Refusal::Depth => 8,
            Refusal::Size => 9,
            Refusal::Room => 10,
            Refusal::TextRoom => 11,
            Refusal::NoText => 12,
            Refusal::DeclaredTwice => 13,
            Refusal::Table => 14,
            Refusal::Pairs => 15,
            Refusal::CanonRoom => 16,
            Refusal::Unlisted(number) => number,
        }
    }

    /// The refusal of a number; none for 0, which tells a result.
    #[must_use]
    pub fn from_number(number: u32) -> Option<Refusal> {
        let listed = Refusal::ALL.into_iter().find(|it| it.number() == number);
        match number {
            0 => None,
            _ => listed.or(Some(Refusal::Unlisted(number))),
        }
    }

    /// Its condition in plain words.
    #[must_use]
    pub fn words(self) -> &'static str {
        match self {
            Refusal::RunsOrWords => "the run limit is outside 1 to 16, or there are fewer than 16,384 working words",
            Refusal::Header => "the file has fewer than 32 bytes, or its version is not 1",
            Refusal::Counts => "the file has no node or over 1,024 nodes, over 256 texts, or over 4,096 bytes of text",
            Refusal::Lengths => "an offset or a length in the file's header is not the sum of its parts, or not the number of bytes given",
            Refusal::Texts => "the ends of the file's texts fall, the last one is not the byte count, or two texts are equal",
            Refusal::Nodes => {
                "a node of the file is not allowed where it stands, an unused field is not 0, a text number is too large, \
                 nodes are missing or left over, the tree is over 200 deep, or a lent kind table forbids a node under its parent"
            }
            Refusal::Identifiers => "the script has over 256 different identifiers",
            Refusal::Depth => {
                "while running, the tree or its walk came to be over 200 deep, over 32 scopes were open, \
                 or the walk was inside over 12 right sides of && or ||"
            }
            Refusal::Size => {
                "while running, the tree came to have over 1,024 nodes, the recorded values over 512 nodes together, \
                 or over 256 bindings and constants were live"
            }
            Refusal::Room => "the buffer for the result is shorter than the result",
            Refusal::TextRoom => "the buffer for the text is shorter than the text",
            Refusal::NoText => {
                "the script has no text: a name, a string or a number of it cannot be written, or no text of the grammar reads as it"
            }
            Refusal::DeclaredTwice => {
                "a name is declared twice in a scope: what a let, a const, a block's function or a catch declares, once more, \
                 by a var that stands in the scope, or as a parameter"
            }
            Refusal::Table => "the kind table is not 2,304 bytes, each of them 0 or 1",
            Refusal::Pairs => "the kind table allows a node under a parent that the kinds forbid",
            Refusal::CanonRoom => "the buffer for the canonical file is shorter than that file",
            Refusal::Unlisted(_) => "the library is a later one and has a refusal that this version has no words for",
        }
    }
}

impl fmt::Display for Refusal {
    fn fmt(&self, out: &mut fmt::Formatter) -> fmt::Result {
        write!(out, "refusal {}: {}", self.number(), self.words())
    }
}

impl Error for Refusal {}

#[cfg(test)]
mod tests {
    use super::Refusal;

    #[test]
    fn numbers_are_in_order() {
        let numbers = Refusal::ALL.map(Refusal::number);
        assert_eq!(numbers.to_vec(), (1..=16).collect::<Vec<_>>());
        for refusal in Refusal::ALL {
            assert_eq!(Refusal::from_number(refusal.number()), Some(refusal));
        }
        assert_eq!(Refusal::from_number(0), None);
    }

    #[test]
    fn other_numbers_are_kept() {
        for number in [17, u32::MAX] {
            let refusal = Refusal::from_number(number);
            assert_eq!(refusal, Some(Refusal::Unlisted(number)));
            assert_eq!(refusal.map(Refusal::number), Some(number));
        }
    }

    #[test]
    fn each_says_its_number_and_something_of_its_own() {
        let mut said: Vec<&str> = Refusal::ALL.iter().map(|r| r.words()).collect();
        said.push(Refusal::Unlisted(17).words());
        said.sort_unstable();
        said.dedup();
        assert_eq!(said.len(), 17);
        assert!(Refusal::Room.to_string().starts_with("refusal 10: "));
        assert!(Refusal::CanonRoom.to_string().starts_with("refusal 16: "));
    }
}
