//! The eight fields at the beginning of a tree file.

use crate::Refusal;

pub(crate) const HEADER: usize = 32;
pub(crate) const NODE: usize = 16;
pub(crate) const END: usize = 4;
pub(crate) const MOST_NODES: usize = 1024;
pub(crate) const MOST_TEXTS: usize = 256;
pub(crate) const MOST_TEXT_BYTES: usize = 4096;

/// The `u32` of a number among bytes.
pub(crate) fn word(bytes: &[u8], number: usize) -> Option<u32> {
    let at = number.checked_mul(4)?;
    let four = bytes.get(at..at.checked_add(4)?)?;
    Some(u32::from_le_bytes(four.try_into().ok()?))
}

/// Counts, and where things begin.
#[derive(Clone, Copy, Debug, PartialEq, Eq)]
pub(crate) struct Header {
    pub version: usize,
    pub total: usize,
    pub nodes: usize,
    pub nodes_at: usize,
    pub texts: usize,
    pub ends_at: usize,
    pub bytes_at: usize,
    pub bytes: usize,
}

impl Header {
    /// None of fewer than 32 bytes.
    pub fn read(file: &[u8]) -> Option<Header> {
        let field = |number: usize| word(file, number).map(|value| value as usize);
        Some(Header {
            version: field(0)?,
            total: field(1)?,
            nodes: field(2)?,
            nodes_at: field(3)?,
            texts: field(4)?,
            ends_at: field(5)?,
            bytes_at: field(6)?,
            bytes: field(7)?,
        })
    }

    /// The header that these counts should have.
    pub fn summed(self) -> Header {
        let ends_at = HEADER.saturating_add(self.nodes.saturating_mul(NODE));
        let bytes_at = ends_at.saturating_add(self.texts.saturating_mul(END));
        Header {
            total: bytes_at.saturating_add(self.bytes),
            nodes_at: HEADER,
            ends_at,
            bytes_at,
            ..self
        }
    }

    /// The header of a file that rows 2 to 4 do not refuse.
    pub fn checked(file: &[u8]) -> Result<Header, Refusal> {
        let header = Header::read(file).filter(|header| header.version == 1);
        let header = header.ok_or(Refusal::Header)?;
        let nodes_fit = (1..=MOST_NODES).contains(&header.nodes);
        if !nodes_fit || header.texts > MOST_TEXTS || header.bytes > MOST_TEXT_BYTES {
            return Err(Refusal::Counts);
        }
        if header != header.summed() || header.total != file.len() {
            return Err(Refusal::Lengths);
        }
        Ok(header)
    }
}
