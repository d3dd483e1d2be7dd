//! Damaged copies of a file: one to three small faults.

use crate::rng::Rng;
use tree_file::{HEADER, NODE};

/// A copy that differs in some bytes or in its length; it may still be readable.
pub fn damage(rng: &mut Rng, file: &[u8]) -> Vec<u8> {
    let mut copy = file.to_vec();
    for _ in 0..*rng.pick(&[1, 1, 1, 2, 3]) {
        fault(rng, &mut copy);
    }
    copy
}

fn fault(rng: &mut Rng, file: &mut Vec<u8>) {
    if file.len() < HEADER + NODE {
        file.push(rng.word() as u8);
        return;
    }
    match rng.below(12) {
        0 => flip(rng, file, 0, HEADER),
        1 => header(rng, file),
        2 => file.truncate(rng.below(file.len())),
        3 => file.push(rng.word() as u8),
        4 | 5 => {
            let end = file.len();
            flip(rng, file, HEADER, end)
        }
        6 => text_part(rng, file),
        _ => field(rng, file),
    }
}

fn flip(rng: &mut Rng, file: &mut [u8], from: usize, to: usize) {
    let at = rng.from(from, to - 1);
    file[at] ^= 1 << rng.below(8);
}

/// A header field one off, zero, or large.
fn header(rng: &mut Rng, file: &mut [u8]) {
    let at = 4 * rng.below(8);
    let old = u32::from_le_bytes(file[at..at + 4].try_into().expect("four bytes"));
    let new = *rng.pick(&[old.wrapping_add(1), old.wrapping_sub(1), 0, 1025, 257, 4097]);
    file[at..at + 4].copy_from_slice(&new.to_le_bytes());
}

fn nodes(file: &[u8]) -> usize {
    let stated = u32::from_le_bytes(file[8..12].try_into().expect("four bytes")) as usize;
    stated.clamp(1, (file.len() - HEADER) / NODE)
}

/// A byte of the text ends or of the texts.
fn text_part(rng: &mut Rng, file: &mut [u8]) {
    let from = HEADER + NODE * nodes(file);
    if from < file.len() {
        let at = rng.from(from, file.len() - 1);
        file[at] = *rng.pick(&[0, b'a', b'x', file[at].wrapping_add(1)]);
    }
}

/// One field of one node: kind, form, child count, text, bits.
fn field(rng: &mut Rng, file: &mut [u8]) {
    let at = HEADER + NODE * rng.below(nodes(file));
    match rng.below(5) {
        0 => file[at] = rng.below(50) as u8,
        1 => file[at + 1] = *rng.pick(&[0, 1, 2, 3, 7, 8, 16, 25]),
        2 => file[at + 2] = *rng.pick(&[0, 1, 2, 3, file[at + 2].wrapping_add(1)]),
        3 => file[at + 4] = rng.below(9) as u8,
        _ => file[at + 8] = rng.below(4) as u8,
    }
}
