//! Tree files that the tests are made of.
#![allow(dead_code, clippy::cast_possible_truncation)]

/// Kind, form, child count, text number, context or number bits.
pub type Raw = (u8, u8, u16, u32, u64);

pub fn tree_file(nodes: &[Raw], texts: &[&str]) -> Vec<u8> {
    let bytes = texts.concat();
    let ends_at = 32 + 16 * nodes.len();
    let bytes_at = ends_at + 4 * texts.len();
    let header = [
        1,
        bytes_at + bytes.len(),
        nodes.len(),
        32,
        texts.len(),
        ends_at,
        bytes_at,
        bytes.len(),
    ];
    let mut file: Vec<u8> = header
        .iter()
        .flat_map(|field| (*field as u32).to_le_bytes())
        .collect();
    for (kind, form, children, text, bits) in nodes {
        file.extend([*kind, *form]);
        file.extend(children.to_le_bytes());
        file.extend(text.to_le_bytes());
        file.extend(bits.to_le_bytes());
    }
    let mut end = 0;
    for text in texts {
        end += text.len() as u32;
        file.extend(end.to_le_bytes());
    }
    file.extend(bytes.as_bytes());
    file
}

/// `const a = 7; a;`
pub fn seven() -> Vec<u8> {
    let nodes = [
        (1, 0, 2, 0, 0),
        (5, 2, 1, 0, 0),
        (6, 0, 2, 0, 0),
        (20, 0, 0, 0, 0),
        (24, 0, 0, 0, 7f64.to_bits()),
        (4, 0, 1, 0, 0),
        (21, 0, 0, 0, 0),
    ];
    tree_file(&nodes, &["a"])
}

/// `var x = 1; x;` with a context whose halves differ.
pub fn one() -> Vec<u8> {
    let context = 0x0000_0003_0000_0002;
    let nodes = [
        (1, 0, 2, 0, 0),
        (5, 0, 1, 0, 0),
        (6, 0, 2, 0, 0),
        (20, 0, 0, 1, context),
        (24, 0, 0, 0, 1f64.to_bits()),
        (4, 0, 1, 0, 0),
        (21, 0, 0, 1, context),
    ];
    tree_file(&nodes, &["y", "x"])
}

/// Functions in one another, `var v = function () { … };`: each one more doubles the time.
pub fn functions(count: u32) -> Vec<u8> {
    let mut nodes = vec![(1, 0, 1, 0, 0)];
    for number in 1..=count {
        nodes.extend([
            (5, 0, 1, 0, 0),
            (6, 0, 2, 0, 0),
            (20, 0, 0, 0, 0),
            (39, 0, 1, 0, 0),
            (2, 0, u16::from(number < count), 0, 0),
        ]);
    }
    tree_file(&nodes, &["v"])
}

/// Numbers that look random, from a seed (xorshift).
pub struct Random(pub u64);

impl Random {
    pub fn next(&mut self) -> u64 {
        self.0 ^= self.0 << 13;
        self.0 ^= self.0 >> 7;
        self.0 ^= self.0 << 17;
        self.0
    }
}
