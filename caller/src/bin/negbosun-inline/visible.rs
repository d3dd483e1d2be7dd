//! Names and texts that others wrote, as they may stand on a terminal.

use std::ffi::OsStr;
use std::fmt::Write;

/// Control characters, and signs that a reader does not see or that change the direction of what follows.
fn steers(sign: char) -> bool {
    let hidden = matches!(
        sign,
        '\u{ad}'
            | '\u{61c}'
            | '\u{180e}'
            | '\u{200b}'..='\u{200f}'
            | '\u{2028}'..='\u{202e}'
            | '\u{2060}'..='\u{206f}'
            | '\u{feff}'
            | '\u{fff9}'..='\u{fffb}'
            | '\u{e0000}'..='\u{e007f}'
    );
    hidden || (sign.is_control() && sign != '\t')
}

fn put(shown: &mut String, sign: char) {
    let code = u32::from(sign);
    // Nothing can fail: the text is a string.
    let _ = match steers(sign) {
        true if code < 0x100 => write!(shown, "\\x{code:02x}"),
        true => write!(shown, "<U+{code:04X}>"),
        false => write!(shown, "{sign}"),
    };
}

/// What would steer a terminal is written out, as \x1b or <U+202E>.
pub fn visible(text: &str) -> String {
    let mut shown = String::new();
    text.chars().for_each(|sign| put(&mut shown, sign));
    shown
}

/// The same of a file's name, each byte of which that is no part of UTF-8 is written out as well.
pub fn visible_name(name: &OsStr) -> String {
    let mut shown = String::new();
    for chunk in name.as_encoded_bytes().utf8_chunks() {
        chunk.valid().chars().for_each(|sign| put(&mut shown, sign));
        for byte in chunk.invalid() {
            let _ = write!(shown, "\\x{byte:02x}");
        }
    }
    shown
}

#[cfg(test)]
mod tests {
    use super::{visible, visible_name};
    use std::ffi::OsStr;
    use std::os::unix::ffi::OsStrExt;

    #[test]
    fn written_out() {
        assert_eq!(visible("plain é 水\t"), "plain é 水\t");
        assert_eq!(
            visible("\u{1b}[31m\na\u{9b}\u{7f}\0"),
            "\\x1b[31m\\x0aa\\x9b\\x7f\\x00"
        );
        assert_eq!(visible("a\u{202e}b\u{feff}"), "a<U+202E>b<U+FEFF>");
    }

    #[test]
    fn names() {
        assert_eq!(
            visible_name(OsStr::from_bytes(b"h\xf6he\x1b.tree")),
            "h\\xf6he\\x1b.tree"
        );
    }
}
