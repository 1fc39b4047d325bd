//! Names of files as they are shown to people.

use std::os::unix::ffi::OsStrExt;
use std::path::Path;

/// The name of standard input.
pub const STANDARD_INPUT: &str = "-";

/// A file's name on one line: control characters, and bytes that are no text, are escaped.
pub fn shown(path: &Path) -> String {
    let mut text = String::new();
    for chunk in path.as_os_str().as_bytes().utf8_chunks() {
        for character in chunk.valid().chars() {
            push(&mut text, character);
        }
        for byte in chunk.invalid() {
            text += &format!("\\x{byte:02x}");
        }
    }
    text
}

/// A text of several lines whose other control characters are escaped.
pub fn without_controls(text: &str) -> String {
    let mut clean = String::new();
    for character in text.chars() {
        match character {
            '\n' => clean.push('\n'),
            other => push(&mut clean, other),
        }
    }
    clean
}

/// Adds a character. Escaped are control characters, and those that turn or break a line.
fn push(text: &mut String, character: char) {
    let turns = [
        '\u{200e}'..='\u{200f}',
        '\u{2028}'..='\u{202e}',
        '\u{2066}'..='\u{2069}',
    ];
    let turns = turns.iter().any(|range| range.contains(&character));
    if character.is_control() || turns {
        text.extend(character.escape_default());
    } else {
        text.push(character);
    }
}

#[cfg(test)]
mod tests {
    use super::*;
    use std::ffi::OsStr;

    #[test]
    fn names_on_one_line() {
        for (name, text) in [
            (&b"a.section"[..], "a.section"),
            ("a b/\u{e9}'\\".as_bytes(), "a b/\u{e9}'\\"),
            (b"a\nb\x1b[2J\x7f", "a\\nb\\u{1b}[2J\\u{7f}"),
            (b"h\xff.section", "h\\xff.section"),
            ("\u{202e}x".as_bytes(), "\\u{202e}x"),
        ] {
            assert_eq!(shown(Path::new(OsStr::from_bytes(name))), text);
        }
        assert_eq!(without_controls("a\n\x1bb"), "a\n\\u{1b}b");
    }
}
