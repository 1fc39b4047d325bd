//! Lists of numbers in plain text: one entry a line, its words between blanks. A `#` begins a comment
//! that runs to the end of its line; lines without words are passed over.

use crate::files;
use crate::numbers::{count, hexadecimal};
use crate::trouble::Trouble;
use std::path::Path;

/// The longest list, in bytes of text.
const LIMIT: u64 = 16_777_216;

/// One line of a list.
#[derive(Clone, Copy, Debug, PartialEq, Eq)]
pub struct Entry<T> {
    /// The line's number in the file, from 1.
    pub line: usize,
    /// What it says.
    pub value: T,
}

/// What the lines of a list look like.
pub trait Form {
    /// What a line says.
    type Value: Default;

    /// The names of the words, as they are told where a line is bad.
    fn names(&self) -> String;

    /// Takes a word to the line's value, by its number in the line, which may be any. Says why it is bad
    /// where it is.
    fn take(&self, value: &mut Self::Value, nth: usize, word: &[u8]) -> Result<(), String>;

    /// Says what is wrong with a line of so many words, each of which is taken, if it isn't whole.
    fn whole(&self, value: &Self::Value, words: usize) -> Result<(), String>;
}

/// Lines of `N` hexadecimal numbers with these names.
pub struct Numbers<const N: usize>(pub &'static str);

impl<const N: usize> Form for Numbers<N>
where
    [u64; N]: Default,
{
    type Value = [u64; N];

    fn names(&self) -> String {
        self.0.to_string()
    }

    fn take(&self, numbers: &mut [u64; N], nth: usize, word: &[u8]) -> Result<(), String> {
        let number = number(word)?;
        if let Some(place) = numbers.get_mut(nth) {
            *place = number;
        }
        Ok(())
    }

    fn whole(&self, _: &[u64; N], words: usize) -> Result<(), String> {
        match words {
            words if words == N => Ok(()),
            words => Err(count(words as u64, "word")),
        }
    }
}

/// The text of a list.
pub fn text(path: &Path) -> Result<Vec<u8>, Trouble> {
    let text = files::read(path, LIMIT)?;
    if text.len() as u64 > LIMIT {
        let why = format!("a list has at most {LIMIT} bytes");
        return Err(Trouble::file(path, "is too long", why));
    }
    Ok(text)
}

/// Reads a list whose lines look so.
pub fn read<F: Form>(path: &Path, text: &[u8], form: &F) -> Result<Vec<Entry<F::Value>>, Trouble> {
    let bad = |line: usize, why: String| {
        let names = form.names();
        Trouble::line(path, line, format!("{why}; a line has the form {names}"))
    };
    let mut entries = Vec::new();
    for (index, text) in text.split(|&byte| byte == b'\n').enumerate() {
        let line = index + 1;
        if let Some(value) = entry(text, form).map_err(|why| bad(line, why))? {
            entries.push(Entry { line, value });
        }
    }
    Ok(entries)
}

/// The value of a line; nothing where it is blank, and why it is bad where it is.
pub fn entry<F: Form>(line: &[u8], form: &F) -> Result<Option<F::Value>, String> {
    let text = line.split(|&byte| byte == b'#').next().unwrap_or(line);
    let words = text
        .split(u8::is_ascii_whitespace)
        .filter(|word| !word.is_empty());
    let mut value = F::Value::default();
    let mut length = 0;
    for word in words {
        form.take(&mut value, length, word)?;
        length += 1;
    }
    match length {
        0 => Ok(None),
        length => form.whole(&value, length).map(|()| Some(value)),
    }
}

/// The hexadecimal number that a word writes.
pub fn number(word: &[u8]) -> Result<u64, String> {
    let number = hexadecimal(word);
    number.ok_or_else(|| is_not(word, "a hexadecimal number of at most 64 bits"))
}

/// Says of a word what it is not; of a long word, only the beginning is shown.
pub fn is_not(word: &[u8], what: &str) -> String {
    const SHOWN: usize = 32;
    let text = word[..word.len().min(SHOWN)].escape_ascii();
    let dots = if word.len() > SHOWN { ".." } else { "" };
    format!("'{text}{dots}' is not {what}")
}

#[cfg(test)]
mod tests {
    use super::*;

    #[test]
    fn lines() {
        let good = |text: &str| entry(text.as_bytes(), &Numbers::<2>("")).unwrap();
        for text in ["", "   ", "# 1 2", "\t#", "\r", "#"] {
            assert_eq!(good(text), None, "{text:?}");
        }
        for text in [
            "1 a",
            "0x1 0xA",
            " 1\tA ",
            "1 a\r",
            "1 a#",
            "1 a # b c",
            "01 0a",
        ] {
            assert_eq!(good(text), Some([1, 10]), "{text:?}");
        }
    }

    #[test]
    fn bad_lines() {
        let bad = |text: &[u8]| entry(text, &Numbers::<2>("")).unwrap_err();
        assert_eq!(bad(b"1"), "1 word");
        assert_eq!(bad(b"1 2 3"), "3 words");
        assert_eq!(bad(b"1 2 3 4 # 5"), "4 words");
        assert!(bad(b"1 2, 3").starts_with("'2,' is not"));
        assert!(bad(b"1 \x1b[2J").starts_with("'\\x1b[2J' is not"));
        assert!(bad(&[0; 5000]).starts_with(&format!("'{}..' is not", "\\x00".repeat(32))));
    }
}
