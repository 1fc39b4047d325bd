//! What the small program writes.
//!
//! It reads a section of at most 40,960 bytes from standard input and writes
//! the listing's raw bytes, or one line that names the refusal.

use crate::listing::listing_of;
use crate::section::read;
use crate::Refusal;

/// The longest input that is read as a section, in bytes.
pub const MAX_INPUT: usize = 40_960;

/// The bytes that the program writes for a given standard input.
///
/// A refusal is a line like `refused 9 at 16`, ended by one newline. A listing
/// stands alone, with no newline.
pub fn run(input: &[u8]) -> Vec<u8> {
    if input.len() > MAX_INPUT {
        return line(Refusal::at(1, 0));
    }
    match read(input) {
        Ok(section) => listing_of(&section),
        Err(refusal) => line(refusal),
    }
}

/// The line that names a refusal.
pub(crate) fn line(refusal: Refusal) -> Vec<u8> {
    format!("refused {} at {}\n", refusal.number, refusal.place).into_bytes()
}

#[cfg(test)]
mod tests {
    use super::*;
    use crate::fixtures::*;
    use crate::section::{encode, encode_version_1};

    #[test]
    fn an_accepted_section_is_written_as_its_listing_alone() {
        assert_eq!(run(&row_c()), [6]);
        assert_eq!(run(&row_h()), row_h_listing());
        assert_eq!(run(&with(row_c(), 0, 1)), [7, 1, 6]);
        assert_eq!(run(&row_h_1()), row_h_1_listing());
    }

    #[test]
    fn a_refusal_is_one_line_ended_by_one_newline() {
        let row_e = [row_c(), vec![0]].concat();
        assert_eq!(run(&row_e), b"refused 9 at 16\n");
        assert_eq!(run(&[]), b"refused 1 at 0\n");
        assert_eq!(run(&with(row_c(), 0, 2)), b"refused 2 at 0\n");
        assert_eq!(run(&with(row_c(), 12, 1)), b"refused 5 at 12\n");
        let row_f_1 = with(with(row_c(), 0, 1), 12, 1);
        assert_eq!(run(&row_f_1), b"refused 4 at 16\n");
        assert_eq!(run(&with(row_h(), 151, 1)), b"refused 3 at 151\n");
    }

    #[test]
    fn exactly_40960_bytes_are_read_as_a_section() {
        let constants = vec![0xAB; 5_118];
        let sections = [
            (encode(&[], &constants, &[]), 9 * 5_118 + 1),
            (encode_version_1(&[], &constants, &[]), 2 + 9 * 5_118 + 1),
        ];
        for (mut section, length) in sections {
            assert_eq!(section.len(), 40_960);
            assert_eq!(run(&section).len(), length);
            section.push(0);
            assert_eq!(run(&section), b"refused 1 at 0\n");
        }
    }

    /// Functions of version 1 grow most: 25 bytes for 16.
    #[test]
    fn the_longest_listing_has_63978_bytes() {
        let section = encode_version_1(&vec![function(1, 2, 0); 2_559], &[], &[]);
        assert_eq!(section.len(), 40_960);
        assert_eq!(run(&section).len(), 63_978);
    }

    #[test]
    fn longer_input_is_refused_by_1_whatever_it_holds() {
        assert_eq!(run(&vec![0; 40_961]), b"refused 1 at 0\n");
        assert_eq!(run(&vec![0; 40_960]), b"refused 2 at 0\n");
        assert_eq!(run(&vec![0; 57_344]), b"refused 1 at 0\n");
    }
}
