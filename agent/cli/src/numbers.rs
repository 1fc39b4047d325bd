//! Numbers as people write them and read them.

/// The number that hexadecimal digits write, with or without 0x before them; nothing where it has
/// other characters or more than 64 bits.
pub fn hexadecimal(text: &[u8]) -> Option<u64> {
    let digits = match text {
        [b'0', b'x' | b'X', digits @ ..] => digits,
        digits => digits,
    };
    if digits.is_empty() {
        return None;
    }
    digits.iter().try_fold(0u64, |number, &digit| {
        let digit = char::from(digit).to_digit(16)?;
        Some(number.checked_mul(16)? | u64::from(digit))
    })
}

/// The number that decimal digits write; nothing where it has other characters or more than 64 bits.
pub fn decimal(text: &[u8]) -> Option<u64> {
    if text.is_empty() {
        return None;
    }
    text.iter().try_fold(0u64, |number, &digit| {
        let digit = char::from(digit).to_digit(10)?;
        number.checked_mul(10)?.checked_add(digit.into())
    })
}

/// A function's number and an offset, as `FUNCTION+OFFSET` writes them: the number in decimal, as the
/// listings tell it, the offset in hexadecimal. Nothing where it is not of this form.
pub fn in_function(text: &[u8]) -> Option<(u64, u64)> {
    let plus = text.iter().position(|&byte| byte == b'+')?;
    Some((decimal(&text[..plus])?, hexadecimal(&text[plus + 1..])?))
}

/// The address that an argument writes.
pub fn address(text: &str) -> Result<u64, &'static str> {
    hexadecimal(text.as_bytes()).ok_or("not a hexadecimal number of at most 64 bits")
}

/// The decimal number that an argument writes.
pub fn whole(text: &str) -> Result<u64, &'static str> {
    decimal(text.as_bytes()).ok_or("not a decimal number of at most 64 bits")
}

/// A number of things, in words: `1 record`, `2 records`.
pub fn count(number: u64, thing: &str) -> String {
    let plural = if number == 1 { "" } else { "s" };
    format!("{number} {thing}{plural}")
}

/// Numbers that rise, in words: `1, 3 to 5 and 9`.
pub fn ranges(numbers: &[u64]) -> String {
    let mut parts: Vec<[u64; 2]> = Vec::new();
    for &number in numbers {
        match parts.last_mut() {
            Some([_, last]) if last.checked_add(1) == Some(number) => *last = number,
            _ => parts.push([number; 2]),
        }
    }
    let words = parts.iter().flat_map(|&[first, last]| match last - first {
        0 => vec![first.to_string()],
        1 => vec![first.to_string(), last.to_string()],
        _ => vec![format!("{first} to {last}")],
    });
    let mut words: Vec<String> = words.collect();
    let end = words.pop().unwrap_or_default();
    match words.len() {
        0 => end,
        _ => format!("{} and {end}", words.join(", ")),
    }
}

#[cfg(test)]
mod tests {
    use super::*;

    #[test]
    fn numbers_that_rise() {
        for (numbers, words) in [
            (&[][..], ""),
            (&[7], "7"),
            (&[0, 1], "0 and 1"),
            (&[2, 3, 4], "2 to 4"),
            (&[1, 3, 4, 5, 9], "1, 3 to 5 and 9"),
            (&[1, 2, 4, 5, 6, 8, 9], "1, 2, 4 to 6, 8 and 9"),
            (
                &[u64::MAX - 1, u64::MAX],
                "18446744073709551614 and 18446744073709551615",
            ),
        ] {
            assert_eq!(ranges(numbers), words);
        }
    }

    #[test]
    fn hexadecimal_numbers_of_up_to_64_bits() {
        for (text, number) in [
            ("0", 0),
            ("0x0", 0),
            ("1020", 0x1020),
            ("0x1020", 0x1020),
            ("0XaBcDeF", 0xABCDEF),
            ("ffffffffffffffff", u64::MAX),
            ("0x0000000000000ffffffffffffffff", u64::MAX),
        ] {
            assert_eq!(hexadecimal(text.as_bytes()), Some(number), "{text}");
        }
    }

    #[test]
    fn anything_else_is_none() {
        for text in [
            "",
            "0x",
            "x1",
            "+1",
            "-1",
            "1_0",
            "0x0x1",
            " 1",
            "1 ",
            "g",
            "0xg",
            "1h",
            "\u{ff11}",
            "10000000000000000",
            "0x1ffffffffffffffff",
        ] {
            assert_eq!(hexadecimal(text.as_bytes()), None, "{text}");
        }
    }

    #[test]
    fn functions_are_decimal_and_offsets_hexadecimal() {
        for (text, parts) in [
            ("0+0", (0, 0)),
            ("10+20", (10, 0x20)),
            ("007+0x0020", (7, 0x20)),
            (
                "18446744073709551615+ffffffffffffffff",
                (u64::MAX, u64::MAX),
            ),
        ] {
            assert_eq!(in_function(text.as_bytes()), Some(parts), "{text}");
        }
        for text in [
            "",
            "+",
            "1",
            "0x1020",
            "1+",
            "+1",
            "a+1",
            "0x1+1",
            "1++1",
            "+1+1",
            "1+1+1",
            "1 +1",
            "1+-1",
            "1+g",
            "18446744073709551616+0",
            "0+10000000000000000",
            "-1+0",
        ] {
            assert_eq!(in_function(text.as_bytes()), None, "{text}");
        }
    }
}
