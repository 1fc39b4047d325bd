//! A plain read of the bytes: what any program must do that looks at all of them.

/// The sum of the 64-bit words; bytes that fill no word are left out.
pub fn sum(bytes: &[u8]) -> u64 {
    let words = bytes
        .chunks_exact(8)
        .map(|word| u64::from_le_bytes(word.try_into().unwrap()));
    words.fold(0, u64::wrapping_add)
}
