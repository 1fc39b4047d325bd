//! Little-endian fields inside fixed-size entries.
//!
//! A field is named by the place of its first byte. The entries have fixed
//! lengths and the places are literals, so each field is wholly inside.

/// The two-byte field at `at`.
#[inline(always)]
pub(crate) fn u16_at<const N: usize>(entry: &[u8; N], at: usize) -> u16 {
    u16::from_le_bytes([entry[at], entry[at + 1]])
}

/// The four-byte field at `at`.
#[inline(always)]
pub(crate) fn u32_at<const N: usize>(entry: &[u8; N], at: usize) -> u32 {
    u32::from_le_bytes([entry[at], entry[at + 1], entry[at + 2], entry[at + 3]])
}

/// The signed four-byte field at `at`.
#[inline(always)]
pub(crate) fn i32_at<const N: usize>(entry: &[u8; N], at: usize) -> i32 {
    u32_at(entry, at) as i32
}

/// The eight-byte field at `at`.
#[inline(always)]
pub(crate) fn u64_at<const N: usize>(entry: &[u8; N], at: usize) -> u64 {
    u64::from(u32_at(entry, at)) | u64::from(u32_at(entry, at + 4)) << 32
}
