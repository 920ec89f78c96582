//! "Numbers in the image are little-endian."

/// The i64 that begins at a byte.
pub(crate) fn i64_at(bytes: &[u8], at: usize) -> i64 {
    i64::from_le_bytes(std::array::from_fn(|byte| bytes[at + byte]))
}

/// The u32 that begins at a byte.
pub(crate) fn u32_at(bytes: &[u8], at: usize) -> u32 {
    u32::from_le_bytes(std::array::from_fn(|byte| bytes[at + byte]))
}

/// The i32 that begins at a byte.
pub(crate) fn i32_at(bytes: &[u8], at: usize) -> i32 {
    i32::from_le_bytes(std::array::from_fn(|byte| bytes[at + byte]))
}

/// The bytes of some u32 in turn.
pub(crate) fn u32_bytes(numbers: &[u32]) -> Vec<u8> {
    numbers
        .iter()
        .flat_map(|number| number.to_le_bytes())
        .collect()
}
