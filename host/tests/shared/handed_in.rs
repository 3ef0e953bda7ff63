//! What is handed in of a table that comes in chunks.

/// The bytes that are handed in, if chunks have these lengths.
pub fn handed_in<'a>(lengths: &[usize], bytes: &'a [u8]) -> &'a [u8] {
    let sum: u128 = lengths.iter().map(|&length| length as u128).sum();
    &bytes[..sum.min(bytes.len() as u128) as usize]
}
