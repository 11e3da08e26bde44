//! Records of document 01: a length in four bytes, little-endian, a kind in two, and the body.

/// Begins a record; its length is set by `end`.
pub(crate) fn begin(out: &mut Vec<u8>, kind: u16) -> usize {
    let start = out.len();
    out.extend_from_slice(&[0; 4]);
    out.extend_from_slice(&kind.to_le_bytes());
    start
}

/// Sets the length of the record that began at `start`: what follows the four bytes. A length that four bytes cannot hold
/// is cut to the largest: a tree, a row or settings of that size are refused (2, 10, 1).
pub(crate) fn end(out: &mut [u8], start: usize) {
    let length = u32::try_from(out.len() - start - 4).unwrap_or(u32::MAX);
    out[start..start + 4].copy_from_slice(&length.to_le_bytes());
}

/// A name after its length byte. A length past 255 is written as 255: a name of more than 64 bytes is refused in any case.
pub(crate) fn named(out: &mut Vec<u8>, name: &str) {
    out.push(u8::try_from(name.len()).unwrap_or(u8::MAX));
    out.extend_from_slice(name.as_bytes());
}
