//! What a written form says of its automaton.

use crate::haystack::Haystack;

/// No pattern of the automaton that was read from this form has more bytes.
pub(crate) fn longest_pattern<H: Haystack + ?Sized>(form: &[u8]) -> usize {
    let (sizes, between) = H::LISTS;
    let lists = |at: usize, size: &usize| at + 4 + size * number(&form[at..]);
    let at = sizes.iter().fold(0, lists) + between;
    let outputs = &form[at + 4..][..12 * number(&form[at..])];
    let lengths = outputs.chunks_exact(12).map(|output| number(&output[4..]));
    lengths.max().unwrap_or(0)
}

fn number(bytes: &[u8]) -> usize {
    u32::from_le_bytes([bytes[0], bytes[1], bytes[2], bytes[3]]) as usize
}
