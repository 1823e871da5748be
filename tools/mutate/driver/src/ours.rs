//! This repository's side: writes automata, reads bytes, and searches.

use std::collections::BTreeMap;

const LIST_END: u32 = u32::MAX;

unsafe extern "C" {
    fn mutate_build(
        words: *const u8,
        words_len: usize,
        ends: *const u32,
        ends_len: usize,
        unit: u32,
        kind: u32,
        filter: u32,
        out: *mut u8,
        out_len: usize,
    ) -> usize;

    fn mutate_read(
        bytes: *const u8,
        bytes_len: usize,
        haystack: *const u8,
        haystack_len: usize,
        unit: u32,
        out: *mut u32,
        out_len: usize,
    ) -> usize;
}

pub type Found = (u32, u32, u32);

/// What was read: the kind, the values of each pattern, and the matches of each search.
pub struct Read {
    pub kind: u32,
    pub patterns: BTreeMap<Vec<u8>, Vec<u32>>,
    pub found: Vec<Vec<Found>>,
}

/// The written form of an automaton, of at most so many bytes.
pub fn build(words: &[Vec<u8>], unit: u32, kind: u32, filter: bool, room: usize) -> Vec<u8> {
    let bytes = words.concat();
    let mut end = 0;
    let ends: Vec<u32> = words.iter().map(|word| { end += word.len() as u32; end }).collect();
    let mut out = vec![0; room];
    // SAFETY: each slice goes by its own pointer and length.
    let len = unsafe {
        mutate_build(bytes.as_ptr(), bytes.len(), ends.as_ptr(), ends.len(), unit, kind, filter as u32,
            out.as_mut_ptr(), out.len())
    };
    assert!(len > 0, "the words build");
    out.truncate(len);
    out
}

/// Reads and searches, or returns `None` if the bytes are refused. `room` is reused by each call.
pub fn read(bytes: &[u8], haystack: &[u8], unit: u32, room: &mut [u32]) -> Option<Read> {
    // SAFETY: each slice goes by its own pointer and length.
    let len = unsafe {
        mutate_read(bytes.as_ptr(), bytes.len(), haystack.as_ptr(), haystack.len(), unit,
            room.as_mut_ptr(), room.len())
    };
    if len == 0 {
        return None;
    }
    assert!(len < room.len(), "all that was found has room");
    let mut numbers = room[..len].iter().copied();
    let kind = numbers.next()?;
    let mut patterns: BTreeMap<Vec<u8>, Vec<u32>> = BTreeMap::new();
    while let Some(size) = numbers.next().filter(|number| *number != LIST_END) {
        let value = numbers.next()?;
        let text = (0..size).map(|_| numbers.next().map(|byte| byte as u8)).collect::<Option<_>>()?;
        patterns.entry(text).or_default().push(value);
    }
    let mut found = Vec::new();
    for _ in 0..if kind == 0 { 3 } else { 1 } {
        let mut list = Vec::new();
        while let Some(start) = numbers.next().filter(|number| *number != LIST_END) {
            list.push((start, numbers.next()?, numbers.next()?));
        }
        found.push(list);
    }
    Some(Read { kind, patterns, found })
}
