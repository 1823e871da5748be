//! The definitions, computed from every part of the haystack.

use crate::ours::Found;
use std::collections::BTreeMap;

type Patterns = BTreeMap<Vec<u8>, Vec<u32>>;

/// The offsets between units: all of them over bytes, and character boundaries over text.
fn boundaries(haystack: &[u8], unit: u32) -> Vec<usize> {
    (0..=haystack.len())
        .filter(|place| unit == 0 || haystack.get(*place).is_none_or(|byte| byte & 0xc0 != 0x80))
        .collect()
}

/// The patterns that end at an offset and start at `least` or later, the longest first.
fn ending(patterns: &Patterns, haystack: &[u8], least: usize, end: usize) -> Vec<Found> {
    (least..=end)
        .filter_map(|start| patterns.get(&haystack[start..end]).map(|values| (start, values)))
        .flat_map(|(start, values)| values.iter().map(move |value| (start as u32, end as u32, *value)))
        .collect()
}

/// The longest pattern that starts at an offset, and where it ends.
fn starting(patterns: &Patterns, haystack: &[u8], start: usize) -> Option<(usize, u32)> {
    (start..=haystack.len())
        .rev()
        .find_map(|end| patterns.get(&haystack[start..end]).map(|values| (end, values[0])))
}

pub fn overlapping(patterns: &Patterns, haystack: &[u8], unit: u32) -> Vec<Found> {
    let ends = boundaries(haystack, unit);
    ends.into_iter().flat_map(|end| ending(patterns, haystack, 0, end)).collect()
}

pub fn no_suffix(patterns: &Patterns, haystack: &[u8], unit: u32) -> Vec<Found> {
    let ends = boundaries(haystack, unit);
    ends.into_iter().filter_map(|end| ending(patterns, haystack, 0, end).first().copied()).collect()
}

pub fn standard(patterns: &Patterns, haystack: &[u8], unit: u32) -> Vec<Found> {
    let ends = boundaries(haystack, unit);
    if let Some(values) = patterns.get(&[][..]) {
        return ends.into_iter().map(|end| (end as u32, end as u32, values[0])).collect();
    }
    let mut least = 0;
    let mut found = Vec::new();
    for end in ends {
        if let Some(first) = ending(patterns, haystack, least, end).first() {
            found.push(*first);
            least = end;
        }
    }
    found
}

pub fn leftmost(patterns: &Patterns, haystack: &[u8], unit: u32) -> Vec<Found> {
    let places = boundaries(haystack, unit);
    let mut found = Vec::new();
    let (mut at, mut behind_one) = (0, false);
    while let Some(start) = places.iter().copied().find(|place| *place >= at && starting(patterns, haystack, *place).is_some()) {
        let Some((end, value)) = starting(patterns, haystack, start) else { break };
        let is_passed_over = start == end && start == at && behind_one;
        if !is_passed_over {
            found.push((start as u32, end as u32, value));
        }
        behind_one = start < end;
        match if start < end { Some(end) } else { places.iter().copied().find(|place| *place > start) } {
            Some(next) => at = next,
            None => break,
        }
    }
    found
}
