//! Mutates written automata at random, reads them with `deserialize`, and compares the searches of
//! accepted ones with the plain definitions over the patterns that they list.
//!
//! `mutate COUNT SEED`

mod changes;
mod layout;
mod ours;
mod plain;
mod random;

use layout::PARTS_WITHOUT_FILTER;
use ours::Read;
use random::Random;

/// A written automaton, its unit (0 bytes, 1 characters), and what it lists.
struct Written {
    bytes: Vec<u8>,
    unit: u32,
    read: Read,
}

/// The outcomes of the changed automata.
#[derive(Default)]
struct Tally {
    refused: u64,
    accepted: u64,
    without_patterns: u64,
    listing_others: u64,
    with_filter: u64,
}

fn main() {
    let mut arguments = std::env::args().skip(1).filter_map(|word| word.parse().ok());
    let count = arguments.next().unwrap_or(1_000_000);
    let seed = arguments.next().unwrap_or(1);
    let mut random = Random::new(seed);
    let mut room = vec![0; 1 << 22];
    let pool = write_pool(&mut random, &mut room);
    let mut tally = Tally::default();
    for case in 0..count {
        let at = random.below(pool.len());
        let first = &pool[at];
        // Every second one is of the same unit.
        let second = &pool[(at + 2 * random.below(pool.len())) % pool.len()];
        let mut bytes = first.bytes.clone();
        while bytes == first.bytes {
            changes::change(&mut bytes, &second.bytes, first.unit, &mut random);
        }
        look_at(case, seed, &bytes, first, &mut random, &mut room, &mut tally);
    }
    println!(
        "{count} changed automata from seed {seed}: {} refused, {} accepted ({} of them without patterns, {} of another listing or kind than before, {} with a filter): none differs",
        tally.refused, tally.accepted, tally.without_patterns, tally.listing_others, tally.with_filter
    );
}

/// Automata of all kinds over bytes and characters, with a prefilter and without.
fn write_pool(random: &mut Random, room: &mut [u32]) -> Vec<Written> {
    let mut pool = Vec::new();
    for number in 0..120 {
        let unit = number % 2;
        let words = words(random, unit);
        let bytes = ours::build(&words, unit, (number / 2) % 3, number % 4 < 2, 1 << 21);
        let read = ours::read(&bytes, b"", unit, room).expect("what was written is read");
        pool.push(Written { bytes, unit, read });
    }
    pool
}

/// A few words over a small alphabet: sometimes none, equal ones or an empty one.
fn words(random: &mut Random, unit: u32) -> Vec<Vec<u8>> {
    let alphabet: &[&str] = if unit == 0 { &["a", "b", "c", "\0"] } else { &["a", "b", "é", "に", "𐀀"] };
    let longest = 2 + random.below(6);
    (0..random.below(9))
        .map(|_| {
            let least = usize::from(random.below(12) > 0);
            let size = least + random.below(longest);
            (0..size).flat_map(|_| random.pick(alphabet).bytes()).collect()
        })
        .collect()
}

/// Reads the bytes, and if they are accepted searches a haystack of their own patterns.
fn look_at(case: u64, seed: u64, bytes: &[u8], of: &Written, random: &mut Random, room: &mut [u32], tally: &mut Tally) {
    let unit = of.unit;
    let Some(listed) = ours::read(bytes, b"", unit, room) else {
        tally.refused += 1;
        return;
    };
    tally.accepted += 1;
    if listed.patterns.is_empty() {
        tally.without_patterns += 1;
    }
    if listed.patterns != of.read.patterns || listed.kind != of.read.kind {
        tally.listing_others += 1;
    }
    if layout::parts_of(bytes, unit).is_some_and(|parts| parts.len() > PARTS_WITHOUT_FILTER) {
        tally.with_filter += 1;
    }
    let haystack = haystack_of(&listed, random, unit);
    let read = ours::read(bytes, &haystack, unit, room).expect("what was read is read again");
    let expected = if read.kind == 0 {
        vec![
            plain::overlapping(&read.patterns, &haystack, unit),
            plain::no_suffix(&read.patterns, &haystack, unit),
            plain::standard(&read.patterns, &haystack, unit),
        ]
    } else {
        vec![plain::leftmost(&read.patterns, &haystack, unit)]
    };
    if read.found != expected {
        println!("case {case} from seed {seed} differs: bytes {bytes:02x?}, haystack {haystack:02x?}");
        println!("found {:?}, expected {expected:?}", read.found);
        std::process::exit(1);
    }
}

/// Patterns, parts of them, and other units, joined.
fn haystack_of(read: &Read, random: &mut Random, unit: u32) -> Vec<u8> {
    let patterns: Vec<&Vec<u8>> = read.patterns.keys().collect();
    let others: &[&str] = if unit == 0 { &["a", "b", "c", "x", "\0"] } else { &["a", "b", "é", "に", "𐀀", "x"] };
    let mut haystack = Vec::new();
    for _ in 0..random.below(12) {
        if patterns.is_empty() || random.below(3) == 0 {
            haystack.extend(random.pick(others).bytes());
        } else {
            let pattern = random.pick(&patterns);
            let end = if random.below(2) == 0 { pattern.len() } else { random.below(pattern.len() + 1) };
            haystack.extend(beginning(pattern, end, unit));
        }
    }
    haystack
}

/// The first bytes of a pattern, up to the boundary at `end` or before it.
fn beginning(pattern: &[u8], mut end: usize, unit: u32) -> &[u8] {
    while unit == 1 && end < pattern.len() && pattern[end] & 0xc0 == 0x80 {
        end -= 1;
    }
    &pattern[..end]
}
