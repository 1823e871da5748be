//! The Rust crate's side.

use crate::Tally;
use daachorse::{
    CharwiseDoubleArrayAhoCorasick, CharwiseDoubleArrayAhoCorasickBuilder, DoubleArrayAhoCorasick,
    DoubleArrayAhoCorasickBuilder, Match, MatchKind,
};
use std::str::{from_utf8, from_utf8_unchecked};

#[derive(Clone, Copy, PartialEq, Eq)]
pub enum Unit {
    Byte,
    Char,
}

impl Unit {
    pub fn of(name: &str) -> Unit {
        match name {
            "bytes" => Unit::Byte,
            "chars" => Unit::Char,
            _ => panic!("no unit: {name}"),
        }
    }
}

/// What a round does. Our side has the same numbers.
#[derive(Clone, Copy, PartialEq, Eq)]
pub enum Mode {
    Find,
    Overlapping,
    NoSuffix,
    Longest,
    First,
    /// Our side counts the words among the text's tokens; the Rust crate's is the leftmost loop.
    Tokens,
    FindSource,
    OverlappingSource,
    NoSuffixSource,
    FindStepper,
    OverlappingStepper,
    List,
    Depths,
    Write,
    ReadUnchecked,
    Read,
    /// Our side makes rows; the Rust crate's does nothing.
    Accelerate,
    /// Our side searches with rows; the Rust crate's searches as it does without.
    RowsFind,
    RowsOverlapping,
    RowsNoSuffix,
    RowsLongest,
    RowsFirst,
    RowsFindSource,
    RowsOverlappingSource,
    RowsNoSuffixSource,
    RowsFindStepper,
    RowsOverlappingStepper,
}

const MODES: [(Mode, &str); 27] = [
    (Mode::Find, "find"),
    (Mode::Overlapping, "overlapping"),
    (Mode::NoSuffix, "no_suffix"),
    (Mode::Longest, "longest"),
    (Mode::First, "first"),
    (Mode::Tokens, "tokens"),
    (Mode::FindSource, "find_source"),
    (Mode::OverlappingSource, "overlapping_source"),
    (Mode::NoSuffixSource, "no_suffix_source"),
    (Mode::FindStepper, "find_stepper"),
    (Mode::OverlappingStepper, "overlapping_stepper"),
    (Mode::List, "list"),
    (Mode::Depths, "depths"),
    (Mode::Write, "write"),
    (Mode::ReadUnchecked, "read_unchecked"),
    (Mode::Read, "read"),
    (Mode::Accelerate, "accelerate"),
    (Mode::RowsFind, "rows_find"),
    (Mode::RowsOverlapping, "rows_overlapping"),
    (Mode::RowsNoSuffix, "rows_no_suffix"),
    (Mode::RowsLongest, "rows_longest"),
    (Mode::RowsFirst, "rows_first"),
    (Mode::RowsFindSource, "rows_find_source"),
    (Mode::RowsOverlappingSource, "rows_overlapping_source"),
    (Mode::RowsNoSuffixSource, "rows_no_suffix_source"),
    (Mode::RowsFindStepper, "rows_find_stepper"),
    (Mode::RowsOverlappingStepper, "rows_overlapping_stepper"),
];

impl Mode {
    /// Whether a round can go over these units. Tokens are parts of a text.
    pub fn is_of(self, unit: Unit) -> bool {
        unit == Unit::Char || self != Mode::Tokens
    }

    pub fn name(self) -> &'static str {
        MODES[self as usize].1
    }

    pub fn kind_name(self) -> &'static str {
        match self.kind() {
            MatchKind::LeftmostLongest => "longest",
            MatchKind::LeftmostFirst => "first",
            _ => "standard",
        }
    }

    pub fn of(name: &str) -> Mode {
        let found = MODES.into_iter().find(|(_, other)| *other == name);
        found.unwrap_or_else(|| panic!("no mode: {name}")).0
    }

    /// Whether a round goes over the text, and not over the automaton.
    pub fn is_search(self) -> bool {
        (self as u32) < Mode::List as u32 || (self as u32) > Mode::Accelerate as u32
    }

    fn kind(self) -> MatchKind {
        match self {
            Mode::Longest | Mode::Tokens | Mode::RowsLongest => MatchKind::LeftmostLongest,
            Mode::First | Mode::RowsFirst => MatchKind::LeftmostFirst,
            _ => MatchKind::Standard,
        }
    }
}

pub enum Automaton {
    Bytes(DoubleArrayAhoCorasick<u32>, Vec<u8>),
    Chars(CharwiseDoubleArrayAhoCorasick<u32>, Vec<u8>, Vec<char>),
}

impl Automaton {
    pub fn num_states(&self) -> usize {
        match self {
            Automaton::Bytes(automaton, _) => automaton.num_states(),
            Automaton::Chars(automaton, _, _) => automaton.num_states(),
        }
    }
}

/// An automaton of the words, which are those of a `Words`.
#[inline(never)]
pub fn build(words: &[&[u8]], unit: Unit, mode: Mode, filter: bool) -> Automaton {
    match unit {
        Unit::Byte => {
            let builder = DoubleArrayAhoCorasickBuilder::new().match_kind(mode.kind());
            let built = builder.use_prefilter(filter).build(words.iter().copied());
            Automaton::Bytes(built.expect("the words build"), Vec::new())
        }
        Unit::Char => {
            let builder = CharwiseDoubleArrayAhoCorasickBuilder::new().match_kind(mode.kind());
            // SAFETY: the words of a `Words` are UTF-8. Our side, too, has them as text beforehand.
            let texts = words.iter().map(|word| unsafe { from_utf8_unchecked(word) });
            let built = builder.use_prefilter(filter).build(texts);
            Automaton::Chars(built.expect("the words build"), Vec::new(), Vec::new())
        }
    }
}

/// Makes what rounds need besides the automaton: its written form, and the characters of the text.
/// The text is checked to be UTF-8, so that no round needs to.
pub fn prepare(automaton: &mut Automaton, text: &[u8], mode: Mode) {
    let reads = matches!(mode, Mode::Read | Mode::ReadUnchecked);
    match automaton {
        Automaton::Bytes(automaton, written) if reads => *written = automaton.serialize(),
        Automaton::Bytes(..) => {}
        Automaton::Chars(automaton, written, units) => {
            *units = from_utf8(text).expect("the text is UTF-8").chars().collect();
            if reads {
                *written = automaton.serialize();
            }
        }
    }
}

pub fn round(automaton: &mut Automaton, text: &[u8], mode: Mode) -> Tally {
    match automaton {
        Automaton::Bytes(automaton, written) => bytes::round(automaton, written, text, text, mode),
        Automaton::Chars(automaton, written, units) => {
            // SAFETY: `prepare` checked that the text is UTF-8.
            let text = unsafe { from_utf8_unchecked(text) };
            chars::round(automaton, written, text, units, mode)
        }
    }
}

impl Tally {
    #[inline(always)]
    fn add(&mut self, found: Match<u32>) {
        self.add_numbers(found.start() as u64, found.end() as u64, u64::from(found.value()));
    }

    #[inline(always)]
    fn add_numbers(&mut self, start: u64, end: u64, value: u64) {
        self.count = self.count.wrapping_add(1);
        self.sum = self.sum.wrapping_add(start).wrapping_add(end).wrapping_add(value);
    }
}

fn count_all(matches: impl Iterator<Item = Match<u32>>) -> Tally {
    let mut tally = Tally::default();
    for found in matches {
        tally.add(found);
    }
    tally
}

/// The rounds of an automaton, each search in a function of its own.
macro_rules! rounds {
    ($module:ident, $automaton:ident, $text:ty, $unit:ty, $source:ident) => {
        mod $module {
            use super::*;

            type Automaton = $automaton<u32>;

            pub fn round(automaton: &mut Automaton, written: &[u8], text: &$text, units: &[$unit], mode: Mode) -> Tally {
                match mode {
                    Mode::Find | Mode::RowsFind => find(automaton, text),
                    Mode::Overlapping | Mode::RowsOverlapping => overlapping(automaton, text),
                    Mode::NoSuffix | Mode::RowsNoSuffix => no_suffix(automaton, text),
                    Mode::Longest | Mode::First | Mode::Tokens | Mode::RowsLongest | Mode::RowsFirst => leftmost(automaton, text),
                    Mode::FindSource | Mode::RowsFindSource => find_source(automaton, text),
                    Mode::OverlappingSource | Mode::RowsOverlappingSource => overlapping_source(automaton, text),
                    Mode::NoSuffixSource | Mode::RowsNoSuffixSource => no_suffix_source(automaton, text),
                    Mode::FindStepper | Mode::RowsFindStepper => find_stepper(automaton, units),
                    Mode::OverlappingStepper | Mode::RowsOverlappingStepper => overlapping_stepper(automaton, units),
                    Mode::List => list(automaton),
                    Mode::Depths => depths(automaton),
                    Mode::Write => write(automaton),
                    Mode::ReadUnchecked => read_unchecked(written),
                    Mode::Read => read(written),
                    Mode::Accelerate => Tally::default(),
                }
            }

            #[inline(never)]
            fn find(automaton: &Automaton, text: &$text) -> Tally {
                count_all(automaton.find_iter(text))
            }

            #[inline(never)]
            fn overlapping(automaton: &Automaton, text: &$text) -> Tally {
                count_all(automaton.find_overlapping_iter(text))
            }

            #[inline(never)]
            fn no_suffix(automaton: &Automaton, text: &$text) -> Tally {
                count_all(automaton.find_overlapping_no_suffix_iter(text))
            }

            #[inline(never)]
            fn leftmost(automaton: &Automaton, text: &$text) -> Tally {
                count_all(automaton.leftmost_find_iter(text))
            }

            // The next three are unsafe over characters, and the bytes of a text are UTF-8.
            #[inline(never)]
            #[allow(unused_unsafe)]
            fn find_source(automaton: &Automaton, text: &$text) -> Tally {
                count_all(unsafe { automaton.find_iter_from_iter($source(text)) })
            }

            #[inline(never)]
            #[allow(unused_unsafe)]
            fn overlapping_source(automaton: &Automaton, text: &$text) -> Tally {
                count_all(unsafe { automaton.find_overlapping_iter_from_iter($source(text)) })
            }

            #[inline(never)]
            #[allow(unused_unsafe)]
            fn no_suffix_source(automaton: &Automaton, text: &$text) -> Tally {
                count_all(unsafe { automaton.find_overlapping_no_suffix_iter_from_iter($source(text)) })
            }

            #[inline(never)]
            fn find_stepper(automaton: &Automaton, units: &[$unit]) -> Tally {
                let mut tally = Tally::default();
                let mut stepper = automaton.find_stepper();
                for unit in units {
                    stepper.consume(*unit);
                    if let Some(found) = stepper.matches() {
                        tally.add(found);
                    }
                }
                tally
            }

            #[inline(never)]
            fn overlapping_stepper(automaton: &Automaton, units: &[$unit]) -> Tally {
                let mut tally = Tally::default();
                let mut stepper = automaton.find_overlapping_stepper();
                for unit in units {
                    stepper.consume(*unit);
                    for found in stepper.matches() {
                        tally.add(found);
                    }
                }
                tally
            }

            #[inline(never)]
            fn list(automaton: &Automaton) -> Tally {
                let mut tally = Tally::default();
                for (pattern, value) in automaton.iter() {
                    tally.add_numbers(0, pattern.len() as u64, u64::from(value));
                }
                tally
            }

            #[inline(never)]
            fn depths(automaton: &mut Automaton) -> Tally {
                automaton.cache_depths().expect("the kind is standard");
                Tally::default()
            }

            #[inline(never)]
            fn write(automaton: &Automaton) -> Tally {
                let mut tally = Tally::default();
                tally.add_numbers(0, automaton.serialize().len() as u64, 0);
                tally
            }

            #[inline(never)]
            fn read_unchecked(written: &[u8]) -> Tally {
                // SAFETY: `serialize` wrote the bytes.
                let (read, rest) = unsafe { Automaton::deserialize_unchecked(written) };
                Tally { count: read.num_states() as u64, sum: rest.len() as u64 }
            }

            #[inline(never)]
            fn read(written: &[u8]) -> Tally {
                let (read, rest) = Automaton::deserialize(written).expect("it was written");
                Tally { count: read.num_states() as u64, sum: rest.len() as u64 }
            }
        }
    };
}

fn bytes_of(text: &[u8]) -> impl Iterator<Item = u8> {
    text.iter().copied()
}

fn bytes_of_text(text: &str) -> impl Iterator<Item = u8> {
    text.bytes()
}

rounds!(bytes, DoubleArrayAhoCorasick, [u8], u8, bytes_of);
rounds!(chars, CharwiseDoubleArrayAhoCorasick, str, char, bytes_of_text);
