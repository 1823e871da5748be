//! Many patterns searched at once in bytes or in characters, by the proved library for C.
//!
//! ```
//! use daachorse_c::{Automaton, Kind};
//!
//! let patterns: [&[u8]; 4] = [b"ab", b"abcd", b"bc", b"cd"];
//! let automaton = Automaton::new(Kind::Standard, true, patterns)?;
//! let values: Vec<u32> = automaton.find_overlapping(b"abcd")?.map(|found| found.value).collect();
//! assert_eq!(values, [0, 2, 1, 3]);
//! # Ok::<(), daachorse_c::Refusal>(())
//! ```

mod automaton;
mod builder;
mod form;
mod handles;
mod haystack;
mod library;
mod matches;
mod refusal;
mod stream;

pub use automaton::{Automaton, Counts};
pub use builder::{Builder, Kind};
pub use haystack::Haystack;
pub use matches::{Match, Matches};
pub use refusal::Refusal;
pub use stream::Stream;
