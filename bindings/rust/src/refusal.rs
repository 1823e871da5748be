//! Why the library refuses a call.

use std::fmt;

/// Why the library refused a call.
#[derive(Clone, Copy, Debug, PartialEq, Eq)]
#[repr(u32)]
pub enum Refusal {
    /// An allocation failed.
    OutOfMemory = 1,
    /// The handle has no automaton. No call of this crate uses one.
    EmptyHandle = 2,
    /// No kind has the number. This crate passes none but those of [`Kind`](crate::Kind).
    UnknownKind = 3,
    /// The search does not serve automata of this kind.
    WrongKind = 4,
    /// The ends of patterns fall, or pass their bytes. This crate passes none such.
    WrongPatterns = 5,
    /// A pattern has more than 4,294,967,295 bytes.
    PatternTooLong = 6,
    /// The patterns have more than 4,294,967,295 distinct prefixes.
    TooManyStates = 7,
    /// There are more than 16,777,215 patterns.
    TooManyPatterns = 8,
    /// The double array would have more than 4,294,967,295 elements.
    TooManyElements = 9,
    /// The bytes do not begin with an automaton.
    InvalidAutomaton = 10,
    /// The output is longer than the room for it. This crate makes more.
    NoRoom = 11,
    /// No stream was begun. This crate begins one for each [`Stream`](crate::Stream).
    NoStream = 12,
    /// An offset in a stream, or the number of its matches, would pass 64 bits.
    StreamTooLong = 13,
    /// An option of a build has no such value. This crate passes none such.
    UnknownOption = 14,
    /// A search would go on behind the haystack, or in a character. This crate asks for none such.
    WrongPlace = 15,
    /// No search of a stream has the number. This crate passes none but those of its streams.
    UnknownSearch = 16,
    /// A stream takes no bytes after its end. This crate passes none.
    StreamEnded = 17,
    /// The automaton is over characters, and bytes are no UTF-8. This crate passes none such.
    InvalidUtf8 = 18,
}

impl Refusal {
    const ALL: [Refusal; 18] = [
        Refusal::OutOfMemory,
        Refusal::EmptyHandle,
        Refusal::UnknownKind,
        Refusal::WrongKind,
        Refusal::WrongPatterns,
        Refusal::PatternTooLong,
        Refusal::TooManyStates,
        Refusal::TooManyPatterns,
        Refusal::TooManyElements,
        Refusal::InvalidAutomaton,
        Refusal::NoRoom,
        Refusal::NoStream,
        Refusal::StreamTooLong,
        Refusal::UnknownOption,
        Refusal::WrongPlace,
        Refusal::UnknownSearch,
        Refusal::StreamEnded,
        Refusal::InvalidUtf8,
    ];
}

impl fmt::Display for Refusal {
    fn fmt(&self, f: &mut fmt::Formatter<'_>) -> fmt::Result {
        f.write_str(match self {
            Refusal::OutOfMemory => "an allocation failed",
            Refusal::EmptyHandle => "the handle has no automaton",
            Refusal::UnknownKind => "no kind has this number",
            Refusal::WrongKind => "the search does not serve automata of this kind",
            Refusal::WrongPatterns => "the ends of the patterns fall, or pass their bytes",
            Refusal::PatternTooLong => "a pattern has more than 4294967295 bytes",
            Refusal::TooManyStates => "the patterns have too many prefixes",
            Refusal::TooManyPatterns => "there are too many patterns",
            Refusal::TooManyElements => "the double array would have too many elements",
            Refusal::InvalidAutomaton => "the bytes do not begin with an automaton",
            Refusal::NoRoom => "the output is longer than the room for it",
            Refusal::NoStream => "no stream was begun",
            Refusal::StreamTooLong => "an offset or the number of matches would pass 64 bits",
            Refusal::UnknownOption => "an option is neither 0 nor 1, or a spare one is not 0",
            Refusal::WrongPlace => "a search would go on behind the haystack",
            Refusal::UnknownSearch => "no search of a stream has this number",
            Refusal::StreamEnded => "the stream has ended",
            Refusal::InvalidUtf8 => "the automaton is over characters, and bytes are no UTF-8",
        })
    }
}

impl std::error::Error for Refusal {}

/// What an answer says: 0 is success, and any other the number of a refusal.
pub(crate) fn done(answer: u32) -> Result<(), Refusal> {
    match answer {
        0 => Ok(()),
        number => Err(Refusal::ALL[number as usize - 1]),
    }
}

#[cfg(test)]
mod tests {
    use super::*;

    #[test]
    fn each_refusal_has_its_number() {
        for (number, refusal) in (1..).zip(Refusal::ALL) {
            assert_eq!(refusal as u32, number);
            assert_eq!(done(number), Err(refusal));
        }
    }
}
