//! Matches, and searches that go on as these are asked for.

use crate::handles::Handles;
use crate::haystack::Haystack;
use crate::library::{daachorse_find_on, Place, Search};
use crate::refusal::{done, Refusal};
use std::iter::FusedIterator;
use std::sync::Arc;

/// A match: the pattern with this value stands in the haystack from `start` to `end`, in bytes.
#[repr(C)]
#[derive(Clone, Copy, Debug, PartialEq, Eq)]
pub struct Match {
    /// Where the match starts.
    pub start: usize,
    /// Where it ends: one past its last byte.
    pub end: usize,
    /// The value of its pattern.
    pub value: u32,
}

pub(crate) const NO_MATCH: Match = Match {
    start: 0,
    end: 0,
    value: 0,
};

const FIRST_ROOM: usize = 64;
const ROOM: usize = 1 << 16;

/// How a search goes on behind matches that filled the room.
pub(crate) enum GoingOn {
    /// From the place where the last call left off.
    From(Place),
    /// Again, from before the end of the last match by as many bytes as a pattern has at most.
    Again { search: Search, longest: usize },
}

/// The matches of a search. The haystack is searched as they are asked for, some at once: up to
/// 65,536, or in a long text one for each 32 bytes.
///
/// ```
/// use daachorse_c::{Automaton, Kind};
///
/// let patterns: [&[u8]; 2] = [b"ab", b"b"];
/// let automaton = Automaton::new(Kind::Standard, true, patterns)?;
/// let mut found = automaton.find_overlapping(b"abb")?;
/// assert_eq!(found.next().map(|found| (found.start, found.end)), Some((0, 2)));
/// assert_eq!(found.count(), 2);
/// # Ok::<(), daachorse_c::Refusal>(())
/// ```
pub struct Matches<'h> {
    handles: Arc<Handles>,
    haystack: &'h [u8],
    in_text: bool,
    going_on: GoingOn,
    // What the last call wrote, in front of what it had room for, with places from `begin` on.
    room: Vec<Match>,
    written: usize,
    begin: usize,
    // So many of it were given before that call, and so many are by now.
    told: usize,
    given: usize,
}

impl<'h> Matches<'h> {
    pub(crate) fn new<H: Haystack + ?Sized>(
        handles: &Arc<Handles>,
        haystack: &'h H,
        going_on: GoingOn,
    ) -> Result<Matches<'h>, Refusal> {
        let mut matches = Matches {
            handles: Arc::clone(handles),
            haystack: haystack.bytes(),
            in_text: H::IS_TEXT,
            going_on,
            room: vec![NO_MATCH; FIRST_ROOM],
            written: 0,
            begin: 0,
            told: 0,
            given: 0,
        };
        matches.fill()?;
        Ok(matches)
    }

    /// Writes the next matches, or those from `begin` on if the search is done again.
    fn fill(&mut self) -> Result<(), Refusal> {
        let (haystack, room, written) = (self.haystack, &mut self.room, &mut self.written);
        let (out, out_len) = (room.as_mut_ptr(), room.len());
        let rest = &haystack[self.begin..];
        let going_on = &mut self.going_on;
        done(self.handles.with(|handle| match going_on {
            GoingOn::From(place) => unsafe {
                let (at, len) = (haystack.as_ptr(), haystack.len());
                daachorse_find_on(handle, at, len, place, out, out_len, written)
            },
            GoingOn::Again { search, .. } => unsafe {
                search(handle, rest.as_ptr(), rest.len(), out, out_len, written)
            },
        }))
    }

    /// Searches on, behind matches that filled the room.
    fn go_on(&mut self) {
        // At least half of the room is for new matches.
        if self.room.len() < self.most_room() || 2 * self.told > self.room.len() {
            let len = 2 * self.room.len();
            self.room.resize(len, NO_MATCH);
        }
        self.told = match self.going_on {
            GoingOn::From(_) => {
                self.refill();
                0
            }
            GoingOn::Again { longest, .. } => self.search_again(longest),
        };
        self.given = self.told;
    }

    /// The room up to which it grows. Each call reads the whole rest of a text, to see that it is
    /// UTF-8, so that for a long one few calls are to be made.
    fn most_room(&self) -> usize {
        if self.in_text {
            ROOM.max(self.haystack.len() / FIRST_ROOM)
        } else {
            ROOM
        }
    }

    /// Searches again, and returns how many matches were given before.
    fn search_again(&mut self, longest: usize) -> usize {
        let told = &self.room[..self.written];
        let last = told[told.len() - 1].end;
        let ends_there = |found: &&Match| found.end == last;
        let here = told.iter().rev().take_while(ends_there).count();
        let end = self.begin + last;
        self.begin = end.saturating_sub(longest);
        while self.in_text && self.is_inside_character(self.begin) {
            self.begin -= 1;
        }
        self.refill();
        let told = &self.room[..self.written];
        let ends_before = |found: &&Match| found.end + self.begin < end;
        told.iter().take_while(ends_before).count() + here
    }

    /// Whether a byte of UTF-8 stands there that begins no character.
    fn is_inside_character(&self, place: usize) -> bool {
        matches!(self.haystack.get(place), Some(0x80..=0xbf))
    }

    /// Fills the room. What was not refused before is not refused now.
    fn refill(&mut self) {
        if self.fill().is_err() {
            self.written = 0;
        }
    }
}

impl Iterator for Matches<'_> {
    type Item = Match;

    fn next(&mut self) -> Option<Match> {
        while self.given == self.written {
            if self.written < self.room.len() {
                return None;
            }
            self.go_on();
        }
        let found = self.room[self.given];
        self.given += 1;
        Some(Match {
            start: found.start + self.begin,
            end: found.end + self.begin,
            value: found.value,
        })
    }
}

impl FusedIterator for Matches<'_> {}

#[cfg(test)]
mod tests {
    use super::*;
    use crate::{Automaton, Kind};

    /// Sees the matches in parts of 28 bytes, each with one at its front, and returns the room.
    fn last_room(found: Result<Matches<'_>, Refusal>) -> usize {
        let (mut found, mut start) = (found.unwrap(), 0);
        for it in &mut found {
            assert_eq!((it.start, it.end, it.value), (start, start + 2, 0));
            start += 28;
        }
        assert_eq!(start, found.haystack.len());
        found.room.len()
    }

    #[test]
    fn the_room_grows_with_a_text() {
        let text = format!("é{}", "z".repeat(26)).repeat(160_000);
        let standard = Automaton::new(Kind::Standard, true, ["é"]).unwrap();
        let longest = Automaton::new(Kind::LeftmostLongest, true, ["é"]).unwrap();
        assert_eq!(last_room(standard.find(&text)), 2 * ROOM);
        assert_eq!(last_room(standard.find_overlapping(&text)), 2 * ROOM);
        assert_eq!(last_room(longest.leftmost_find(&text)), 2 * ROOM);
        let bytes = Automaton::new(Kind::Standard, true, ["é".as_bytes()]).unwrap();
        assert_eq!(last_room(bytes.find(text.as_bytes())), ROOM);
        assert_eq!(last_room(bytes.find_overlapping(text.as_bytes())), ROOM);
    }
}
