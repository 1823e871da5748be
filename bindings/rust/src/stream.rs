//! Streams.

use crate::handles::Handles;
use crate::haystack::Haystack;
use crate::library::{daachorse_begin, daachorse_consume, daachorse_end, Handle};
use crate::matches::{Match, NO_MATCH};
use crate::refusal::{done, Refusal};
use std::marker::PhantomData;

/// The searches of streams.
#[derive(Clone, Copy)]
pub(crate) enum Search {
    Find = 0,
    Overlapping = 1,
    NoSuffix = 2,
    Leftmost = 3,
}

/// A stream: a haystack that comes in pieces. Offsets count from its beginning.
pub struct Stream<H: ?Sized = [u8]> {
    handle: Handle,
    of: PhantomData<fn(&H)>,
}

impl<H: Haystack + ?Sized> Stream<H> {
    pub(crate) fn new(handles: &Handles, search: Search) -> Result<Stream<H>, Refusal> {
        let mut handle = handles.share()?;
        done(unsafe { daachorse_begin(&mut handle, search as u32) })?;
        Ok(Stream {
            handle,
            of: PhantomData,
        })
    }

    /// Feeds the next piece, and returns the matches that end in it, or of a leftmost stream those
    /// that are certain by now. The first call also returns the empty matches at the beginning.
    ///
    /// ```
    /// use daachorse_c::{Automaton, Kind};
    ///
    /// let automaton = Automaton::new(Kind::Standard, true, [&b"ab"[..]])?;
    /// let mut stream = automaton.stream(false)?;
    /// assert!(stream.feed(b"xa")?.is_empty());
    /// assert_eq!(stream.feed(b"b")?[0].start, 1);
    /// # Ok::<(), daachorse_c::Refusal>(())
    /// ```
    ///
    /// # Errors
    ///
    /// An offset or the number of matches would pass a `usize`.
    pub fn feed(&mut self, piece: &H) -> Result<Vec<Match>, Refusal> {
        self.consume(piece.bytes())
    }

    /// Ends the haystack, and returns the matches that are left: only leftmost ones can be.
    ///
    /// ```
    /// use daachorse_c::{Automaton, Kind};
    ///
    /// let patterns: [&[u8]; 2] = [b"ab", b"abcd"];
    /// let automaton = Automaton::new(Kind::LeftmostLongest, true, patterns)?;
    /// let mut stream = automaton.leftmost_stream()?;
    /// assert!(stream.feed(b"xabc")?.is_empty());
    /// assert_eq!(stream.finish()?[0].end, 3);
    /// # Ok::<(), daachorse_c::Refusal>(())
    /// ```
    ///
    /// # Errors
    ///
    /// The number of matches would pass a `usize`.
    pub fn finish(mut self) -> Result<Vec<Match>, Refusal> {
        done(unsafe { daachorse_end(&mut self.handle) })?;
        self.consume(b"")
    }

    fn consume(&mut self, mut piece: &[u8]) -> Result<Vec<Match>, Refusal> {
        let mut matches = Vec::new();
        let mut room = [NO_MATCH; 64];
        loop {
            let (mut taken, mut written) = (0, 0);
            done(unsafe {
                daachorse_consume(
                    &mut self.handle,
                    piece.as_ptr(),
                    piece.len(),
                    room.as_mut_ptr(),
                    room.len(),
                    &mut taken,
                    &mut written,
                )
            })?;
            piece = &piece[taken..];
            matches.extend_from_slice(&room[..written]);
            if written < room.len() {
                return Ok(matches);
            }
        }
    }
}
