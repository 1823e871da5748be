//! Automata.

use crate::builder::{Builder, Kind};
use crate::form::longest_pattern;
use crate::handles::Handles;
use crate::haystack::Haystack;
use crate::library::*;
use crate::matches::{GoingOn, Match, Matches, NO_MATCH};
use crate::refusal::{done, Refusal};
use crate::stream::Search::{Find, Leftmost, NoSuffix, Overlapping};
use crate::stream::Stream;
use std::marker::PhantomData;
use std::sync::Arc;

/// An automaton over the bytes of `[u8]` or the characters of `str`, with a value of 32 bits for
/// each pattern. Over characters no match begins or ends inside one; places are in bytes.
///
/// Threads may search it at once, by reference or by clones, which share it.
///
/// ```
/// use daachorse_c::{Automaton, Kind};
///
/// let automaton = Automaton::new(Kind::Standard, true, ["世界", "に"])?;
/// let ends: Vec<usize> = automaton.find("世界中に")?.map(|found| found.end).collect();
/// assert_eq!(ends, [6, 12]);
/// # Ok::<(), daachorse_c::Refusal>(())
/// ```
pub struct Automaton<H: ?Sized = [u8]> {
    handles: Arc<Handles>,
    // The most bytes of a pattern.
    longest: usize,
    of: PhantomData<fn(&H)>,
}

/// How much an automaton holds.
#[repr(C)]
#[derive(Clone, Copy, Debug, PartialEq, Eq)]
pub struct Counts {
    /// The number of patterns, where equal ones count each.
    pub patterns: usize,
    /// The number of states: one for each prefix of a pattern, the empty one included.
    pub states: usize,
    /// The number of bytes of the written form.
    pub size: usize,
    /// The number of bytes of the longest pattern, or 0 if there is none.
    pub longest: usize,
}

impl<H: ?Sized> Clone for Automaton<H> {
    fn clone(&self) -> Self {
        Automaton {
            handles: Arc::clone(&self.handles),
            longest: self.longest,
            of: PhantomData,
        }
    }
}

impl Automaton {
    /// Reads the automaton over bytes that the bytes begin with, and returns it with the remaining
    /// bytes. The bytes may be untrusted. It may have many patterns for each of its bytes, and
    /// [`Automaton::patterns`], [`Automaton::counts`], [`Automaton::accelerate`] and
    /// [`Automaton::leftmost_stream`] walk over all of them.
    ///
    /// # Errors
    ///
    /// No automaton begins the bytes, or an allocation failed.
    pub fn read(bytes: &[u8]) -> Result<(Automaton, &[u8]), Refusal> {
        Automaton::read_over(bytes)
    }
}

impl Automaton<str> {
    /// Does what [`Automaton::read`] does for an automaton over characters. What was written does
    /// not tell its unit: read over another it is refused, or is another automaton.
    ///
    /// # Errors
    ///
    /// No automaton begins the bytes, or an allocation failed.
    pub fn read_text(bytes: &[u8]) -> Result<(Automaton<str>, &[u8]), Refusal> {
        Automaton::read_over(bytes)
    }
}

impl<H: Haystack + ?Sized> Automaton<H> {
    /// Builds an automaton of these patterns. Pattern `i`, counted from 0, has the value `i`. A
    /// [`Builder`] has more settings.
    ///
    /// # Errors
    ///
    /// The library refuses the patterns, or an allocation failed.
    pub fn new<'p, P>(kind: Kind, use_prefilter: bool, patterns: P) -> Result<Self, Refusal>
    where
        H: 'p,
        P: IntoIterator<Item = &'p H>,
    {
        let builder = Builder::new().kind(kind).use_prefilter(use_prefilter);
        builder.build(patterns)
    }

    /// Builds an automaton of these patterns, each with its value.
    ///
    /// # Errors
    ///
    /// The library refuses the patterns, or an allocation failed.
    pub fn with_values<'p, P>(kind: Kind, use_prefilter: bool, patvals: P) -> Result<Self, Refusal>
    where
        H: 'p,
        P: IntoIterator<Item = (&'p H, u32)>,
    {
        let builder = Builder::new().kind(kind).use_prefilter(use_prefilter);
        builder.build_with_values(patvals)
    }

    /// Returns a copy that finds the same, faster if patterns are few and short: it has rows of the
    /// states near the root, if there is room for them. Streams are no faster. It takes time linear
    /// in the automaton's size.
    ///
    /// # Errors
    ///
    /// An allocation of the library failed.
    pub fn accelerate(&self) -> Result<Self, Refusal> {
        let mut other = Handle::empty();
        let answer = self
            .handles
            .with(|handle| unsafe { daachorse_accelerate(handle, &mut other) });
        done(answer).map(|()| Automaton::of(other, self.longest))
    }

    /// The kind of searches that the automaton serves.
    pub fn kind(&self) -> Kind {
        Kind::ALL[self.kind_and_case().0 as usize]
    }

    /// Whether searches read A to Z as a to z.
    pub fn is_ascii_case_insensitive(&self) -> bool {
        self.kind_and_case().1
    }

    /// Counts what the automaton holds. It walks over all patterns, and writes the automaton to
    /// memory that it frees.
    ///
    /// # Errors
    ///
    /// An allocation of the library failed.
    pub fn counts(&self) -> Result<Counts, Refusal> {
        let mut counts = Counts {
            patterns: 0,
            states: 0,
            size: 0,
            longest: 0,
        };
        let answer = self
            .handles
            .with(|handle| unsafe { daachorse_count(handle, &mut counts) });
        done(answer).map(|()| counts)
    }

    /// Returns the automaton as bytes, for [`Automaton::read`], or over characters for
    /// [`Automaton::read_text`].
    ///
    /// # Errors
    ///
    /// An allocation of the library failed.
    pub fn write(&self) -> Result<Vec<u8>, Refusal> {
        let mut out = Vec::new();
        let mut size = 0;
        loop {
            let answer = self.handles.with(|handle| unsafe {
                daachorse_write(handle, out.as_mut_ptr(), out.len(), &mut size)
            });
            if answer != Refusal::NoRoom as u32 {
                return done(answer).map(|()| out);
            }
            out.resize(size, 0);
        }
    }

    /// Returns the patterns of the automaton with their values, in byte order, equal ones in order
    /// of registration.
    ///
    /// One of the kind [`Kind::LeftmostFirst`] holds no pattern that extends one registered before
    /// it, and one that ignores ASCII case holds a to z in place of A to Z.
    ///
    /// ```
    /// use daachorse_c::{Automaton, Kind};
    ///
    /// let patterns: [&[u8]; 3] = [b"b", b"abc", b"ab"];
    /// let automaton = Automaton::new(Kind::Standard, true, patterns)?;
    /// let listed = automaton.patterns()?;
    /// assert_eq!(listed, [(b"ab".to_vec(), 2), (b"abc".to_vec(), 1), (b"b".to_vec(), 0)]);
    /// # Ok::<(), daachorse_c::Refusal>(())
    /// ```
    ///
    /// # Errors
    ///
    /// An allocation of the library failed.
    pub fn patterns(&self) -> Result<Vec<(H::Owned, u32)>, Refusal> {
        let (mut bytes, mut ends, mut values) = (Vec::new(), Vec::new(), Vec::new());
        let (mut size, mut count) = (0, 0);
        loop {
            let answer = self.handles.with(|handle| unsafe {
                daachorse_list(
                    handle,
                    bytes.as_mut_ptr(),
                    bytes.len(),
                    ends.as_mut_ptr(),
                    ends.len(),
                    values.as_mut_ptr(),
                    values.len(),
                    &mut size,
                    &mut count,
                )
            });
            if answer != Refusal::NoRoom as u32 {
                return done(answer).map(|()| patterns_in::<H>(&bytes, &ends, &values));
            }
            bytes.resize(size, 0);
            ends.resize(count, 0);
            values.resize(count, 0);
        }
    }

    /// Finds matches that do not overlap, each ending as early as possible.
    ///
    /// # Errors
    ///
    /// [`Refusal::WrongKind`]: the automaton is not standard.
    pub fn find<'h>(&self, haystack: &'h H) -> Result<Matches<'h>, Refusal> {
        self.find_on(haystack, self.kind() == Kind::Standard)
    }

    /// Finds every match, by ascending ends, the longest first of those that end together.
    ///
    /// # Errors
    ///
    /// [`Refusal::WrongKind`]: the automaton is not standard.
    pub fn find_overlapping<'h>(&self, haystack: &'h H) -> Result<Matches<'h>, Refusal> {
        self.overlapping(daachorse_find_overlapping, haystack)
    }

    /// Finds the longest match at each end.
    ///
    /// # Errors
    ///
    /// [`Refusal::WrongKind`]: the automaton is not standard.
    pub fn find_overlapping_no_suffix<'h>(&self, haystack: &'h H) -> Result<Matches<'h>, Refusal> {
        self.overlapping(daachorse_find_overlapping_no_suffix, haystack)
    }

    /// Finds matches that do not overlap, each starting as early as possible.
    ///
    /// ```
    /// use daachorse_c::{Automaton, Kind};
    ///
    /// let patterns: [&[u8]; 2] = [b"ab", b"abcd"];
    /// let automaton = Automaton::new(Kind::LeftmostLongest, true, patterns)?;
    /// assert_eq!(automaton.leftmost_find(b"xabcd")?.next().map(|found| found.end), Some(5));
    /// # Ok::<(), daachorse_c::Refusal>(())
    /// ```
    ///
    /// # Errors
    ///
    /// [`Refusal::WrongKind`]: the automaton is standard.
    pub fn leftmost_find<'h>(&self, haystack: &'h H) -> Result<Matches<'h>, Refusal> {
        self.find_on(haystack, self.kind() != Kind::Standard)
    }

    /// Returns the patterns that are the whole text, in order of registration.
    ///
    /// ```
    /// use daachorse_c::{Automaton, Kind};
    ///
    /// let automaton = Automaton::new(Kind::Standard, true, ["ab", "a", "ab"])?;
    /// let values: Vec<u32> = automaton.get("ab").iter().map(|found| found.value).collect();
    /// assert_eq!(values, [0, 2]);
    /// let ends: Vec<usize> = automaton.common_prefixes("abc").iter().map(|it| it.end).collect();
    /// assert_eq!(ends, [1, 2, 2]);
    /// # Ok::<(), daachorse_c::Refusal>(())
    /// ```
    pub fn get(&self, text: &H) -> Vec<Match> {
        self.look_up(daachorse_get, text)
    }

    /// Returns the patterns that begin the text, the shortest first.
    pub fn common_prefixes(&self, text: &H) -> Vec<Match> {
        self.look_up(daachorse_common_prefixes, text)
    }

    /// Returns whether some pattern occurs.
    pub fn is_match(&self, haystack: &H) -> bool {
        let haystack = haystack.bytes();
        let mut found = false;
        // The handle has an automaton, and nothing else is refused.
        let _done = self.handles.with(|handle| unsafe {
            daachorse_is_match(handle, haystack.as_ptr(), haystack.len(), &mut found)
        });
        found
    }

    /// Returns the haystack with each match replaced by the text whose number, counted from 0, is
    /// its value, if there is one. The matches are those of [`Automaton::find`], or for a leftmost
    /// kind those of [`Automaton::leftmost_find`].
    ///
    /// ```
    /// use daachorse_c::{Automaton, Kind};
    ///
    /// let patterns: [&[u8]; 3] = [b"ab", b"abcd", b"x"];
    /// let automaton = Automaton::new(Kind::LeftmostLongest, true, patterns)?;
    /// assert_eq!(automaton.replace(b"xabcdab", &["one", "two"]), b"xtwoone");
    /// # Ok::<(), daachorse_c::Refusal>(())
    /// ```
    pub fn replace<T: AsRef<H>>(&self, haystack: &H, texts: &[T]) -> H::Owned {
        let haystack = haystack.bytes();
        let (mut bytes, mut ends) = (Vec::new(), Vec::new());
        for text in texts {
            bytes.extend_from_slice(text.as_ref().bytes());
            ends.push(bytes.len());
        }
        let mut out = vec![0; haystack.len()];
        let mut size = 0;
        loop {
            // The handle has an automaton and the ends are right, so only room is refused.
            let answer = self.handles.with(|handle| unsafe {
                daachorse_replace(
                    handle,
                    haystack.as_ptr(),
                    haystack.len(),
                    bytes.as_ptr(),
                    bytes.len(),
                    ends.as_ptr(),
                    ends.len(),
                    out.as_mut_ptr(),
                    out.len(),
                    &mut size,
                )
            });
            out.resize(size, 0);
            if answer != Refusal::NoRoom as u32 {
                return H::of(out);
            }
        }
    }

    /// Begins a stream, for all matches or for those of [`Automaton::find`]. An automaton has any
    /// number of streams, which may outlive it.
    ///
    /// # Errors
    ///
    /// The automaton is not standard ([`Refusal::WrongKind`]), or an allocation failed.
    pub fn stream(&self, overlapping: bool) -> Result<Stream<H>, Refusal> {
        Stream::new(&self.handles, if overlapping { Overlapping } else { Find })
    }

    /// Begins a stream for the matches of [`Automaton::find_overlapping_no_suffix`].
    ///
    /// # Errors
    ///
    /// As of [`Automaton::stream`].
    pub fn no_suffix_stream(&self) -> Result<Stream<H>, Refusal> {
        Stream::new(&self.handles, NoSuffix)
    }

    /// Begins a stream for the matches of [`Automaton::leftmost_find`]. It tells each as soon as it
    /// is certain, whatever follows, and [`Stream::finish`] the rest. To begin takes time linear in
    /// the automaton's size.
    ///
    /// # Errors
    ///
    /// The automaton is standard ([`Refusal::WrongKind`]), or an allocation failed.
    pub fn leftmost_stream(&self) -> Result<Stream<H>, Refusal> {
        Stream::new(&self.handles, Leftmost)
    }

    pub(crate) fn of(handle: Handle, longest: usize) -> Self {
        Automaton {
            handles: Arc::new(Handles::new(handle)),
            longest,
            of: PhantomData,
        }
    }

    fn read_over(bytes: &[u8]) -> Result<(Self, &[u8]), Refusal> {
        let mut handle = Handle::empty();
        let mut taken = 0;
        done(unsafe {
            let unit = u32::from(H::IS_TEXT);
            daachorse_read_with(&mut handle, unit, bytes.as_ptr(), bytes.len(), &mut taken)
        })?;
        let longest = longest_pattern::<H>(bytes);
        Ok((Automaton::of(handle, longest), &bytes[taken..]))
    }

    fn kind_and_case(&self) -> (u32, bool) {
        let (mut kind, mut folds) = (0, false);
        // The handle has an automaton, and nothing else is refused.
        let _done = self
            .handles
            .with(|handle| unsafe { daachorse_kind(handle, &mut kind, &mut folds) });
        (kind, folds)
    }

    fn find_on<'h>(&self, haystack: &'h H, serves: bool) -> Result<Matches<'h>, Refusal> {
        if !serves {
            return Err(Refusal::WrongKind);
        }
        let going_on = GoingOn::From(Place::default());
        Matches::new(&self.handles, haystack, going_on)
    }

    fn overlapping<'h>(&self, search: Search, haystack: &'h H) -> Result<Matches<'h>, Refusal> {
        let longest = self.longest;
        let going_on = GoingOn::Again { search, longest };
        Matches::new(&self.handles, haystack, going_on)
    }

    fn look_up(&self, search: Search, text: &H) -> Vec<Match> {
        let text = text.bytes();
        let mut out = vec![NO_MATCH; 8];
        loop {
            let mut written = 0;
            // The handle has an automaton, and nothing else is refused.
            let _done = self.handles.with(|handle| unsafe {
                let (room, len) = (out.as_mut_ptr(), out.len());
                search(handle, text.as_ptr(), text.len(), room, len, &mut written)
            });
            if written < out.len() {
                out.truncate(written);
                return out;
            }
            out.resize(2 * written, NO_MATCH);
        }
    }
}

/// The patterns that end at each of `ends` in the bytes, each with its value.
fn patterns_in<H: Haystack + ?Sized>(
    bytes: &[u8],
    ends: &[usize],
    values: &[u32],
) -> Vec<(H::Owned, u32)> {
    let mut start = 0;
    let mut patterns = Vec::with_capacity(ends.len());
    for (&end, &value) in ends.iter().zip(values) {
        patterns.push((H::of(bytes[start..end].to_vec()), value));
        start = end;
    }
    patterns
}
