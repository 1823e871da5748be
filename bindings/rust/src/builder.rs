//! Builds of automata.

use crate::automaton::Automaton;
use crate::haystack::Haystack;
use crate::library::{daachorse_build_with, Handle, Options};
use crate::refusal::{done, Refusal};

/// The kinds of automata, by the searches that they serve.
#[derive(Clone, Copy, Debug, PartialEq, Eq)]
pub enum Kind {
    /// All searches but [`Automaton::leftmost_find`].
    Standard = 0,
    /// [`Automaton::leftmost_find`], with the longest pattern at a start.
    LeftmostLongest = 1,
    /// [`Automaton::leftmost_find`], with the earliest pattern at a start.
    LeftmostFirst = 2,
}

impl Kind {
    /// The kinds by their numbers.
    pub(crate) const ALL: [Kind; 3] = [Kind::Standard, Kind::LeftmostLongest, Kind::LeftmostFirst];
}

/// Settings of a build. By default the kind is standard, the prefilter is on, and case matters.
///
/// ```
/// use daachorse_c::Builder;
///
/// let patterns: [&[u8]; 2] = [b"Ab", b"cd"];
/// let automaton = Builder::new().ascii_case_insensitive(true).build(patterns)?;
/// let starts: Vec<usize> = automaton.find(b"xABCD")?.map(|found| found.start).collect();
/// assert_eq!(starts, [1, 3]);
/// # Ok::<(), daachorse_c::Refusal>(())
/// ```
#[derive(Clone, Copy, Debug)]
pub struct Builder {
    kind: Kind,
    use_prefilter: bool,
    ascii_case_insensitive: bool,
}

impl Default for Builder {
    fn default() -> Builder {
        Builder::new()
    }
}

impl Builder {
    /// The default settings.
    pub fn new() -> Builder {
        Builder {
            kind: Kind::Standard,
            use_prefilter: true,
            ascii_case_insensitive: false,
        }
    }

    /// Sets the kind: which searches the automaton serves.
    pub fn kind(mut self, kind: Kind) -> Builder {
        self.kind = kind;
        self
    }

    /// Sets whether searches may skip places where no pattern begins. No result depends on it.
    pub fn use_prefilter(mut self, yes: bool) -> Builder {
        self.use_prefilter = yes;
        self
    }

    /// Sets whether A to Z are read as a to z in patterns and haystacks.
    pub fn ascii_case_insensitive(mut self, yes: bool) -> Builder {
        self.ascii_case_insensitive = yes;
        self
    }

    /// Builds an automaton of these patterns. Pattern `i`, counted from 0, has the value `i`.
    ///
    /// # Errors
    ///
    /// The library refuses the patterns, or an allocation failed.
    pub fn build<'p, H, P>(self, patterns: P) -> Result<Automaton<H>, Refusal>
    where
        H: Haystack + ?Sized + 'p,
        P: IntoIterator<Item = &'p H>,
    {
        self.build_with_values(patterns.into_iter().zip(0..))
    }

    /// Builds an automaton of these patterns, each with its value.
    ///
    /// # Errors
    ///
    /// The library refuses the patterns, or an allocation failed.
    pub fn build_with_values<'p, H, P>(self, patvals: P) -> Result<Automaton<H>, Refusal>
    where
        H: Haystack + ?Sized + 'p,
        P: IntoIterator<Item = (&'p H, u32)>,
    {
        let (mut bytes, mut ends, mut values) = (Vec::new(), Vec::new(), Vec::new());
        let mut longest = 0;
        for (pattern, value) in patvals {
            longest = longest.max(pattern.bytes().len());
            bytes.extend_from_slice(pattern.bytes());
            ends.push(bytes.len());
            values.push(value);
        }
        let options = self.options(H::IS_TEXT);
        let mut handle = Handle::empty();
        done(unsafe {
            daachorse_build_with(
                &mut handle,
                &options,
                bytes.as_ptr(),
                bytes.len(),
                ends.as_ptr(),
                ends.len(),
                values.as_ptr(),
                values.len(),
            )
        })?;
        Ok(Automaton::of(handle, longest))
    }

    fn options(self, in_text: bool) -> Options {
        Options {
            kind: self.kind as u32,
            no_prefilter: u32::from(!self.use_prefilter),
            ascii_case_insensitive: u32::from(self.ascii_case_insensitive),
            unit: u32::from(in_text),
            spare: [0; 4],
        }
    }
}
