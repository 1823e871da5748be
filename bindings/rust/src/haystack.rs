//! What automata search.

/// What an automaton searches: `[u8]`, by bytes, or `str`, by characters.
pub trait Haystack: ToOwned + units::Units {}

impl Haystack for [u8] {}

impl Haystack for str {}

pub(crate) mod units {
    /// What the library has to be told of a haystack.
    pub trait Units: ToOwned {
        /// Whether its unit is the character.
        const IS_TEXT: bool;

        /// How many bytes an item takes in each list of a written automaton before its outputs, and
        /// how many bytes come between these lists and the outputs.
        const LISTS: (&'static [usize], usize);

        /// Its bytes.
        fn bytes(&self) -> &[u8];

        /// What has these bytes.
        fn of(bytes: Vec<u8>) -> Self::Owned;
    }

    impl Units for [u8] {
        const IS_TEXT: bool = false;

        // Elements of the standard searches and of the leftmost ones, and their links.
        const LISTS: (&'static [usize], usize) = (&[12, 8, 4], 0);

        fn bytes(&self) -> &[u8] {
            self
        }

        fn of(bytes: Vec<u8>) -> Vec<u8> {
            bytes
        }
    }

    impl Units for str {
        const IS_TEXT: bool = true;

        // Elements and codes, and the number of codes.
        const LISTS: (&'static [usize], usize) = (&[16, 4], 4);

        fn bytes(&self) -> &[u8] {
            self.as_bytes()
        }

        fn of(bytes: Vec<u8>) -> String {
            String::from_utf8(bytes).expect("the library makes texts of texts")
        }
    }
}
