//! This repository's side: one call that builds and searches, with marks at each beginning and end.

use crate::theirs::{self, Automaton, Mode, Unit};
use crate::{Tally, Words};
use std::cell::RefCell;
use std::time::{Duration, Instant};

unsafe extern "C" {
    fn bench_run(
        words: *const u8,
        words_len: usize,
        ends: *const u32,
        ends_len: usize,
        haystack: *const u8,
        haystack_len: usize,
        unit: u32,
        mode: u32,
        filter: u32,
        builds: u32,
        rounds: u32,
    ) -> i32;
}

/// The time of each round or build.
#[derive(Default)]
pub struct Times {
    pub ours: Vec<Duration>,
    pub theirs: Vec<Duration>,
}

/// What happens at the marks.
struct Marks {
    beside: Option<Beside>,
    began: Instant,
    times: Times,
    last: Tally,
}

/// The other side, which runs between ours.
struct Beside {
    words: Vec<&'static [u8]>,
    text: &'static [u8],
    automaton: Automaton,
    unit: Unit,
    mode: Mode,
    filter: bool,
    expected: Tally,
}

thread_local! {
    static MARKS: RefCell<Option<Marks>> = const { RefCell::new(None) };
}

impl Marks {
    /// A build or a round of the other side.
    fn run_theirs(&mut self, is_build: bool) {
        let Some(beside) = &mut self.beside else { return };
        let began = Instant::now();
        if is_build {
            let built = theirs::build(&beside.words, beside.unit, beside.mode, beside.filter);
            self.times.theirs.push(began.elapsed());
            drop(built);
        } else {
            let tally = theirs::round(&mut beside.automaton, beside.text, beside.mode);
            self.times.theirs.push(began.elapsed());
            assert_eq!(tally, beside.expected);
        }
    }

    /// Ours begins. Theirs comes first in one of two rounds, and last in the other.
    fn begin(&mut self, is_build: bool) {
        if self.times.ours.len() % 2 == 0 {
            self.run_theirs(is_build);
        }
        self.began = Instant::now();
    }

    fn end(&mut self, is_build: bool, tally: Tally) {
        self.times.ours.push(self.began.elapsed());
        if self.times.ours.len() % 2 == 0 {
            self.run_theirs(is_build);
        }
        if let (Some(beside), false) = (&self.beside, is_build) {
            assert_eq!(tally, beside.expected, "both sides find the same");
        }
        self.last = tally;
    }
}

#[unsafe(no_mangle)]
extern "C" fn bench_mark(event: u32, count: u64, sum: u64) {
    MARKS.with_borrow_mut(|marks| {
        let marks = marks.as_mut().expect("a run is on");
        let is_build = event < 2;
        if event % 2 == 0 {
            marks.begin(is_build);
        } else {
            marks.end(is_build, Tally { count, sum });
        }
    });
}

fn run(
    words: &Words,
    text: &[u8],
    unit: Unit,
    mode: Mode,
    filter: bool,
    builds: u32,
    rounds: u32,
    beside: Option<Beside>,
) -> Marks {
    let marks = Marks {
        beside,
        began: Instant::now(),
        times: Times::default(),
        last: Tally::default(),
    };
    MARKS.set(Some(marks));
    // SAFETY: each slice goes by its own pointer and length.
    let status = unsafe {
        bench_run(
            words.bytes.as_ptr(),
            words.bytes.len(),
            words.ends.as_ptr(),
            words.ends.len(),
            text.as_ptr(),
            text.len(),
            unit as u32,
            mode as u32,
            filter as u32,
            builds,
            rounds,
        )
    };
    assert_eq!(status, 0, "the words build");
    MARKS.take().expect("a run was on")
}

/// Does so many builds and rounds of ours alone, and returns the last round's result.
pub fn run_alone(
    words: &Words,
    text: &[u8],
    unit: Unit,
    mode: Mode,
    filter: bool,
    builds: u32,
    rounds: u32,
) -> Tally {
    run(words, text, unit, mode, filter, builds, rounds, None).last
}

/// Does so many builds or rounds of both sides, in turn.
pub fn run_beside(
    words: &'static Words,
    text: &'static [u8],
    unit: Unit,
    mode: Mode,
    filter: bool,
    builds: u32,
    rounds: u32,
) -> Times {
    let list = words.list();
    let mut automaton = theirs::build(&list, unit, mode, filter);
    theirs::prepare(&mut automaton, text, mode);
    let expected = theirs::round(&mut automaton, text, mode);
    let beside = Beside {
        words: list,
        text,
        automaton,
        unit,
        mode,
        filter,
        expected,
    };
    run(words, text, unit, mode, filter, builds, rounds, Some(beside)).times
}
