//! Times and counts the automata of this repository beside those of the Rust crate.
//!
//! `driver time UNIT WORDS TEXT ROUNDS MODES BUILDS` prints the least and the median time of the
//! rounds of each mode of `MODES`, and of the builds of each of `BUILDS`; names are separated by
//! spaces. `driver rounds UNIT MODE WORDS TEXT BYTES OURS THEIRS` and
//! `driver builds UNIT MODE WORDS OURS THEIRS` do so many rounds or builds of either side, for
//! counting instructions, and print only their results. `UNIT` is `bytes` or `chars`. With `FILTER`
//! in the environment the prefilter of both sides is on.

mod ours;
mod theirs;

use std::time::Duration;
use theirs::{Mode, Unit};

/// The result of a round.
#[derive(Clone, Copy, Debug, Default, PartialEq, Eq)]
pub struct Tally {
    pub count: u64,
    pub sum: u64,
}

/// A list of words, as it is passed to either side.
pub struct Words {
    bytes: Vec<u8>,
    ends: Vec<u32>,
}

impl Words {
    /// The lines of a file, which is UTF-8.
    fn read(path: &str) -> Words {
        let mut words = Words {
            bytes: Vec::new(),
            ends: Vec::new(),
        };
        let text = String::from_utf8(read(path)).expect("the words are UTF-8");
        for line in text.split('\n').filter(|line| !line.is_empty()) {
            words.bytes.extend_from_slice(line.as_bytes());
            words.ends.push(words.bytes.len() as u32);
        }
        words
    }

    fn list(&self) -> Vec<&[u8]> {
        let starts = std::iter::once(0).chain(self.ends.iter().copied());
        starts
            .zip(&self.ends)
            .map(|(start, end)| &self.bytes[start as usize..*end as usize])
            .collect()
    }
}

fn read(path: &str) -> Vec<u8> {
    std::fs::read(path).unwrap_or_else(|e| panic!("{path}: {e}"))
}

/// The least and the median.
fn least_and_median(mut times: Vec<Duration>) -> (f64, f64) {
    times.sort();
    (
        times[0].as_secs_f64() * 1e3,
        times[times.len() / 2].as_secs_f64() * 1e3,
    )
}

/// One line: both sides' least and median in milliseconds, the least in MB/s, and the ratios.
fn print_line(name: &str, bytes: usize, ours: Vec<Duration>, theirs: Vec<Duration>) {
    if ours.is_empty() {
        println!("{name}\tno room for rows");
        return;
    }
    let (our_least, our_median) = least_and_median(ours);
    let (their_least, their_median) = least_and_median(theirs);
    let speed = |ms: f64| bytes as f64 / 1e3 / ms;
    println!(
        "{name}\t{our_least:.3}\t{our_median:.3}\t{their_least:.3}\t{their_median:.3}\t{:.1}\t{:.1}\t{:.3}\t{:.3}",
        speed(our_least),
        speed(their_least),
        our_least / their_least,
        our_median / their_median,
    );
}

/// Whether the prefilter of both sides is on.
fn filter() -> bool {
    std::env::var_os("FILTER").is_some()
}

fn time(
    words: &'static Words,
    text: &'static [u8],
    unit: Unit,
    rounds: u32,
    modes: &[Mode],
    builds: &[Mode],
) {
    println!(
        "what\tours least ms\tmedian\ttheirs least ms\tmedian\tours MB/s\ttheirs MB/s\tratio of least\tof medians"
    );
    for &mode in modes {
        let times = ours::run_beside(words, text, unit, mode, filter(), 0, rounds);
        print_line(
            mode.name(),
            if mode.is_search() { text.len() } else { words.bytes.len() },
            times.ours,
            times.theirs,
        );
    }
    for &mode in builds {
        let times = ours::run_beside(words, text, unit, mode, filter(), rounds, 0);
        print_line(
            &format!("build {}", mode.kind_name()),
            words.bytes.len(),
            times.ours,
            times.theirs,
        );
    }
}

fn rounds(words: &Words, text: &[u8], unit: Unit, mode: Mode, ours: u32, theirs: u32) {
    if ours > 0 {
        println!("{:?}", ours::run_alone(words, text, unit, mode, filter(), 0, ours));
    }
    if theirs > 0 {
        let mut automaton = theirs::build(&words.list(), unit, mode, filter());
        theirs::prepare(&mut automaton, text, mode);
        for _ in 0..theirs {
            println!("{:?}", theirs::round(&mut automaton, text, mode));
        }
    }
}

fn builds(words: &Words, unit: Unit, mode: Mode, ours: u32, theirs: u32) {
    if ours > 0 {
        println!("{:?}", ours::run_alone(words, b"", unit, mode, filter(), ours, 0));
    }
    let list = words.list();
    for _ in 0..theirs {
        println!("{}", theirs::build(&list, unit, mode, filter()).num_states());
    }
}

/// The longest prefix of a text that has at most so many bytes and whole characters.
fn beginning(text: &[u8], bytes: usize) -> &[u8] {
    let mut end = text.len().min(bytes);
    while end < text.len() && text[end] & 0xc0 == 0x80 {
        end -= 1;
    }
    &text[..end]
}

fn named(names: &str) -> impl Iterator<Item = Mode> + '_ {
    names.split_whitespace().map(Mode::of)
}

fn number(word: &str) -> u32 {
    word.parse().unwrap_or_else(|_| panic!("no number: {word}"))
}

fn main() {
    let args: Vec<String> = std::env::args().skip(1).collect();
    let args: Vec<&str> = args.iter().map(String::as_str).collect();
    match args.as_slice() {
        ["time", unit, words, text, n, modes, builds] => {
            let unit = Unit::of(unit);
            let modes = named(modes).filter(|mode| mode.is_of(unit));
            time(
                Box::leak(Box::new(Words::read(words))),
                read(text).leak(),
                unit,
                number(n),
                &modes.collect::<Vec<_>>(),
                &named(builds).collect::<Vec<_>>(),
            );
        }
        ["rounds", unit, mode, words, text, bytes, n, m] => {
            let text = read(text);
            rounds(
                &Words::read(words),
                beginning(&text, number(bytes) as usize),
                Unit::of(unit),
                Mode::of(mode),
                number(n),
                number(m),
            );
        }
        ["builds", unit, mode, words, n, m] => {
            builds(
                &Words::read(words),
                Unit::of(unit),
                Mode::of(mode),
                number(n),
                number(m),
            );
        }
        _ => panic!("the head of main.rs says how this is called"),
    }
}
