//! `aho_corasick WORDS TEXT ROUNDS`: counts every match by the DFA of the crate aho-corasick. It
//! prints how many there are, and the median of the rounds in nanoseconds a byte.

use aho_corasick::AhoCorasickBuilder;
use std::time::Instant;

fn main() {
    let args: Vec<String> = std::env::args().collect();
    let words = std::fs::read_to_string(&args[1]).expect("the words are UTF-8");
    let text = std::fs::read(&args[2]).expect("the text is there");
    let rounds: usize = args[3].parse().expect("the rounds are a number");
    let words = words.split('\n').filter(|word| !word.is_empty());
    let automaton = AhoCorasickBuilder::new()
        .dfa(true)
        .build_with_size::<u32, _, _>(words)
        .expect("the words build");
    let mut count = 0;
    let mut times = Vec::new();
    for _ in 0..rounds {
        let began = Instant::now();
        count = 0;
        let mut sum = 0;
        for found in automaton.find_overlapping_iter(&text) {
            count += 1;
            sum += found.start() + found.end() + found.pattern();
        }
        times.push(began.elapsed().as_secs_f64());
        std::hint::black_box(sum);
    }
    times.sort_by(f64::total_cmp);
    println!("{count}\t{}", times[rounds / 2] * 1e9 / text.len() as f64);
}
