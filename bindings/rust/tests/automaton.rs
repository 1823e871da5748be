//! Tests of the crate by hand.

use daachorse_c::{Automaton, Builder, Counts, Kind, Match, Refusal};

const PATTERNS: [&[u8]; 4] = [b"ab", b"abcd", b"bc", b"cd"];

fn triples<M: IntoIterator<Item = Match>>(found: Result<M, Refusal>) -> Vec<(usize, usize, u32)> {
    found
        .unwrap()
        .into_iter()
        .map(|found| (found.start, found.end, found.value))
        .collect()
}

#[test]
fn case_is_disregarded_where_it_is_asked_for() {
    for yes in [false, true] {
        let builder = Builder::default().ascii_case_insensitive(yes);
        let automaton = builder.build(PATTERNS).unwrap();
        let found = triples(automaton.find(b"xABcd"));
        let wanted: &[_] = if yes {
            &[(1, 3, 0), (3, 5, 3)]
        } else {
            &[(3, 5, 3)]
        };
        assert_eq!(found, wanted);
        assert_eq!(automaton.is_match(b"xaB"), yes);
        let written = automaton.write().unwrap();
        let (again, _) = Automaton::read(&written).unwrap();
        assert_eq!(triples(again.find(b"xABcd")), wanted);
    }
}

#[test]
fn each_search_finds_its_matches() {
    for use_prefilter in [false, true] {
        let standard = Automaton::new(Kind::Standard, use_prefilter, PATTERNS).unwrap();
        assert_eq!(triples(standard.find(b"abcd")), [(0, 2, 0), (2, 4, 3)]);
        assert_eq!(
            triples(standard.find_overlapping(b"abcd")),
            [(0, 2, 0), (1, 3, 2), (0, 4, 1), (2, 4, 3)]
        );
        assert_eq!(
            triples(standard.find_overlapping_no_suffix(b"abcd")),
            [(0, 2, 0), (1, 3, 2), (0, 4, 1)]
        );
        let longest = Automaton::new(Kind::LeftmostLongest, use_prefilter, PATTERNS).unwrap();
        assert_eq!(triples(longest.leftmost_find(b"abcd")), [(0, 4, 1)]);
        let first = Automaton::new(Kind::LeftmostFirst, use_prefilter, PATTERNS).unwrap();
        assert_eq!(
            triples(first.leftmost_find(b"abcd")),
            [(0, 2, 0), (2, 4, 3)]
        );
    }
}

#[test]
fn room_grows() {
    let automaton = Automaton::with_values(Kind::Standard, true, [(&b"a"[..], 5)]).unwrap();
    let found = triples(automaton.find_overlapping(&[b'a'; 1000]));
    assert_eq!(found.len(), 1000);
    assert_eq!(found[999], (999, 1000, 5));
}

/// The leftmost matches: at each start the longest pattern, or the earliest.
fn leftmost(patterns: &[&[u8]], haystack: &[u8], is_first: bool) -> Vec<(usize, usize, u32)> {
    let (mut found, mut start, mut behind) = (Vec::new(), 0, None);
    while start <= haystack.len() {
        let rest = &haystack[start..];
        let here = (0..).zip(patterns).filter(|(_, it)| rest.starts_with(it));
        let best = here.min_by_key(|(_, it)| if is_first { 0 } else { usize::MAX - it.len() });
        let mut step = 1;
        if let Some((value, pattern)) = best {
            let end = start + pattern.len();
            if !pattern.is_empty() || behind != Some(start) {
                found.push((start, end, value));
                behind = Some(end);
            }
            step = step.max(pattern.len());
        }
        start += step;
    }
    found
}

#[test]
fn matches_behind_a_full_room_are_those_of_the_whole() {
    let haystack: Vec<u8> = b"aabaaab".iter().copied().cycle().take(3000).collect();
    let lists: [&[&[u8]]; 4] = [
        &[b"a", b"b"],
        &[b"a", b"b", b"ba", b"aabaaabaa"],
        &[b"a", b"", b"ab"],
        &[b"", b"ab"],
    ];
    for patterns in lists {
        let build = |kind| Automaton::new(kind, true, patterns.iter().copied()).unwrap();
        let standard = build(Kind::Standard);
        let written = standard.write().unwrap();
        let (read, _) = Automaton::read(&written).unwrap();
        for automaton in [standard, read] {
            let told =
                |overlapping| triples(automaton.stream(overlapping).unwrap().feed(&haystack));
            assert_eq!(
                triples(automaton.find(&haystack)),
                told(false),
                "{patterns:?}"
            );
            let mut all = told(true);
            assert_eq!(
                triples(automaton.find_overlapping(&haystack)),
                all,
                "{patterns:?}"
            );
            all.dedup_by_key(|found| found.1);
            let longest = automaton.find_overlapping_no_suffix(&haystack);
            assert_eq!(triples(longest), all, "{patterns:?}");
        }
        for (kind, is_first) in [(Kind::LeftmostLongest, false), (Kind::LeftmostFirst, true)] {
            let found = triples(build(kind).leftmost_find(&haystack));
            assert_eq!(
                found,
                leftmost(patterns, &haystack, is_first),
                "{patterns:?}"
            );
        }
    }
}

#[test]
fn texts_are_searched_by_characters() {
    let standard = Automaton::new(Kind::Standard, true, ["世界", "に", "界"]).unwrap();
    let haystack = "世界中に";
    let wanted = [(0, 6, 0), (9, 12, 1)];
    assert_eq!(triples(standard.find(haystack)), wanted);
    assert_eq!(
        triples(standard.find_overlapping(haystack)),
        [(0, 6, 0), (3, 6, 2), (9, 12, 1)]
    );
    assert_eq!(
        triples(standard.find_overlapping_no_suffix(haystack)),
        wanted
    );
    assert_eq!(
        triples(standard.accelerate().unwrap().find(haystack)),
        wanted
    );
    assert!(standard.is_match("中に") && !standard.is_match("中"));
    assert_eq!(standard.replace(haystack, &["W", "n"]), "W中n");
    let listed = [("に", 1), ("世界", 0), ("界", 2)];
    let listed: Vec<_> = listed.map(|(text, value)| (text.to_string(), value)).into();
    assert_eq!(standard.patterns().unwrap(), listed);
    let mut stream = standard.stream(false).unwrap();
    assert_eq!(triples(stream.feed("世")), []);
    assert_eq!(triples(stream.feed("界中に")), wanted);
    assert_eq!(triples(stream.finish()), []);
    let mut written = standard.write().unwrap();
    written.push(42);
    let (read, rest) = Automaton::read_text(&written).unwrap();
    assert_eq!(
        (triples(read.find(haystack)), rest),
        (wanted.into(), &[42][..])
    );
    let refused = Automaton::read_text(b"text").err();
    assert_eq!(refused, Some(Refusal::InvalidAutomaton));
    for (kind, wanted) in [
        (Kind::LeftmostLongest, [(0, 3, 1), (3, 6, 2)]),
        (Kind::LeftmostFirst, [(0, 2, 0), (3, 6, 2)]),
    ] {
        let automaton = Builder::new().kind(kind).build(["é", "éa", "ñb"]).unwrap();
        assert_eq!(triples(automaton.leftmost_find("éañb")), wanted);
        assert_eq!(automaton.find("é").err(), Some(Refusal::WrongKind));
        assert_eq!(automaton.kind(), kind);
    }
    let empty = Automaton::new(Kind::Standard, true, [""]).unwrap();
    assert_eq!(triples(empty.find("aé")), [(0, 0, 0), (1, 1, 0), (3, 3, 0)]);
}

#[test]
fn what_is_behind_a_full_room_of_texts_is_found() {
    let haystack = "éèéé界界a".repeat(400);
    let patterns = ["é", "éè", "界界aé", "èéé界", "a"];
    let standard = Automaton::new(Kind::Standard, true, patterns).unwrap();
    let written = standard.write().unwrap();
    let (read, _) = Automaton::read_text(&written).unwrap();
    for automaton in [standard, read] {
        let told = |overlapping| triples(automaton.stream(overlapping).unwrap().feed(&haystack));
        assert_eq!(triples(automaton.find(&haystack)), told(false));
        let mut all = told(true);
        assert_eq!(triples(automaton.find_overlapping(&haystack)), all);
        all.dedup_by_key(|found| found.1);
        let longest = automaton.find_overlapping_no_suffix(&haystack);
        assert_eq!(triples(longest), all);
    }
    let build = |kind| Automaton::new(kind, true, patterns).unwrap();
    let found = triples(build(Kind::LeftmostLongest).leftmost_find(&haystack));
    let mut stream = build(Kind::LeftmostLongest).leftmost_stream().unwrap();
    let mut told = triples(stream.feed(&haystack));
    told.extend(triples(stream.finish()));
    assert_eq!(found, told);
}

#[test]
fn patterns_are_looked_up_and_counted() {
    let patterns: [&[u8]; 4] = [b"ab", b"a", b"ab", b""];
    for kind in [Kind::Standard, Kind::LeftmostLongest] {
        let automaton = Automaton::new(kind, true, patterns).unwrap();
        let values = |found: Vec<Match>| -> Vec<_> { found.iter().map(|it| it.value).collect() };
        assert_eq!(values(automaton.get(b"ab")), [0, 2]);
        assert_eq!(values(automaton.get(b"b")), []);
        assert_eq!(values(automaton.common_prefixes(b"abc")), [3, 1, 0, 2]);
        let size = automaton.write().unwrap().len();
        let wanted = Counts {
            patterns: 4,
            states: 3,
            size,
            longest: 2,
        };
        assert_eq!(automaton.counts(), Ok(wanted));
        assert_eq!(automaton.kind(), kind);
        assert!(!automaton.is_ascii_case_insensitive());
    }
    let many = Automaton::new(Kind::Standard, true, [&b"a"[..]; 100]).unwrap();
    assert_eq!(many.get(b"a").len(), 100);
}

#[test]
fn a_stream_tells_what_a_search_finds() {
    let patterns: [&[u8]; 2] = [b"a", b"aa"];
    let automaton = Automaton::new(Kind::Standard, true, patterns).unwrap();
    let wanted = triples(automaton.find_overlapping(&[b'a'; 1000]));
    let mut stream = automaton.stream(true).unwrap();
    let mut told = triples(stream.feed(&[b'a'; 500]));
    told.extend(triples(stream.feed(&[b'a'; 500])));
    assert_eq!(told, wanted);
    let first = Automaton::new(Kind::LeftmostFirst, true, patterns).unwrap();
    for refused in [
        first.stream(true),
        first.no_suffix_stream(),
        automaton.leftmost_stream(),
    ] {
        assert_eq!(refused.map(|_| ()).err(), Some(Refusal::WrongKind));
    }
}

#[test]
fn leftmost_matches_are_told_when_they_are_certain() {
    let patterns: [&[u8]; 2] = [b"secret", b"secretary"];
    let automaton = Automaton::new(Kind::LeftmostLongest, true, patterns).unwrap();
    let mut stream = automaton.leftmost_stream().unwrap();
    assert_eq!(triples(stream.feed(b"a secret")), []);
    assert_eq!(triples(stream.feed(b"s, secretar")), [(2, 8, 0)]);
    assert_eq!(triples(stream.feed(b"y: secret")), [(11, 20, 1)]);
    assert_eq!(triples(stream.finish()), [(22, 28, 0)]);
}

#[test]
fn what_was_written_is_read_back() {
    let automaton = Automaton::new(Kind::Standard, true, PATTERNS).unwrap();
    let mut written = automaton.write().unwrap();
    assert_eq!(
        Automaton::read(&written[1..]).err(),
        Some(Refusal::InvalidAutomaton)
    );
    written.extend_from_slice(b"rest");
    let (again, rest) = Automaton::read(&written).unwrap();
    assert_eq!(rest, b"rest");
    assert!(again.is_match(b"xcdx"));
    assert!(!again.is_match(b"acbd"));
}

#[test]
fn a_search_of_another_kind_is_refused() {
    let automaton = Automaton::new(Kind::Standard, true, PATTERNS).unwrap();
    assert_eq!(
        automaton.leftmost_find(b"abcd").err(),
        Some(Refusal::WrongKind)
    );
}

#[test]
fn threads_search_one_automaton_at_once() {
    let automaton = Automaton::new(Kind::Standard, true, PATTERNS).unwrap();
    let wanted = triples(automaton.find_overlapping(b"abcd"));
    let threads: Vec<_> = (0..8)
        .map(|_| {
            let (automaton, wanted) = (automaton.clone(), wanted.clone());
            std::thread::spawn(move || {
                for _ in 0..200 {
                    assert_eq!(triples(automaton.find_overlapping(b"abcd")), wanted);
                }
            })
        })
        .collect();
    for thread in threads {
        thread.join().unwrap();
    }
}

#[test]
fn streams_stand_apart_and_outlive_their_automaton() {
    let automaton = Automaton::new(Kind::Standard, true, PATTERNS).unwrap();
    let mut one = automaton.stream(true).unwrap();
    let mut other = automaton.stream(false).unwrap();
    drop(automaton);
    assert_eq!(triples(one.feed(b"ab")), [(0, 2, 0)]);
    assert_eq!(triples(other.feed(b"xcd")), [(1, 3, 3)]);
    assert_eq!(triples(one.feed(b"cd")), [(1, 3, 2), (0, 4, 1), (2, 4, 3)]);
}
