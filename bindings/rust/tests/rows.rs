//! Runs the rows of the table, as far as the crate has their calls.

mod table;

use daachorse_c::{Automaton, Builder, Haystack, Kind, Match, Matches, Refusal, Stream};
use table::{Found, Row, Way};

/// How many rows are run at least.
const LEAST: usize = 1000;

/// Longer haystacks are streamed in one size of pieces.
const LONG: usize = 100;

/// The calls of the table that the crate has not.
const OTHERS: [&str; 6] = [
    "bracketed",
    "changes",
    "depths-find",
    "depths-overlapping",
    "elements",
    "summary",
];

/// What is searched, and how a row tells it.
trait Text: Haystack {
    const OVER_CHARACTERS: bool;

    fn from_bytes(bytes: &[u8]) -> Option<&Self>;

    fn bytes_of(owned: &Self::Owned) -> &[u8];

    fn len(&self) -> usize;

    /// Its pieces of this many units, after an empty one.
    fn pieces(&self, size: usize) -> Vec<&Self>;

    fn read(form: &[u8]) -> Result<(Automaton<Self>, &[u8]), Refusal>;

    /// The haystack with `-` for matches of value 0 and nothing for those of value 1.
    fn replaced(&self, automaton: &Automaton<Self>) -> Self::Owned;
}

impl Text for [u8] {
    const OVER_CHARACTERS: bool = false;

    fn from_bytes(bytes: &[u8]) -> Option<&[u8]> {
        Some(bytes)
    }

    fn bytes_of(owned: &Vec<u8>) -> &[u8] {
        owned
    }

    fn len(&self) -> usize {
        <[u8]>::len(self)
    }

    fn pieces(&self, size: usize) -> Vec<&[u8]> {
        std::iter::once(&self[..0])
            .chain(self.chunks(size))
            .collect()
    }

    fn read(form: &[u8]) -> Result<(Automaton, &[u8]), Refusal> {
        Automaton::read(form)
    }

    fn replaced(&self, automaton: &Automaton) -> Vec<u8> {
        automaton.replace(self, &["-", ""])
    }
}

impl Text for str {
    const OVER_CHARACTERS: bool = true;

    fn from_bytes(bytes: &[u8]) -> Option<&str> {
        std::str::from_utf8(bytes).ok()
    }

    fn bytes_of(owned: &String) -> &[u8] {
        owned.as_bytes()
    }

    fn len(&self) -> usize {
        str::len(self)
    }

    fn pieces(&self, size: usize) -> Vec<&str> {
        let mut places: Vec<_> = self.char_indices().map(|it| it.0).step_by(size).collect();
        places.push(self.len());
        let pieces = places.windows(2).map(|it| &self[it[0]..it[1]]);
        std::iter::once(&self[..0]).chain(pieces).collect()
    }

    fn read(form: &[u8]) -> Result<(Automaton<str>, &[u8]), Refusal> {
        Automaton::read_text(form)
    }

    fn replaced(&self, automaton: &Automaton<str>) -> String {
        automaton.replace(self, &["-", ""])
    }
}

fn triple(found: Match) -> Found {
    (found.start, found.end, found.value)
}

fn build<H: Text + ?Sized>(
    kind: Kind,
    way: Way,
    patterns: &[(Vec<u8>, u32)],
) -> Option<Automaton<H>> {
    let patvals = patterns
        .iter()
        .map(|(it, value)| Some((H::from_bytes(it)?, *value)));
    let patvals: Vec<_> = patvals.collect::<Option<_>>()?;
    let builder = Builder::new()
        .kind(kind)
        .use_prefilter(!way.no_filter)
        .ascii_case_insensitive(way.any_case);
    builder.build_with_values(patvals).ok()
}

/// The form of a row: its words, or what is written of its patterns, with the change.
fn form_of<H: Text + ?Sized>(row: &Row, way: Way) -> Option<Vec<u8>> {
    if let Some(words) = table::form_in(row.patterns) {
        return table::form(words);
    }
    let automaton: Automaton<H> = build(row.kind, way, &table::patterns(row.patterns)?)?;
    let mut form = automaton.write().ok()?;
    if let Some((place, byte)) = row.change {
        *form.get_mut(place)? = byte;
    }
    Some(form)
}

/// Whether the automaton is that of a form that is no written one.
fn is_other(row: &Row) -> bool {
    row.change.is_some() || table::form_in(row.patterns).is_some()
}

fn made<H: Text + ?Sized>(row: &Row, way: Way) -> Option<Automaton<H>> {
    if way.is_read || is_other(row) {
        let mut form = form_of::<H>(row, way)?;
        form.push(42);
        let (automaton, rest) = H::read(&form).ok()?;
        return (rest == [42]).then_some(automaton);
    }
    let automaton: Automaton<H> = build(row.kind, way, &table::patterns(row.patterns)?)?;
    if way.is_fast {
        return automaton.accelerate().ok();
    }
    Some(automaton)
}

fn found<'h, H: Text + ?Sized>(
    automaton: &Automaton<H>,
    call: &str,
    haystack: &'h H,
) -> Option<Matches<'h>> {
    let matches = match call {
        "find" => automaton.find(haystack),
        "overlapping" => automaton.find_overlapping(haystack),
        "nosuffix" => automaton.find_overlapping_no_suffix(haystack),
        "leftmost" => automaton.leftmost_find(haystack),
        _ => return None,
    };
    matches.ok()
}

fn stream<H: Text + ?Sized>(automaton: &Automaton<H>, call: &str) -> Option<Stream<H>> {
    let stream = match call {
        "find" => automaton.stream(false),
        "overlapping" => automaton.stream(true),
        "nosuffix" => automaton.no_suffix_stream(),
        _ => automaton.leftmost_stream(),
    };
    stream.ok()
}

/// What a stream tells, and after how many pieces: at the end, after one more than there are.
fn streamed<H: Text + ?Sized>(
    mut stream: Stream<H>,
    pieces: &[&H],
) -> Option<Vec<(Found, Option<usize>)>> {
    let mut told = Vec::new();
    for (count, piece) in pieces.iter().enumerate() {
        let matches = stream.feed(piece).ok()?;
        told.extend(matches.into_iter().map(|it| (triple(it), Some(count))));
    }
    let matches = stream.finish().ok()?;
    told.extend(
        matches
            .into_iter()
            .map(|it| (triple(it), Some(pieces.len()))),
    );
    Some(told)
}

/// A search, with `each K` one for each number from 0 to K.
fn sees_search<H: Text + ?Sized>(row: &Row, way: Way) -> Option<bool> {
    let (call, most) = match row.call.split_once(" each ") {
        Some((call, most)) => (call, most.parse().ok()?),
        None => (row.call, 0),
    };
    let automaton = made::<H>(row, way)?;
    let kind = (automaton.kind(), automaton.is_ascii_case_insensitive());
    if !is_other(row) && kind != (row.kind, way.any_case) {
        return Some(false);
    }
    for number in 0..=most {
        if !sees_matches(row, &automaton, call, number)? {
            return Some(false);
        }
    }
    Some(true)
}

fn sees_matches<H: Text + ?Sized>(
    row: &Row,
    automaton: &Automaton<H>,
    call: &str,
    number: usize,
) -> Option<bool> {
    let bytes = table::text(row.text, number)?;
    let haystack = H::from_bytes(&bytes)?;
    let wanted = table::matches(row.expected, number)?;
    let wanted: Vec<Found> = wanted.into_iter().map(|it| it.0).collect();
    let matches: Vec<Found> = found(automaton, call, haystack)?.map(triple).collect();
    let mut holds = matches == wanted && automaton.is_match(haystack) != wanted.is_empty();
    let sizes = if haystack.len() < LONG { 1..4 } else { 64..65 };
    for size in sizes {
        let told = streamed(stream(automaton, call)?, &haystack.pieces(size))?;
        holds &= told.into_iter().map(|it| it.0).eq(wanted.iter().copied());
    }
    Some(holds)
}

/// A leftmost stream that gets unit by unit, before them nothing, and behind them the end.
fn sees_certain<H: Text + ?Sized>(row: &Row, way: Way) -> Option<bool> {
    let bytes = table::text(row.text, 0)?;
    let pieces = H::from_bytes(&bytes)?.pieces(1);
    let stream = made::<H>(row, way)?.leftmost_stream().ok()?;
    Some(streamed(stream, &pieces)? == table::matches(row.expected, 0)?)
}

fn listed<H: Text + ?Sized>(automaton: &Automaton<H>) -> Option<Vec<(Vec<u8>, u32)>> {
    let patterns = automaton.patterns().ok()?;
    let pair = |(it, value): &(H::Owned, u32)| (H::bytes_of(it).to_vec(), *value);
    Some(patterns.iter().map(pair).collect())
}

/// The listing, and that of a standard automaton that is built of it.
fn sees_patterns<H: Text + ?Sized>(row: &Row, way: Way) -> Option<bool> {
    let wanted = table::patterns(row.expected)?;
    let again: Automaton<H> = build(Kind::Standard, way, &wanted)?;
    Some(listed(&made::<H>(row, way)?)? == wanted && listed(&again)? == wanted)
}

fn sees_values<H: Text + ?Sized>(row: &Row, way: Way) -> Option<bool> {
    let bytes = table::text(row.text, 0)?;
    let values = made::<H>(row, way)?.get(H::from_bytes(&bytes)?);
    let values: Vec<_> = values.iter().map(|it| it.value.to_string()).collect();
    Some(values.iter().eq(row.expected.split_whitespace()))
}

fn sees_prefixes<H: Text + ?Sized>(row: &Row, way: Way) -> Option<bool> {
    let bytes = table::text(row.text, 0)?;
    let matches = made::<H>(row, way)?.common_prefixes(H::from_bytes(&bytes)?);
    let wanted = table::matches(row.expected, 0)?;
    Some(
        matches
            .into_iter()
            .map(triple)
            .eq(wanted.into_iter().map(|it| it.0)),
    )
}

/// What is counted, where the length of the longest pattern is in bytes.
fn sees_counts<H: Text + ?Sized>(row: &Row, way: Way) -> Option<bool> {
    let counts = made::<H>(row, way)?.counts().ok()?;
    let count = match row.call {
        "states" => counts.states,
        "count" => counts.patterns,
        "length" => counts.size,
        _ => counts.longest,
    };
    Some(row.expected.parse() == Ok(count))
}

fn sees_kind<H: Text + ?Sized>(row: &Row, way: Way) -> Option<bool> {
    let automaton = made::<H>(row, way)?;
    let kind = match automaton.kind() {
        Kind::Standard => "standard",
        Kind::LeftmostLongest => "longest",
        Kind::LeftmostFirst => "first",
    };
    let any_case = automaton.is_ascii_case_insensitive();
    Some(row.expected == format!("{kind}{}", if any_case { " anycase" } else { "" }))
}

fn sees_replaced<H: Text + ?Sized>(row: &Row, way: Way) -> Option<bool> {
    let bytes = table::text(row.text, 0)?;
    let replaced = H::from_bytes(&bytes)?.replaced(&made::<H>(row, way)?);
    Some(H::bytes_of(&replaced) == table::text(row.expected, 0)?)
}

fn sees_written<H: Text + ?Sized>(row: &Row, way: Way) -> Option<bool> {
    Some(made::<H>(row, way)?.write().ok()? == table::form(row.expected)?)
}

fn sees_word<H: Text + ?Sized>(row: &Row, way: Way) -> Option<bool> {
    let form = made::<H>(row, way)?.write().ok()?;
    let place: usize = row.text.parse().ok()?;
    let word = form.get(place..place + 4)?.try_into().ok()?;
    Some(row.expected.parse() == Ok(u32::from_le_bytes(word)))
}

/// How a form is read: accepted, with no byte left, or refused as no automaton.
fn answer<H: Text + ?Sized>(form: &[u8]) -> &'static str {
    match H::read(form) {
        Ok((_, [])) => "accepted",
        Err(Refusal::InvalidAutomaton) => "refused",
        _ => "something else",
    }
}

fn sees_read<H: Text + ?Sized>(row: &Row, way: Way) -> Option<bool> {
    Some(answer::<H>(&form_of::<H>(row, way)?) == row.expected)
}

/// Each beginning is refused, of these lengths or of all.
fn sees_beginnings<H: Text + ?Sized>(row: &Row, way: Way) -> Option<bool> {
    let form = form_of::<H>(row, way)?;
    let (first, last) = match row.text.split_once('-') {
        Some((first, last)) => (first.parse().ok()?, last.parse().ok()?),
        None => (0, form.len() - 1),
    };
    let mut lengths = first..=last.min(form.len() - 1);
    Some(row.expected == "refused" && lengths.all(|len| answer::<H>(&form[..len]) == "refused"))
}

/// Whether a row holds over one unit in one way.
fn sees<H: Text + ?Sized>(row: &Row, way: Way) -> Option<bool> {
    match row.call {
        "certain" => sees_certain::<H>(row, way),
        "patterns" => sees_patterns::<H>(row, way),
        "values" => sees_values::<H>(row, way),
        "prefixes" => sees_prefixes::<H>(row, way),
        "states" | "count" | "longest" | "length" => sees_counts::<H>(row, way),
        "kind" => sees_kind::<H>(row, way),
        "replaced" => sees_replaced::<H>(row, way),
        "written" => sees_written::<H>(row, way),
        "word" => sees_word::<H>(row, way),
        "read" => sees_read::<H>(row, way),
        "beginnings" => sees_beginnings::<H>(row, way),
        _ => sees_search::<H>(row, way),
    }
}

/// Whether the crate has no such call over this unit. No `str` holds what is no UTF-8.
fn is_skipped<H: Text + ?Sized>(row: &Row) -> bool {
    let is_plain = row.expected == "plain" || row.call.ends_with(" beginnings");
    let is_no_text = row.expected.ends_with("invalid") || row.call == "longest";
    is_plain || OTHERS.contains(&row.call) || H::OVER_CHARACTERS && is_no_text
}

/// Whether a row holds in each way that is run, which are counted.
fn holds_over<H: Text + ?Sized>(row: &Row, is_over: bool, count: &mut usize) -> bool {
    if !is_over || is_skipped::<H>(row) {
        return true;
    }
    *count += row.ways.len();
    row.ways
        .iter()
        .all(|way| sees::<H>(row, *way) == Some(true))
}

/// Whether a row holds, or `None` if nothing of it is run. One that is unreadable does not hold.
fn holds(line: &str) -> Option<bool> {
    let mut count = 0;
    let holds = table::read(line).map(|row| {
        let over_bytes = holds_over::<[u8]>(&row, row.over_bytes, &mut count);
        over_bytes & holds_over::<str>(&row, row.over_characters, &mut count)
    });
    match holds {
        Some(_) if count == 0 => None,
        _ => Some(holds == Some(true)),
    }
}

#[test]
fn each_row_holds_and_each_wrong_one_does_not() {
    let (mut run, mut skipped, mut told_apart, mut bad) = (0, 0, 0, Vec::new());
    for (line, is_wrong) in table::lines() {
        match holds(line) {
            Some(holds) if holds == is_wrong => bad.push(line),
            Some(false) => told_apart += 1,
            Some(true) => run += 1,
            None => skipped += usize::from(!is_wrong),
        }
    }
    println!(
        "{run} rows hold, {skipped} are skipped, and {told_apart} are wrong as they should be"
    );
    assert!(bad.is_empty(), "not as they should be:\n{}", bad.join("\n"));
    assert!(run >= LEAST && told_apart > 0);
}
