//! Reads the table crates/daachorse_table/stdin, whose beginning says what a row means. What is no
//! row, text, form or match is `None`.

use daachorse_c::Kind;
use std::iter::repeat;
use std::ops::RangeInclusive;

const TABLE: &str = include_str!("../../../../crates/daachorse_table/stdin");

/// The start, the end and the value of a match.
pub type Found = (usize, usize, u32);

/// One way to make an automaton.
#[derive(Clone, Copy, Default)]
pub struct Way {
    pub no_filter: bool,
    pub any_case: bool,
    pub is_read: bool,
    pub is_fast: bool,
}

/// A row. It has no ways if the crate has no call for one of its words.
pub struct Row<'a> {
    pub over_bytes: bool,
    pub over_characters: bool,
    pub kind: Kind,
    pub ways: Vec<Way>,
    pub change: Option<(usize, u8)>,
    pub patterns: &'a str,
    pub call: &'a str,
    pub text: &'a str,
    pub expected: &'a str,
}

/// Each row as a line, and whether it is wrong on purpose.
pub fn lines() -> impl Iterator<Item = (&'static str, bool)> {
    let mut is_wrong = false;
    TABLE.lines().filter_map(move |line| {
        is_wrong |= line.starts_with("#!");
        let is_row = !line.trim().is_empty() && !line.starts_with('#');
        is_row.then_some((line, is_wrong))
    })
}

pub fn read(line: &str) -> Option<Row<'_>> {
    let fields: Vec<_> = line.split('|').map(str::trim).collect();
    let [automaton, patterns, call, text, expected] = <[&str; 5]>::try_from(fields).ok()?;
    let mut words = automaton.split_whitespace();
    let unit = words
        .next()
        .filter(|it| ["both", "bytes", "chars"].contains(it))?;
    let kind = kind(words.next()?)?;
    let (ways, change) = ways(words, [patterns, text])?;
    Some(Row {
        over_bytes: unit != "chars",
        over_characters: unit != "bytes",
        kind,
        ways,
        change,
        patterns,
        call,
        text,
        expected,
    })
}

fn kind(word: &str) -> Option<Kind> {
    match word {
        "standard" => Some(Kind::Standard),
        "longest" => Some(Kind::LeftmostLongest),
        "first" => Some(Kind::LeftmostFirst),
        _ => None,
    }
}

/// The ways, and the place and byte of a change.
type Ways = (Vec<Way>, Option<(usize, u8)>);

fn ways<'a>(words: impl Iterator<Item = &'a str>, texts: [&str; 2]) -> Option<Ways> {
    let (mut one, mut is_one, mut is_skipped, mut change) = (Way::default(), false, false, None);
    for word in words {
        is_one |= word != "anycase";
        match word {
            "anycase" => one.any_case = true,
            "nofilter" => one.no_filter = true,
            "read" => one.is_read = true,
            "rows" => one.is_fast = true,
            "once" => {}
            "unchecked" => is_skipped = true,
            _ if word.starts_with("corpus=") => is_skipped = true,
            _ => {
                let (place, byte) = word.strip_prefix("change=")?.split_once(':')?;
                change = Some((place.parse().ok()?, byte.parse().ok()?));
            }
        }
    }
    if is_skipped || is_one {
        return Some((if is_skipped { vec![] } else { vec![one] }, change));
    }
    Some((each_way(one, texts), None))
}

/// Each way, with case ignored in one of them if it is not in all, and there is no capital letter.
fn each_way(one: Way, texts: [&str; 2]) -> Vec<Way> {
    let mut ways = vec![
        one,
        Way {
            no_filter: true,
            ..one
        },
        Way {
            is_read: true,
            ..one
        },
        Way {
            is_fast: true,
            ..one
        },
    ];
    let plain = texts.map(|it| it.replace("{N:", "{"));
    if !one.any_case
        && !plain
            .iter()
            .any(|it| it.contains(|c: char| c.is_ascii_uppercase()))
    {
        ways.push(Way {
            any_case: true,
            ..one
        });
    }
    ways
}

/// The bytes of a text, where N stands for the number.
pub fn text(field: &str, number: usize) -> Option<Vec<u8>> {
    let (mut out, mut rest) = (Vec::new(), field);
    while let Some((plain, escape)) = rest.split_once('\\') {
        out.extend_from_slice(plain.as_bytes());
        rest = read_escape(escape, number, &mut out)?;
    }
    out.extend_from_slice(rest.as_bytes());
    Some(out)
}

/// Appends what the escape at the front stands for, and returns what is behind it.
fn read_escape<'a>(rest: &'a str, number: usize, out: &mut Vec<u8>) -> Option<&'a str> {
    let mark = rest.chars().next()?;
    if let Some(at) = "\\speclh".find(mark) {
        out.push(b"\\ |=,<#"[at]);
        return Some(&rest[1..]);
    }
    let (inside, behind) = match mark {
        'x' => (rest.get(1..3)?, rest.get(3..)?),
        '[' => rest[1..].split_once(']')?,
        '{' => rest[1..].split_once('}')?,
        _ => return None,
    };
    match mark {
        'x' => out.push(u8::from_str_radix(inside, 16).ok()?),
        '[' => out.extend_from_slice(characters(inside)?.collect::<String>().as_bytes()),
        _ => out.extend_from_slice(&repeated(inside, number)?),
    }
    Some(behind)
}

/// The characters of A-B.
fn characters(field: &str) -> Option<RangeInclusive<char>> {
    let (first, last) = field.split_once('-')?;
    let character = |it| String::from_utf8(text(it, 0)?).ok()?.parse().ok();
    Some(character(first)?..=character(last)?)
}

/// The first characters of a text that is repeated, or the first bytes of what is none.
fn repeated(field: &str, number: usize) -> Option<Vec<u8>> {
    let (count, part) = field.split_once(':')?;
    let part = text(part, 0)?;
    let count = if count == "N" {
        number
    } else {
        count.parse().ok()?
    };
    let units: Vec<&[u8]> = match std::str::from_utf8(&part) {
        Ok(text) => text.split_inclusive(|_| true).map(str::as_bytes).collect(),
        Err(_) => part.chunks(1).collect(),
    };
    Some(
        units
            .into_iter()
            .cycle()
            .take(count)
            .flatten()
            .copied()
            .collect(),
    )
}

fn word(field: &str) -> Option<Vec<u8>> {
    text(if field == "\"\"" { "" } else { field }, 0)
}

/// The patterns of a field, with their values.
pub fn patterns(field: &str) -> Option<Vec<(Vec<u8>, u32)>> {
    let mut listed = Vec::new();
    for (it, index) in field.split_whitespace().zip(0..) {
        if let Some((pattern, value)) = it.split_once('=') {
            listed.push((word(pattern)?, value.parse().ok()?));
        } else if let Some((pattern, range)) = it.split_once('<') {
            let begin = String::from_utf8(text(pattern, 0)?).ok()?;
            let last = characters(range.strip_suffix('>')?)?;
            listed.extend(last.map(|it| (format!("{begin}{it}").into_bytes(), 0)));
        } else {
            listed.push((word(it)?, index));
        }
    }
    Some(listed)
}

/// The words of a field of patterns that is a form.
pub fn form_in(patterns: &str) -> Option<&str> {
    let words = patterns.strip_prefix("form")?;
    (words.is_empty() || words.starts_with(' ')).then_some(words)
}

/// The bytes of the words of a form.
pub fn form(field: &str) -> Option<Vec<u8>> {
    let mut bytes = Vec::new();
    for it in field.split_whitespace() {
        if let Some(range) = it.strip_prefix('v') {
            let (first, last) = range.split_once('-')?;
            for index in first.parse::<u32>().ok()?..=last.parse().ok()? {
                bytes.extend_from_slice(&[0; 8]);
                bytes.extend_from_slice(&index.to_le_bytes());
            }
            continue;
        }
        let (number, times) = it.split_once('*').unwrap_or((it, "1"));
        let number = match number.strip_prefix('b') {
            Some(byte) => vec![byte.parse().ok()?],
            None => number.parse::<u32>().ok()?.to_le_bytes().to_vec(),
        };
        bytes.extend(repeat(number).take(times.parse().ok()?).flatten());
    }
    Some(bytes)
}

/// The matches of a field, with + before them the number further on, and after how many units each
/// is given, if that is said.
pub fn matches(field: &str, number: usize) -> Option<Vec<(Found, Option<usize>)>> {
    let read = |it: &str| {
        let further = if it.starts_with('+') { number } else { 0 };
        let (range, rest) = it.trim_start_matches('+').split_once(':')?;
        let (start, end) = range.split_once('-')?;
        let (value, units) = match rest.split_once('@') {
            Some((value, units)) => (value, Some(units.parse().ok()?)),
            None => (rest, None),
        };
        let place = |it: &str| Some(it.parse::<usize>().ok()? + further);
        Some(((place(start)?, place(end)?, value.parse().ok()?), units))
    };
    field.split_whitespace().map(read).collect()
}
