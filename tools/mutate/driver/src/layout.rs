//! The layout of a written automaton.

/// A part: so many entries of so many bytes each, from an offset on.
#[derive(Clone, Copy)]
pub struct Part {
    pub start: usize,
    pub size: usize,
    pub count: usize,
}

impl Part {
    pub fn end(self) -> usize {
        self.start + self.size * self.count
    }
}

/// The number of parts of an automaton without a prefilter.
pub const PARTS_WITHOUT_FILTER: usize = 7;

/// Reads along the bytes.
struct Walk<'b> {
    bytes: &'b [u8],
    at: usize,
    parts: Vec<Part>,
}

impl Walk<'_> {
    fn number(&self, at: usize) -> Option<usize> {
        let field = self.bytes.get(at..at + 4)?.try_into().ok()?;
        Some(u32::from_le_bytes(field) as usize)
    }

    fn part(&mut self, size: usize, count: usize) -> Option<()> {
        let part = Part { start: self.at, size, count };
        if part.end() > self.bytes.len() {
            return None;
        }
        self.at = part.end();
        self.parts.push(part);
        Some(())
    }

    /// A list with its count before it.
    fn list(&mut self, size: usize) -> Option<()> {
        let count = self.number(self.at)?;
        self.at += 4;
        self.part(size, count)
    }
}

/// The parts of an automaton with values of four bytes, over bytes (`unit` 0) or characters, in the
/// order of the written form, or `None` if the bytes end early. The last is the prefilter's table,
/// if there is one.
pub fn parts_of(bytes: &[u8], unit: u32) -> Option<Vec<Part>> {
    let mut walk = Walk { bytes, at: 0, parts: Vec::new() };
    if unit == 0 {
        walk.list(12)?;
        walk.list(8)?;
        walk.list(4)?;
    } else {
        walk.list(16)?;
        walk.list(4)?;
        walk.part(4, 1)?;
    }
    walk.list(12)?;
    // The kind, the number of states, and whether there is a prefilter, with its window's length.
    walk.part(1, 1)?;
    walk.part(4, 1)?;
    walk.part(1, 1)?;
    if bytes[walk.at - 1] == 1 {
        walk.part(1, 1)?;
        walk.part(1, 1 << 16)?;
    }
    Some(walk.parts)
}
