//! One walk over a message file ("Lines of a message"): where each value lies,
//! the separators and the summary row.

use crate::layouts::{Labels, ACCENT, MOST_FIELDS, SLOTS};
use crate::runs::{plain_run, skip_blanks};
use crate::values::{trim, trim_end};
use crate::Refusal;

/// What the walk found. Slots are places in the labels it was given.
pub struct Lines<'a> {
    file: &'a [u8],
    /// Offsets of the trimmed values; a file has at most 8,192 bytes.
    places: [(u16, u16); SLOTS],
    /// Slots whose label has a line, a bit each.
    pub seen: u64,
    /// Slot of the topmost line whose label already stood above it, in the first
    /// layout of the labels and in the second (CB only).
    pub repeats: [Option<usize>; 2],
    pub separators: u32,
    /// Lines after the first separator and before the second, and the first of them.
    pub between: u32,
    pub row: &'a [u8],
}

impl<'a> Lines<'a> {
    /// The trimmed value of a slot; empty if its label has no line.
    pub fn value(&self, slot: usize) -> &'a [u8] {
        let (start, end) = self.place(slot);
        &self.file[start..end]
    }

    /// Where that value lies in the file.
    pub fn place(&self, slot: usize) -> (usize, usize) {
        let (start, end) = self.places[slot];
        (usize::from(start), usize::from(end))
    }

    /// Keeps the value part `part`, which `after` follows in the file, trimmed.
    #[inline]
    fn keep(&mut self, slot: usize, part: &[u8], after: &[u8]) {
        if self.seen & (1 << slot) != 0 {
            self.keep_repeat(slot);
            return;
        }
        let value = skip_blanks(part);
        let start = self.file.len() - after.len() - value.len();
        self.seen |= 1 << slot;
        self.places[slot] = (start as u16, (start + trim_end(value).len()) as u16);
    }

    #[cold]
    fn keep_repeat(&mut self, slot: usize) {
        let of_layout = [slot < MOST_FIELDS, !(2..MOST_FIELDS).contains(&slot)];
        for (repeat, of_layout) in self.repeats.iter_mut().zip(of_layout) {
            if of_layout && repeat.is_none() {
                *repeat = Some(slot);
            }
        }
    }
}

/// Walks the file, of at most 8,192 bytes; refuses 3 at the first byte not allowed.
pub fn walk<'a>(file: &'a [u8], labels: Labels) -> Result<Lines<'a>, Refusal> {
    let mut lines =
        Lines { file, places: [(0, 0); SLOTS], seen: 0, repeats: [None; 2], separators: 0, between: 0, row: &[] };
    // Lines mostly come in printed order: the label after the last one found is
    // tried first, and its bytes need no other look.
    let mut expected = 0;
    let mut rest = file;
    while !rest.is_empty() {
        let inside = lines.separators == 1;
        let known = if inside { None } else { labels.at(expected) };
        if let Some(text) = known.and_then(|label| after_label(rest, label)) {
            let (part, after) = text.split_at(plain_run(text));
            lines.keep(expected, part, after);
            expected += 1;
            rest = next_line(file, after)?;
            continue;
        }
        let (line, after) = rest.split_at(line_run(rest, labels));
        rest = next_line(file, after)?;
        let trimmed = trim(line);
        if is_separator(trimmed) {
            lines.separators += 1;
        } else if inside {
            if lines.between == 0 {
                lines.row = trimmed;
            }
            lines.between += 1;
        } else if let Some(equals) = line.iter().position(|&byte| byte == b'=') {
            let label = trim(&line[..equals]);
            if let Some(slot) = labels.slot(label) {
                lines.keep(slot, &line[equals + 1..], after);
                expected = slot + 1;
            }
        }
    }
    Ok(lines)
}

/// How many bytes of its first line the text starts with before one that is not
/// allowed there or ends the line.
#[inline]
fn line_run(text: &[u8], labels: Labels) -> usize {
    let run = plain_run(text);
    if text.get(run) == Some(&ACCENT) {
        accented_run(text, labels).unwrap_or(run)
    } else {
        run
    }
}

/// The same for a line with an accent, which is allowed where the line has a
/// label of the second spelling, as its whole trimmed part before the first `=`
/// (no label holds a `=`), and there alone. Whatever line it is: separators and
/// the row between them are not known before the whole file's bytes are.
#[cold]
fn accented_run(text: &[u8], labels: Labels) -> Option<usize> {
    let value = labels.accented().find_map(|(label, _)| after_label(text, label))?;
    Some(text.len() - value.len() + plain_run(value))
}

/// If the text starts with a line of this label, what follows its `=`. A label
/// that goes on after this one's letters is another label, so only blanks may
/// stand before the `=`.
#[inline]
fn after_label<'a>(text: &'a [u8], label: &[u8]) -> Option<&'a [u8]> {
    match skip_blanks(skip_blanks(text).strip_prefix(label)?) {
        [b'=', after @ ..] => Some(after),
        _ => None,
    }
}

/// The text past the LF or CR LF that a line ends with; any other byte here is
/// the first that is not allowed.
#[inline]
fn next_line<'a>(file: &[u8], text: &'a [u8]) -> Result<&'a [u8], Refusal> {
    match text {
        [b'\n', rest @ ..] | [b'\r', b'\n', rest @ ..] => Ok(rest),
        [] => Ok(text),
        _ => Err(Refusal::new(3, (file.len() - text.len()) as u32)),
    }
}

/// Of a trimmed line: five or more `+` and nothing else.
fn is_separator(line: &[u8]) -> bool {
    line.len() >= 5 && line.iter().all(|&byte| byte == b'+')
}
