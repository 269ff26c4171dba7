//! That the inputs have what request A1 speaks of, each often enough to matter: a file's traits in words, counted over many inputs.

use crate::input::input;
use crate::lines::{is_separator, parameter, split, Lines};
use crate::spellings::{own, plain, ACCENT, LABELS};
use std::collections::BTreeMap;

const SETTINGS: [&str; 4] = ["Impostazione Sart/Report", "Impostazione RAT", "Variazione", "Potenza reattiva"];

/// A file as its lines, without the empty one after a last LF.
struct File {
    lines: Lines,
    ended: bool,
    row: Option<usize>,
    code: &'static str,
}

fn file(text: &[u8], code: &'static str) -> File {
    let mut lines = split(text);
    let ended = lines.pop_if(|last| last.is_empty()).is_some();
    let separators: Vec<usize> = (0..lines.len()).filter(|&at| is_separator(&lines[at])).collect();
    let row = match separators[..] {
        [one, two] if two == one + 2 => Some(one + 1),
        _ => None,
    };
    File { lines, ended, row, code }
}

/// The parts before and after a line's first `=`, as they stand.
fn parts(line: &[u8]) -> Option<(&[u8], &[u8])> {
    let equals = line.iter().position(|&byte| byte == b'=')?;
    Some((&line[..equals], &line[equals + 1..]))
}

/// Blanks go, a CR stays.
fn trimmed(text: &[u8]) -> &[u8] {
    let start = text.iter().take_while(|&&byte| byte == b' ').count();
    let end = text.iter().rposition(|&byte| byte != b' ').map_or(start, |last| last + 1);
    &text[start..end]
}

fn labelled(line: &[u8], name: &[u8]) -> bool {
    parts(line).is_some_and(|(label, _)| trimmed(label) == name)
}

impl File {
    fn is_own(&self, line: &[u8]) -> bool {
        own(self.code).iter().any(|label| labelled(line, label))
    }

    fn traits(&self) -> Vec<String> {
        let mut traits = self.ends();
        traits.extend(own(self.code).iter().filter_map(|label| self.spellings(label)));
        for (at, line) in self.lines.iter().enumerate().filter(|(_, line)| line.contains(&ACCENT)) {
            let place = if Some(at) == self.row { "row" } else { "line" };
            traits.push(format!("{place}: {}", self.accented(line)));
        }
        if let (Some(row), "VQ") = (self.row, self.code) {
            self.lines.iter().for_each(|line| traits.extend(settings(line, &self.lines[row])));
        }
        traits
    }

    /// First and last line, and how they end.
    fn ends(&self) -> Vec<String> {
        let end = |line: &[u8], ended| match (line.ends_with(b"\r"), ended) {
            (false, false) => "nothing",
            (false, true) => "LF",
            (true, false) => "CR",
            (true, true) => "CR LF",
        };
        let ends = [("first", self.lines.first(), true), ("last", self.lines.last(), self.ended)];
        let ends = ends.into_iter().filter_map(|(which, line, ended)| Some((which, line?, ended)));
        let own = ends.filter(|(_, line, _)| self.is_own(line));
        own.map(|(which, line, ended)| format!("own label {which}, then {}", end(line, ended))).collect()
    }

    /// How often a label stands in its two spellings.
    fn spellings(&self, label: &[u8]) -> Option<String> {
        let count = |name: &[u8]| self.lines.iter().filter(|line| labelled(line, name)).count();
        match (count(&plain(label)), count(label)) {
            (0, 1) => Some("own label accented".into()),
            (_, 2..) => Some("own label accented twice".into()),
            (1.., 1) => Some("own label in both spellings".into()),
            _ => None,
        }
    }

    /// Where the accents of a line are.
    fn accented(&self, line: &[u8]) -> &'static str {
        let Some((label, value)) = parts(line) else {
            return if line.iter().all(|&byte| byte == ACCENT) { "accents alone" } else { "no =" };
        };
        match trimmed(label) {
            name if !name.contains(&ACCENT) => "after the =",
            name if own(self.code).contains(&name) && value.contains(&ACCENT) => "own label, and after the =",
            name if own(self.code).contains(&name) => match (label.starts_with(b" "), label.ends_with(b" ")) {
                (false, false) => "own label",
                (true, false) => "blanks, own label",
                (false, true) => "own label, blanks",
                (true, true) => "blanks, own label, blanks",
            },
            name if LABELS.contains(&name) && own(self.code).is_empty() => "label of VQ or QR in another type",
            name if LABELS.contains(&name) => "label of QR in VQ, or of VQ in QR",
            name if name.ends_with(b"\r") => "CR before the =",
            _ => "no label",
        }
    }
}

/// Of a parameter line: a setting, and how the row spells it.
fn settings(line: &[u8], row: &[u8]) -> Vec<String> {
    let Some((label, value)) = parameter(line) else { return Vec::new() };
    let Some(setting) = SETTINGS.iter().find(|setting| setting.as_bytes() == label) else { return Vec::new() };
    let has = |words: [&[u8]; 2]| words.iter().any(|&word| row.windows(word.len()).any(|part| part == word));
    let [short, long] = [[b"VMAX", b"VMIN"].map(|word| &word[..]), [b"V MAX", b"V MIN"].map(|word| &word[..])];
    if short.contains(&value) {
        vec![format!("short {setting}"), format!("short, row {}", if has(short) { "too" } else { "not" })]
    } else if long.contains(&value) && has(short) && !has(long) {
        vec!["long, row short".into()]
    } else {
        Vec::new()
    }
}

/// What comes least often in 20,000 inputs, at about a third of what was counted.
#[rustfmt::skip]
const LEAST: [(&str, u32); 31] = [
    ("own label accented", 250), ("own label accented twice", 25), ("own label in both spellings", 15),
    ("own label first, then LF", 8), ("own label first, then CR LF", 5), ("own label last, then nothing", 8),
    ("own label last, then LF", 8), ("own label last, then CR LF", 5), ("own label last, then CR", 5),
    ("line: own label", 3), ("line: own label, blanks", 250), ("line: blanks, own label", 5), ("line: blanks, own label, blanks", 20),
    ("line: own label, and after the =", 4), ("line: after the =", 40), ("line: no =", 25), ("line: accents alone", 6), ("line: no label", 30),
    ("line: label of QR in VQ, or of VQ in QR", 7), ("line: label of VQ or QR in another type", 15), ("line: CR before the =", 2),
    ("row: own label, blanks", 5), ("row: blanks, own label, blanks", 1), ("row: no =", 10), ("row: after the =", 2),
    ("short Impostazione Sart/Report", 30), ("short Impostazione RAT", 70), ("short Variazione", 15), ("short Potenza reattiva", 6),
    ("short, row not", 30), ("long, row short", 20),
];

#[test]
fn inputs_have_accents_and_short_settings() {
    let mut counts: BTreeMap<String, u32> = BTreeMap::new();
    for number in 0..20_000 {
        let input = input(3, number);
        for found in file(&input.file, input.sample.code).traits() {
            *counts.entry(found).or_default() += 1;
        }
    }
    println!("{counts:#?}");
    for (found, least) in LEAST {
        let count = counts.get(found).copied().unwrap_or(0);
        assert!(count >= least, "{found}: {count} in 20,000 inputs");
    }
}
