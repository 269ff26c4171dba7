//! The second spellings of request A1: labels with byte E0 for their accented letter, and `VMAX`, `VMIN`. Right ones, and their neighbours.
//! They are put in when a file is made otherwise, since all else here knows a label by its first spelling.

use crate::dice::Dice;
use crate::lines::{body_end, parameter, parameters, Lines};
use crate::samples::Sample;

pub const ACCENT: u8 = 0xe0;

/// The labels with an accent: VQ's, and QR's two.
pub const LABELS: [&[u8]; 3] = [b"Modalit\xe0 funzionamento", b"Quantit\xe0 Riservata (MW)", b"Quantit\xe0 Riservata"];

/// Where the accent stands in each of them.
const PLACE: usize = 7;

/// Labels that are none, each by one step: of VQ's, and of QR's.
#[rustfmt::skip]
const BESIDE_VQ: [&[u8]; 18] = [
    b"Modalit\xe0 di funzionamento", b"modalit\xe0 funzionamento", b"MODALIT\xe0 FUNZIONAMENTO", b"Modalit\xe0  funzionamento",
    b"Modalit\xe0funzionamento", b"Modalit\xe0\xe0 funzionamento", b"Modalita\xe0 funzionamento", b"Modalit\xe0 funzion\xe0mento",
    b"Mod\xe0lita funzionamento", b"Modalit\xe0 funzionament", b"Modalit\xe0 funzionamentoo", b"Modalit\xe0", b"\xe0", b"Regol\xe0zione",
    b"Modalit\xc0 funzionamento", b"Modalit\xe1 funzionamento", b"Modalit\xc3\xa0 funzionamento", b"Modalit\xe0 funzionamento\r",
];
#[rustfmt::skip]
const BESIDE_QR: [&[u8]; 12] = [
    b"Quantit\xe0", b"Quantit\xe0 Riservata(MW)", b"Quantit\xe0 Riservata (MW", b"Quantit\xe0 Riservata (MW) (MW)", b"Quantit\xe0 Riservata (mw)",
    b"Quantit\xe0  Riservata", b"Quantit\xe0 riservata", b"Quantit\xe0 Riservat\xe0", b"Qu\xe0ntita Riservata", b"Quantit\xc0 Riservata (MW)",
    b"Quantit\xc3\xa0 Riservata", b"Quantit\xe0 Riservata\r",
];

/// The labels of a type that have an accent.
pub fn own(code: &str) -> &'static [&'static [u8]] {
    match code {
        "VQ" => &LABELS[..1],
        "QR" => &LABELS[1..],
        _ => &[],
    }
}

/// Whether a file is to have second spellings: one in three of VQ, which has settings too, one in four of QR, one in forty of the others.
pub fn wanted(sample: &Sample, dice: &mut Dice) -> bool {
    dice.once_in(match sample.code {
        "VQ" => 3,
        "QR" => 4,
        _ => 40,
    })
}

pub fn change(lines: &mut Lines, sample: &Sample, dice: &mut Dice) {
    let which = if sample.code == "VQ" { dice.below(3) } else { 0 };
    if which != 0 {
        settings(lines, dice);
    }
    if which != 1 {
        accents(lines, sample.code, dice);
    }
}

fn accents(lines: &mut Lines, code: &str, dice: &mut Dice) {
    if !dice.once_in(6) {
        own_labels(lines, dice);
    }
    match dice.below(24) {
        0..=5 => {}
        6..=8 => moved(lines, dice),
        9..=11 => blanks(lines, dice),
        12 | 13 => row(lines, code, dice),
        14 => value(lines, dice),
        15 => anywhere(lines, dice),
        16 | 17 => other_label(lines, code, dice),
        18..=20 => put_in(spelled(code, dice), lines, dice),
        _ => put_in(placed(neighbour(code, dice), dice), lines, dice),
    }
}

/// The labels of the file that have a second spelling take it: all of them, or one.
fn own_labels(lines: &mut Lines, dice: &mut Dice) {
    let places: Vec<usize> = (0..lines.len()).filter(|&at| first_spelling(&lines[at])).collect();
    if places.is_empty() {
        return;
    }
    let one = dice.once_in(3).then(|| places[dice.below(places.len())]);
    for at in places.into_iter().filter(|&at| one.is_none_or(|one| one == at)) {
        let start = blanks_before(&lines[at]);
        lines[at][start + PLACE] = ACCENT;
    }
}

fn first_spelling(line: &[u8]) -> bool {
    parameter(line).is_some_and(|(name, _)| LABELS.iter().any(|label| plain(label) == name))
}

/// Its first spelling.
pub fn plain(label: &[u8]) -> Vec<u8> {
    label.iter().map(|&byte| if byte == ACCENT { b'a' } else { byte }).collect()
}

fn blanks_before(line: &[u8]) -> usize {
    line.iter().take_while(|&&byte| byte == b' ').count()
}

/// The place of a line with an accent, if there is one.
fn accented(lines: &Lines, dice: &mut Dice) -> Option<usize> {
    let places: Vec<usize> = (0..lines.len()).filter(|&at| lines[at].contains(&ACCENT)).collect();
    (!places.is_empty()).then(|| places[dice.below(places.len())])
}

/// A line with an accent becomes the first or the last.
fn moved(lines: &mut Lines, dice: &mut Dice) {
    if let Some(at) = accented(lines, dice) {
        let line = lines.remove(at);
        at_an_end(line, lines, dice);
    }
}

/// The line is put in as the first or the last, or anywhere.
fn put_in(line: Vec<u8>, lines: &mut Lines, dice: &mut Dice) {
    if dice.once_in(2) {
        at_an_end(line, lines, dice);
    } else {
        lines.insert(dice.below(lines.len() + 1), line);
    }
}

/// With LF, CR LF or, as the last, neither. A CR at the very end is a byte not allowed: that is met now and then, and meant.
fn at_an_end(mut line: Vec<u8>, lines: &mut Lines, dice: &mut Dice) {
    while line.ends_with(b"\r") {
        line.pop();
    }
    if dice.once_in(3) {
        line.push(b'\r');
    }
    if dice.once_in(3) {
        lines.insert(0, line);
        return;
    }
    // the empty line after a last LF goes
    lines.pop_if(|last| last.is_empty());
    lines.push(line);
    if dice.once_in(2) {
        lines.push(Vec::new());
    }
}

/// A line of a label in either spelling, so that labels come twice or in both spellings.
fn spelled(code: &str, dice: &mut Dice) -> Vec<u8> {
    let label = label(code, dice);
    let label = if dice.once_in(4) { plain(label) } else { label.to_vec() };
    placed(&label, dice)
}

/// One of the type's own labels, now and then of any.
fn label(code: &str, dice: &mut Dice) -> &'static [u8] {
    let own = own(code);
    let labels = if own.is_empty() || dice.once_in(4) { &LABELS } else { own };
    dice.pick(labels)
}

/// Of the type's own labels, now and then of the other's.
fn neighbour(code: &str, dice: &mut Dice) -> &'static [u8] {
    if (code == "QR") != dice.once_in(6) {
        dice.pick(&BESIDE_QR)
    } else {
        dice.pick(&BESIDE_VQ)
    }
}

/// Mostly as a label; also without a `=`, and after it.
fn placed(label: &[u8], dice: &mut Dice) -> Vec<u8> {
    let before = &b"   "[..dice.below(4)];
    let gap = &b"              "[..if dice.once_in(3) { 0 } else { dice.below(15) }];
    let value = if dice.once_in(8) {
        dice.pick(&[&b" \xe0"[..], b" Modalit\xe0 funzionamento = 1", b"Quantit\xe0 Riservata"])
    } else {
        dice.pick(&[&b""[..], b"=", b" 1", b" RAT", b" FINO A PMAX"])
    };
    match dice.below(12) {
        0 => [before, label, gap].concat(),
        1 => [before, b"=", gap, label, gap].concat(),
        2 => [b"Campo nuovo = ", label, gap, b"=", value].concat(),
        _ => [before, label, gap, b"=", value].concat(),
    }
}

/// Blanks before the label, inside it, before the `=` or after it; or a CR there.
fn blanks(lines: &mut Lines, dice: &mut Dice) {
    let Some(at) = accented(lines, dice) else { return };
    let line = &mut lines[at];
    let equals = line.iter().position(|&byte| byte == b'=').unwrap_or(line.len());
    let place = match dice.below(5) {
        0 | 1 => 0,
        2 => dice.below(equals + 1),
        3 => equals,
        _ => (equals + 1).min(line.len()),
    };
    let byte = if dice.once_in(4) { b'\r' } else { b' ' };
    line.splice(place..place, vec![byte; dice.from_to(1, 3)]);
}

/// The row: a line with a label of either spelling, or the row with an accent in it.
fn row(lines: &mut Lines, code: &str, dice: &mut Dice) {
    let at = body_end(lines) + 1;
    if at >= lines.len() {
        return;
    }
    lines[at] = match dice.below(4) {
        0 => with_accent(std::mem::take(&mut lines[at]), dice),
        1 => [label(code, dice), b" =", &lines[at][..]].concat(),
        _ => spelled(code, dice),
    };
}

fn with_accent(mut line: Vec<u8>, dice: &mut Dice) -> Vec<u8> {
    let at = dice.below(line.len() + 1);
    if at < line.len() && dice.once_in(2) {
        line[at] = ACCENT;
    } else {
        line.insert(at, ACCENT);
    }
    line
}

/// An accent in a value.
fn value(lines: &mut Lines, dice: &mut Dice) {
    let places = parameters(lines);
    if places.is_empty() {
        return;
    }
    let line = &mut lines[places[dice.below(places.len())]];
    let equals = line.iter().position(|&byte| byte == b'=').expect("a parameter line");
    let value = with_accent(line.split_off(equals + 1), dice);
    line.extend_from_slice(&value);
}

/// An accent in any line, be it banner, separator or empty, or as a line of its own.
fn anywhere(lines: &mut Lines, dice: &mut Dice) {
    let at = dice.below(lines.len());
    if dice.once_in(3) {
        lines.insert(at, vec![ACCENT; dice.from_to(1, 2)]);
    } else {
        lines[at] = with_accent(std::mem::take(&mut lines[at]), dice);
    }
}

/// A parameter line's label becomes one of the neighbours, or one of any type.
fn other_label(lines: &mut Lines, code: &str, dice: &mut Dice) {
    let places = parameters(lines);
    if places.is_empty() {
        return;
    }
    let line = &mut lines[places[dice.below(places.len())]];
    let equals = line.iter().position(|&byte| byte == b'=').expect("a parameter line");
    let label = if dice.once_in(3) { dice.pick(&LABELS) } else { neighbour(code, dice) };
    line.splice(..equals, label.iter().copied());
}

/// The other spelling of a setting, in body and row alike, or in one of the two.
fn settings(lines: &mut Lines, dice: &mut Dice) {
    let end = body_end(lines);
    let which = dice.below(4);
    if which != 0 {
        lines.iter_mut().take(end).for_each(other_setting);
    }
    if which != 1 {
        lines.iter_mut().skip(end).for_each(other_setting);
    }
}

/// `V MAX` becomes `VMAX`, and the other way round; so too `V MIN`.
fn other_setting(line: &mut Vec<u8>) {
    let find = |line: &[u8], words: [&[u8]; 2]| {
        (0..line.len()).find(|&at| words.iter().any(|&word| line[at..].starts_with(word)))
    };
    if let Some(at) = find(line, [b"V MAX", b"V MIN"]) {
        line.remove(at + 1);
    } else if let Some(at) = find(line, [b"VMAX", b"VMIN"]) {
        line.insert(at + 1, b' ');
    }
}
