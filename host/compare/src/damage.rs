//! Changes that mostly spoil a file: of bytes, of lines, of separators, labels and the summary row.

use crate::dice::Dice;
use crate::lines::{body_end, is_separator, join, parameters, split, Lines};
use crate::samples::SAMPLES;

pub fn change(lines: &mut Lines, dice: &mut Dice) {
    match dice.below(12) {
        0 | 1 => *lines = split(&bytes(join(lines), dice)),
        2 => line_doubled(lines, dice),
        3 => line_dropped(lines, dice),
        4 => line_moved(lines, dice),
        5 | 6 => separator(lines, dice),
        7 | 8 => label(lines, dice),
        9 | 10 => row(lines, dice),
        _ => cut(lines, dice),
    }
}

/// One byte changed, put in or taken out.
pub fn bytes(mut text: Vec<u8>, dice: &mut Dice) -> Vec<u8> {
    const BYTES: &[u8] = b" =;,+-.0123456789LS\n\r\t\x00\x1f\x7f\x80\xe0\xff~!_AIa";
    let at = dice.below(text.len() + 1);
    let byte = BYTES[dice.below(BYTES.len())];
    match dice.below(3) {
        0 if at < text.len() => drop(text.remove(at)),
        1 if at < text.len() => text[at] = byte,
        _ => text.insert(at, byte),
    }
    text
}

fn some(lines: &Lines, dice: &mut Dice) -> usize {
    dice.below(lines.len())
}

fn line_doubled(lines: &mut Lines, dice: &mut Dice) {
    let line = lines[some(lines, dice)].clone();
    let at = dice.below(lines.len() + 1);
    lines.insert(at, line);
}

/// The last line stays, so that there is one.
fn line_dropped(lines: &mut Lines, dice: &mut Dice) {
    if lines.len() > 1 {
        lines.remove(some(lines, dice));
    }
}

fn line_moved(lines: &mut Lines, dice: &mut Dice) {
    let line = lines.remove(some(lines, dice));
    let at = dice.below(lines.len() + 1);
    lines.insert(at, line);
}

fn separator(lines: &mut Lines, dice: &mut Dice) {
    let places: Vec<usize> = (0..lines.len()).filter(|&at| is_separator(&lines[at])).collect();
    if places.is_empty() {
        return;
    }
    let at = places[dice.below(places.len())];
    match dice.below(5) {
        0 => drop(lines[at].pop()),
        1 => lines[at].push(*dice.pick(&[&b'-', &b'=', &b'x'])),
        2 => lines[at].insert(2, b' '),
        3 => lines.insert(at, b"+++++".to_vec()),
        _ => drop(lines.remove(at)),
    }
}

/// Of a parameter line: a letter of its label changed, more after it, or a label of any layout in its place.
fn label(lines: &mut Lines, dice: &mut Dice) {
    let places = parameters(lines);
    if places.is_empty() {
        return;
    }
    let line = &mut lines[places[dice.below(places.len())]];
    let equals = line.iter().position(|&byte| byte == b'=').expect("a parameter line");
    match dice.below(4) {
        0 => drop(line.splice(..equals, any_label(dice).bytes())),
        1 => drop(line.splice(equals..equals, *b"(MW)")),
        2 => line.insert(dice.below(equals + 1), b' '),
        _ if equals > 0 => line[dice.below(equals)] ^= 0x20,
        _ => line.clear(),
    }
}

fn any_label(dice: &mut Dice) -> &'static str {
    let labels: Vec<&str> = SAMPLES[dice.below(SAMPLES.len())].labels().collect();
    dice.pick(&labels)
}

/// The line after the first separator: a byte changed, two values exchanged, one dropped, or more blanks.
fn row(lines: &mut Lines, dice: &mut Dice) {
    let at = body_end(lines) + 1;
    if at >= lines.len() {
        return;
    }
    let mut values: Vec<Vec<u8>> = lines[at].split(|&byte| byte == b';').map(<[u8]>::to_vec).collect();
    let (one, other) = (dice.below(values.len()), dice.below(values.len()));
    match dice.below(5) {
        0 => values.swap(one, other),
        1 => values.insert(one, Vec::new()),
        2 => values[one].push(b' '),
        3 if values.len() > 1 => drop(values.remove(one)),
        _ => values[one] = bytes(std::mem::take(&mut values[one]), dice),
    }
    lines[at] = values.join(&b';');
}

/// The end is cut off, or another file is glued to it.
fn cut(lines: &mut Lines, dice: &mut Dice) {
    let mut text = join(lines);
    if dice.once_in(2) {
        text.truncate(dice.below(text.len() + 1));
    } else {
        text.extend_from_slice(SAMPLES[dice.below(SAMPLES.len())].file.as_bytes());
    }
    *lines = split(&text);
}
