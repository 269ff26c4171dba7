//! The h lines of a market command. By request A5 the first filled one of h1 to h6 may have one to four numbers, and each below it has four:
//! such profiles, their neighbours, and what a file has.

use crate::body;
use crate::dice::Dice;
use crate::kinds::numbers;
use crate::lines::{body_end, Lines};
use crate::samples::Sample;
use std::cmp::Ordering;

#[rustfmt::skip]
pub const LABELS: [&str; 6] = [
    "Profilo normalizzato di rampa h1", "Profilo normalizzato di rampa h2", "Profilo normalizzato di rampa h3",
    "Profilo normalizzato di rampa h4", "Profilo normalizzato di rampa h5", "Profilo normalizzato di rampa h6",
];

/// The layout that has them.
pub const LAYOUT: &str = "CB market";

/// Whether a file is to have another profile: one in two of that layout.
pub fn wanted(sample: &Sample, dice: &mut Dice) -> bool {
    sample.name == LAYOUT && dice.once_in(2)
}

/// A right profile, filled from any line down; then, every second time, one or two of its lines become odd.
pub fn change(lines: &mut Lines, dice: &mut Dice) {
    let first = dice.below(LABELS.len() + 1);
    for (place, label) in LABELS.iter().enumerate() {
        let count = match place.cmp(&first) {
            Ordering::Less => 0,
            Ordering::Equal => dice.from_to(1, 4),
            Ordering::Greater => 4,
        };
        body::set(lines, label, numbers(count, ";", dice).as_bytes());
    }
    let odd = if dice.once_in(2) { 0 } else { dice.from_to(1, 2) };
    for _ in 0..odd {
        body::set(lines, dice.pick(&LABELS), odd_line(dice).as_bytes());
    }
}

/// Blank, short, too long, or with an empty part.
fn odd_line(dice: &mut Dice) -> String {
    match dice.below(6) {
        0 | 1 => String::new(),
        2 | 3 => numbers(dice.from_to(1, 3), ";", dice),
        4 => numbers(dice.from_to(5, 6), ";", dice),
        _ => dice.pick(&[";", "1;", ";1", "1;2;3;", "1; ;3", "1;2;3;4;"]).into(),
    }
}

/// The row with a `;` more or less, as though a line had another count.
pub fn miscount_row(lines: &mut Lines, dice: &mut Dice) {
    let at = body_end(lines) + 1;
    let Some(row) = lines.get_mut(at) else { return };
    let places: Vec<usize> = (0..row.len()).filter(|&at| row[at] == b';').collect();
    if places.is_empty() {
        return;
    }
    let at = places[dice.below(places.len())];
    if dice.once_in(2) {
        row.insert(at, b';');
    } else {
        row.remove(at);
    }
}

/// How many parts each h line of a file has, h1 first, be they numbers or not; none where it is blank or missing.
pub fn counts(lines: &Lines) -> [usize; 6] {
    LABELS.map(|label| match &body::get(lines, label)[..] {
        [] => 0,
        value => value.split(|&byte| byte == b';').count(),
    })
}

/// Filled, with fewer than four.
pub fn is_short(count: usize) -> bool {
    (1..4).contains(&count)
}
