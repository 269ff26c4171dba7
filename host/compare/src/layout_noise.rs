//! Changes that leave the record as it is: blanks, line ends, the order of the lines, lines that the layout does not know.

use crate::dice::Dice;
use crate::lines::{body_end, is_separator, parameters, Lines};

pub fn change(lines: &mut Lines, dice: &mut Dice) {
    match dice.below(9) {
        0 => blanks_about_a_line(lines, dice),
        1 => blanks_about_an_equals(lines, dice),
        2 => carriage_return(lines, dice),
        3 => lines.iter_mut().rev().skip(1).for_each(|line| line.push(b'\r')),
        4 => two_parameters_change_places(lines, dice),
        5 => parameters_in_any_order(lines, dice),
        6 => foreign_line(lines, dice),
        7 => longer_separator(lines, dice),
        _ => line_end_at_the_end(lines, dice),
    }
}

fn some(lines: &Lines, dice: &mut Dice) -> usize {
    dice.below(lines.len())
}

fn spaces(dice: &mut Dice) -> Vec<u8> {
    vec![b' '; dice.from_to(1, 3)]
}

/// Before it, or at its end but before its CR.
fn blanks_about_a_line(lines: &mut Lines, dice: &mut Dice) {
    let at = some(lines, dice);
    let line = &mut lines[at];
    let end = line.len() - usize::from(line.ends_with(b"\r"));
    let place = if dice.once_in(2) { 0 } else { end };
    line.splice(place..place, spaces(dice));
}

fn blanks_about_an_equals(lines: &mut Lines, dice: &mut Dice) {
    let places = parameters(lines);
    if places.is_empty() {
        return;
    }
    let line = &mut lines[places[dice.below(places.len())]];
    let equals = line.iter().position(|&byte| byte == b'=').expect("a parameter line") + dice.below(2);
    line.splice(equals..equals, spaces(dice));
}

/// A second CR on a line is a byte not allowed: that is met now and then, and meant.
fn carriage_return(lines: &mut Lines, dice: &mut Dice) {
    let at = some(lines, dice);
    lines[at].push(b'\r');
}

fn two_parameters_change_places(lines: &mut Lines, dice: &mut Dice) {
    let places = parameters(lines);
    if !places.is_empty() {
        lines.swap(places[dice.below(places.len())], places[dice.below(places.len())]);
    }
}

fn parameters_in_any_order(lines: &mut Lines, dice: &mut Dice) {
    let places = parameters(lines);
    for last in 1..places.len() {
        lines.swap(places[last], places[dice.below(last + 1)]);
    }
}

fn foreign_line(lines: &mut Lines, dice: &mut Dice) {
    let texts = ["", "Nuova riga", "Campo nuovo = 7", "= 3", "++++", "Note aggiuntive =", "-----", "Quantita = 1 = 2"];
    let at = dice.below(body_end(lines) + 1);
    lines.insert(at, dice.pick(&texts).into());
}

fn longer_separator(lines: &mut Lines, dice: &mut Dice) {
    if let Some(line) = lines.iter_mut().find(|line| is_separator(line)) {
        line.splice(0..0, vec![b'+'; dice.from_to(1, 70)]);
    }
}

fn line_end_at_the_end(lines: &mut Lines, dice: &mut Dice) {
    if dice.once_in(2) || lines.len() == 1 {
        lines.push(Vec::new());
    } else {
        lines.pop();
    }
}
