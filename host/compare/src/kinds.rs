//! The kinds of value: numbers, dates, lists, texts and the rest, on both sides of the lines that document 01 draws.

use crate::dice::Dice;
use crate::samples::{CODES, UNIT};

pub fn setting(dice: &mut Dice) -> String {
    let words =
        ["V MAX", "V MIN", "Q=0", "MAX SOVRAECCITAZIONE", "MAX SOTTOECCITAZIONE", "VMAX", "VMIN", "V  MIN", "Vmax"];
    if dice.once_in(2) {
        number(dice)
    } else {
        dice.pick(&words).to_string()
    }
}

fn digits(count: usize, dice: &mut Dice) -> String {
    (0..count).map(|_| char::from(b'0' + dice.below(10) as u8)).collect()
}

pub fn identifier(code: &str, dice: &mut Dice) -> String {
    let code = if dice.once_in(10) { dice.pick(&CODES) } else { code };
    let count = if dice.once_in(10) { dice.from_to(8, 12) } else { 10 };
    let number = match dice.below(6) {
        0 => "9".repeat(count),
        1 => "0".repeat(count),
        _ => digits(count, dice),
    };
    format!("{code}-{number}")
}

pub fn unit(dice: &mut Dice) -> String {
    match dice.below(6) {
        0 => "A".repeat(dice.from_to(15, 18)),
        1 => "UP_PROVA_2".into(),
        2 => "up_prova_1".into(),
        3 => "UP-PROVA".into(),
        _ => UNIT.into(),
    }
}

pub fn sequence(dice: &mut Dice) -> String {
    match dice.below(6) {
        0 => "0".into(),
        1 => digits(dice.from_to(1, 3), dice),
        2 => "9".repeat(dice.from_to(9, 11)),
        _ => format!("{}{}", dice.from_to(1, 9), digits(dice.from_to(0, 10), dice)),
    }
}

#[rustfmt::skip]
const NUMBERS: [&str; 16] = [
    "-0", "0", "000000", "999999.999", "-999999.999", "1000000", "+3", ".5", "5.", "1.2345", "--1", "-", "0.0", "-0.000", "007.50", "1,5",
];

pub fn number(dice: &mut Dice) -> String {
    if dice.once_in(5) {
        return dice.pick(&NUMBERS).into();
    }
    let sign = if dice.once_in(4) { "-" } else { "" };
    let whole = digits(if dice.once_in(2) { dice.from_to(1, 3) } else { dice.from_to(1, 6) }, dice);
    match dice.below(3) {
        0 => format!("{sign}{whole}"),
        1 => format!("{sign}{whole}.{}", digits(dice.from_to(1, 3), dice)),
        _ => format!("{whole}.5"),
    }
}

/// A number of no surprises, so that lists of many are taken now and then.
fn plain(dice: &mut Dice) -> String {
    if dice.once_in(20) {
        number(dice)
    } else {
        format!("{}.{}", dice.below(400), digits(dice.from_to(1, 3), dice))
    }
}

fn gap(dice: &mut Dice) -> &'static str {
    if dice.once_in(12) {
        " "
    } else {
        ""
    }
}

pub fn list(count: usize, between: &str, dice: &mut Dice) -> String {
    let count = if dice.once_in(12) { dice.from_to(1, count + 1) } else { count };
    numbers(count, between, dice)
}

/// A list of just so many.
pub fn numbers(count: usize, between: &str, dice: &mut Dice) -> String {
    let parts: Vec<String> = (0..count).map(|_| format!("{}{}{}", gap(dice), plain(dice), gap(dice))).collect();
    parts.join(between)
}

pub fn gradients(dice: &mut Dice) -> String {
    let count = if dice.once_in(4) { dice.from_to(15, 17) } else { dice.from_to(1, 5) };
    let triples: Vec<String> = (0..count).map(|_| triple(dice)).collect();
    triples.join(";")
}

/// Mostly Pmin <= Pmax and a gradient above 0.
fn triple(dice: &mut Dice) -> String {
    let (low, more, rise) = (dice.below(400), dice.below(50), dice.from_to(1, 9));
    let (before, after) = (gap(dice), gap(dice));
    match dice.below(40) {
        0 => list(3, ",", dice),
        1 => format!("{},{low},{rise}", low + more),
        2 => format!("{low},{},{}", low + more, dice.pick(&["0", "-0", "0.000", "-1", "0.001"])),
        _ => format!("{before}{low},{}{after}{before},{rise}.25", low + more),
    }
}

pub fn date(dice: &mut Dice) -> String {
    if dice.once_in(2) {
        near_date(dice)
    } else {
        far_date(dice)
    }
}

/// On the samples' day, or in the night in which the clocks go back: the order of two of them is on either side.
fn near_date(dice: &mut Dice) -> String {
    let day = dice.pick(&["15-01-2025", "15-01-2025", "26-10-2025"]);
    let hour = dice.pick(&["01", "02", "02", "03", "09", "10", "10"]);
    let clock = dice.pick(&["S", "S", "L"]);
    format!("{day} {hour}:{:02}:00 {clock}", 15 * dice.below(4))
}

/// Any date, often one that is none.
fn far_date(dice: &mut Dice) -> String {
    let day = dice.pick(&["15", "15", "15", "14", "16", "28", "29", "30", "31", "01", "00", "32", "1"]);
    let month = dice.pick(&["01", "01", "01", "01", "02", "03", "04", "10", "12", "00", "13"]);
    let year = dice.pick(&["2025", "2025", "2025", "2025", "2024", "2023", "2001", "2099", "2000", "2100", "2096"]);
    let time = match dice.below(4) {
        0 => "10:00:00".into(),
        1 => dice.pick(&["00:00:00", "23:59:59", "24:00:00", "09:60:00", "09:00:60"]).to_string(),
        _ => format!("{:02}:{:02}:{:02}", dice.below(24), dice.below(60), dice.below(60)),
    };
    let clock = dice.pick(&["S", "S", "S", "L", "L", "s", "X"]);
    format!("{day}-{month}-{year} {time} {clock}")
}

/// A text of any length, often just the most or one more.
pub fn text(most: usize, dice: &mut Dice) -> String {
    const BYTES: &[u8] = b"abcdefghijklmnopqrstuvwxyzABCXYZ0189 ;=+-.,:_/()";
    let length = match dice.below(5) {
        0 => 0,
        1 => most,
        2 => most + 1,
        3 => dice.below(20),
        _ => dice.below(most),
    };
    (0..length).map(|_| char::from(BYTES[dice.below(BYTES.len())])).collect()
}
