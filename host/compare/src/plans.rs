//! Plans: good ones of 1 to 64 rows, one of which is for the sample, and damaged ones.

use crate::damage;
use crate::dice::Dice;
use crate::lines::{join, split};
use crate::samples::{row, Sample, CODES, UNIT};

/// A plan, and the address that is asked.
pub struct Plan {
    pub ca: u32,
    pub ioa: u32,
    pub text: Vec<u8>,
}

pub fn good(sample: &Sample, dice: &mut Dice) -> Plan {
    plan(sample.code, UNIT, dice)
}

/// One whose row gives another type or unit, whose address is not the one asked, or whose text is damaged.
pub fn changed(sample: &Sample, dice: &mut Dice) -> Plan {
    match dice.below(5) {
        0 => plan(dice.pick(&CODES), UNIT, dice),
        1 => plan(sample.code, dice.pick(&OTHER_UNITS), dice),
        2 => other_address(good(sample, dice), dice),
        _ => damaged(good(sample, dice), dice),
    }
}

const OTHER_UNITS: [&str; 6] = ["UP_PROVA_2", "up_prova_1", "U", "UP_PROVA_1X", "UP_PROVA_", "ABCDEFGHIJKLMNOP"];

fn plan(code: &str, unit: &str, dice: &mut Dice) -> Plan {
    let rows = match dice.below(6) {
        0 => dice.from_to(60, 64),
        1 => dice.from_to(2, 5),
        _ => 1,
    };
    let asked = dice.below(rows);
    let (ca, base) = first_address(dice);
    let mut text = String::new();
    for k in 0..rows {
        let mine = k == asked;
        let (unit, code) = if mine { (unit, code) } else { ("ALTRA_1", dice.pick(&CODES)) };
        text.push_str(&row(ca, base - k as u32, unit, code));
    }
    Plan { ca, ioa: base - asked as u32, text: text.into_bytes() }
}

/// The IOA is the greatest of the plan's: the rows below it count down.
fn first_address(dice: &mut Dice) -> (u32, u32) {
    let ca = [7, 1, 65_534, 30_000][dice.below(4)];
    let ioa = [300, 64, 16_777_215, 70_000][dice.below(4)];
    (ca, ioa)
}

/// Near misses, and numbers that would be the plan's if their upper bits were lost.
fn other_address(mut plan: Plan, dice: &mut Dice) -> Plan {
    match dice.below(6) {
        0 => plan.ca += 1,
        1 => plan.ioa += 64,
        2 => std::mem::swap(&mut plan.ca, &mut plan.ioa),
        3 => plan.ca += 65_536,
        4 => plan.ioa += 16_777_216,
        _ => plan.ca = 0,
    }
    plan
}

fn damaged(mut plan: Plan, dice: &mut Dice) -> Plan {
    plan.text = match dice.below(6) {
        0 => with_bad_line(plan.text, dice),
        1 => with_lines_changed(plan.text, dice),
        2 => too_many_rows(plan.text, dice),
        3 => {
            let row = row(plan.ca, plan.ioa, UNIT, dice.pick(&CODES));
            [plan.text, row.into_bytes()].concat()
        }
        4 => {
            plan.text.truncate(dice.below(plan.text.len() + 1));
            plan.text
        }
        _ => damage::bytes(plan.text, dice),
    };
    plan
}

#[rustfmt::skip]
const BAD_LINES: [&str; 25] = [
    "ca=0", "ca=65535", "ca=007", "ca=4294967303", "ca=18446744073709551623", "ca=", "ca= 7", "ca=7 ", "ca=+7", "CA=7", "ca=7\r",
    "ioa=0", "ioa=16777216", "ioa=0300", "ioa=4294967596", "ioa=-1", "ioa=3x",
    "unit=", "unit=ABCDEFGHIJKLMNOPQ", "unit=A-B", "unit=A B",
    "type=cb", "type=XX", "type=CBX", "",
];

fn with_bad_line(text: Vec<u8>, dice: &mut Dice) -> Vec<u8> {
    let mut lines = split(&text);
    let bad = dice.pick(&BAD_LINES);
    let key = bad.split('=').next().unwrap_or("").to_ascii_lowercase();
    let places: Vec<usize> = (0..lines.len()).filter(|&at| lines[at].starts_with(key.as_bytes())).collect();
    lines[places[dice.below(places.len())]] = bad.into();
    join(&lines)
}

/// A line dropped, doubled, or moved to another place.
fn with_lines_changed(text: Vec<u8>, dice: &mut Dice) -> Vec<u8> {
    let mut lines = split(&text);
    let (at, to) = (dice.below(lines.len()), dice.below(lines.len()));
    let line = lines[at].clone();
    match dice.below(3) {
        0 => drop(lines.remove(at)),
        1 => lines.insert(to, line),
        _ => lines.swap(at, to),
    }
    join(&lines)
}

fn too_many_rows(mut text: Vec<u8>, dice: &mut Dice) -> Vec<u8> {
    let rows = dice.from_to(63, 66) as u32;
    (0..rows).for_each(|k| text.extend_from_slice(row(500, 1 + k, UNIT, "MG").as_bytes()));
    text
}
