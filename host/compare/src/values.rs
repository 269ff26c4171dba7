//! Values for a label: mostly of the kind that it asks for, on both sides of the lines that document 01 draws.

use crate::body;
use crate::dice::Dice;
use crate::kinds::*;
use crate::lines::Lines;
use crate::samples::{Sample, SAMPLES};
use crate::words::word;

/// Gives one label of the layout another value.
pub fn change(lines: &mut Lines, sample: &Sample, dice: &mut Dice) {
    let labels: Vec<&str> = sample.labels().collect();
    let label = dice.pick(&labels);
    let value = value_for(label, sample.code, dice);
    body::set(lines, label, value.as_bytes());
}

/// Two labels of the layout exchange their values.
pub fn swap(lines: &mut Lines, sample: &Sample, dice: &mut Dice) {
    let labels: Vec<&str> = sample.labels().collect();
    let (one, other) = (dice.pick(&labels), dice.pick(&labels));
    let (first, second) = (body::get(lines, one), body::get(lines, other));
    body::set(lines, one, &second);
    body::set(lines, other, &first);
}

fn value_for(label: &str, code: &str, dice: &mut Dice) -> String {
    match dice.below(12) {
        0 => String::new(),
        1 => any(code, dice),
        2 => damaged(of_kind(label, code, dice), dice),
        _ => of_kind(label, code, dice),
    }
}

fn any(code: &str, dice: &mut Dice) -> String {
    let sample = &SAMPLES[dice.below(SAMPLES.len())];
    let labels: Vec<&str> = sample.labels().collect();
    of_kind(dice.pick(&labels), code, dice)
}

/// One byte of it changed, put in or taken out.
fn damaged(value: String, dice: &mut Dice) -> String {
    let mut bytes: Vec<char> = value.chars().collect();
    let at = dice.below(bytes.len() + 1);
    let byte = dice.pick(&[&' ', &';', &',', &'.', &'-', &'0', &'9', &'A', &'a', &'S', &'=', &'+', &'_', &'/', &':']);
    match dice.below(3) {
        0 if at < bytes.len() => drop(bytes.remove(at)),
        1 if at < bytes.len() => bytes[at] = *byte,
        _ => bytes.insert(at, *byte),
    }
    bytes.into_iter().collect()
}

/// A text of the kind that the label asks for, not always one that may stand there.
pub fn of_kind(label: &str, code: &str, dice: &mut Dice) -> String {
    match label {
        "Identificatore messaggio" => identifier(code, dice),
        "Nome UPA/UCA" => unit(dice),
        "Sequenza Comando" => sequence(dice),
        "Motivazione" => text(128, dice),
        "Note" => text(256, dice),
        "Semibande" => list(2, ";", dice),
        "Gradienti (Pmin,Pmax,Grad)" => gradients(dice),
        "Impostazione Sart/Report" | "Impostazione RAT" | "Variazione" | "Potenza reattiva" => setting(dice),
        _ if label.starts_with("Data Ora") || label.starts_with("Data Creazione") => date(dice),
        _ if label.starts_with("Profilo") => list(4, ";", dice),
        _ if is_number(label) => number(dice),
        _ => word(label, dice),
    }
}

fn is_number(label: &str) -> bool {
    ["Variazione potenza", "PV(", "Tempo", "Prifbil", "Limite"].iter().any(|start| label.starts_with(start))
        || label == "Quantita Riservata (MW)"
}
