//! That the inputs have what request A5 speaks of, each often enough to matter: what is odd about a file's h lines, with the reference's
//! answer before it, counted over many inputs.

use crate::input::{input, Input};
use crate::lines::{parameter, split, Lines};
use crate::profiles::{counts, is_short, LABELS};
use halimpung_reference::{read, Refusal};
use std::collections::BTreeMap;

fn traits(lines: &Lines) -> Vec<String> {
    let counts = counts(lines);
    let Some(first) = counts.iter().position(|&count| count > 0) else { return Vec::new() };
    let below = &counts[first + 1..];
    let short_below = below.iter().copied().any(is_short);
    let odd = [
        ("short below the first", short_below),
        ("a hole", below.contains(&0)),
        ("short below the first, and a hole", short_below && below.contains(&0)),
        ("five numbers", counts.contains(&5)),
        ("more than five numbers", counts.iter().any(|&count| count > 5)),
        ("an empty part", has_an_empty_part(lines)),
        ("short first, below another", is_short(counts[first]) && stands_below_another(lines, first)),
    ];
    let mut traits: Vec<String> = odd.iter().filter(|(_, met)| *met).map(|(words, _)| words.to_string()).collect();
    traits.push(format!("h{} first", first + 1));
    traits.push(format!("{} in the first", counts[first]));
    traits
}

/// The h lines as they come in the file, label and value.
fn h_lines(lines: &Lines) -> impl Iterator<Item = (&[u8], &[u8])> {
    let h_lines = lines.iter().filter_map(|line| parameter(line));
    h_lines.filter(|(label, _)| LABELS.iter().any(|known| known.as_bytes() == *label))
}

fn has_an_empty_part(lines: &Lines) -> bool {
    let empty = |value: &[u8]| {
        value.contains(&b';') && value.split(|&byte| byte == b';').any(|part| part.trim_ascii().is_empty())
    };
    h_lines(lines).any(|(_, value)| empty(value))
}

/// Whether a filled h line stands above the one that is first by its number.
fn stands_below_another(lines: &Lines, first: usize) -> bool {
    let topmost = h_lines(lines).find(|(_, value)| !value.is_empty());
    topmost.is_some_and(|(label, _)| label != LABELS[first].as_bytes())
}

fn answered(input: &Input) -> String {
    match read(input.ca, input.ioa, &input.plan, &input.file) {
        Ok(_) => "taken".into(),
        Err(Refusal { number: 8, detail }) => format!("8/{detail}"),
        Err(Refusal { number, .. }) => number.to_string(),
    }
}

/// What comes least often in 20,000 inputs, at about a third of what was counted.
#[rustfmt::skip]
const LEAST: [(&str, u32); 24] = [
    ("taken: 1 in the first", 17), ("taken: 2 in the first", 20), ("taken: 3 in the first", 17), ("taken: 4 in the first", 120),
    ("taken: h1 first", 12), ("taken: h2 first", 10), ("taken: h3 first", 10), ("taken: h4 first", 14), ("taken: h5 first", 110),
    ("taken: h6 first", 14), ("taken: short first, below another", 6), ("7: five numbers", 20), ("7: more than five numbers", 15),
    ("7: an empty part", 30), ("7: short below the first", 30), ("7: a hole", 35), ("8/2: short below the first", 2),
    ("8/3: short below the first", 25), ("8/3: a hole", 38), ("8/3: short below the first, and a hole", 12),
    ("8/3: short first, below another", 3), ("10: 1 in the first", 3), ("10: 2 in the first", 8), ("10: 3 in the first", 5),
];

#[test]
fn inputs_have_short_profiles() {
    let mut met: BTreeMap<String, u32> = BTreeMap::new();
    for number in 0..20_000 {
        let input = input(3, number);
        let answer = answered(&input);
        for found in traits(&split(&input.file)) {
            *met.entry(format!("{answer}: {found}")).or_default() += 1;
        }
    }
    println!("{met:#?}");
    for (found, least) in LEAST {
        let count = met.get(found).copied().unwrap_or(0);
        assert!(count >= least, "{found}: {count} in 20,000 inputs");
    }
}
