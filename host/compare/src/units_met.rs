//! What became of units, in words, and how often, so that a run which met only the easy ones is seen.

use halimpung_reference::{Collector, Heard};
use std::collections::BTreeMap;

/// From so many inputs on, each must have been met.
const ENOUGH: u64 = 5_000;

const WORDS: [&str; 16] = [
    "taken",
    "whole",
    "whole of 8,192",
    "44 of no layout",
    "44 of another address",
    "40 in no transfer",
    "40 between sections",
    "40 in a section",
    "40 for a 256th section",
    "41 at last segment",
    "41 at last section",
    "42 at last segment",
    "42 at last section",
    "43 at file ready",
    "43 at section ready",
    "43 at a segment",
];

/// Where a collector stands.
#[derive(Clone, Copy)]
pub enum Turn {
    Fresh,
    /// so many sections have ended
    Between(u8),
    Within,
}

pub fn turn(collector: &Collector) -> Turn {
    match &collector.transfer {
        None => Turn::Fresh,
        Some(transfer) if transfer.open.is_some() => Turn::Within,
        Some(transfer) => Turn::Between(transfer.ended),
    }
}

/// One of the words above, of a unit at a turn.
pub fn word(turn: Turn, unit: &[u8], heard: &Heard) -> &'static str {
    let refusal = match heard {
        Heard::More => return "taken",
        Heard::Whole { octets, .. } if octets.len() == 8_192 => return "whole of 8,192",
        Heard::Whole { .. } => return "whole",
        Heard::Refused(refusal) => refusal,
    };
    match (refusal.number, unit.first(), turn) {
        (44, ..) if Collector::default().take(unit) == *heard => "44 of no layout",
        (44, ..) => "44 of another address",
        (40, Some(121), Turn::Between(255)) => "40 for a 256th section",
        (40, _, Turn::Fresh) => "40 in no transfer",
        (40, _, Turn::Between(_)) => "40 between sections",
        (40, ..) => "40 in a section",
        (41, _, Turn::Within) => "41 at last segment",
        (41, ..) => "41 at last section",
        (42, _, Turn::Within) => "42 at last segment",
        (42, ..) => "42 at last section",
        (43, Some(120), _) => "43 at file ready",
        (43, Some(121), _) => "43 at section ready",
        (43, ..) => "43 at a segment",
        (number, ..) => unreachable!("the reference refuses no unit with {number}"),
    }
}

#[derive(Default)]
pub struct UnitsTally {
    counts: BTreeMap<&'static str, u64>,
}

impl UnitsTally {
    pub fn add(&mut self, words: &[&'static str]) {
        words.iter().for_each(|word| *self.counts.entry(word).or_default() += 1);
    }

    pub fn print(&self) {
        let each: Vec<String> = WORDS.iter().map(|word| format!("{word}: {}", self.count(word))).collect();
        let (taken, refused) = each.split_at(3);
        println!("units {}; refused {}", taken.join(", "), refused.join(", "));
    }

    /// What the transfers of so many inputs should have met and did not.
    pub fn missing(&self, inputs: u64) -> Vec<String> {
        let never = WORDS.iter().filter(|word| inputs >= ENOUGH && self.count(word) == 0);
        never.map(|word| format!("a unit {word}")).collect()
    }

    fn count(&self, word: &str) -> u64 {
        self.counts.get(word).copied().unwrap_or(0)
    }
}
