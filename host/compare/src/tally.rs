//! How often each answer was given, so that a run which met only the easy ones is seen.

use crate::input::Input;
use crate::lines::split;
use crate::profiles;
use crate::samples::{Sample, SAMPLES};
use crate::spellings::ACCENT;

const NUMBERS: [u32; 12] = [13, 1, 2, 3, 4, 5, 6, 7, 8, 9, 10, 11];
const RULES: [u32; 9] = [1, 2, 3, 4, 5, 6, 7, 8, 9];

/// What files with an accent, with a short setting and with a short h line must have been answered: 0 is a length.
const ACCENTED: [u32; 5] = [0, 3, 5, 7, 10];
const SHORT: [u32; 3] = [0, 7, 10];
const PROFILED: [u32; 4] = [0, 7, 8, 10];

/// From so many inputs on, every answer must have been met; rules 2 and 4 come once in some hundreds of inputs.
const ENOUGH: u64 = 5_000;
const ENOUGH_FOR_RULES: u64 = 50_000;

#[derive(Default)]
pub struct Tally {
    accepted: [u64; SAMPLES.len()],
    refused: [u64; 32],
    rules: [u64; 16],
    /// of files that hold byte E0, of those that hold `VMAX` or `VMIN`, and of those with an h line of one to three numbers
    accented: [u64; 32],
    short: [u64; 32],
    profiled: [u64; 32],
}

impl Tally {
    pub fn add(&mut self, input: &Input, answer: u32) {
        let (number, detail) = (answer >> 16, answer & 0xffff);
        if input.file.contains(&ACCENT) {
            self.accented[number as usize % 32] += 1;
        }
        if input.file.windows(4).any(|word| [b"VMAX", b"VMIN"].iter().any(|short| word == *short)) {
            self.short[number as usize % 32] += 1;
        }
        if profiles::counts(&split(&input.file)).into_iter().any(profiles::is_short) {
            self.profiled[number as usize % 32] += 1;
        }
        match number {
            0 => self.accepted[place(input.sample)] += 1,
            _ => self.refused[number as usize % 32] += 1,
        }
        if number == 8 {
            self.rules[detail as usize % 16] += 1;
        }
    }

    pub fn print(&self) {
        let layouts: Vec<String> =
            SAMPLES.iter().zip(self.accepted).map(|(sample, count)| format!("{}: {count}", sample.name)).collect();
        println!("accepted: {}; refused {}", self.accepted.iter().sum::<u64>(), counted(&NUMBERS, &self.refused));
        println!("accepted by sample: {}", layouts.join(", "));
        println!("refusals 8 by rule: {}", counted(&RULES, &self.rules));
        println!("of files with an accent (0 is accepted): {}", counted(&ACCENTED, &self.accented));
        println!("of files with a short setting: {}", counted(&SHORT, &self.short));
        println!("of files with a short h line: {}", counted(&PROFILED, &self.profiled));
    }

    /// What so many inputs should have met and did not: each refusal and each layout accepted, and in a long run each rule.
    pub fn missing(&self, inputs: u64) -> Vec<String> {
        let mut missing = Vec::new();
        if inputs >= ENOUGH {
            missing.extend(never(&NUMBERS, &self.refused).map(|number| format!("refusal {number}")));
            let layouts = SAMPLES.iter().zip(self.accepted).filter(|(_, count)| *count == 0);
            missing.extend(layouts.map(|(sample, _)| format!("acceptance of {}", sample.name)));
            missing.extend(never(&ACCENTED, &self.accented).map(|number| format!("{number} with an accent")));
            missing.extend(never(&SHORT, &self.short).map(|number| format!("{number} with a short setting")));
            missing.extend(never(&PROFILED, &self.profiled).map(|number| format!("{number} with a short h line")));
        }
        if inputs >= ENOUGH_FOR_RULES {
            missing.extend(never(&RULES, &self.rules).map(|rule| format!("rule {rule}")));
        }
        missing
    }
}

fn never<'a>(numbers: &'a [u32], counts: &'a [u64]) -> impl Iterator<Item = &'a u32> {
    numbers.iter().filter(|&&number| counts[number as usize] == 0)
}

fn counted(numbers: &[u32], counts: &[u64]) -> String {
    let each: Vec<String> = numbers.iter().map(|&number| format!("{number}: {}", counts[number as usize])).collect();
    each.join(", ")
}

fn place(sample: &Sample) -> usize {
    SAMPLES.iter().position(|other| other.name == sample.name).expect("one of the ten")
}

/// That the inputs meet every answer, by the reference alone.
#[cfg(test)]
mod tests {
    use super::*;
    use crate::check::check;
    use crate::input::input;
    use halimpung_reference::{normalise_entry, read_entry};

    #[test]
    fn inputs_meet_every_answer() {
        for (seed, count) in [(1, ENOUGH), (7, ENOUGH), (2, ENOUGH_FOR_RULES)] {
            let mut tally = Tally::default();
            for number in 0..count {
                let input = input(seed, number);
                for entry in [read_entry, normalise_entry] {
                    tally.add(&input, check(entry, entry, &input).unwrap_or_else(|_| panic!("one entry differs")));
                }
            }
            tally.print();
            assert_eq!(tally.missing(count), Vec::<String>::new());
        }
    }
}
