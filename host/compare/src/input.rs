//! One input of both entries, made from the run's seed and its number.

use crate::dice::Dice;
use crate::lines::{join, split, Lines};
use crate::plans::{self, Plan};
use crate::samples::{Sample, SAMPLES};
use crate::{body, damage, layout_noise, profiles, random, spellings, together, values};

pub struct Input {
    pub sample: &'static Sample,
    pub ca: u32,
    pub ioa: u32,
    pub plan: Vec<u8>,
    pub file: Vec<u8>,
    pub room: Room,
}

/// The size of the output, where it may depend on the length that is needed.
#[derive(Clone, Copy)]
pub enum Room {
    Exact,
    OneLess,
    Of(usize),
}

/// The largest room tried: enough for every written form.
pub const MOST_ROOM: usize = 8_192;

pub fn input(seed: u64, number: u64) -> Input {
    let mut dice = Dice::new(seed, number);
    let sample = &SAMPLES[dice.below(SAMPLES.len())];
    let file = if spellings::wanted(sample, &mut dice) {
        spelled(sample, &mut dice)
    } else if profiles::wanted(sample, &mut dice) {
        profiled(sample, &mut dice)
    } else {
        file(sample, &mut dice)
    };
    let Plan { ca, ioa, text: plan } =
        if dice.once_in(6) { plans::changed(sample, &mut dice) } else { plans::good(sample, &mut dice) };
    Input { sample, ca, ioa, plan, file, room: room(&mut dice) }
}

fn room(dice: &mut Dice) -> Room {
    match dice.below(10) {
        0 => Room::Of(0),
        1 | 2 => Room::Exact,
        3 => Room::OneLess,
        4 => Room::Of(dice.below(120)),
        5 => Room::Of(dice.below(MOST_ROOM + 1)),
        6 => Room::Of(89),
        _ => Room::Of(MOST_ROOM),
    }
}

fn file(sample: &Sample, dice: &mut Dice) -> Vec<u8> {
    let mut lines = split(sample.file.as_bytes());
    match dice.below(24) {
        0 => {}
        1 => return random::text(dice),
        2 => return random::long(&changed(lines, sample, dice), dice),
        3 if dice.once_in(4) => return Vec::new(),
        4..=7 => times(dice.from_to(1, 6), || layout_noise::change(&mut lines, dice)),
        8..=12 => times(dice.from_to(1, 4), || damage::change(&mut lines, dice)),
        _ => return changed(lines, sample, dice),
    }
    join(&lines)
}

/// A file with second spellings: often else a good one, so that they alone decide.
fn spelled(sample: &Sample, dice: &mut Dice) -> Vec<u8> {
    let mut lines = split(sample.file.as_bytes());
    if dice.once_in(3) {
        lines = split(&file(sample, dice));
    } else if dice.once_in(2) {
        together::change(&mut lines, sample, dice);
        body::mend_row(&mut lines, sample);
    }
    times(dice.below(3), || layout_noise::change(&mut lines, dice));
    spellings::change(&mut lines, sample, dice);
    join(&lines)
}

/// A file with another profile: often else a good one, so that the h lines alone decide.
fn profiled(sample: &Sample, dice: &mut Dice) -> Vec<u8> {
    let mut lines = split(sample.file.as_bytes());
    if dice.once_in(3) {
        lines = split(&file(sample, dice));
    } else if dice.once_in(3) {
        together::change(&mut lines, sample, dice);
    }
    profiles::change(&mut lines, dice);
    body::mend_row(&mut lines, sample);
    if dice.once_in(4) {
        profiles::miscount_row(&mut lines, dice);
    }
    times(dice.below(3), || layout_noise::change(&mut lines, dice));
    join(&lines)
}

fn times(count: usize, mut step: impl FnMut()) {
    (0..count).for_each(|_| step());
}

/// Other values, mostly with a row that fits, and the lines then disturbed a little.
fn changed(mut lines: Lines, sample: &Sample, dice: &mut Dice) -> Vec<u8> {
    match dice.below(3) {
        0 => times(dice.from_to(1, 3), || values::change(&mut lines, sample, dice)),
        1 => times(dice.from_to(1, 2), || together::change(&mut lines, sample, dice)),
        _ => {
            together::change(&mut lines, sample, dice);
            values::change(&mut lines, sample, dice);
        }
    }
    if dice.once_in(10) {
        values::swap(&mut lines, sample, dice);
    }
    if !dice.once_in(8) {
        body::mend_row(&mut lines, sample);
    }
    times(dice.below(3), || layout_noise::change(&mut lines, dice));
    if dice.once_in(10) {
        damage::change(&mut lines, dice);
    }
    join(&lines)
}
