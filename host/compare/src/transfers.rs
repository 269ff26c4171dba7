//! Runs of units, made from the run's seed and a number: whole transfers, one after the other or of two addresses at the same time, and
//! damaged ones.

use crate::dice::Dice;
use crate::samples::SAMPLES;
use crate::units::{self, Address, Units};

pub fn run(seed: u64, number: u64) -> Units {
    // the input of the same number has the dice of that number
    let mut dice = Dice::new(seed, u64::MAX - number);
    let dice = &mut dice;
    let mut units = match dice.below(100) {
        0 => many_sections(dice),
        1..=4 => long(dice),
        5..=14 => good(dice),
        15..=19 => [good(dice), good(dice)].concat(),
        20..=31 => interleaved(good(dice), good(dice), dice),
        _ => damaged(good(dice), dice),
    };
    // what came before has left no trace
    if dice.once_in(2) {
        units.extend(short(dice));
    }
    units
}

fn good(dice: &mut Dice) -> Units {
    if dice.once_in(6) {
        of_file(SAMPLES[dice.below(SAMPLES.len())].file.as_bytes(), [17, 64, 230, 255], dice)
    } else {
        short(dice)
    }
}

fn short(dice: &mut Dice) -> Units {
    let file = any_octets(dice.from_to(1, 12), dice);
    of_file(&file, [1, 2, 5, 255], dice)
}

/// The most that a file may have, or about that; of one that is longer, mostly no more than the most is announced.
fn long(dice: &mut Dice) -> Units {
    let length = [8_191, 8_192, 8_192, 8_193, 8_193, 8_196][dice.below(6)];
    let mut units = of_file(&any_octets(length, dice), [100, 128, 254, 255], dice);
    if !dice.once_in(4) {
        let announced = units::octets(length.min(8_192));
        units[0][11..14].copy_from_slice(&announced);
    }
    units
}

/// As many sections as have names, or one more.
fn many_sections(dice: &mut Dice) -> Units {
    let file = any_octets(if dice.once_in(3) { 255 } else { 256 }, dice);
    units::transfer(address(dice), &file.chunks(1).collect::<Vec<_>>(), 1)
}

/// Mostly in one to three sections; more than 8,192 octets are announced by no section.
fn of_file(file: &[u8], sizes: [usize; 4], dice: &mut Dice) -> Units {
    let mut cuts: Vec<usize> = (0..dice.below(4)).map(|_| dice.from_to(1, file.len())).collect();
    cuts.extend([0, file.len()]);
    cuts.extend((file.len() > 8_192).then_some(5_000));
    cuts.sort_unstable();
    cuts.dedup();
    let sections: Vec<&[u8]> = cuts.windows(2).map(|ends| &file[ends[0]..ends[1]]).collect();
    units::transfer(address(dice), &sections, sizes[dice.below(4)])
}

fn any_octets(length: usize, dice: &mut Dice) -> Vec<u8> {
    (0..length).map(|_| dice.below(256) as u8).collect()
}

/// Two of them differ in one octet, in either address.
fn address(dice: &mut Dice) -> Address {
    let addresses = [[7, 0, 45, 1, 0], [7, 0, 44, 1, 0], [7, 0, 45, 1, 1], [7, 1, 45, 1, 0], [0; 5], [255; 5]];
    let [ca0, ca1, ioa0, ioa1, ioa2] = addresses[dice.below(6)];
    [dice.below(3) as u8, ca0, ca1, ioa0, ioa1, ioa2]
}

/// Both in their own order, which is mixed.
fn interleaved(one: Units, other: Units, dice: &mut Dice) -> Units {
    let (mut one, mut other) = (one.into_iter().peekable(), other.into_iter().peekable());
    let mut units = Units::new();
    while one.peek().is_some() || other.peek().is_some() {
        let side = if dice.once_in(3) { &mut other } else { &mut one };
        units.extend((0..dice.from_to(1, 6)).map_while(|_| side.next()));
    }
    units
}

fn damaged(mut units: Units, dice: &mut Dice) -> Units {
    for _ in 0..dice.from_to(1, 2) {
        damage(&mut units, dice);
    }
    units
}

fn damage(units: &mut Units, dice: &mut Dice) {
    let (at, to) = (dice.below(units.len()), dice.below(units.len()));
    match dice.below(18) {
        0 | 1 => octet_changed(&mut units[at], dice),
        2 => remove_octet(&mut units[at], dice),
        3 => add_octet(&mut units[at], dice),
        4 | 5 if units.len() > 1 => drop(units.remove(at)),
        6 => units.insert(to, units[at].clone()),
        7 => units.insert(at, units[at].clone()),
        8 => units.swap(at, to),
        9 | 10 => announced(units, dice),
        11 => section_name(units, dice),
        12 | 13 => qualifier(units, dice),
        14 => checksum(units, dice),
        15 => units.insert(at, foreign(dice)),
        16 => zero_segment(units, dice),
        _ => units.truncate(at + 1),
    }
}

/// Any octet, or one of the eleven that all units begin with; to any value, or by one bit.
fn octet_changed(unit: &mut [u8], dice: &mut Dice) {
    let most = if dice.once_in(2) { unit.len() } else { unit.len().min(11) };
    if most > 0 {
        let octet = &mut unit[dice.below(most)];
        *octet = if dice.once_in(2) { dice.below(256) as u8 } else { *octet ^ 1 << dice.below(8) };
    }
}

fn remove_octet(unit: &mut Vec<u8>, dice: &mut Dice) {
    if !unit.is_empty() {
        unit.remove(dice.below(unit.len()));
    }
}

fn add_octet(unit: &mut Vec<u8>, dice: &mut Dice) {
    let at = dice.below(unit.len() + 1);
    unit.insert(at, dice.below(256) as u8);
}

/// One of the units of a type.
fn some<'a>(units: &'a mut Units, kind: u8, dice: &mut Dice) -> Option<&'a mut Vec<u8>> {
    let mut all: Vec<&mut Vec<u8>> = units.iter_mut().filter(|unit| unit.first() == Some(&kind)).collect();
    (!all.is_empty()).then(|| all.swap_remove(dice.below(all.len())))
}

/// Another length of the file or of a section: one off, none, or about the most.
fn announced(units: &mut Units, dice: &mut Dice) {
    let (kind, place) = if dice.once_in(2) { (120, 11) } else { (121, 12) };
    let Some(length) = some(units, kind, dice).and_then(|unit| unit.get_mut(place..place + 3)) else { return };
    let old = usize::from(length[0]) | usize::from(length[1]) << 8 | usize::from(length[2]) << 16;
    let new = match dice.below(8) {
        0 => 0,
        1 => 8_192,
        2 => 8_193,
        3 => old + 65_536,
        4 => old ^ 256,
        5 => old.saturating_sub(1),
        _ => old + 1,
    };
    length.copy_from_slice(&units::octets(new));
}

fn section_name(units: &mut Units, dice: &mut Dice) {
    let kind = [121, 123, 123, 125][dice.below(4)];
    let other = dice.below(4) as u8;
    if let Some(name) = some(units, kind, dice).and_then(|unit| unit.get_mut(11)) {
        *name = other;
    }
}

/// The qualifier of any unit that has one.
fn qualifier(units: &mut Units, dice: &mut Dice) {
    let (kind, place) = [(120, 14), (121, 15), (123, 12), (123, 12)][dice.below(4)];
    let other = [0, 1, 2, 3, 4, 5, 0x80, 0x83][dice.below(8)];
    if let Some(octet) = some(units, kind, dice).and_then(|unit| unit.get_mut(place)) {
        *octet = other;
    }
}

/// Of a section or of the file.
fn checksum(units: &mut Units, dice: &mut Dice) {
    let more = dice.from_to(1, 255) as u8;
    if let Some(octet) = some(units, 123, dice).and_then(|unit| unit.get_mut(13)) {
        *octet = octet.wrapping_add(more);
    }
}

/// No unit at all, one of another type, or octets of any number.
fn foreign(dice: &mut Dice) -> Vec<u8> {
    match dice.below(3) {
        0 => Vec::new(),
        1 => [&[*dice.pick(&[&122, &124, &126, &45, &1]), 1, 13, 0, 7, 0, 45, 1, 0, 1, 0][..], &[1; 3]].concat(),
        _ => any_octets(dice.below(300), dice),
    }
}

/// An octet of 0 more before a last segment: checksums stay right, and lengths do not.
fn zero_segment(units: &mut Units, dice: &mut Dice) {
    let places: Vec<usize> = (1..units.len()).filter(|&at| units[at - 1].first() == Some(&125)).collect();
    if places.is_empty() {
        return;
    }
    let at = places[dice.below(places.len())];
    if let Some(head) = units[at - 1].get(..12) {
        units.insert(at, [head, &[1, 0]].concat());
    }
}
