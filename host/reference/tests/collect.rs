//! Request A2 of document 02, files from their segments, by the numbers of the readings in docs/UNITS.md.

mod common;

use common::*;
use halimpung_reference::Heard::{self, More};
use halimpung_reference::{read, Collector, Refusal};

/// A unit for address 7, 300 and file 1.
fn unit(kind: u8, own: &[u8]) -> Vec<u8> {
    [&[kind, 1, 13, 0, 7, 0, 0x2c, 1, 0, 1, 0], own].concat()
}

fn file_ready(length: u32) -> Vec<u8> {
    unit(120, &[&length.to_le_bytes()[..3], &[0]].concat())
}

fn section_ready(name: u8, length: u32) -> Vec<u8> {
    unit(121, &[&[name], &length.to_le_bytes()[..3], &[0]].concat())
}

fn segment(name: u8, octets: &[u8]) -> Vec<u8> {
    unit(125, &[&[name, octets.len() as u8], octets].concat())
}

fn last_segment(name: u8, checksum: u8) -> Vec<u8> {
    unit(123, &[name, 3, checksum])
}

fn last_section(name: u8, checksum: u8) -> Vec<u8> {
    unit(123, &[name, 1, checksum])
}

fn sum(octets: &[u8]) -> u8 {
    octets.iter().fold(0, |sum: u8, octet| sum.wrapping_add(*octet))
}

/// A whole section, in segments of at most so many octets.
fn section(name: u8, octets: &[u8], most: usize) -> Vec<Vec<u8>> {
    let segments = octets.chunks(most).map(|part| segment(name, part));
    let ready = section_ready(name, octets.len() as u32);
    [ready].into_iter().chain(segments).chain([last_segment(name, sum(octets))]).collect()
}

/// A whole transfer, its sections as given.
fn transfer(sections: &[&[u8]], most: usize) -> Vec<Vec<u8>> {
    let file = sections.concat();
    let inner = (1..).zip(sections).flat_map(|(name, octets)| section(name, octets, most));
    let last = last_section(sections.len() as u8, sum(&file));
    [file_ready(file.len() as u32)].into_iter().chain(inner).chain([last]).collect()
}

fn heard(units: &[Vec<u8>]) -> Vec<Heard> {
    let mut collector = Collector::default();
    units.iter().map(|unit| collector.take(unit)).collect()
}

fn no(number: u32) -> Heard {
    Heard::Refused(Refusal::plain(number))
}

fn whole(octets: &[u8]) -> Heard {
    Heard::Whole { ca: 7, ioa: 300, octets: octets.to_vec() }
}

/// The last answer, where all before it were taken.
fn last_of(units: &[Vec<u8>]) -> Heard {
    let mut all = heard(units);
    let last = all.pop().expect("a unit");
    assert!(all.iter().all(|answer| *answer == More), "{all:?}");
    last
}

const FILE: &[u8] = b"AB\xff\x80Z";

/// Its first two octets in section 1 as two segments, the others in section 2.
fn good() -> Vec<Vec<u8>> {
    let mut units = transfer(&[&FILE[..2], &FILE[2..]], 255);
    units.splice(2..3, [segment(1, b"A"), segment(1, b"B")]);
    units
}

#[test]
fn a_file_in_two_sections() {
    assert_eq!(last_of(&good()), whole(FILE));
    // the collector is fresh after it, so the next one is taken too
    let both = heard(&[good(), good()].concat());
    assert_eq!(both[..9], both[9..]);
}

#[test]
fn the_collected_bytes_go_to_the_reader_unchanged() {
    for (code, file) in SAMPLES {
        let (one, two) = file.as_bytes().split_at(file.len() / 3);
        let Heard::Whole { ca, ioa, octets } = last_of(&transfer(&[one, two], 77)) else { panic!("{code}: not whole") };
        assert_eq!(octets, file.as_bytes());
        let plan = plan(code);
        assert_eq!(
            read(ca, ioa, plan.as_bytes(), &octets).unwrap(),
            read(7, 300, plan.as_bytes(), file.as_bytes()).unwrap()
        );
    }
}

/// Octets 1 to 11, every other value: 44, but for the originator and, in file ready, the addresses. (A unit with
/// another of the four types may be of that type's layout.)
#[test]
fn layouts_the_octets_of_all_units() {
    for at in 0..good().len() {
        for place in (0..11).filter(|&place| place != 3 && (at > 0 || !(4..9).contains(&place))) {
            let good = good();
            let types = if place == 0 { &[120, 121, 123, 125][..] } else { &good[at][place..=place] };
            for other in (0..=255).filter(|other| !types.contains(other)) {
                let mut units = good[..=at].to_vec();
                units[at][place] = other;
                assert_eq!(last_of(&units), no(44), "unit {at}, octet {}: {other}", place + 1);
            }
        }
    }
}

#[test]
fn layouts_the_octets_in_all() {
    assert_eq!(heard(&[vec![]]), [no(44)]);
    for at in 0..good().len() {
        let changed = |change: fn(&mut Vec<u8>)| {
            let mut units = good()[..=at].to_vec();
            change(&mut units[at]);
            last_of(&units)
        };
        assert_eq!(changed(|unit| unit.truncate(unit.len() - 1)), no(44), "unit {at}");
        assert_eq!(changed(|unit| unit.push(0)), no(44), "unit {at}");
        assert_eq!(changed(|unit| unit.truncate(11)), no(44), "unit {at}");
        assert_eq!(changed(|unit| unit.truncate(10)), no(44), "unit {at}");
    }
}

#[test]
fn layouts_qualifiers() {
    for other in 1..=255 {
        assert_eq!(heard(&[unit(120, &[5, 0, 0, other])]), [no(44)]);
        assert_eq!(heard(&[file_ready(5), unit(121, &[1, 2, 0, 0, other])]), [More, no(44)]);
    }
    // 2 and 4 are with deactivation
    for other in (0..=255).filter(|other| ![1, 3].contains(other)) {
        let mut units = good()[..5].to_vec();
        units[4][12] = other;
        assert_eq!(last_of(&units), no(44), "{other}");
    }
}

#[test]
fn layouts_the_length_of_a_segment() {
    let after = |unit| last_of(&[file_ready(255), section_ready(1, 255), unit]);
    assert_eq!(after(segment(1, b"")), no(44));
    assert_eq!(after(segment(1, &[0x20; 255])), More);
    // 256 octets, of which the length says 0
    assert_eq!(after(segment(1, &[0x20; 256])), no(44));
    assert_eq!(after(unit(125, &[1, 2, 0x20])), no(44));
    assert_eq!(after(unit(125, &[1, 1, 0x20, 0x20])), no(44));
}

/// Each unit of the good transfer after so many of its units: 0 is taken, 5 the length of the whole file.
#[rustfmt::skip]
const TURNS: [[u32; 9]; 9] = [
    [0, 40, 40, 40, 40, 40, 40, 40, 40],
    [40, 0, 40, 40, 40, 40, 40, 40, 40],
    [40, 40, 0, 0, 40, 40, 40, 40, 40],
    // the section's last segment has the checksum of two octets
    [40, 40, 0, 0, 41, 40, 40, 40, 40],
    [40, 40, 0, 0, 0, 40, 40, 40, 40],
    [40, 40, 40, 40, 40, 0, 40, 40, 40],
    [40, 40, 40, 40, 40, 40, 0, 40, 40],
    [40, 40, 40, 40, 40, 40, 0, 0, 40],
    [40, 40, 40, 40, 40, 40, 40, 40, 5],
];

fn number(answer: Heard) -> u32 {
    match answer {
        More => 0,
        Heard::Whole { octets, .. } => octets.len() as u32,
        Heard::Refused(refusal) => refusal.number,
    }
}

#[test]
fn turns() {
    for (before, expected) in TURNS.iter().enumerate() {
        let after = |unit| number(last_of(&[&good()[..before], &[unit]].concat()));
        assert_eq!(good().into_iter().map(after).collect::<Vec<u32>>(), expected, "after {before} units");
    }
}

/// "Each unit after a section ready names the section in turn", and last section "the section just ended".
#[test]
fn turns_names_of_sections() {
    for at in [1, 2, 4, 5, 6, 7, 8] {
        for other in (0..=255).filter(|&other| other != good()[at][11]) {
            let mut units = good()[..=at].to_vec();
            units[at][11] = other;
            assert_eq!(last_of(&units), no(40), "unit {at}: section {other}");
        }
    }
    // a file without a section
    assert_eq!(heard(&[file_ready(0), last_section(0, 0)]), [More, no(40)]);
    // after the first of two sections: the file is shorter than announced
    assert_eq!(last_of(&[&good()[..5], &[last_section(1, sum(b"AB"))]].concat()), no(42));
}

#[test]
fn any_refusal_drops_the_transfer() {
    let bad = [
        (44, 3, vec![]),
        (40, 3, last_section(1, 0)),
        (41, 3, last_segment(1, 0)),
        (42, 3, last_segment(1, sum(b"A"))),
        (43, 1, section_ready(1, 8_193)),
    ];
    for (number, before, unit) in bad {
        let answers = heard(&[&good()[..before], &[unit], &good()[before..], &good()].concat());
        assert_eq!(answers[before], no(number));
        assert!(answers[before + 1..10].iter().all(|answer| *answer == no(40)), "{answers:?}");
        assert_eq!(answers.last(), Some(&whole(FILE)));
    }
}

#[test]
fn checksums_wrap_at_256() {
    for octets in [&[255, 1][..], &[128; 2], &[255; 255], &[1; 256], &[0]] {
        assert_eq!(last_of(&transfer(&[octets], 255)), whole(octets));
    }
    let before = [file_ready(2), section_ready(1, 2), segment(1, &[255, 1])];
    let with = |checksum| last_of(&[&before[..], &[last_segment(1, checksum)]].concat());
    assert_eq!((with(0), with(1), with(255)), (More, no(41), no(41)));
}

#[test]
fn announced_lengths() {
    let after = [segment(1, b"AB"), last_segment(1, sum(b"AB"))];
    let section = |announced| last_of(&[&[file_ready(2), section_ready(1, announced)], &after[..]].concat());
    assert_eq!([0, 1, 2, 3, 258, 8_192].map(section), [no(42), no(42), More, no(42), no(42), no(42)]);
    let file = |announced| {
        let mut units = good();
        units[0] = file_ready(announced);
        last_of(&units)
    };
    assert_eq!([0, 4, 6, 261, 8_192].map(file), [no(42), no(42), no(42), no(42), no(42)]);
    assert_eq!(file(5), whole(FILE));
}

#[test]
fn no_more_than_8192() {
    let most = vec![b'x'; 8_192];
    for size in [255, 64, 1] {
        assert_eq!(last_of(&transfer(&[&most], size)), whole(&most));
    }
    assert_eq!(last_of(&transfer(&[&most[..5_000], &most[5_000..]], 255)), whole(&most));
    // announced
    assert_eq!(heard(&[file_ready(8_192), section_ready(1, 8_192)]), [More, More]);
    for length in [8_193, 8_448, 65_536, 0xff_ffff] {
        assert_eq!(heard(&[file_ready(length)]), [no(43)]);
        assert_eq!(heard(&[file_ready(5), section_ready(1, length)]), [More, no(43)]);
    }
    // collected: one octet too many, in the first section and in the second
    let full = transfer(&[&most], 255);
    let full = &full[..full.len() - 2];
    assert_eq!(last_of(&[full, &[segment(1, b"x")]].concat()), no(43));
    let ended = [full, &[last_segment(1, sum(&most)), section_ready(2, 1)]].concat();
    assert_eq!(last_of(&[&ended[..], &[segment(2, b"x")]].concat()), no(43));
}

#[test]
fn reading_17_there_is_no_256th_section() {
    let octets = [b'x'; 255];
    let sections: Vec<&[u8]> = octets.chunks(1).collect();
    let units = transfer(&sections, 1);
    assert_eq!(last_of(&units), whole(&octets));
    let before = &units[..units.len() - 1];
    for name in [0, 1, 255] {
        assert_eq!(last_of(&[before, &[section_ready(name, 1)]].concat()), no(40), "{name}");
    }
}

#[test]
fn reading_18_a_file_ready_in_a_transfer_starts_nothing() {
    let again = [file_ready(5), file_ready(5), section_ready(1, 5)];
    assert_eq!(heard(&again), [More, no(40), no(40)]);
    let mut other = again.clone();
    other[1][4] = 8;
    assert_eq!(heard(&other), [More, no(44), no(40)]);
    // the section ready is the other transfer's: it is fresh, too
    other[2][4] = 8;
    assert_eq!(heard(&other), [More, no(44), no(40)]);
}

#[test]
fn reading_19_announced_length_0_is_taken_and_cannot_be_met() {
    let none = [file_ready(0), section_ready(1, 0)];
    assert_eq!(heard(&none), [More, More]);
    assert_eq!(last_of(&[&none[..], &[last_segment(1, 0)]].concat()), no(40));
    assert_eq!(last_of(&[&none[..], &[segment(1, b"A"), last_segment(1, b'A')]].concat()), no(42));
    let file = [file_ready(0), section_ready(1, 1), segment(1, b"A"), last_segment(1, b'A'), last_section(1, b'A')];
    assert_eq!(last_of(&file), no(42));
}

#[test]
fn reading_20_a_segment_past_the_announced_length_is_taken() {
    let past = [file_ready(1), section_ready(1, 1), segment(1, b"A"), segment(1, b"B"), segment(1, b"C")];
    assert_eq!(heard(&past), [More, More, More, More, More]);
    assert_eq!(last_of(&[&past[..], &[last_segment(1, sum(b"ABC"))]].concat()), no(42));
    // announced lengths of sections are not summed: these are 8,193
    let one = [file_ready(8_192), section_ready(1, 1), segment(1, b"A"), last_segment(1, b'A')];
    assert_eq!(last_of(&[&one[..], &[section_ready(2, 8_192), segment(2, b"B")]].concat()), More);
}

#[test]
fn reading_21_in_that_order() {
    assert_eq!(heard(&[file_ready(5), file_ready(9_000)]), [More, no(40)]);
    let mut file_2 = file_ready(9_000);
    file_2[9] = 2;
    assert_eq!(heard(&[file_ready(5), file_2]), [More, no(44)]);
    assert_eq!(heard(&[file_ready(5), section_ready(2, 9_000)]), [More, no(40)]);
    let before = [file_ready(5), section_ready(1, 2), segment(1, b"A")];
    assert_eq!(last_of(&[&before[..], &[last_segment(1, 0)]].concat()), no(41));
    assert_eq!(last_of(&[&before[..], &[last_segment(2, 0)]].concat()), no(40));
}

#[test]
fn reading_22_any_originator_and_any_address() {
    for (ca, ioa) in [([0, 0], [0, 0, 0]), ([255, 255], [255, 255, 255]), ([7, 1], [0, 0, 1])] {
        let mut units = good();
        for (place, unit) in units.iter_mut().enumerate() {
            unit[3] = (31 * place) as u8;
            unit[4..6].copy_from_slice(&ca);
            unit[6..9].copy_from_slice(&ioa);
        }
        let (ca, ioa) = (u32::from_le_bytes([ca[0], ca[1], 0, 0]), u32::from_le_bytes([ioa[0], ioa[1], ioa[2], 0]));
        assert_eq!(last_of(&units), Heard::Whole { ca, ioa, octets: FILE.to_vec() });
    }
}

#[test]
fn reading_83_last_section_has_the_checksum_of_all_the_file() {
    let with = |checksum| {
        let mut units = good();
        units[8][13] = checksum;
        last_of(&units)
    };
    assert_eq!(with(sum(FILE)), whole(FILE));
    assert_eq!((with(sum(&FILE[2..])), with(sum(b"AB")), with(0)), (no(41), no(41), no(41)));
}

/// One octet of a transfer changed, anywhere and to any value, gives no other file.
#[test]
fn one_changed_octet_gives_no_other_file() {
    let units = good();
    for at in 0..units.len() {
        for place in 0..units[at].len() {
            for other in (0..=255).filter(|&other| other != units[at][place]) {
                let mut changed = units.clone();
                changed[at][place] = other;
                let file = heard(&changed).into_iter().find(|answer| matches!(answer, Heard::Whole { .. }));
                // the originator may be any
                let expected = (place == 3).then(|| whole(FILE));
                assert_eq!(file, expected, "unit {at}, octet {}: {other}", place + 1);
            }
        }
    }
}
