//! What libFuzzer calls: one input to one entry, on both sides, or a run of units to both collectors. The reference is instrumented, so its
//! branches guide the search; the library is not, and is judged by its answers and by every byte of its output.

use halimpung_compare::check::check;
use halimpung_compare::dice::Dice;
use halimpung_compare::input::{Input, Room, MOST_ROOM};
use halimpung_compare::lines::{join, split, Lines};
use halimpung_compare::samples::{Sample, SAMPLES};
use halimpung_compare::spellings::{self, ACCENT, LABELS};
use halimpung_compare::units::Units;
use halimpung_compare::{body, collecting, ours, profiles, transfers, Entry};
use halimpung_reference::{normalise_entry, read_entry};

/// The byte between plan and file where an input has both.
pub const BETWEEN: u8 = 0xff;

/// The first byte of an input that has a plan of its own.
pub const OWN_PLAN: u8 = 0x80;

/// The first byte, or any above it, of an input that is a run of units, and what stands between two of them: no length, since a byte that is
/// put in or taken out would then spoil all units behind it.
pub const UNITS: u8 = 0xc0;
pub const BETWEEN_UNITS: [u8; 2] = [0xfe, 0xed];

const ADDRESS: (u32, u32) = (7, 300);

/// The entry that an input is for, its plan, its file and its room: the first byte says which sample's type the address has, or that the plan
/// follows, and which entry; the second says the room.
fn input(data: &[u8]) -> Option<(Input, Entry, Entry)> {
    let (&[which, room], rest) = data.split_first_chunk::<2>()?;
    let sample = &SAMPLES[usize::from(which >> 1) % SAMPLES.len()];
    let (plan, file) = if which < OWN_PLAN { (sample.plan(1).into_bytes(), rest.to_vec()) } else { divided(rest) };
    let (ours, theirs) = if which % 2 == 0 {
        (ours::read as Entry, read_entry as Entry)
    } else {
        (ours::normalise as Entry, normalise_entry as Entry)
    };
    let (ca, ioa) = ADDRESS;
    Some((Input { sample, ca, ioa, plan, file, room: room_of(room) }, ours, theirs))
}

fn divided(rest: &[u8]) -> (Vec<u8>, Vec<u8>) {
    match rest.iter().position(|&byte| byte == BETWEEN) {
        Some(place) => (rest[..place].to_vec(), rest[place + 1..].to_vec()),
        None => (rest.to_vec(), Vec::new()),
    }
}

fn room_of(byte: u8) -> Room {
    match byte {
        0 => Room::Exact,
        1 => Room::OneLess,
        2 => Room::Of(0),
        3..=99 => Room::Of(usize::from(byte)),
        _ => Room::Of(MOST_ROOM),
    }
}

fn units(data: &[u8]) -> Units {
    let mut units = vec![Vec::new()];
    let mut rest = data;
    while let Some((&first, after)) = rest.split_first() {
        if let Some(after) = rest.strip_prefix(&BETWEEN_UNITS) {
            units.push(Vec::new());
            rest = after;
        } else {
            units.last_mut().expect("one at least").push(first);
            rest = after;
        }
    }
    units
}

fn joined(units: &Units) -> Vec<u8> {
    [&[UNITS], &units.join(&BETWEEN_UNITS[..])[..]].concat()
}

/// How the two sides differ, if they do.
fn difference(data: &[u8]) -> Option<String> {
    if let [UNITS..=u8::MAX, rest @ ..] = data {
        let units = units(rest);
        let collecting::Difference { unit, ours, theirs, byte } = collecting::check(ours::collect, &units).err()?;
        return Some(format!(
            "ours {ours}, reference {theirs}, first byte that differs {byte:?}, unit {} of {units:02x?}",
            unit + 1
        ));
    }
    let (input, ours, theirs) = input(data)?;
    let difference = check(ours, theirs, &input).err()?;
    Some(format!(
        "ours {}, reference {}, room {}, first byte that differs {:?}\nplan {:?}\nfile {:?}",
        difference.ours,
        difference.theirs,
        difference.room,
        difference.byte,
        String::from_utf8_lossy(&input.plan),
        String::from_utf8_lossy(&input.file)
    ))
}

/// An input that both sides answer differently ends the process, and libFuzzer keeps it.
///
/// # Safety
/// `data` points to `size` bytes, as libFuzzer gives them.
#[no_mangle]
pub unsafe extern "C" fn LLVMFuzzerTestOneInput(data: *const u8, size: usize) -> i32 {
    let data = if size == 0 { &[] } else { std::slice::from_raw_parts(data, size) };
    if let Some(report) = difference(data) {
        eprintln!("{report}");
        std::process::abort();
    }
    0
}

/// The inputs to begin with: every sample at its own address, for both entries, and with its plan written out; those that have second
/// spellings also with these.
pub fn seeds() -> Vec<Vec<u8>> {
    let plain = SAMPLES.iter().map(|sample| sample.file.as_bytes().to_vec());
    let second = SAMPLES.iter().map(|sample| second_spellings(sample.file.as_bytes()));
    let all = SAMPLES.iter().enumerate().zip(plain.zip(second));
    all.flat_map(|((place, sample), (plain, second))| {
        let mut seeds = seeds_of(place, sample, &plain);
        if second != plain {
            seeds.extend(seeds_of(place, sample, &second));
        }
        seeds
    })
    .collect()
}

fn seeds_of(place: usize, sample: &Sample, file: &[u8]) -> Vec<Vec<u8>> {
    let which = (place as u8) << 1;
    let mut seeds: Vec<Vec<u8>> = [which, which + 1].iter().map(|&first| [&[first, 255], file].concat()).collect();
    seeds.push([&[OWN_PLAN, 255], sample.plan(2).as_bytes(), &[BETWEEN], file].concat());
    seeds
}

/// The file with all its accents, and its settings short, in body and row alike.
fn second_spellings(file: &[u8]) -> Vec<u8> {
    let accents = LABELS.map(|label| (spellings::plain(label), label.to_vec()));
    let settings = [("V MAX", "VMAX"), ("V MIN", "VMIN")].map(|(long, short)| (long.into(), short.into()));
    accents.into_iter().chain(settings).fold(file.to_vec(), |file, (from, to)| replaced(&file, &from, &to))
}

fn replaced(text: &[u8], from: &[u8], to: &[u8]) -> Vec<u8> {
    let mut done = Vec::new();
    let mut rest = text;
    while let Some(at) = rest.windows(from.len()).position(|part| part == from) {
        done.extend_from_slice(&rest[..at]);
        done.extend_from_slice(to);
        rest = &rest[at + from.len()..];
    }
    [&done, rest].concat()
}

/// More of them, good and bad: samples that the comparison's generator gave second spellings, or their neighbours. Every sample comes
/// four times, VQ and QR forty.
pub fn spelled_seeds() -> Vec<Vec<u8>> {
    let mut seeds = Vec::new();
    for (place, sample) in SAMPLES.iter().enumerate() {
        let count = if spellings::own(sample.code).is_empty() { 4 } else { 40 };
        for number in 0..count {
            let mut lines = split(sample.file.as_bytes());
            spellings::change(&mut lines, sample, &mut Dice::new(place as u64, number));
            seeds.push(by_turns(place, number, &lines));
        }
    }
    seeds
}

/// Market commands, good and bad, with profiles that the comparison's generator made.
pub fn profiled_seeds() -> Vec<Vec<u8>> {
    let place = SAMPLES.iter().position(|sample| sample.name == profiles::LAYOUT).expect("a sample of it");
    let seed = |number| {
        let mut lines = split(SAMPLES[place].file.as_bytes());
        profiles::change(&mut lines, &mut Dice::new(0, number));
        body::mend_row(&mut lines, &SAMPLES[place]);
        by_turns(place, number, &lines)
    };
    (0..60).map(seed).collect()
}

/// At the sample's own address; to be read, the next one to be normalised.
fn by_turns(place: usize, number: u64, lines: &Lines) -> Vec<u8> {
    [&[(place as u8) << 1 | (number % 2) as u8, 255], &join(lines)[..]].concat()
}

/// Runs of units, as the comparison makes them, that are not too long for an input.
pub fn unit_seeds() -> Vec<Vec<u8>> {
    (0..120).map(|number| joined(&transfers::run(0, number))).filter(|seed| seed.len() <= 9_000).collect()
}

/// Words to put in: each line's label and value of the samples, in both spellings, short lists, the plan's keys, and the octets that units
/// begin with.
pub fn words() -> Vec<Vec<u8>> {
    let mut words: Vec<Vec<u8>> = ["ca=", "ioa=", "unit=", "type=", "+++++", "\r\n"].map(Vec::from).to_vec();
    for sample in &SAMPLES {
        words.extend(sample.file.lines().flat_map(|line| line.splitn(2, '=')).map(|part| part.trim().into()));
    }
    words.extend(["VMAX", "VMIN", "V MIN", "0.5;1", ";1"].map(Vec::from));
    words.extend(LABELS.map(<[u8]>::to_vec));
    words.push(vec![ACCENT]);
    words.extend([120, 121, 123, 125].map(|kind| vec![kind, 1, 13, 0, 7, 0, 45, 1, 0, 1, 0]));
    words.push(BETWEEN_UNITS.to_vec());
    words.retain(|word| !word.is_empty() && word.len() <= 60);
    words.sort();
    words.dedup();
    words
}

#[cfg(test)]
mod tests {
    use super::*;
    use halimpung_reference::{Collector, Heard, Refusal};

    /// By the reference alone.
    fn answer(seed: &[u8]) -> u32 {
        let (input, _, theirs) = input(seed).expect("an input");
        check(theirs, theirs, &input).unwrap_or_else(|_| panic!("one entry differs"))
    }

    /// Ten samples, two of them in second spellings too, three inputs each.
    #[test]
    fn seeds_are_good_and_spelled_ones_both() {
        let accented = |seed: &&Vec<u8>| seed.contains(&ACCENT);
        assert_eq!(seeds().len(), 36);
        assert_eq!(seeds().iter().filter(accented).count(), 6);
        assert!(seeds().iter().all(|seed| answer(seed) < 65_536));
        let spelled = spelled_seeds();
        for number in [0, 3, 5, 10] {
            assert!(spelled.iter().filter(accented).any(|seed| answer(seed) >> 16 == number), "none answers {number}");
        }
    }

    #[test]
    fn profiled_seeds_are_good_and_bad() {
        let answers: Vec<u32> = profiled_seeds().iter().map(|seed| answer(seed)).collect();
        for number in [0, 7, 8] {
            assert!(answers.iter().any(|answer| answer >> 16 == number), "none answers {number}");
        }
    }

    #[test]
    fn unit_seeds_are_runs_of_units() {
        let seeds = unit_seeds();
        assert!(seeds.len() > 100);
        let mut answers = Vec::new();
        for seed in seeds {
            let run = units(&seed[1..]);
            assert_eq!(joined(&run), seed);
            let mut collector = Collector::default();
            answers.extend(run.iter().map(|unit| collector.take(unit)));
        }
        for number in [44, 40, 41, 42, 43] {
            assert!(answers.contains(&Heard::Refused(Refusal::plain(number))), "none answers {number}");
        }
        assert!(answers.iter().filter(|answer| matches!(answer, Heard::Whole { .. })).count() > 50);
    }

    #[test]
    fn every_seed_is_answered_alike() {
        for seed in [seeds(), spelled_seeds(), profiled_seeds(), unit_seeds()].concat() {
            assert_eq!(difference(&seed), None);
        }
    }

    #[test]
    fn every_seed_is_accepted_by_both() {
        for seed in seeds() {
            let (input, ours, theirs) = input(&seed).expect("an input");
            let answer = check(ours, theirs, &input).unwrap_or_else(|_| panic!("a difference"));
            assert!(answer < 65_536, "{answer}");
        }
    }
}
