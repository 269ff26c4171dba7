//! Compares the proved entries with the reference's: `compare [COUNT [SEED [FIRST]]]`. A difference is printed whole and ends the run
//! with status 1; `compare 1 SEED NUMBER` makes that input again. Every fourth number has a run of units besides.

use halimpung_compare::check::{check, Difference};
use halimpung_compare::input::{input, Input};
use halimpung_compare::tally::Tally;
use halimpung_compare::transfers::run;
use halimpung_compare::units::Units;
use halimpung_compare::units_met::UnitsTally;
use halimpung_compare::{collecting, far, ours, Entry};
use halimpung_reference::{normalise_entry, read_entry};
use std::process::ExitCode;

const ENTRIES: [(&str, Entry, Entry); 2] =
    [("read", ours::read, read_entry), ("normalise", ours::normalise, normalise_entry)];

/// A run of units has a dozen calls and more, so there are fewer of them than of inputs.
const RUNS: u64 = 4;

fn main() -> ExitCode {
    let [count, seed, first] = [200_000, 1, 0].into_iter().zip(1..).map(argument).collect::<Vec<u64>>()[..] else {
        unreachable!("three arguments");
    };
    println!("seed {seed}, {count} inputs from number {first}");
    let (mut tally, mut units_tally) = (Tally::default(), UnitsTally::default());
    for number in first..first + count {
        let mut result = compare(&input(seed, number), &mut tally);
        if number % RUNS == 0 {
            result = result.and_then(|()| collect(&run(seed, number), &mut units_tally));
        }
        if let Err(report) = result {
            println!("DIFFERENCE at seed {seed}, number {number}\n{report}");
            return ExitCode::FAILURE;
        }
    }
    println!("{count} inputs, read and normalised, and a run of units for one in {RUNS}: no difference");
    tally.print();
    units_tally.print();
    let missing = [tally.missing(count), units_tally.missing(count)].concat();
    if !missing.is_empty() {
        println!("never met: {}", missing.join(", "));
        return ExitCode::FAILURE;
    }
    ExitCode::SUCCESS
}

fn argument((usual, place): (u64, usize)) -> u64 {
    let Some(word) = std::env::args().nth(place) else { return usual };
    word.parse().unwrap_or_else(|_| panic!("not a number: {word}"))
}

fn compare(input: &Input, tally: &mut Tally) -> Result<(), String> {
    for (name, ours, theirs) in ENTRIES {
        let answer = check(ours, theirs, input).map_err(|difference| report(name, input, &difference))?;
        tally.add(input, answer);
    }
    Ok(())
}

/// A difference has the units up to it in the form of the case runner's requests.
fn collect(units: &Units, tally: &mut UnitsTally) -> Result<(), String> {
    let words = collecting::check(ours::collect, units).map_err(|difference| {
        let collecting::Difference { unit, ours, theirs, byte } = difference;
        let given: Vec<String> = units[..=unit].iter().map(|unit| hex(unit)).collect();
        format!(
            "entry collect, unit {}\ncollect {}\nours {}\nreference {}\nfirst byte that differs: {}",
            unit + 1,
            given.join(","),
            said(ours),
            said(theirs),
            byte.as_deref().unwrap_or("none"),
        )
    })?;
    tally.add(&words);
    Ok(())
}

fn report(name: &str, input: &Input, difference: &Difference) -> String {
    let Difference { room, ours, theirs, byte } = difference;
    let byte = byte.map_or("none".into(), |place| place.to_string());
    format!(
        "entry {name}, from sample {}\nca {}\nioa {}\nplan {}\nfile {}\nroom {room}\nours {}\nreference {}\nfirst byte that differs: {byte}",
        input.sample.name,
        input.ca,
        input.ioa,
        hex(&input.plan),
        hex(&input.file),
        said(*ours),
        said(*theirs),
    )
}

fn said(answer: u32) -> String {
    match answer >> 16 {
        _ if answer == far::NO_ANSWER => "no answer".into(),
        0 => format!("{answer}: length"),
        number => format!("{answer}: refusal {number}, detail {}", answer & 0xffff),
    }
}

/// `-` for no bytes.
fn hex(bytes: &[u8]) -> String {
    if bytes.is_empty() {
        return "-".into();
    }
    bytes.iter().map(|byte| format!("{byte:02x}")).collect()
}
