//! Nanoseconds for reading and normalising each of the ten samples and for each call of a book, ours beside the reference:
//! `bench [PASSES [CALLS]]`. The two take turns, so that a change of the machine's pace meets both, and of each the least
//! pass counts, since other work on the machine only adds. A ratio above 1.00 means that ours is slower.

use halimpung_compare::pace::{self, Pace};
use halimpung_compare::samples::{row, Sample, SAMPLES, UNIT};
use halimpung_compare::{ours, Entry};
use halimpung_reference::{normalise_entry, read_entry};
use std::hint::black_box;
use std::time::Instant;

const ENTRIES: [(&str, Entry, Entry); 2] =
    [("read", ours::read, read_entry), ("normalise", ours::normalise, normalise_entry)];

/// The book's calls by their numbers in crates/bench_book, each with how many orders the book holds.
const CALLS: [(&str, u32); 5] =
    [("in force", 96), ("close", 96), ("command", 95), ("command held", 96), ("revoke", 96)];

/// A book's calls in a pass, for each call of an entry's. (Their loop is on each side, and is entered once a pass.)
const BOOK_CALLS: u64 = 10;

/// How much is measured.
struct Effort {
    passes: u64,
    calls: u64,
}

fn main() {
    let effort = Effort { passes: argument(1, 100), calls: argument(2, 100) };
    for rows in [1, 64] {
        println!(
            "plan of {rows} row{}; least of {} passes of {} calls",
            if rows == 1 { "" } else { "s, the one asked last" },
            effort.passes,
            effort.calls
        );
        println!("{:<12}{:<10}{:>7}{:>10}{:>14}{:>8}", "layout", "entry", "bytes", "ours ns", "reference ns", "ratio");
        for sample in &SAMPLES {
            ENTRIES.iter().for_each(|(name, ours, theirs)| line(sample, rows, name, [*ours, *theirs], &effort));
        }
    }
    book_lines(&Effort { calls: effort.calls * BOOK_CALLS, ..effort });
}

fn argument(place: usize, usual: u64) -> u64 {
    std::env::args().nth(place).map_or(usual, |word| word.parse().unwrap_or_else(|_| panic!("not a number: {word}")))
}

fn line(sample: &Sample, rows: u32, name: &str, sides: [Entry; 2], effort: &Effort) {
    let plan = sample.plan(rows);
    // both write to one output, which is not cleared between calls
    let mut out = [0; 8_192];
    let passes = least(effort.passes, |side| {
        calls(sides[side], plan.as_bytes(), sample.file.as_bytes(), &mut out, effort.calls);
    });
    let [ours, theirs] = passes.map(|pass| pass / effort.calls as f64);
    let (layout, bytes) = (sample.name, sample.file.len());
    println!("{layout:<12}{name:<10}{bytes:>7}{ours:>10.0}{theirs:>14.0}{:>8.2}", ours / theirs);
}

/// The least pass of each side, in nanoseconds.
fn least(passes: u64, mut pass: impl FnMut(usize)) -> [f64; 2] {
    let mut least = [f64::INFINITY; 2];
    for _ in 0..passes {
        for (side, least) in least.iter_mut().enumerate() {
            let start = Instant::now();
            pass(side);
            *least = least.min(start.elapsed().as_nanos() as f64);
        }
    }
    least
}

fn calls(entry: Entry, plan: &[u8], file: &[u8], out: &mut [u8], calls: u64) {
    let entry = black_box(entry);
    for _ in 0..calls {
        let answer = entry(black_box(7), black_box(300), black_box(plan), black_box(file), black_box(&mut *out));
        assert!(black_box(answer) < 65_536, "a sample is accepted");
    }
}

fn book_lines(effort: &Effort) {
    println!("book of {} orders; least of {} passes of {} calls", SAMPLES[0].name, effort.passes, effort.calls);
    println!("{:<14}{:>12}{:>10}{:>14}{:>8}", "call", "orders held", "ours ns", "reference ns", "ratio");
    for (call, (name, held)) in (0..).zip(CALLS) {
        let [ours, theirs] = book_call(call, held, effort);
        println!("{name:<14}{held:>12}{ours:>10.0}{theirs:>14.0}{:>8.2}", ours / theirs);
    }
}

/// Nanoseconds of each side for a book's call: a pass less one that makes no calls, but reads the two files and fills the
/// book. Both sides give the sum of what they answered.
fn book_call(call: u32, held: u32, effort: &Effort) -> [f64; 2] {
    let plan = row(7, 300, UNIT, "CB") + &row(7, 301, UNIT, "RC");
    let [plan, command, revocation] = [&plan, SAMPLES[0].file, SAMPLES[2].file].map(str::as_bytes);
    let rounds = u32::try_from(effort.calls).expect("rounds are counted in 32 bits");
    let [whole, before] = [rounds, 0].map(|rounds| {
        let sides: [Pace; 2] = [ours::pace, pace::theirs];
        let mut sums = [0; 2];
        let passes = least(effort.passes, |side| {
            sums[side] = black_box(sides[side])(call, rounds, held, plan, command, revocation);
        });
        assert_eq!(sums[0], sums[1], "ours and the reference answer a book's call {call} alike");
        passes
    });
    [0, 1].map(|side| (whole[side] - before[side]) / effort.calls as f64)
}
