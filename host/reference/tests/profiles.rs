//! Request A5 of document 02, profiles with fewer than 24 values: its readings by
//! their numbers. What a built record may hold (77) stands in `built.rs`.

mod common;

use common::*;
use halimpung_reference::{write, Body, Record};

const FOUR: &str = "0.25;0.5;0.75;1";

fn line(field: usize, value: &str) -> String {
    format!("Profilo normalizzato di rampa h{}    = {value}\n", field + 1)
}

/// The market sample with these h lines, in body and row alike.
fn file(values: [&str; 6]) -> String {
    let sample = SAMPLES[MARKET].1;
    let start = sample.find("Profilo").unwrap();
    let end = sample.find("Gradienti").unwrap();
    let body: String = values.iter().enumerate().map(|(field, value)| line(field, value)).collect();
    let row = sample[end..].replace(";;;;0.1;0.25;0.4;0.55;0.6;0.75;0.9;1;", &format!("{};", values.join(";")));
    assert_ne!(row, sample[end..]);
    [&sample[..start], &body, &row].concat()
}

fn answer(values: [&str; 6]) -> Result<Record, (u32, u32)> {
    read_as(MARKET, &file(values))
}

/// Accepted, with so many numbers in each line, and written as it came.
fn is_taken(values: [&str; 6]) {
    let record = answer(values).unwrap_or_else(|refusal| panic!("{values:?}: {refusal:?}"));
    let Body::Market(order) = record.body else { unreachable!() };
    for (profile, value) in order.profiles.iter().zip(values) {
        let count = value.split(';').filter(|part| !part.is_empty()).count();
        assert_eq!(profile.map_or(0, |profile| profile.get().len()), count, "{values:?}");
    }
    let mut out = [0; 8192];
    let length = write(&record, &mut out).unwrap();
    let written = file(values).replace("= \n", "=\n");
    assert_eq!(std::str::from_utf8(&out[..length]).unwrap(), written);
}

#[test]
fn twenty_two_values() {
    is_taken(["0.5;1", FOUR, FOUR, FOUR, FOUR, FOUR]);
}

#[test]
fn the_first_filled_line_holds_one_to_four() {
    for first in 0..6 {
        for value in ["1", "1;2", "1;2;3", "1;2;3;4"] {
            let mut values = [""; 6];
            values[first..].fill(FOUR);
            values[first] = value;
            is_taken(values);
        }
    }
    is_taken([""; 6]);
}

/// 27: more than five too, and an empty part is a bad number.
#[test]
fn five_and_empty_parts_are_bad_values() {
    for bad in ["1;2;3;4;5", "1;2;3;4;5;6", "1;2;3;4;", "1;", ";", ";1", "1;;3"] {
        assert_eq!(answer(["", "", "", "", "", bad]), refused(7, 25), "{bad}");
        assert_eq!(answer([bad, FOUR, FOUR, FOUR, FOUR, FOUR]), refused(7, 20), "{bad}");
        assert_eq!(answer(["1", FOUR, bad, FOUR, FOUR, FOUR]), refused(7, 22), "{bad}");
    }
}

/// 28: the first by field number, not by the lines of the file.
#[test]
fn the_lines_of_the_file_say_nothing() {
    let swapped = |values: [&str; 6]| {
        let (fifth, sixth) = (line(4, values[4]), line(5, values[5]));
        let file = file(values).replace(&(fifth.clone() + &sixth), &(sixth + &fifth));
        assert!(file.find("rampa h6") < file.find("rampa h5"));
        read_as(MARKET, &file)
    };
    assert!(swapped(["", "", "", "", "1;2", "1;2;3;4"]).is_ok());
    assert_eq!(swapped(["", "", "", "", "1;2;3;4", "1;2"]), refused(8, 3));
}

#[test]
fn a_short_line_below_the_first_breaks_rule_3() {
    for value in ["1", "1;2", "1;2;3"] {
        assert_eq!(answer([FOUR, value, FOUR, FOUR, FOUR, FOUR]), refused(8, 3));
        assert_eq!(answer([value, FOUR, FOUR, FOUR, FOUR, value]), refused(8, 3));
        assert_eq!(answer(["", "", "", "", value, value]), refused(8, 3));
    }
}

/// 29: fewer than four and a hole are rule 3 once; a bad value anywhere is 7 first.
#[test]
fn holes_and_what_comes_before_them() {
    assert_eq!(answer(["", "1", "", FOUR, FOUR, FOUR]), refused(8, 3));
    assert_eq!(answer(["1;2;3", "", "1", FOUR, FOUR, FOUR]), refused(8, 3));
    assert_eq!(answer(["", "", "", "", "1;2", ""]), refused(8, 3));
    assert_eq!(answer([FOUR, "1", "", "", "", "1;2;3;4;5"]), refused(7, 25));
    let no_gradients = file(["", "1", "", FOUR, FOUR, FOUR]).replace("= 0,120,2.5;", "= 0,120;");
    assert_eq!(read_as(MARKET, &no_gradients), refused(7, 26));
    // rule 2 is lower, rule 4 higher
    let other_origin = file(["", "1", "", FOUR, FOUR, FOUR]).replace("= SCWEB", "= GAUDI");
    assert_eq!(read_as(MARKET, &other_origin), refused(8, 2));
    let downward = file(["", "1", "", FOUR, FOUR, FOUR]).replace("= 0,120,2.5;", "= 0,120,-2.5;");
    assert_eq!(read_as(MARKET, &downward), refused(8, 3));
}

/// The row has as many values as came, blanks inside and all.
#[test]
fn the_row_follows_the_count() {
    let good = file(["", "", "", "", "0.5;1", FOUR]);
    assert!(read_as(MARKET, &good).is_ok());
    assert_eq!(read_as(MARKET, &good.replace(";;;;0.5;1;0.25", ";;;;0.5;1;;;0.25")), refused(10, 0));
    assert_eq!(read_as(MARKET, &good.replace("= 0.5;1\n", "= 0.5; 1\n")), refused(10, 0));
    assert!(read_as(MARKET, &good.replace("0.5;1;0.25", "0.5; 1;0.25").replace("= 0.5;1\n", "= 0.5; 1\n")).is_ok());
}
