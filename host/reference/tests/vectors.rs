//! The repository's own cases, crates/cases, through the `cases` program, counted by
//! kind. A request that is not of the documented form answers `?` there; what this
//! package says to it is its own affair, so those are passed over.

use std::collections::BTreeMap;
use std::io::Write;
use std::process::{Command, Stdio};

/// A file of crates/cases. One that cannot be read fails the test: nothing compared is
/// no agreement.
fn case_file(name: &str) -> String {
    let path = format!("{}/../../crates/cases/{name}", env!("CARGO_MANIFEST_DIR"));
    std::fs::read_to_string(&path).unwrap_or_else(|error| panic!("{path}: {error}"))
}

/// What the `cases` program answers to these requests.
fn answered(requests: &str) -> String {
    let mut cases =
        Command::new(env!("CARGO_BIN_EXE_cases")).stdin(Stdio::piped()).stdout(Stdio::piped()).spawn().unwrap();
    let mut input = cases.stdin.take().unwrap();
    let text = requests.to_string();
    let feeder = std::thread::spawn(move || input.write_all(text.as_bytes()));
    let output = cases.wait_with_output().unwrap();
    feeder.join().unwrap().unwrap();
    assert!(output.status.success());
    String::from_utf8(output.stdout).unwrap()
}

#[test]
fn answers_as_given() {
    let (requests, answers) = (case_file("stdin"), case_file("stdout"));
    let ours = answered(&requests);
    let total = requests.lines().count();
    assert_eq!((answers.lines().count(), ours.lines().count()), (total, total));

    let mut passed_over = 0;
    let mut counts: BTreeMap<&str, (u32, u32)> = BTreeMap::new();
    for (place, ((request, given), ours)) in requests.lines().zip(answers.lines()).zip(ours.lines()).enumerate() {
        if given.contains('?') {
            passed_over += 1;
            continue;
        }
        let count = counts.entry(request.split(' ').next().unwrap()).or_default();
        if given == ours {
            count.0 += 1;
        } else {
            count.1 += 1;
            println!("line {} differs: given {given:.60}, ours {ours:.60}", place + 1);
        }
    }
    println!("agree, differ: {counts:?}; passed over: {passed_over} of {total}");
    assert!(counts.values().all(|count| count.1 == 0));
    assert!(passed_over * 10 <= total, "{passed_over} of {total} passed over");
    for kind in ["read", "norm", "cread", "cnorm", "prog", "book", "collect"] {
        assert!(counts.contains_key(kind), "no case of {kind}");
    }
}
