//! Samples and small helpers for the tests.
#![allow(dead_code)]

pub mod orders;

use halimpung_reference::{read, Record, Refusal};

pub const SAMPLES: [(&str, &str); 10] = [
    ("CB", include_str!("../../../../examples/market.txt")),
    ("CB", include_str!("../../../../examples/mfrr.txt")),
    ("RC", include_str!("../../../../examples/rc.txt")),
    ("MG", include_str!("../../../../examples/mg.txt")),
    ("EB", include_str!("../../../../examples/eb.txt")),
    ("LB", include_str!("../../../../examples/lb.txt")),
    ("SR", include_str!("../../../../examples/sr.txt")),
    ("VQ", include_str!("../../../../examples/vq.txt")),
    ("RI", include_str!("../../../../examples/ri.txt")),
    ("QR", include_str!("../../../../examples/qr.txt")),
];

pub const MARKET: usize = 0;
pub const MFRR: usize = 1;
pub const RC: usize = 2;
pub const MG: usize = 3;
pub const SR: usize = 6;
pub const VQ: usize = 7;
pub const QR: usize = 9;

pub fn plan(code: &str) -> String {
    format!("ca=7\nioa=300\nunit=UP_PROVA_1\ntype={code}\n")
}

/// The bytes of a file, one for each character: `à` is E0.
pub fn bytes(file: &str) -> Vec<u8> {
    file.chars().map(|byte| u8::try_from(byte).expect("a byte")).collect()
}

/// Reads a file as the type of a sample.
pub fn read_as(sample: usize, file: &str) -> Result<Record, (u32, u32)> {
    let result = read(7, 300, plan(SAMPLES[sample].0).as_bytes(), &bytes(file));
    result.map_err(|Refusal { number, detail }| (number, detail))
}

/// The answer to a sample in which each `from` has become `to`.
pub fn with(sample: usize, changes: &[(&str, &str)]) -> Result<Record, (u32, u32)> {
    let mut file = SAMPLES[sample].1.to_string();
    for (from, to) in changes {
        assert!(file.contains(from), "{from}");
        file = file.replace(from, to);
    }
    read_as(sample, &file)
}

pub fn refused(number: u32, detail: u32) -> Result<Record, (u32, u32)> {
    Err((number, detail))
}
