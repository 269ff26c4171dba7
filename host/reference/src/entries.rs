//! The two entries that the gateway's C firmware calls, with numbers and byte
//! slices only: the length written, or 65,536 times the refusal number plus the
//! detail. Lengths and details are all below 65,536, so the two cannot be mixed.

use crate::{normaliser, program, reader, Refusal};

/// Reads a file and writes the program's six lines.
pub fn read_entry(ca: u32, ioa: u32, plan: &[u8], file: &[u8], out: &mut [u8]) -> u32 {
    answer(reader::read(ca, ioa, plan, file).and_then(|record| program::write_six(&record, out)))
}

/// Normalises a file.
pub fn normalise_entry(ca: u32, ioa: u32, plan: &[u8], file: &[u8], out: &mut [u8]) -> u32 {
    answer(normaliser::normalise(ca, ioa, plan, file, out))
}

fn answer(result: Result<usize, Refusal>) -> u32 {
    match result {
        Ok(length) => length as u32,
        Err(refusal) => 65_536 * refusal.number + refusal.detail,
    }
}
