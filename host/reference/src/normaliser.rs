//! The normaliser: an accepted file gives the written form of its record.

use crate::{reader, writer, Refusal};

/// Refusals are the reader's, then 11. What was read is valid, so 12 cannot come.
pub fn normalise(ca: u32, ioa: u32, plan: &[u8], file: &[u8], out: &mut [u8]) -> Result<usize, Refusal> {
    let record = reader::read(ca, ioa, plan, file)?;
    writer::write_valid(&record, out)
}
