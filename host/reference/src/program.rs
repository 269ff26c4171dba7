//! What the program prints ("The program").

use crate::pen::Pen;
use crate::record::Record;
use crate::{keyed, plan, reader, Refusal};

/// Room for the six lines: 89 bytes with the longest number, unit and instants.
const MOST_SIX: usize = 96;

/// The output for the text of `plan.txt`, if it could be read, and the input.
pub fn program(plan: Option<&[u8]>, stdin: &[u8]) -> Vec<u8> {
    let mut out = [0; MOST_SIX];
    let length = match answer(plan.unwrap_or(b""), stdin) {
        Ok(record) => six(&record, &mut out),
        Err(refusal) => {
            let mut pen = Pen { out: &mut out, at: 0 };
            pen.put(b"result=");
            pen.decimal(u64::from(refusal.number));
            pen.put(b"\ndetail=");
            pen.decimal(u64::from(refusal.detail));
            pen.put(b"\n");
            pen.at
        }
    };
    out[..length].to_vec()
}

fn answer(plan: &[u8], stdin: &[u8]) -> Result<Record, Refusal> {
    match head(stdin) {
        Some((ca, ioa, file)) => reader::read(ca, ioa, plan, file),
        // The plan is judged before the two lines, and both give 1 after it.
        None => Err(plan::look_up(plan, 0, 0).err().unwrap_or(Refusal::plain(1))),
    }
}

/// The `ca=` and `ioa=` lines, written as in a plan, and the file after them.
fn head(stdin: &[u8]) -> Option<(u32, u32, &[u8])> {
    let (ca, rest) = keyed::ca(stdin)?;
    let (ioa, file) = keyed::ioa(rest)?;
    Some((ca, ioa, file))
}

/// The six lines of an accepted file into a buffer; 11 if they do not fit.
pub fn write_six(record: &Record, out: &mut [u8]) -> Result<usize, Refusal> {
    let mut aside = [0; MOST_SIX];
    let length = six(record, &mut aside);
    match out.get_mut(..length) {
        Some(room) => {
            room.copy_from_slice(&aside[..length]);
            Ok(length)
        }
        None => Err(Refusal::new(11, length as u32)),
    }
}

fn six(record: &Record, out: &mut [u8]) -> usize {
    let (start, end) = record.dates();
    let mut pen = Pen { out, at: 0 };
    pen.put(b"result=0\ntype=");
    pen.put(record.kind().word());
    pen.put(b"\nnumber=");
    pen.decimal(record.number);
    pen.put(b"\nunit=");
    pen.put(record.unit.get());
    pen.put(b"\nstart=");
    pen.decimal(u64::from(start.instant()));
    pen.put(b"\nend=");
    if let Some(end) = end {
        pen.decimal(u64::from(end.instant()));
    }
    pen.put(b"\n");
    pen.at
}
