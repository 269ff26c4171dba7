//! Start-up and ramp times ("Times"): the part of the message file that holds
//! the value or, where it is blank, that part of the unit sheet.

use crate::record::Body;
use crate::{keyed, reader, values, Refusal};

/// Which text an answer is a part of.
#[derive(Clone, Copy, Debug, PartialEq, Eq)]
pub enum Source {
    File,
    Sheet,
}

/// A part of one of the two lent texts, and where it lies there.
#[derive(Clone, Copy, Debug, PartialEq, Eq)]
pub struct Part<'a> {
    pub source: Source,
    pub start: usize,
    pub bytes: &'a [u8],
}

/// `Tempo di avviamento`, else the sheet's `avviamento`.
pub fn start_up_time<'a>(ca: u32, ioa: u32, plan: &[u8], file: &'a [u8], sheet: &'a [u8]) -> Result<Part<'a>, Refusal> {
    time(ca, ioa, plan, file, sheet, 12, |sheet| sheet.start_up)
}

/// `Tempo di rampa`, else the sheet's `rampa`.
pub fn ramp_time<'a>(ca: u32, ioa: u32, plan: &[u8], file: &'a [u8], sheet: &'a [u8]) -> Result<Part<'a>, Refusal> {
    time(ca, ioa, plan, file, sheet, 13, |sheet| sheet.ramp)
}

/// Refusals: the reader's, 16, 14. The sheet is judged even where the message
/// has the value, since a refusal comes exactly when its condition holds.
fn time<'a>(
    ca: u32,
    ioa: u32,
    plan: &[u8],
    file: &'a [u8],
    sheet: &'a [u8],
    slot: usize,
    of_sheet: fn(Sheet<'a>) -> Part<'a>,
) -> Result<Part<'a>, Refusal> {
    let (record, lines) = reader::examine(ca, ioa, plan, file)?;
    if !matches!(record.body, Body::Market(_)) {
        return Err(Refusal::plain(16));
    }
    let read = Sheet::read(sheet).filter(|sheet| sheet.unit == record.unit.get()).ok_or(Refusal::plain(14))?;
    let (start, end) = lines.place(slot);
    if start < end {
        return Ok(Part { source: Source::File, start, bytes: &file[start..end] });
    }
    Ok(of_sheet(read))
}

/// A good unit sheet: three lines, the last two holding a number.
struct Sheet<'a> {
    unit: &'a [u8],
    start_up: Part<'a>,
    ramp: Part<'a>,
}

impl<'a> Sheet<'a> {
    fn read(sheet: &'a [u8]) -> Option<Self> {
        let (unit, rest) = keyed::unit(sheet)?;
        let (start_up, rest) = number_line(sheet, rest, b"avviamento=")?;
        let (ramp, rest) = number_line(sheet, rest, b"rampa=")?;
        rest.is_empty().then_some(Sheet { unit, start_up, ramp })
    }
}

/// The next line of the sheet, of which `rest` is left, and what follows it.
fn number_line<'a>(sheet: &[u8], rest: &'a [u8], key: &[u8]) -> Option<(Part<'a>, &'a [u8])> {
    let start = sheet.len() - rest.len() + key.len();
    let (bytes, rest) = keyed::line(rest, key)?;
    values::number(bytes)?;
    Some((Part { source: Source::Sheet, start, bytes }, rest))
}
