//! The reader: address, plan and file give a record or a refusal, 13 then 1 to
//! 10 in number order ("Refusal numbers").

use crate::layouts::{self, Layout, AUCTION_SLOT, HALF_BANDS_FIELD};
use crate::lines::{self, Lines};
use crate::plan;
use crate::record::Record;
use crate::values::trim;
use crate::words::Type;
use crate::{fields, rules, Refusal};

pub const MOST_BYTES: usize = 8_192;

/// Reads a message file.
pub fn read(ca: u32, ioa: u32, plan: &[u8], file: &[u8]) -> Result<Record, Refusal> {
    examine(ca, ioa, plan, file).map(|(record, _)| record)
}

/// The record, with the lines it was read from (the times need their places).
#[inline]
pub fn examine<'a>(ca: u32, ioa: u32, plan: &[u8], file: &'a [u8]) -> Result<(Record, Lines<'a>), Refusal> {
    let address = plan::look_up(plan, ca, ioa)?.ok_or(Refusal::plain(1))?;
    if file.is_empty() || file.len() > MOST_BYTES {
        return Err(Refusal::plain(2));
    }
    let kind = address.kind;
    let lines = lines::walk(file, layouts::labels(kind))?;
    if lines.separators != 2 || lines.between != 1 {
        return Err(Refusal::new(4, lines.separators));
    }
    let mfrr = kind == Type::Cb && lines.seen & (1 << AUCTION_SLOT) != 0;
    let layout = layouts::layout(kind, mfrr);
    if let Some(slot) = lines.repeats[usize::from(mfrr)] {
        return Err(Refusal::new(5, layout.field(slot) as u32));
    }
    let missing = layout.labels.len() as u32 - (lines.seen & layout.slots()).count_ones();
    if missing > 0 {
        return Err(Refusal::new(6, missing));
    }
    let record = fields::record(&lines, layout, kind, mfrr)?;
    if let Some(rule) = rules::broken(&record.body) {
        return Err(Refusal::new(8, rule));
    }
    if record.unit.get() != address.unit {
        return Err(Refusal::plain(9));
    }
    if !row_agrees(&lines, layout, kind) {
        return Err(Refusal::plain(10));
    }
    Ok((record, lines))
}

/// "The summary row": the body's values as they came, joined by `;`. The row is
/// never cut at `;`, since a reason may hold one; the values are laid along it.
fn row_agrees(lines: &Lines, layout: &Layout, kind: Type) -> bool {
    let mut rest = lines.row;
    for (place, &field) in layout.row.iter().enumerate() {
        let field = usize::from(field);
        let value = lines.value(layout.slot(field));
        let after = if place == 0 { Some(rest) } else { rest.strip_prefix(b";") };
        let after = if kind == Type::Sr && field == HALF_BANDS_FIELD {
            after.and_then(|rest| halves_agree(rest, value))
        } else {
            after.and_then(|rest| rest.strip_prefix(value))
        };
        match after {
            Some(after) => rest = after,
            None => return false,
        }
    }
    rest.is_empty()
}

/// SR's halves are trimmed and stand as two; a blank gives two empty values.
fn halves_agree<'a>(row: &'a [u8], value: &[u8]) -> Option<&'a [u8]> {
    let mut halves = value.splitn(2, |&byte| byte == b';').map(trim);
    let up = halves.next().unwrap_or(&[]);
    let down = halves.next().unwrap_or(&[]);
    row.strip_prefix(up)?.strip_prefix(b";")?.strip_prefix(down)
}
