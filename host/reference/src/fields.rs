//! From the values of a file to its record, field by field in printed order, so
//! that the first value that cannot be read is the first bad field (7).

use crate::dates::Date;
use crate::layouts::Layout;
use crate::lines::Lines;
use crate::lists;
use crate::record::*;
use crate::values::{self, Text};
use crate::words::*;
use crate::Refusal;

/// The record of a file that has every label of the layout once.
pub fn record(lines: &Lines, layout: &Layout, kind: Type, mfrr: bool) -> Result<Record, Refusal> {
    let mut fields = Fields { lines, layout, field: 0 };
    let number = fields.next(|text| values::identifier(text, kind))?;
    let unit = fields.next(values::unit)?;
    // Fields of a struct expression are evaluated as they are written here,
    // which is the printed order.
    let body = match kind {
        Type::Cb if mfrr => Body::Mfrr(Mfrr {
            first: fields.span()?,
            second: fields.span()?,
            variation: fields.number()?,
            auction: fields.next(Auction::read)?,
            programs: [fields.number()?, fields.number()?, fields.number()?, fields.number()?],
        }),
        Type::Cb => Body::Market(market(&mut fields)?),
        Type::Rc => Body::Revocation { span: fields.span()?, sequence: fields.next(values::sequence)? },
        Type::Mg => Body::Generic {
            span: fields.span()?,
            reason: fields.text()?,
            note: fields.text()?,
            created: fields.date()?,
        },
        Type::Eb => Body::Exclusion {
            span: fields.span()?,
            reason: fields.text()?,
            note: fields.text()?,
            readmitted: fields.next(YesNo::read)?,
            created: fields.date()?,
        },
        Type::Lb => Body::Limitation(Limitation {
            span: fields.span()?,
            maximum: fields.optional(values::number)?,
            minimum: fields.optional(values::number)?,
            reason: fields.text()?,
            note: fields.text()?,
            restored: fields.next(YesNo::read)?,
            created: fields.date()?,
        }),
        Type::Sr => Body::Secondary {
            span: fields.span()?,
            operation: fields.next(Operation::read)?,
            half_bands: fields.optional(lists::half_bands)?,
            reason: fields.text()?,
            note: fields.text()?,
            created: fields.date()?,
        },
        Type::Vq => Body::Voltage(Voltage {
            start: fields.date()?,
            end: fields.optional(Date::read)?,
            state: fields.optional(SartState::read)?,
            mode: fields.next(Mode::read)?,
            regulation: fields.optional(Regulation::read)?,
            sart: fields.optional(|text| setting(text, Kilovolts))?,
            rat: fields.optional(|text| setting(text, RatPercent))?,
            change: fields.optional(|text| values::number(text).map(ChangePercent))?,
            reactive: fields.optional(reactive)?,
            note: fields.text()?,
            created: fields.date()?,
        }),
        Type::Ri => Body::Refused { span: fields.span()?, reason: fields.text()?, note: fields.text()? },
        Type::Qr => Body::Reserved {
            span: fields.span()?,
            reserve: fields.next(Reserve::read)?,
            quantity: fields.optional(values::number)?,
            up_to: fields.optional(UpTo::read)?,
            note: fields.text()?,
            created: fields.date()?,
        },
    };
    Ok(Record { number, unit, body })
}

fn market(fields: &mut Fields) -> Result<Market, Refusal> {
    let span = fields.span()?;
    let variation = Ends { initial: fields.number()?, last: fields.number()? };
    fields.next(NormalGradient::read)?;
    let continuation = fields.next(Continuation::read)?;
    fields.next(NoSuperMaximum::read)?;
    Ok(Market {
        span,
        variation,
        continuation,
        program: Ends { initial: fields.number()?, last: fields.number()? },
        joining: fields.next(YesNo::read)?,
        start_up_time: fields.optional(values::number)?,
        ramp_time: fields.optional(values::number)?,
        final_program: Ends { initial: fields.next(YesNo::read)?, last: fields.next(YesNo::read)? },
        reference: fields.date()?,
        origin: fields.next(Origin::read)?,
        updated: fields.optional(Date::read)?,
        profiles: {
            let mut profiles = [None; 6];
            for profile in &mut profiles {
                *profile = fields.optional(lists::profile)?;
            }
            profiles
        },
        gradients: fields.next(lists::gradients)?,
    })
}

/// The two voltage settings; the other two take no extreme.
fn setting<Q>(text: &[u8], quantity: fn(i32) -> Q) -> Option<Setting<Q>> {
    match extreme(text) {
        Some(extreme) => Some(Setting::To(extreme)),
        None => values::number(text).map(|number| Setting::At(quantity(number))),
    }
}

/// With its blank, as the layout prints it, or without, as the table of 2.9 does
/// (A1). Both mean the same, and the record doesn't keep which came.
fn extreme(text: &[u8]) -> Option<Extreme> {
    match text {
        b"VMAX" => Some(Extreme::VMax),
        b"VMIN" => Some(Extreme::VMin),
        _ => Extreme::read(text),
    }
}

fn reactive(text: &[u8]) -> Option<Reactive> {
    match ReactiveWord::read(text) {
        Some(word) => Some(Reactive::To(word)),
        None => values::number(text).map(|number| Reactive::At(Megavars(number))),
    }
}

/// The values of a file, taken one after the other.
struct Fields<'a> {
    lines: &'a Lines<'a>,
    layout: &'a Layout,
    /// The number of the field last taken.
    field: usize,
}

impl Fields<'_> {
    #[inline]
    fn take(&mut self) -> &[u8] {
        self.field += 1;
        self.lines.value(self.layout.slot(self.field))
    }

    fn bad(&self) -> Refusal {
        Refusal::new(7, self.field as u32)
    }

    /// A field that may not be blank; no reader here takes an empty text.
    #[inline]
    fn next<T>(&mut self, read: impl FnOnce(&[u8]) -> Option<T>) -> Result<T, Refusal> {
        read(self.take()).ok_or_else(|| self.bad())
    }

    /// A field that may be blank.
    #[inline]
    fn optional<T>(&mut self, read: impl FnOnce(&[u8]) -> Option<T>) -> Result<Option<T>, Refusal> {
        match self.take() {
            [] => Ok(None),
            text => read(text).map(Some).ok_or_else(|| self.bad()),
        }
    }

    /// Reason or note: the walk has seen that its bytes are plain.
    fn text<const N: usize>(&mut self) -> Result<Text<N>, Refusal> {
        self.next(Text::new)
    }

    fn number(&mut self) -> Result<i32, Refusal> {
        self.next(values::number)
    }

    fn date(&mut self) -> Result<Date, Refusal> {
        self.next(Date::read)
    }

    fn span(&mut self) -> Result<Span, Refusal> {
        Ok(Span { start: self.date()?, end: self.date()? })
    }
}
