//! Whether a record that a caller built is valid ("A record is valid when its
//! fields obey the above and its texts are trimmed"; "unused room is zero").
//! What the types already rule out, such as a wrong word, needs no look here.

use crate::dates::Date;
use crate::lists::{Band, Gradients, Profile};
use crate::record::*;
use crate::rules;
use crate::values::{is_plain, is_unit, trim, Text, Unit, MOST_SEQUENCE, MOST_THOUSANDTHS};

pub fn is_valid(record: &Record) -> bool {
    record.number <= MOST_SEQUENCE && unit(&record.unit) && body(&record.body) && rules::broken(&record.body).is_none()
}

/// A good unit code with its unused room zero; the book asks this too.
pub fn unit(unit: &Unit) -> bool {
    unit.is_kept_well() && is_unit(unit.get())
}

pub fn number(number: i32) -> bool {
    (-MOST_THOUSANDTHS..=MOST_THOUSANDTHS).contains(&number)
}

fn body(body: &Body) -> bool {
    match body {
        Body::Market(order) => market(order),
        Body::Mfrr(order) => {
            span(&order.first)
                && span(&order.second)
                && number(order.variation)
                && order.programs.into_iter().all(number)
        }
        Body::Revocation { span: dates, sequence } => span(dates) && *sequence <= MOST_SEQUENCE,
        Body::Generic { span: dates, reason, note, created } => {
            span(dates) && text(reason) && text(note) && created.is_valid()
        }
        Body::Exclusion { span: dates, reason, note, readmitted: _, created } => {
            span(dates) && text(reason) && text(note) && created.is_valid()
        }
        Body::Limitation(limits) => {
            span(&limits.span)
                && limits.maximum.is_none_or(number)
                && limits.minimum.is_none_or(number)
                && text(&limits.reason)
                && text(&limits.note)
                && limits.created.is_valid()
        }
        Body::Secondary { span: dates, operation: _, half_bands, reason, note, created } => {
            span(dates)
                && half_bands.is_none_or(|bands| number(bands.up) && number(bands.down))
                && text(reason)
                && text(note)
                && created.is_valid()
        }
        Body::Voltage(voltage) => self::voltage(voltage),
        Body::Refused { span: dates, reason, note } => span(dates) && text(reason) && text(note),
        Body::Reserved { span: dates, reserve: _, quantity, up_to: _, note, created } => {
            span(dates) && quantity.is_none_or(number) && text(note) && created.is_valid()
        }
    }
}

fn market(order: &Market) -> bool {
    span(&order.span)
        && number(order.variation.initial)
        && number(order.variation.last)
        && number(order.program.initial)
        && number(order.program.last)
        && order.start_up_time.is_none_or(number)
        && order.ramp_time.is_none_or(number)
        && order.reference.is_valid()
        && order.updated.is_none_or(Date::is_valid)
        && order.profiles.iter().flatten().all(profile)
        && gradients(&order.gradients)
}

fn profile(profile: &Profile) -> bool {
    divided(&profile.numbers, profile.count)
        .is_some_and(|(used, unused)| used.iter().copied().all(number) && unused.iter().all(|&number| number == 0))
}

fn gradients(gradients: &Gradients) -> bool {
    divided(&gradients.bands, gradients.count).is_some_and(|(used, unused)| {
        used.iter().all(|band| number(band.low) && number(band.high) && number(band.gradient))
            && unused.iter().all(|band| *band == Band { low: 0, high: 0, gradient: 0 })
    })
}

/// The places of a list that its count says are in use, and the others; a list
/// has one at least, and no more than the room.
fn divided<T>(places: &[T], count: u8) -> Option<(&[T], &[T])> {
    let count = usize::from(count);
    (1..=places.len()).contains(&count).then(|| places.split_at(count))
}

fn voltage(voltage: &Voltage) -> bool {
    let sart = match voltage.sart {
        Some(Setting::At(Kilovolts(value))) => number(value),
        _ => true,
    };
    let rat = match voltage.rat {
        Some(Setting::At(RatPercent(value))) => number(value),
        _ => true,
    };
    let reactive = match voltage.reactive {
        Some(Reactive::At(Megavars(value))) => number(value),
        _ => true,
    };
    voltage.start.is_valid()
        && voltage.end.is_none_or(Date::is_valid)
        && sart
        && rat
        && voltage.change.is_none_or(|ChangePercent(value)| number(value))
        && reactive
        && text(&voltage.note)
        && voltage.created.is_valid()
}

fn span(span: &Span) -> bool {
    span.start.is_valid() && span.end.is_valid()
}

/// A reason or note: plain bytes, trimmed, unused room zero.
fn text<const N: usize>(text: &Text<N>) -> bool {
    let bytes = text.get();
    text.is_kept_well() && bytes.iter().all(|&byte| is_plain(byte)) && trim(bytes).len() == bytes.len()
}
