//! The writer: a valid record gives its written form ("Written form").

use crate::dates::Date;
use crate::layouts::{self, Layout, HALF_BANDS_FIELD, MOST_FIELDS};
use crate::pen::Pen;
use crate::record::*;
use crate::valid;
use crate::words::{NoSuperMaximum, NormalGradient, Type};
use crate::Refusal;

/// No written form is longer: the longest, of the market layout with sixteen
/// bands and all h lines, stays below 3,500 bytes.
pub const MOST_WRITTEN: usize = 4_096;

/// Labels are padded to 36 bytes; `=` and a blank follow.
const LABEL_WIDTH: usize = 36;

/// Writes the record: 12 if it is invalid, then 11 if there is no room.
pub fn write(record: &Record, out: &mut [u8]) -> Result<usize, Refusal> {
    if !valid::is_valid(record) {
        return Err(Refusal::plain(12));
    }
    write_valid(record, out)
}

/// Writes a record known to be valid, as the reader's are.
pub(crate) fn write_valid(record: &Record, out: &mut [u8]) -> Result<usize, Refusal> {
    if out.len() >= MOST_WRITTEN {
        return Ok(compose(record, out));
    }
    // The form may not fit, and a refusal changes no byte: it is made aside.
    let mut aside = [0; MOST_WRITTEN];
    let length = compose(record, &mut aside);
    match out.get_mut(..length) {
        Some(room) => {
            room.copy_from_slice(&aside[..length]);
            Ok(length)
        }
        None => Err(Refusal::new(11, length as u32)),
    }
}

fn compose(record: &Record, out: &mut [u8]) -> usize {
    let kind = record.kind();
    let layout = layouts::layout(kind, record.is_mfrr());
    let mut page = Page { pen: Pen { out, at: 0 }, layout, field: 0, places: [(0, 0); MOST_FIELDS] };
    page.pen.put(layout.banner);
    page.line(|pen| pen.identifier(kind, record.number));
    page.text(record.unit.get());
    body(&mut page, &record.body);
    page.finish(kind)
}

fn body(page: &mut Page, body: &Body) {
    match body {
        Body::Market(order) => market(page, order),
        Body::Mfrr(order) => {
            page.span(&order.first);
            page.span(&order.second);
            page.number(Some(order.variation));
            page.text(order.auction.word());
            order.programs.iter().for_each(|&program| page.number(Some(program)));
        }
        Body::Revocation { span, sequence } => {
            page.span(span);
            page.line(|pen| pen.decimal(*sequence));
        }
        Body::Generic { span, reason, note, created } => {
            page.span(span);
            page.text(reason.get());
            page.text(note.get());
            page.date(Some(*created));
        }
        Body::Exclusion { span, reason, note, readmitted, created } => {
            page.span(span);
            page.text(reason.get());
            page.text(note.get());
            page.text(readmitted.word());
            page.date(Some(*created));
        }
        Body::Limitation(limits) => {
            page.span(&limits.span);
            page.number(limits.maximum);
            page.number(limits.minimum);
            page.text(limits.reason.get());
            page.text(limits.note.get());
            page.text(limits.restored.word());
            page.date(Some(limits.created));
        }
        Body::Secondary { span, operation, half_bands, reason, note, created } => {
            page.span(span);
            page.text(operation.word());
            page.line(|pen| half_bands.iter().for_each(|bands| pen.numbers(&[bands.up, bands.down], b";")));
            page.text(reason.get());
            page.text(note.get());
            page.date(Some(*created));
        }
        Body::Voltage(voltage) => self::voltage(page, voltage),
        Body::Refused { span, reason, note } => {
            page.span(span);
            page.text(reason.get());
            page.text(note.get());
        }
        Body::Reserved { span, reserve, quantity, up_to, note, created } => {
            page.span(span);
            page.text(reserve.word());
            page.number(*quantity);
            page.text(up_to.map_or(b"", |up_to| up_to.word()));
            page.text(note.get());
            page.date(Some(*created));
        }
    }
}

fn market(page: &mut Page, order: &Market) {
    page.span(&order.span);
    page.number(Some(order.variation.initial));
    page.number(Some(order.variation.last));
    page.text(NormalGradient::Normal.word());
    page.text(order.continuation.word());
    page.text(NoSuperMaximum::No.word());
    page.number(Some(order.program.initial));
    page.number(Some(order.program.last));
    page.text(order.joining.word());
    page.number(order.start_up_time);
    page.number(order.ramp_time);
    page.text(order.final_program.initial.word());
    page.text(order.final_program.last.word());
    page.date(Some(order.reference));
    page.text(order.origin.word());
    page.date(order.updated);
    for profile in &order.profiles {
        page.line(|pen| profile.iter().for_each(|profile| pen.numbers(profile.get(), b";")));
    }
    page.line(|pen| {
        for (place, band) in order.gradients.get().iter().enumerate() {
            if place > 0 {
                pen.put(b";");
            }
            pen.numbers(&[band.low, band.high, band.gradient], b",");
        }
    });
}

fn voltage(page: &mut Page, voltage: &Voltage) {
    page.date(Some(voltage.start));
    page.date(voltage.end);
    page.text(voltage.state.map_or(b"", |state| state.word()));
    page.text(voltage.mode.word());
    page.text(voltage.regulation.map_or(b"", |regulation| regulation.word()));
    page.line(|pen| match voltage.sart {
        Some(Setting::At(Kilovolts(value))) => pen.number(value),
        Some(Setting::To(extreme)) => pen.put(extreme.word()),
        None => {}
    });
    page.line(|pen| match voltage.rat {
        Some(Setting::At(RatPercent(value))) => pen.number(value),
        Some(Setting::To(extreme)) => pen.put(extreme.word()),
        None => {}
    });
    page.number(voltage.change.map(|ChangePercent(value)| value));
    page.line(|pen| match voltage.reactive {
        Some(Reactive::At(Megavars(value))) => pen.number(value),
        Some(Reactive::To(word)) => pen.put(word.word()),
        None => {}
    });
    page.text(voltage.note.get());
    page.date(Some(voltage.created));
}

/// The message under the pen: lines in printed order, and where their values lie,
/// since the row repeats them.
struct Page<'a> {
    pen: Pen<'a>,
    layout: &'static Layout,
    field: usize,
    places: [(u16, u16); MOST_FIELDS],
}

impl Page<'_> {
    /// The next label with its value; a blank value leaves no blank after `=`.
    #[inline]
    fn line(&mut self, value: impl FnOnce(&mut Pen)) {
        let label = self.layout.labels[self.field];
        let line = &mut self.pen.out[self.pen.at..][..LABEL_WIDTH + 2];
        line[..label.len()].copy_from_slice(label);
        line[label.len()..LABEL_WIDTH].fill(b' ');
        line[LABEL_WIDTH..].copy_from_slice(b"= ");
        self.pen.at += LABEL_WIDTH + 2;
        let start = self.pen.at;
        value(&mut self.pen);
        self.places[self.field] = (start as u16, self.pen.at as u16);
        self.field += 1;
        if self.pen.at == start {
            self.pen.at -= 1;
        }
        self.pen.put(b"\n");
    }

    fn text(&mut self, text: &[u8]) {
        self.line(|pen| pen.put(text));
    }

    fn number(&mut self, number: Option<i32>) {
        self.line(|pen| number.into_iter().for_each(|number| pen.number(number)));
    }

    fn date(&mut self, date: Option<Date>) {
        self.line(|pen| date.iter().for_each(|date| pen.put(&date.written())));
    }

    fn span(&mut self, span: &Span) {
        self.date(Some(span.start));
        self.date(Some(span.end));
    }

    /// Separators and row; gives the length of the whole.
    fn finish(mut self, kind: Type) -> usize {
        self.pen.put(b"+++++\n");
        for (place, &field) in self.layout.row.iter().enumerate() {
            if place > 0 {
                self.pen.put(b";");
            }
            let (start, end) = self.places[usize::from(field) - 1];
            if start == end && kind == Type::Sr && usize::from(field) == HALF_BANDS_FIELD {
                self.pen.put(b";"); // two empty values
            }
            self.pen.out.copy_within(usize::from(start)..usize::from(end), self.pen.at);
            self.pen.at += usize::from(end - start);
        }
        self.pen.put(b"\n+++++\n");
        self.pen.at
    }
}
