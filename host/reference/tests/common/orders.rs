//! Commands and revocations of one day, by seconds after its first instant.

use super::*;
use halimpung_reference::dates::Date;
use halimpung_reference::record::{Body, Span};

/// 15-01-2025 10:00:00 S.
pub const T: u32 = 790_246_800;
pub const HOUR: u32 = 3_600;

/// From so many seconds after T to so many.
pub fn span(from: u32, to: u32) -> Span {
    let [start, end] = [from, to].map(|passed| {
        let text = format!("15-01-2025 {:02}:{:02}:{:02} S", 10 + passed / HOUR, passed / 60 % 60, passed % 60);
        Date::read(text.as_bytes()).unwrap()
    });
    assert_eq!((start.instant(), end.instant()), (T + from, T + to));
    Span { start, end }
}

pub fn command(number: u64, from: u32, to: u32) -> Record {
    let mut record = read_as(MARKET, SAMPLES[MARKET].1).unwrap();
    record.number = number;
    let Body::Market(order) = &mut record.body else { unreachable!() };
    order.span = span(from, to);
    record
}

/// Of the order with this number.
pub fn revocation_of(number: u64, from: u32, to: u32) -> Record {
    let mut record = read_as(RC, SAMPLES[RC].1).unwrap();
    record.body = Body::Revocation { span: span(from, to), sequence: number };
    record
}
