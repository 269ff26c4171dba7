//! A book as text, over a restart (document 02, A4): `key=value` lines in fixed
//! order, each ended by LF. A line is judged with those above it, and the first bad
//! one is told. Form 1 says of an order only whether it is struck, all of it or none,
//! so a book with an order that is struck in part has no text (A6). The panel's numbers
//! (A7) are not in it: they come with the orders that are read.

use crate::book::{Book, CommandLayout, Order, FIRST_INSTANT, LAST_INSTANT, PLACES};
use crate::stretches::{Stretch, Struck};
use crate::values::{self, MOST_SEQUENCE};
use crate::{keyed, Refusal};
use std::io::Write;

const MOST_AMOUNT: u64 = 999_999_999;

/// Writes the book's text where `out` begins, and gives its length. 20, then 52 where
/// an order is struck in part, then 11 with the length needed; a refusal changes no byte.
pub fn save(book: &Book, out: &mut [u8]) -> Result<usize, Refusal> {
    let orders = book.formed()?;
    let text = text_of(book, orders).ok_or(Refusal::plain(52))?;
    match out.get_mut(..text.len()) {
        Some(room) => room.copy_from_slice(&text),
        None => return Err(Refusal::new(11, text.len() as u32)),
    }
    Ok(text.len())
}

/// The book of a text; 50 with the first bad line, and the zero book.
pub fn load(text: &[u8]) -> (Book, Result<(), Refusal>) {
    let mut lines = Lines { rest: text, number: 0 };
    match lines.book() {
        Some(book) => (book, Ok(())),
        None => (Book::ZERO, Err(Refusal::new(50, lines.number))),
    }
}

/// None where an order is struck in part.
fn text_of(book: &Book, orders: &[Order]) -> Option<Vec<u8>> {
    let mut text = Vec::new();
    put(&mut text, "form", &1);
    put(&mut text, "unit", &String::from_utf8_lossy(book.unit.get()));
    put(&mut text, "floor", &book.floor);
    put(&mut text, "count", &orders.len());
    for order in orders {
        put(&mut text, "number", &order.number);
        put(&mut text, "kind", &if order.layout == CommandLayout::Market { 'M' } else { 'F' });
        put(&mut text, "start", &order.start);
        put(&mut text, "end", &order.end);
        put(&mut text, "var1", &order.variations[0]);
        put(&mut text, "var2", &order.variations[1]);
        put(&mut text, "struck", &all_or_none(order)?);
    }
    Some(text)
}

/// 1 where all of the order is struck, 0 where nothing is. Stretches that meet are one,
/// so an order that several revocations strike whole has one stretch too.
fn all_or_none(order: &Order) -> Option<u8> {
    match order.struck {
        Struck::NOTHING => Some(0),
        struck if struck == Struck::only(order.whole()) => Some(1),
        _ => None,
    }
}

fn put(text: &mut Vec<u8>, key: &str, value: &dyn std::fmt::Display) {
    writeln!(text, "{key}={value}").expect("a vector has room");
}

/// What is left of a text, and the number of the line that was asked for last.
struct Lines<'a> {
    rest: &'a [u8],
    number: u32,
}

impl<'a> Lines<'a> {
    fn book(&mut self) -> Option<Book> {
        self.whole(b"form=", 1, 1)?;
        let unit = values::unit(self.value(b"unit=")?)?;
        let floor = self.whole(b"floor=", 0, u32::MAX.into())?;
        let count = self.whole(b"count=", 0, PLACES as u64)?;
        let mut book = Book { unit, floor: floor as u32, ..Book::ZERO };
        let mut least = 0; // the next number may not be below this
        for place in 0..count as usize {
            let order = self.order(least, floor)?;
            least = order.number + 1;
            book.put_in(place, order);
        }
        if self.rest.is_empty() {
            return Some(book);
        }
        self.number += 1; // one line too many
        None
    }

    /// An order's values are together what some valid CB record gives, and it ends
    /// past the floor.
    fn order(&mut self, least: u64, floor: u64) -> Option<Order> {
        let number = self.whole(b"number=", least, MOST_SEQUENCE)?;
        let (layout, apart) = match self.value(b"kind=")? {
            b"M" => (CommandLayout::Market, 1),
            b"F" => (CommandLayout::Mfrr, 2),
            _ => return None,
        };
        let last = u64::from(LAST_INSTANT);
        let start = self.whole(b"start=", FIRST_INSTANT.into(), last - apart)?;
        let end = self.whole(b"end=", (floor + 1).max(start + apart), last)?;
        let first = self.amount(b"var1=")?;
        let second = self.amount(b"var2=").filter(|&second| layout == CommandLayout::Market || second == 0)?;
        let (start, end) = (start as u32, end as u32);
        let struck = match self.whole(b"struck=", 0, 1)? {
            0 => Struck::NOTHING,
            _ => Struck::only(Stretch { from: start, to: end }),
        };
        Some(Order { number, layout, start, end, variations: [first, second], struck })
    }

    /// The value of the next line, if it has this key and its LF.
    fn value(&mut self, key: &[u8]) -> Option<&'a [u8]> {
        self.number += 1;
        let (value, rest) = keyed::line(self.rest, key)?;
        self.rest = rest;
        Some(value)
    }

    fn whole(&mut self, key: &[u8], least: u64, most: u64) -> Option<u64> {
        whole(self.value(key)?).filter(|value| (least..=most).contains(value))
    }

    /// Thousandths; none is `-0`.
    fn amount(&mut self, key: &[u8]) -> Option<i32> {
        let value = self.value(key)?;
        let (digits, sign, least) = match value.strip_prefix(b"-") {
            Some(digits) => (digits, -1, 1),
            None => (value, 1, 0),
        };
        let size = whole(digits).filter(|size| (least..=MOST_AMOUNT).contains(size))?;
        Some(sign * size as i32)
    }
}

/// Decimal digits without leading zeros; a string too long for a number is none.
fn whole(text: &[u8]) -> Option<u64> {
    let plain = text.iter().all(u8::is_ascii_digit) && (text.len() == 1 || text.first() != Some(&b'0'));
    std::str::from_utf8(text).ok().filter(|_| plain)?.parse().ok()
}

#[cfg(test)]
mod tests {
    use super::*;

    const GOOD: &str = "form=1\nunit=U\nfloor=0\ncount=1\nnumber=7\nkind=M\nstart=790246800\nend=790250400\nvar1=5000\nvar2=-7500\nstruck=0\n";

    fn bad_line(text: &str) -> u32 {
        let (book, answer) = load(text.as_bytes());
        assert_eq!(book, Book::ZERO);
        let refusal = answer.unwrap_err();
        assert_eq!(refusal.number, 50);
        refusal.detail
    }

    #[test]
    fn read_and_written() {
        let (book, answer) = load(GOOD.as_bytes());
        assert_eq!(answer, Ok(()));
        let mut out = [0xaa; 200];
        assert_eq!(save(&book, &mut out), Ok(GOOD.len()));
        assert_eq!(&out[..GOOD.len()], GOOD.as_bytes());
        assert!(out[GOOD.len()..].iter().all(|&byte| byte == 0xaa));
        let mut short = [0xaa; 100];
        assert_eq!(save(&book, &mut short), Err(Refusal::new(11, GOOD.len() as u32)));
        assert_eq!(short, [0xaa; 100]);
        assert_eq!(save(&Book::ZERO, &mut []), Err(Refusal::plain(20)));
    }

    #[test]
    fn first_bad_lines() {
        assert_eq!(bad_line(""), 1);
        assert_eq!(bad_line(&format!("{GOOD}\n")), 12);
        assert_eq!(bad_line(GOOD.trim_end()), 11);
        assert_eq!(bad_line(&GOOD.replace("count=1", "count=2")), 12);
        assert_eq!(bad_line(&GOOD.replace("count=1", "count=0")), 5);
        assert_eq!(bad_line(&GOOD.replace("count=1", "count=18446744073709551617")), 4);
        assert_eq!(bad_line(&GOOD.replace("number=7", "number=07")), 5);
        assert_eq!(bad_line(&GOOD.replace("start=790246800", "start=3155756399")), 7);
        assert_eq!(bad_line(&GOOD.replace("floor=0", "floor=4294967295")), 8);
        assert_eq!(bad_line(&GOOD.replace("floor=0", "floor=790250400")), 8);
        assert_eq!(bad_line(&GOOD.replace("var1=5000", "var1=-0")), 9);
        assert_eq!(bad_line(&GOOD.replace("kind=M", "kind=F")), 10);
        assert_eq!(bad_line(&GOOD.replace("struck=0", "struck=2")), 11);
    }
}
