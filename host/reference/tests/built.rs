//! Records and books that a caller built: what no file could give is refused.

mod common;

use common::*;
use halimpung_reference::book::{CommandLayout, Order};
use halimpung_reference::lists::Profile;
use halimpung_reference::record::*;
use halimpung_reference::stretches::{Stretch, Struck};
use halimpung_reference::*;

fn is_refused(record: Record) {
    let mut out = [0xaa; 8192];
    assert_eq!(write(&record, &mut out), Err(Refusal::plain(12)), "{record:?}");
    assert!(out.iter().all(|&byte| byte == 0xaa));
    assert_eq!(Book::fresh(b"UP_PROVA_1").0.command(&record).1, Err(Refusal::plain(12)));
}

fn sample(place: usize) -> Record {
    read_as(place, SAMPLES[place].1).unwrap()
}

/// The sample with one thing spoilt.
fn spoilt(place: usize, spoil: impl FnOnce(&mut Record)) {
    let mut record = sample(place);
    spoil(&mut record);
    is_refused(record);
}

fn market(spoil: impl FnOnce(&mut Market)) {
    spoilt(MARKET, |record| match &mut record.body {
        Body::Market(order) => spoil(order),
        _ => unreachable!(),
    });
}

fn generic(spoil: impl FnOnce(&mut halimpung_reference::values::Reason)) {
    spoilt(MG, |record| match &mut record.body {
        Body::Generic { reason, .. } => spoil(reason),
        _ => unreachable!(),
    });
}

#[test]
fn invalid_records() {
    spoilt(RC, |record| record.number = 10_000_000_000);
    spoilt(RC, |record| record.unit.length = 0);
    spoilt(RC, |record| record.unit.length = 17);
    spoilt(RC, |record| record.unit.bytes[15] = b'A');
    spoilt(RC, |record| record.unit.bytes[0] = b'-');
    spoilt(RC, |record| match &mut record.body {
        Body::Revocation { sequence, .. } => *sequence = 10_000_000_000,
        _ => unreachable!(),
    });
    market(|order| order.span.start.month = 0);
    market(|order| order.span.start.month = 13);
    market(|order| order.span.end.day = 32);
    market(|order| order.reference.year = 2000);
    market(|order| order.span.end = order.span.start);
    market(|order| order.updated = None);
    market(|order| order.variation.last = 1_000_000_000);
    market(|order| order.ramp_time = Some(i32::MIN));
    market(|order| order.profiles[0] = order.profiles[5]);
    market(|order| order.profiles[5] = Some(Profile { numbers: [1_000_000_000, 0, 0, 0], count: 4 }));
    market(|order| order.gradients.count = 0);
    market(|order| order.gradients.count = 17);
    market(|order| order.gradients.count = 2);
    market(|order| order.gradients.count = 4);
    market(|order| order.gradients.bands[1].gradient = 0);
    generic(|reason| reason.length = 129);
    generic(|reason| reason.length -= 1);
    generic(|reason| reason.bytes[0] = b' ');
    generic(|reason| reason.bytes[3] = b'\n');
    generic(|reason| reason.bytes[127] = b'x');
    spoilt(VQ, |record| match &mut record.body {
        Body::Voltage(voltage) => voltage.rat = Some(Setting::At(RatPercent(1_000_000_000))),
        _ => unreachable!(),
    });
    spoilt(VQ, |record| match &mut record.body {
        Body::Voltage(voltage) => voltage.sart = Some(Setting::At(Kilovolts(1_000))),
        _ => unreachable!(),
    });
}

/// Reading 77: the record keeps how many numbers an h line has, and the others are zero.
#[test]
fn counts_and_spare_numbers_of_a_profile() {
    let first = |profile| market(move |order| order.profiles[4] = Some(profile));
    first(Profile { numbers: [100, 200, 0, 1], count: 2 });
    first(Profile { numbers: [100, 1, 0, 0], count: 1 });
    first(Profile { numbers: [0, 0, 0, -1], count: 3 });
    for count in [0, 5, 255] {
        first(Profile { numbers: [0; 4], count });
    }
    // rule 3: only the first filled line may be short
    market(|order| order.profiles[5] = Some(Profile { numbers: [100, 200, 300, 0], count: 3 }));

    let mut record = sample(MARKET);
    let Body::Market(order) = &mut record.body else { unreachable!() };
    order.profiles[4] = Some(Profile { numbers: [100, 0, 0, 0], count: 2 });
    let mut out = [0; 8192];
    let length = write(&record, &mut out).unwrap();
    assert_eq!(read_as(MARKET, std::str::from_utf8(&out[..length]).unwrap()), Ok(record));
}

#[test]
fn the_longest_written_form() {
    let mut record = sample(MARKET);
    let Body::Market(order) = &mut record.body else { unreachable!() };
    let least = -999_999_999;
    order.variation = Ends { initial: least, last: least };
    order.program = order.variation;
    order.start_up_time = Some(least);
    order.ramp_time = Some(least);
    order.profiles = [Some(Profile { numbers: [least; 4], count: 4 }); 6];
    order.gradients.count = 16;
    order.gradients.bands.fill(lists::Band { low: least, high: least, gradient: 999_999_999 });
    record.unit = values::unit(b"ABCDEFGHIJKLMNOP").unwrap();
    let mut out = [0; 8192];
    let length = write(&record, &mut out).unwrap();
    assert!(length <= writer::MOST_WRITTEN, "{length}");
    let plan = plan("CB").replace("UP_PROVA_1", "ABCDEFGHIJKLMNOP");
    assert_eq!(read(7, 300, plan.as_bytes(), &out[..length]), Ok(record));
}

fn held() -> Book {
    let mut record = sample(MARKET);
    let (mut book, _) = Book::fresh(b"UP_PROVA_1");
    for number in [7, 3, 9_999_999_999] {
        record.number = number;
        book.hold(&record).unwrap();
    }
    record = sample(MFRR);
    book.hold(&record).unwrap();
    book
}

fn is_malformed(book: Book) {
    let bad = Refusal::plain(20);
    assert_eq!(book.command(&sample(MARKET)), (book, Err(bad)));
    assert_eq!(book.revoke(&sample(RC)), (book, Err(bad)));
    assert_eq!(book.close(5), (book, Err(bad)));
    assert_eq!(book.in_force(5), (book, Err(bad)));
    assert_eq!(book.panel(), (book, Err(bad)));
    assert_eq!(saved::save(&book, &mut []), Err(bad));
}

/// The book with both of the panel's numbers as its first places, up to an empty one,
/// have them.
fn numbered(mut book: Book) -> Book {
    let ends = || book.orders.iter().map(|order| order.end).take_while(|&end| end != 0);
    (book.held, book.next_end) = (ends().count(), ends().min().unwrap_or(0));
    book
}

/// A book with one thing wrong, the panel's numbers aside: with those that the orders
/// had, and with those that they have.
fn is_malformed_by_its_orders(book: Book) {
    is_malformed(book);
    is_malformed(numbered(book));
}

#[test]
fn malformed_books() {
    let spoilt = |spoil: fn(&mut Book)| {
        let mut book = held();
        assert!(book.in_force(0).1.is_ok());
        spoil(&mut book);
        is_malformed_by_its_orders(book);
    };
    spoilt(|book| *book = Book::ZERO);
    spoilt(|book| *book = Book::fresh(b"A-B").0);
    spoilt(|book| book.unit.bytes[15] = 1);
    spoilt(|book| book.unit.length = 200);
    spoilt(|book| book.orders.swap(0, 1));
    spoilt(|book| book.orders[1].number = 3);
    spoilt(|book| book.orders[3].number += 1);
    spoilt(|book| book.orders.swap(3, 4));
    spoilt(|book| book.orders[1] = Order::EMPTY);
    spoilt(|book| book.orders[50].number = 1);
    spoilt(|book| book.orders[50].struck = Struck::only(book.orders[0].whole()));
    spoilt(|book| book.orders[50].struck.0[3].from = 1);
    spoilt(|book| book.orders[50].layout = CommandLayout::Mfrr);
    spoilt(|book| book.floor = book.orders[0].end);
    spoilt(|book| book.orders[0].start = book.orders[0].end);
    spoilt(|book| book.orders[0].start = 31_615_199);
    spoilt(|book| book.orders[0].end = 3_155_756_400);
    spoilt(|book| book.orders[0].variations[0] = 1_000_000_000);
    spoilt(|book| book.orders[2].variations[1] = 1); // the mFRR order
    spoilt(|book| book.orders[2].end = book.orders[2].start + 1);
    let mut book = held();
    assert_eq!(book.orders[2].layout, CommandLayout::Mfrr);
    book.orders[2].end = book.orders[2].start + 2;
    book.orders[0].start = 31_615_200;
    book.orders[0].end = 3_155_756_399;
    is_malformed(book);
    assert!(numbered(book).in_force(0).1.is_ok());
}

/// A7: the two numbers are those of the held orders.
#[test]
fn wrong_panel_numbers() {
    let spoilt = |book: Book, spoil: fn(&mut Book)| {
        assert_eq!(numbered(book), book);
        assert!(book.panel().1.is_ok());
        let mut wrong = book;
        spoil(&mut wrong);
        is_malformed(wrong);
        assert!(numbered(wrong).panel().1.is_ok()); // nothing else is wrong
    };
    let fresh = Book::fresh(b"UP_PROVA_1").0;
    let four = held();
    assert_eq!((four.held, four.next_end), (4, four.orders[2].end));
    assert!(four.next_end < four.orders[0].end);
    for book in [four, fresh] {
        spoilt(book, |book| book.held += 1);
        spoilt(book, |book| book.held = 96);
        spoilt(book, |book| book.held = 97);
        spoilt(book, |book| book.held = usize::MAX);
        spoilt(book, |book| book.next_end += 1);
        spoilt(book, |book| book.next_end = u32::MAX);
    }
    spoilt(four, |book| book.held -= 1);
    spoilt(four, |book| book.held = 0);
    spoilt(four, |book| book.next_end -= 1);
    spoilt(four, |book| book.next_end = 0);
    spoilt(four, |book| book.next_end = book.orders[0].end); // not the least
    spoilt(four, |book| book.next_end = book.orders[2].start);
    spoilt(four, |book| (book.held, book.next_end) = (0, 0));
    // other orders, the numbers as they were
    spoilt(four, |book| book.orders[3] = Order::EMPTY);
    spoilt(fresh, |book| book.orders = held().orders);
    spoilt(four, |book| (0..4).for_each(|place| book.orders[place].end += 1));
    // nothing held ends with the floor
    spoilt(fresh.close(5).0, |book| book.next_end = 5);
}

/// A6: stretches that no revocations leave, of the first order; in seconds after its start.
#[test]
fn malformed_stretches() {
    let struck = |pairs: &[(u32, u32)]| {
        let mut book = held();
        let order = &mut book.orders[0];
        assert_eq!(order.end - order.start, 1_800);
        for (place, &(from, to)) in order.struck.0.iter_mut().zip(pairs) {
            *place = Stretch { from: order.start + from, to: order.start + to };
        }
        book
    };
    for good in [&[(0, 1_800)][..], &[(0, 1), (2, 3), (4, 5), (6, 1_800)], &[(10, 20), (21, 30)]] {
        assert!(struck(good).in_force(0).1.is_ok(), "{good:?}");
    }
    is_malformed(struck(&[(10, 10)]));
    is_malformed(struck(&[(20, 10)]));
    is_malformed(struck(&[(10, 1_801)]));
    is_malformed(struck(&[(30, 40), (10, 20)]));
    is_malformed(struck(&[(10, 20), (15, 30)]));
    is_malformed(struck(&[(10, 20), (20, 30)])); // touching ones are one
    is_malformed(struck(&[(10, 20), (10, 20)]));
    let spoilt = |spoil: fn(&mut Order)| {
        let mut book = struck(&[(10, 20), (30, 40)]);
        spoil(&mut book.orders[0]);
        is_malformed_by_its_orders(book);
    };
    spoilt(|order| order.struck.0[0].from = order.start - 1);
    spoilt(|order| order.struck.0[0] = Stretch::UNUSED); // the first places are filled
    spoilt(|order| order.struck.0[3] = Stretch { from: order.start + 50, to: order.start + 60 });
    spoilt(|order| order.struck.0[2].from = 1);
    spoilt(|order| order.struck.0[2].to = 1);
    spoilt(|order| order.struck.0[1].to = 0);
    spoilt(|order| order.start += 11); // its first stretch sticks out
    spoilt(|order| order.end = order.start + 39);
}

#[test]
fn order_of_the_book_s_refusals() {
    let book = held();
    let answer = |book: Book, record: &Record| book.command(record).1.unwrap_err().number;
    let mut record = sample(MARKET);
    let (closed, _) = book.close(790_248_600);
    assert_eq!(answer(book, &sample(RC)), 29);
    record.unit = values::unit(b"up_prova_1").unwrap();
    assert_eq!(answer(closed, &record), 21);
    record.unit = book.unit;
    record.number = 7;
    assert_eq!(answer(book, &record), 22);
    assert_eq!(answer(closed, &record), 23);
    assert_eq!(book.revoke(&record).1, Err(Refusal::plain(29)));
    assert_eq!(book.revoke(&sample(RC)).1, Err(Refusal::plain(25)));
}

#[test]
fn times() {
    let sheet = b"unit=UP_PROVA_1\navviamento=60\nrampa=-007.5\n";
    let plan = plan("CB");
    let file = SAMPLES[MARKET].1.as_bytes();
    let start_up = start_up_time(7, 300, plan.as_bytes(), file, sheet).unwrap();
    assert_eq!((start_up.source, start_up.bytes), (times::Source::File, &b"45"[..]));
    assert_eq!(&file[start_up.start..][..2], b"45");
    let ramp = ramp_time(7, 300, plan.as_bytes(), file, sheet).unwrap();
    assert_eq!((ramp.source, ramp.start, ramp.bytes), (times::Source::Sheet, 36, &b"-007.5"[..]));
    for bad in ["", "unit=OTHER\navviamento=60\nrampa=7\n", "unit=UP_PROVA_1\navviamento=60\nrampa=\n"] {
        assert_eq!(start_up_time(7, 300, plan.as_bytes(), file, bad.as_bytes()), Err(Refusal::plain(14)));
    }
    let mfrr = SAMPLES[MFRR].1.as_bytes();
    assert_eq!(ramp_time(7, 300, plan.as_bytes(), mfrr, b""), Err(Refusal::plain(16)));
    assert_eq!(ramp_time(7, 301, plan.as_bytes(), mfrr, b""), Err(Refusal::plain(1)));
}
