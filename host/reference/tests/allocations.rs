//! The entries, the writer, the book and its day allocate nothing. (The counting
//! allocator needs `unsafe`, which only the library forbids.)

mod common;

use common::*;
use halimpung_reference::*;
use std::alloc::{GlobalAlloc, Layout, System};
use std::sync::atomic::{AtomicUsize, Ordering};

static COUNT: AtomicUsize = AtomicUsize::new(0);

struct Counting;

unsafe impl GlobalAlloc for Counting {
    unsafe fn alloc(&self, layout: Layout) -> *mut u8 {
        COUNT.fetch_add(1, Ordering::Relaxed);
        System.alloc(layout)
    }

    unsafe fn dealloc(&self, place: *mut u8, layout: Layout) {
        System.dealloc(place, layout)
    }
}

#[global_allocator]
static ALLOCATOR: Counting = Counting;

#[test]
fn none() {
    let plans: Vec<String> = SAMPLES.iter().map(|(code, _)| plan(code)).collect();
    let accented: Vec<u8> = bytes(&SAMPLES[QR].1.replace("Quantita", "Quantità"));
    let mut out = [0; 8192];
    let (mut book, _) = Book::fresh(b"UP_PROVA_1");
    let mut revoked = read_as(MARKET, SAMPLES[MARKET].1).unwrap();
    revoked.number = 17; // which the revocation names
    book.hold(&revoked).unwrap();
    let before = COUNT.load(Ordering::Relaxed);
    for (plan, (_, file)) in plans.iter().zip(SAMPLES) {
        let (plan, file) = (plan.as_bytes(), file.as_bytes());
        assert!(read_entry(7, 300, plan, file, &mut out) < 65_536);
        assert!(normalise_entry(7, 300, plan, file, &mut out) < 65_536);
        assert!(normalise_entry(7, 300, plan, file, &mut out[..9]) >= 65_536);
        let record = read(7, 300, plan, file).unwrap();
        assert!(write(&record, &mut out).is_ok());
        let (day, answer) = Daybook::without_day(book).choose(revoked.dates().0.instant());
        assert!(answer.is_ok());
        assert_ne!(day.summary.unwrap().entries, [None; day::QUARTERS]);
        let day = day.command(&record).0.revoke(&record).0.close(1).0;
        book = book.command(&record).0.revoke(&record).0.close(1).0.in_force(1).0.panel().0;
        assert_eq!(day.book, book);
    }
    assert!(normalise_entry(7, 300, plans[QR].as_bytes(), &accented, &mut out) < 65_536);
    assert!(normalise_entry(7, 300, plans[VQ].as_bytes(), &accented, &mut out) >> 16 == 3);
    assert_ne!(book.orders[0].struck, stretches::Struck::NOTHING);
    assert!(book.held > 1);
    assert_eq!(COUNT.load(Ordering::Relaxed), before);
}
