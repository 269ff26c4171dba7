//! Request A7 of document 02, what the panel asks every second: its readings by their
//! numbers. Books that a caller built stand in `built.rs`.

mod common;

use common::orders::*;
use common::*;
use halimpung_reference::*;

fn fresh() -> Book {
    Book::fresh(b"UP_PROVA_1").0
}

/// A book of these orders: number and end, in seconds after T; all start at T.
fn holding(orders: &[(u64, u32)]) -> Book {
    orders.iter().fold(fresh(), |book, &(number, end)| after(book.command(&command(number, 0, end))))
}

fn after((book, answer): (Book, Result<(), Refusal>)) -> Book {
    assert_eq!(answer, Ok(()));
    book
}

/// The panel shows so many held, and the next end so many seconds after T. It hands the
/// same book back.
fn shows(book: &Book, held: usize, end: u32) {
    assert_eq!(book.panel(), (*book, Ok(Panel { held, next_end: T + end })));
}

fn shows_nothing(book: &Book) {
    assert_eq!(book.panel(), (*book, Ok(Panel { held: 0, next_end: 0 })));
}

/// 39: with nothing held the next end is 0, not the floor.
#[test]
fn nothing_held() {
    shows_nothing(&fresh());
    shows_nothing(&after(fresh().close(T)));
    shows_nothing(&after(holding(&[(1, 60)]).close(T + 60)));
    shows_nothing(&after(holding(&[(1, 60), (2, 30)]).close(u32::MAX)));
}

/// 39: the least end, wherever its order stands, started or not.
#[test]
fn ends_out_of_number_order() {
    shows(&holding(&[(5, 300)]), 1, 300);
    for orders in [[(5, 300), (9, 100), (2, 200)], [(9, 100), (2, 200), (5, 300)], [(2, 200), (5, 300), (9, 100)]] {
        shows(&holding(&orders), 3, 100);
    }
    shows(&holding(&[(1, 100), (2, 200)]), 2, 100);
    shows(&holding(&[(1, 200), (2, 100)]), 2, 100);
    shows(&holding(&[(1, 100), (2, 100)]), 2, 100);
    let later = after(holding(&[(1, 2 * HOUR)]).command(&command(2, HOUR, HOUR + 1)));
    shows(&later, 2, HOUR + 1);
}

/// An order whose ramps are mFRR's ends at its TFIN2.
#[test]
fn an_mfrr_order() {
    let mfrr = read_as(MFRR, SAMPLES[MFRR].1).unwrap();
    let (book, answer) = fresh().command(&mfrr);
    assert_eq!(answer, Ok(()));
    let end = mfrr.dates().1.unwrap().instant();
    assert_eq!(book.shown(), Ok(Panel { held: 1, next_end: end }));
}

#[test]
fn a_close_removes_the_next() {
    let three = holding(&[(1, 300), (2, 100), (3, 200)]);
    shows(&after(three.close(T + 99)), 3, 100);
    let two = after(three.close(T + 100));
    shows(&two, 2, 200);
    shows(&after(two.close(T + 100)), 2, 200);
    shows(&after(two.close(T + 200)), 1, 300);
    shows(&after(three.close(T + 299)), 1, 300);
    shows_nothing(&after(three.close(T + 300)));
    // of several that end together, and one that is not the last place
    let together = after(holding(&[(1, 100), (2, 300), (3, 100), (4, 200)]).close(T + 100));
    shows(&together, 2, 200);
    shows(&after(together.command(&command(1, 0, 150))), 3, 150);
    shows(&after(together.command(&command(5, 0, 400))), 3, 200);
}

/// 38, 39: a struck order is held until it is closed, and no strike moves its end.
#[test]
fn struck_orders_count() {
    let one = holding(&[(17, 100)]);
    let struck = after(one.revoke(&revocation_of(17, 0, 100)));
    assert_eq!(struck.in_force_at(T), Ok(None));
    shows(&struck, 1, 100);
    shows(&after(one.revoke(&revocation_of(17, 50, 100))), 1, 100); // its last part
    shows(&after(struck.command(&command(18, 0, 200))), 2, 100);
    shows(&after(struck.close(T + 99)), 1, 100);
    shows_nothing(&after(struck.close(T + 100)));
    let two = after(holding(&[(17, 100), (18, 200)]).revoke(&revocation_of(18, 0, 200)));
    shows(&after(two.close(T + 100)), 1, 200);
}

/// A refused call leaves both, and so does a question.
#[test]
fn what_is_refused() {
    let book = after(holding(&[(1, 300), (2, 200), (3, 100)]).close(T + 100));
    let refused = |(next, answer): (Book, Result<(), Refusal>), number| {
        assert_eq!((next, answer), (book, Err(Refusal::plain(number))));
        shows(&next, 2, 200);
    };
    refused(book.command(&command(1, 0, 150)), 22);
    refused(book.command(&command(4, 0, 100)), 23);
    refused(book.revoke(&revocation_of(3, 0, 100)), 25);
    refused(book.revoke(&revocation_of(1, 0, 301)), 31);
    refused(book.close(T + 99), 27);
    shows(&book.in_force(T + 150).0, 2, 200);
    shows(&book.in_force(T).0, 2, 200);
    let full = (0..96).fold(fresh(), |book, number| after(book.command(&command(number, 0, 200 - number as u32))));
    shows(&full, 96, 105);
    let (same, answer) = full.command(&command(96, 0, 1));
    assert_eq!(answer, Err(Refusal::plain(24)));
    shows(&same, 96, 105);
}

/// 40: the panel on the all-zero book.
#[test]
fn the_zero_book() {
    assert_eq!(Book::ZERO.panel(), (Book::ZERO, Err(Refusal::plain(20))));
    assert_eq!(Book::fresh(b"A-B").0.panel().1, Err(Refusal::plain(20)));
    assert_eq!(saved::load(b"").0.panel().1, Err(Refusal::plain(20)));
}

/// A book read back has both numbers of its orders.
#[test]
fn a_book_read_back() {
    let struck = after(holding(&[(17, 100), (18, 50), (19, 200)]).revoke(&revocation_of(18, 0, 50)));
    for book in [fresh(), holding(&[(1, 300), (2, 100), (3, 200)]), struck, after(struck.close(T + 50))] {
        let mut out = [0; 4_096];
        let length = saved::save(&book, &mut out).unwrap();
        assert_eq!(saved::load(&out[..length]), (book, Ok(())));
        assert_eq!(saved::load(&out[..length]).0.shown(), book.shown());
    }
    shows(&after(struck.close(T + 50)), 2, 100);
}

/// Runs of calls of all kinds: after each the numbers are those of the orders taken and
/// not yet closed, which are kept here beside the book.
#[test]
fn true_after_every_call() {
    const NUMBERS: u64 = 12;
    let mut dice = 0x9e37_79b9_7f4a_7c15_u64;
    let mut below = |most: u64| {
        dice = dice.wrapping_mul(6_364_136_223_846_793_005).wrapping_add(1);
        (dice >> 33) % most
    };
    for _ in 0..100 {
        let (mut book, mut held) = (fresh(), Vec::<(u64, u32)>::new());
        let mut floor = 0;
        for _ in 0..60 {
            let (number, end) = (below(NUMBERS), 2 + below(300) as u32);
            let answer = match below(8) {
                0..=3 => book.hold(&command(number, 1, end)).map(|()| held.push((number, end))),
                4..=5 => book.strike(&revocation_of(number, 1, end)),
                _ => {
                    floor += below(40) as u32;
                    held.retain(|&(_, end)| end > floor);
                    book.close_at(T + floor)
                }
            };
            assert!(answer.is_ok() || [22, 23, 25, 26, 31].contains(&answer.unwrap_err().number));
            match held.iter().map(|&(_, end)| end).min() {
                Some(end) => shows(&book, held.len(), end),
                None => shows_nothing(&book),
            }
        }
    }
}
