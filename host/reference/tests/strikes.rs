//! Request A6 of document 02, a revocation for part of the time: its readings by their
//! numbers. Books that a caller built stand in `built.rs`.

mod common;

use common::orders::*;
use halimpung_reference::stretches::Stretch;
use halimpung_reference::*;

const NUMBER: u64 = 17;

fn revocation(from: u32, to: u32) -> Record {
    revocation_of(NUMBER, from, to)
}

/// A book that holds NUMBER, alone.
fn holding(from: u32, to: u32) -> Book {
    let mut book = Book::fresh(b"UP_PROVA_1").0;
    book.hold(&command(NUMBER, from, to)).unwrap();
    book
}

/// A book that holds NUMBER for two hours from T, after these revocations.
fn struck(stretches: &[(u32, u32)]) -> Book {
    stretches.iter().fold(holding(0, 2 * HOUR), |book, &(from, to)| {
        let (book, answer) = book.revoke(&revocation(from, to));
        assert_eq!(answer, Ok(()), "{from} {to}");
        book
    })
}

/// The stretches of the order, in seconds after T.
fn stretches(book: &Book) -> Vec<(u32, u32)> {
    let order = book.orders.iter().find(|order| order.number == NUMBER).unwrap();
    order.struck.stretches().iter().map(|&Stretch { from, to }| (from - T, to - T)).collect()
}

fn is_refused(book: &Book, from: u32, to: u32, number: u32) {
    assert_eq!(book.revoke(&revocation(from, to)), (*book, Err(Refusal::plain(number))), "{from} {to}");
}

fn in_force(book: &Book, passed: u32) -> bool {
    book.in_force_at(T + passed).unwrap() == Some(NUMBER)
}

/// 30: up to, not with, its end.
#[test]
fn the_last_half_hour() {
    let book = struck(&[(5_400, 7_200)]);
    assert!(in_force(&book, 0) && in_force(&book, 5_399));
    assert!(!in_force(&book, 5_400) && !in_force(&book, 7_199) && !in_force(&book, 7_200));
    let book = struck(&[(60, 120)]);
    assert!(in_force(&book, 59) && !in_force(&book, 60) && !in_force(&book, 119) && in_force(&book, 120));
    let first = struck(&[(0, 1)]);
    assert!(!in_force(&first, 0) && in_force(&first, 1));
}

/// A lower number is in force where the greater is struck, and there alone.
#[test]
fn another_order_in_a_struck_stretch() {
    let mut book = struck(&[(600, 1_200)]);
    book.hold(&command(5, 0, 2 * HOUR)).unwrap();
    for (passed, number) in [(599, NUMBER), (600, 5), (1_199, 5), (1_200, NUMBER)] {
        assert_eq!(book.in_force_at(T + passed), Ok(Some(number)));
    }
}

/// 31: a stretch that sticks out is refused and not cut, also of an order that is struck
/// already.
#[test]
fn stretches_outside_of_the_order() {
    let book = holding(60, 120);
    for (from, to) in [(59, 120), (60, 121), (59, 121), (0, 60), (120, 180), (0, 10), (200, 300), (59, 61)] {
        is_refused(&book, from, to, 31);
    }
    let (whole, answer) = book.revoke(&revocation(60, 120));
    assert_eq!(answer, Ok(()));
    is_refused(&whole, 60, 120, 26);
    is_refused(&whole, 59, 120, 31);
    is_refused(&whole, 60, 121, 31);
}

/// 32, 33: partly struck is taken and joined, and so is what touches; wholly struck is 26,
/// also by several revocations together.
#[test]
fn joined_and_struck_already() {
    assert_eq!(stretches(&struck(&[(100, 200), (150, 250)])), [(100, 250)]);
    assert_eq!(stretches(&struck(&[(100, 200), (50, 150)])), [(50, 200)]);
    assert_eq!(stretches(&struck(&[(100, 200), (50, 250)])), [(50, 250)]);
    assert_eq!(stretches(&struck(&[(100, 200), (200, 300)])), [(100, 300)]);
    assert_eq!(stretches(&struck(&[(200, 300), (100, 200)])), [(100, 300)]);
    assert_eq!(stretches(&struck(&[(201, 300), (100, 200)])), [(100, 200), (201, 300)]);
    let book = struck(&[(100, 200), (300, 400), (200, 300)]);
    assert_eq!(stretches(&book), [(100, 400)]);
    for (from, to) in [(100, 400), (100, 101), (399, 400), (150, 350), (200, 300)] {
        is_refused(&book, from, to, 26);
    }
    let apart = struck(&[(100, 200), (201, 300)]);
    assert!(in_force(&apart, 200));
    let (one, answer) = apart.revoke(&revocation(100, 300)); // struck but for an instant
    assert_eq!((answer, stretches(&one)), (Ok(()), vec![(100, 300)]));
}

/// 34: the count is of the result.
#[test]
fn four_and_a_fifth() {
    let four = struck(&[(700, 800), (100, 200), (500, 600), (300, 400)]);
    assert_eq!(stretches(&four), [(100, 200), (300, 400), (500, 600), (700, 800)]);
    for (from, to) in [(0, 99), (201, 299), (900, 7_200), (450, 460)] {
        is_refused(&four, from, to, 32);
    }
    is_refused(&four, 500, 600, 26);
    is_refused(&four, 7_100, 7_201, 31);
    let (bridged, answer) = four.revoke(&revocation(350, 550));
    assert_eq!((answer, stretches(&bridged)), (Ok(()), vec![(100, 200), (300, 600), (700, 800)]));
    let (fourth, answer) = bridged.revoke(&revocation(900, 901));
    assert_eq!((answer, stretches(&fourth).len()), (Ok(()), 4));
    let (longer, answer) = four.revoke(&revocation(800, 900));
    assert_eq!((answer, stretches(&longer)[3]), (Ok(()), (700, 900)));
    let (whole, answer) = four.revoke(&revocation(0, 7_200));
    assert_eq!((answer, stretches(&whole)), (Ok(()), vec![(0, 7_200)]));
}

/// 35: a stretch below the floor is taken as any other.
#[test]
fn the_floor_plays_no_part() {
    let (book, answer) = holding(0, 2 * HOUR).close(T + HOUR);
    assert_eq!(answer, Ok(()));
    let (below, answer) = book.revoke(&revocation(60, 120));
    assert_eq!((answer, stretches(&below)), (Ok(()), vec![(60, 120)]));
    assert!(in_force(&below, HOUR));
    is_refused(&below, 60, 120, 26);
    let (about, answer) = book.revoke(&revocation(HOUR - 1, HOUR + 1));
    assert_eq!(answer, Ok(()));
    assert!(!in_force(&about, HOUR) && in_force(&about, HOUR + 1));
}

/// A struck part keeps its order's number and place until the close at its end; the number
/// then comes back without strikes.
#[test]
fn held_until_it_is_closed() {
    let book = struck(&[(5_400, 7_200)]);
    assert_eq!(book.command(&command(NUMBER, 0, 7_200)).1, Err(Refusal::plain(22)));
    let (kept, _) = book.close(T + 7_199);
    assert_eq!(stretches(&kept), [(5_400, 7_200)]);
    let (gone, _) = kept.close(T + 7_200);
    assert_eq!(gone.revoke(&revocation(5_400, 7_200)).1, Err(Refusal::plain(25)));
    let (again, answer) = gone.command(&command(NUMBER, 0, 9_000));
    assert_eq!((answer, stretches(&again)), (Ok(()), vec![]));
}

/// 37: 20, 12, 29, 21, 25, 31, 26, 32.
#[test]
fn order_of_the_refusals() {
    let book = holding(60, 120);
    let other = |change: fn(&mut Record)| {
        let mut record = revocation(0, 1); // outside, so that 31 stands behind each
        change(&mut record);
        book.revoke(&record).1.unwrap_err().number
    };
    assert_eq!(Book::ZERO.revoke(&revocation(60, 120)), (Book::ZERO, Err(Refusal::plain(20))));
    assert_eq!(other(|record| record.body = Body::Revocation { span: span(1, 1), sequence: NUMBER }), 12);
    assert_eq!(other(|record| *record = command(NUMBER, 0, 1)), 29);
    assert_eq!(other(|record| record.unit = values::unit(b"OTHER").unwrap()), 21);
    assert_eq!(other(|record| record.body = Body::Revocation { span: span(0, 1), sequence: 18 }), 25);
    assert_eq!(other(|_| ()), 31);
}

const TEXT: &str = "form=1\nunit=UP_PROVA_1\nfloor=0\ncount=1\nnumber=17\nkind=M\nstart=790246800\nend=790254000\nvar1=25500\nvar2=-40000\nstruck=";

/// What saving gives; a refusal changes no byte.
fn saved(book: &Book, room: usize) -> Result<String, Refusal> {
    let mut out = vec![0xaa; room];
    let answer = saved::save(book, &mut out);
    let length = *answer.as_ref().unwrap_or(&0);
    assert!(out[length..].iter().all(|&byte| byte == 0xaa));
    answer.map(|length| String::from_utf8(out[..length].to_vec()).unwrap())
}

/// 36: form 1 has all or nothing; 52 stands before 11 and after 20.
#[test]
fn saving_a_partial_strike() {
    let length = TEXT.len() as u32 + 2;
    assert_eq!(saved(&struck(&[]), 4_096), Ok(format!("{TEXT}0\n")));
    for partial in [&[(5_400, 7_200)][..], &[(0, 7_199)], &[(1, 7_200)], &[(0, 3_600), (3_601, 7_200)]] {
        for room in [0, 4_096] {
            assert_eq!(saved(&struck(partial), room), Err(Refusal::plain(52)));
        }
    }
    let mut two = struck(&[(0, 7_200)]);
    two.hold(&command(18, 0, 60)).unwrap();
    assert!(saved(&two, 4_096).is_ok());
    two.hold(&command(3, 0, 60)).unwrap();
    two.orders[1].struck.0[0].to -= 1; // of the middle one
    assert_eq!(saved(&two, 0), Err(Refusal::plain(52)));
    two.floor = T + HOUR; // 18 and 3 end below it
    assert_eq!(saved(&two, 0), Err(Refusal::plain(20)));
    for whole in [&[(0, 7_200)][..], &[(0, 3_600), (3_600, 7_200)], &[(60, 7_200), (0, 600)]] {
        let book = struck(whole);
        assert_eq!(saved(&book, 4_096), Ok(format!("{TEXT}1\n")));
        assert_eq!(saved(&book, 0), Err(Refusal::new(11, length)));
    }
}

/// 36: what is read back is one stretch from start to end.
#[test]
fn reading_a_struck_order() {
    let (book, answer) = saved::load(format!("{TEXT}1\n").as_bytes());
    assert_eq!((answer, stretches(&book)), (Ok(()), vec![(0, 7_200)]));
    assert_eq!(book, struck(&[(0, 3_600), (3_600, 7_200)]));
    is_refused(&book, 60, 120, 26);
    is_refused(&book, 0, 7_201, 31);
    assert_eq!(saved::load(format!("{TEXT}0\n").as_bytes()), (struck(&[]), Ok(())));
    assert_eq!(saved::load(format!("{TEXT}2\n").as_bytes()), (Book::ZERO, Err(Refusal::new(50, 11))));
}
