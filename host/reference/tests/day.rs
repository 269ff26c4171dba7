//! Request A8 of document 02, the day in quarter hours: its readings by their numbers,
//! through the calls that take book and summary. How an entry is worked out is tried in
//! the module itself.

mod common;

use common::orders::*;
use halimpung_reference::day::QUARTERS;
use halimpung_reference::*;

const DAY: u32 = 86_400;
const QUARTER: u32 = 900;

/// The first instant of T's day, and the quarter that T begins.
const MIDNIGHT: u32 = 790_214_400;
const PLACE: usize = 36;

fn fresh() -> Daybook {
    Daybook::without_day(Book::fresh(b"UP_PROVA_1").0)
}

fn after((kept, answer): (Daybook, Result<(), Refusal>)) -> Daybook {
    assert_eq!(answer, Ok(()));
    kept
}

/// The day of T is chosen; these orders are held: number, start and end in seconds after T.
fn holding(orders: &[(u64, u32, u32)]) -> Daybook {
    let chosen = after(fresh().choose(T));
    orders.iter().fold(chosen, |kept, &(number, from, to)| after(kept.command(&command(number, from, to))))
}

/// The filled entries, by quarters after T. None lies before.
fn filled(kept: &Daybook) -> Vec<(usize, u64)> {
    let (before, after) = kept.summary.as_ref().unwrap().entries.split_at(PLACE);
    assert!(before.iter().all(Option::is_none));
    after.iter().enumerate().filter_map(|(place, entry)| Some((place, (*entry)?))).collect()
}

/// The same call's refusal; book and summary stay as they were.
fn is_refused(kept: &Daybook, (next, answer): (Daybook, Result<(), Refusal>), number: u32) {
    assert_eq!((next, answer), (*kept, Err(Refusal::plain(number))));
}

/// Each call that takes book and summary is 20, whatever else is wrong with it.
fn is_not_the_book_s_own(kept: &Daybook) {
    is_refused(kept, kept.command(&command(50, 0, 60)), 20);
    is_refused(kept, kept.command(&revocation_of(50, 0, 60)), 20);
    is_refused(kept, kept.revoke(&revocation_of(9, 100, 300)), 20);
    is_refused(kept, kept.close(T), 20);
    is_refused(kept, kept.close(0), 20);
    for t in [0, T, T + DAY, u32::MAX] {
        is_refused(kept, kept.choose(t), 20); // choosing doesn't mend it
    }
}

/// 41: at or after the floor.
#[test]
fn two_orders_in_one_quarter() {
    let kept = holding(&[(9, 100, 300), (8, 450, 2_000)]);
    assert_eq!(filled(&kept), [(0, 9), (1, 8), (2, 8)]);
    assert_eq!(filled(&after(kept.close(T + 299))), [(0, 9), (1, 8), (2, 8)]);
    let closed = after(kept.close(T + 300));
    assert_eq!(filled(&closed), [(0, 8), (1, 8), (2, 8)]);
    assert_eq!(filled(&after(closed.close(T + 899))), [(0, 8), (1, 8), (2, 8)]);
    assert_eq!(filled(&after(closed.close(T + 900))), [(1, 8), (2, 8)]);
    assert_eq!(filled(&after(closed.close(T + 2_000))), []);
}

/// 41: strikes are left out; one second is enough.
#[test]
fn revocations() {
    let kept = holding(&[(9, 0, 3_600), (8, 900, 1_800)]);
    assert_eq!(filled(&kept), [(0, 9), (1, 9), (2, 9), (3, 9)]);
    let all_but_a_second = after(kept.revoke(&revocation_of(9, 900, 1_799)));
    assert_eq!(filled(&all_but_a_second), filled(&kept));
    let middle = after(all_but_a_second.revoke(&revocation_of(9, 1_799, 2_700)));
    assert_eq!(filled(&middle), [(0, 9), (1, 8), (3, 9)]);
    let whole = after(middle.revoke(&revocation_of(9, 0, 3_600)));
    assert_eq!(filled(&whole), [(1, 8)]);
    // the number comes back after a close, without strikes
    let again = after(after(whole.close(T + 3_600)).command(&command(9, 0, 3_601)));
    assert_eq!(filled(&again), [(4, 9)]);
}

/// 42: the day's end is the next day's first instant.
#[test]
fn days_below_the_floor() {
    let closed_at = |t| after(fresh().close(t));
    for (t, day) in [(0, 0), (T, MIDNIGHT), (4_294_943_999, 4_294_857_600)] {
        let last = closed_at(day + DAY - 1);
        assert_eq!(after(last.choose(t)).summary, Some(Summary { day, entries: [None; QUARTERS] }));
        let past = closed_at(day + DAY);
        is_refused(&past, past.choose(day), 53);
        is_refused(&past, past.choose(day + DAY - 1), 53);
        assert_eq!(after(past.choose(day + DAY)).summary.unwrap().day, day + DAY);
    }
    // the last day ends past every floor
    let last_floor = closed_at(u32::MAX);
    assert_eq!(after(last_floor.choose(u32::MAX)).summary.unwrap().day, 4_294_944_000);
    is_refused(&last_floor, last_floor.choose(4_294_943_999), 53);
    is_refused(&last_floor, last_floor.choose(0), 53);
}

/// 43: 53 is for choosing only; a refused choice leaves the chosen day.
#[test]
fn a_close_past_the_chosen_day() {
    let kept = holding(&[(9, 0, 3_600)]);
    for t in [MIDNIGHT + DAY - 1, MIDNIGHT + DAY, MIDNIGHT + 2 * DAY, u32::MAX] {
        let closed = after(kept.close(t));
        assert_eq!(closed.summary, Some(Summary { day: MIDNIGHT, entries: [None; QUARTERS] }));
        if t >= MIDNIGHT + DAY {
            is_refused(&closed, closed.choose(T), 53);
        }
        let other = after(closed.choose(u32::MAX));
        assert_eq!(other.summary.unwrap().day, 4_294_944_000);
    }
}

/// 44: any t of the day names it; choosing works it out from the orders that are held.
#[test]
fn choosing() {
    let kept = holding(&[(9, 0, 3_600)]);
    let without = Daybook::without_day(kept.book);
    for t in [MIDNIGHT, T, T + 1, MIDNIGHT + DAY - 1] {
        assert_eq!(after(without.choose(t)), kept);
        assert_eq!(after(kept.choose(t)), kept);
    }
    for t in [0, MIDNIGHT - 1, MIDNIGHT + DAY, u32::MAX] {
        let other = after(kept.choose(t));
        assert_eq!(other.summary, Some(Summary { day: t - t % DAY, entries: [None; QUARTERS] }));
        assert_eq!(after(other.choose(T)), kept);
        // a command of another day leaves it
        assert_eq!(after(other.command(&command(10, 0, 60))).summary, other.summary);
    }
}

/// With no day chosen the calls are the book's.
#[test]
fn no_day_chosen() {
    let kept = after(fresh().command(&command(9, 0, 3_600)));
    let kept = after(after(kept.revoke(&revocation_of(9, 0, 60))).close(T));
    assert_eq!(kept.summary, None);
    is_refused(&kept, kept.close(T - 1), 27);
    is_refused(&kept, kept.command(&command(9, 0, 60)), 22);
}

/// 20 stands first, 53 after it.
#[test]
fn malformed_books() {
    let zero = Daybook::without_day(Book::ZERO);
    is_not_the_book_s_own(&zero);
    let none = Summary { day: MIDNIGHT, entries: [None; QUARTERS] };
    is_not_the_book_s_own(&Daybook { book: Book::ZERO, summary: Some(none) });
    let kept = after(holding(&[(9, 0, 3_600)]).close(T));
    let spoilt = |spoil: fn(&mut Book)| {
        let mut wrong = kept;
        spoil(&mut wrong.book);
        is_not_the_book_s_own(&wrong);
        is_not_the_book_s_own(&Daybook::without_day(wrong.book));
    };
    spoilt(|book| book.held += 1);
    spoilt(|book| book.next_end += 1);
    spoilt(|book| book.floor = MIDNIGHT + DAY);
    spoilt(|book| book.orders[1].number = 3);
}

/// 78: a summary that isn't the book's own, its book well formed; what takes the book
/// alone doesn't ask for it.
#[test]
fn wrong_summaries() {
    let kept = after(holding(&[(9, 100, 300), (8, 450, 2_000)]).close(T + 200));
    let spoilt = |spoil: &dyn Fn(&mut Summary)| {
        let mut wrong = kept;
        spoil(wrong.summary.as_mut().unwrap());
        assert_ne!(wrong, kept);
        is_not_the_book_s_own(&wrong);
        assert_eq!(wrong.book.panel(), kept.book.panel());
        assert_eq!(wrong.book.in_force(T + 200).1, Ok(Some(9)));
    };
    for place in 0..QUARTERS {
        spoilt(&|summary| summary.entries[place] = Some(7));
    }
    for place in PLACE..PLACE + 3 {
        spoilt(&|summary| summary.entries[place] = None);
    }
    spoilt(&|summary| summary.entries[PLACE] = Some(8)); // not the greatest
    spoilt(&|summary| summary.entries[PLACE + 1] = Some(9)); // of the quarter before
    spoilt(&|summary| summary.entries = [None; QUARTERS]);
    for day in [0, 1, MIDNIGHT - DAY, MIDNIGHT - 1, MIDNIGHT + 1, MIDNIGHT + QUARTER, MIDNIGHT + DAY, T, u32::MAX] {
        spoilt(&|summary| summary.day = day);
    }
    // all none, but its day is no day's first instant
    let empty = Summary { day: MIDNIGHT + 1, entries: [None; QUARTERS] };
    is_not_the_book_s_own(&Daybook { summary: Some(empty), ..fresh() });
    // another book's, and this book's before a close
    is_not_the_book_s_own(&Daybook { summary: holding(&[(9, 100, 300)]).summary, ..kept });
    let closed = after(kept.close(T + 300));
    is_not_the_book_s_own(&Daybook { summary: kept.summary, ..closed });
}

/// By number, in seconds after T.
#[derive(Clone, Copy, Debug)]
enum Call {
    Command(u64, u32, u32),
    Revocation(u64, u32, u32),
    Close(u32),
}

impl Call {
    /// By the dice. A revocation is of a held order's last part, first part or all.
    fn thrown(book: &Book, below: &mut impl FnMut(u32) -> u32) -> Call {
        let (number, from) = (u64::from(below(12)), below(9_000));
        match below(8) {
            0..=3 => Call::Command(number, from, from + 1 + below(4_000)),
            4..=6 if book.held > 0 => {
                let order = book.orders[below(book.held as u32) as usize];
                let length = order.end - order.start;
                let (from, to) = (below(2) * below(length), length - below(2) * below(length));
                let from = if from < to { from } else { 0 };
                Call::Revocation(order.number, order.start - T + from, order.start - T + to)
            }
            _ => Call::Close(book.floor.saturating_sub(T) + below(900)),
        }
    }

    fn of(self, kept: Daybook) -> (Daybook, Result<(), Refusal>) {
        match self {
            Call::Command(number, from, to) => kept.command(&command(number, from, to)),
            Call::Revocation(number, from, to) => kept.revoke(&revocation_of(number, from, to)),
            Call::Close(at) => kept.close(T + at),
        }
    }

    fn of_book(self, book: Book) -> (Book, Result<(), Refusal>) {
        match self {
            Call::Command(number, from, to) => book.command(&command(number, from, to)),
            Call::Revocation(number, from, to) => book.revoke(&revocation_of(number, from, to)),
            Call::Close(at) => book.close(T + at),
        }
    }

    /// Whether it may change this entry: a command or revocation one that it overlaps, a
    /// close one whose quarter begins before the new floor.
    fn reaches(self, place: usize) -> bool {
        let quarter = MIDNIGHT + place as u32 * QUARTER;
        match self {
            Call::Command(_, from, to) | Call::Revocation(_, from, to) => {
                T + from < quarter + QUARTER && quarter < T + to
            }
            Call::Close(at) => quarter < T + at,
        }
    }
}

/// Runs of calls of all kinds: the answers and the book are those of the book alone. After
/// a taken call the summary is the one worked out afresh, and entries out of its reach are
/// as they were; a refused one changes neither.
#[test]
fn true_after_every_call() {
    let mut dice = 0x9e37_79b9_7f4a_7c15_u64;
    let mut below = |most: u32| {
        dice = dice.wrapping_mul(6_364_136_223_846_793_005).wrapping_add(1);
        ((dice >> 33) % u64::from(most)) as u32
    };
    let (mut taken, mut refused) = ([0; 3], 0);
    for _ in 0..100 {
        let mut kept = holding(&[]);
        for _ in 0..60 {
            let call = Call::thrown(&kept.book, &mut below);
            let (next, answer) = call.of(kept);
            assert_eq!((next.book, answer), call.of_book(kept.book));
            assert_eq!(next.summary, Summary::afresh(&next.book, T).ok());
            let entries = [kept, next].map(|kept| kept.summary.unwrap().entries);
            assert!((0..QUARTERS).all(|place| entries[0][place] == entries[1][place] || call.reaches(place)));
            match (answer, call) {
                (Ok(()), Call::Command(..)) => taken[0] += 1,
                (Ok(()), Call::Revocation(..)) => taken[1] += 1,
                (Ok(()), Call::Close(_)) => taken[2] += 1,
                (Err(_), _) => refused += usize::from(next == kept),
            }
            kept = next;
        }
    }
    assert_eq!(taken.iter().sum::<usize>() + refused, 6_000);
    assert!(taken.iter().all(|&count| count > 500) && refused > 500, "{taken:?} {refused}");
}
