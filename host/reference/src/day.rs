//! The day in quarter hours (document 02, A8): beside the book stands the summary of
//! one chosen UTC day, for each quarter the greatest number in force at some instant
//! of it. Instants before the floor count as nothing in force.
//!
//! There is one way to make an entry: from the book's orders. It serves to choose a
//! day, to judge the summary that came with a book (20: fields are public, and both
//! come from outside) and to make the summary that a taken call hands back.

use crate::book::{Book, Order};
use crate::record::Record;
use crate::stretches::Stretch;
use crate::Refusal;

pub const QUARTERS: usize = 96;

/// In seconds.
const QUARTER: u32 = 900;
const DAY: u32 = 86_400;

/// The quarters of one day.
#[derive(Clone, Copy, Debug, PartialEq, Eq)]
pub struct Summary {
    /// The day's first instant.
    pub day: u32,
    pub entries: [Option<u64>; QUARTERS],
}

impl Summary {
    /// Works out the day that has `t`; 20 where the book is malformed.
    pub fn afresh(book: &Book, t: u32) -> Result<Summary, Refusal> {
        let orders = book.formed()?;
        let day = t - t % DAY;
        let entries = std::array::from_fn(|place| greatest_within(orders, &open_quarter(day, place, book.floor)));
        Ok(Summary { day, entries })
    }

    /// The next day's first instant; that of the last day is past every `t`.
    fn end(&self) -> u64 {
        u64::from(self.day) + u64::from(DAY)
    }
}

/// What the floor leaves of the quarter at this place of the day, if anything. The last
/// day goes on past the last `t`; no order does, so it may be cut there.
fn open_quarter(day: u32, place: usize, floor: u32) -> Stretch {
    let passed = place as u32 * QUARTER;
    Stretch { from: day.saturating_add(passed).max(floor), to: day.saturating_add(passed + QUARTER) }
}

/// The greatest number in force at some instant of this time. Numbers ascend, so the
/// last that fits is the greatest.
fn greatest_within(orders: &[Order], time: &Stretch) -> Option<u64> {
    orders.iter().rev().find(|order| order.is_in_force_within(time)).map(|order| order.number)
}

/// A book and, where a day is chosen, its summary.
#[derive(Clone, Copy, Debug, PartialEq, Eq)]
pub struct Daybook {
    pub book: Book,
    pub summary: Option<Summary>,
}

impl Daybook {
    pub fn without_day(book: Book) -> Daybook {
        Daybook { book, summary: None }
    }

    /// Chooses the day that has `t`: 20, then 53 where the day's end is at or below the
    /// floor.
    pub fn choose(self, t: u32) -> (Daybook, Result<(), Refusal>) {
        self.handed_back(self.chosen(t))
    }

    /// [`Book::command`], and the summary follows.
    pub fn command(self, record: &Record) -> (Daybook, Result<(), Refusal>) {
        self.handed_back(self.after(|book| book.command(record)))
    }

    /// [`Book::revoke`], and the summary follows.
    pub fn revoke(self, record: &Record) -> (Daybook, Result<(), Refusal>) {
        self.handed_back(self.after(|book| book.revoke(record)))
    }

    /// [`Book::close`], and the summary follows. Past the chosen day the day stays
    /// chosen: nothing is in force in it any more.
    pub fn close(self, t: u32) -> (Daybook, Result<(), Refusal>) {
        self.handed_back(self.after(|book| book.close(t)))
    }

    /// What a call makes of book and summary; a refused call changes neither.
    fn handed_back(self, next: Result<Daybook, Refusal>) -> (Daybook, Result<(), Refusal>) {
        match next {
            Ok(next) => (next, Ok(())),
            Err(refusal) => (self, Err(refusal)),
        }
    }

    fn chosen(&self, t: u32) -> Result<Daybook, Refusal> {
        self.judge()?;
        let summary = Summary::afresh(&self.book, t)?;
        if summary.end() <= u64::from(self.book.floor) {
            return Err(Refusal::plain(53));
        }
        Ok(Daybook { book: self.book, summary: Some(summary) })
    }

    /// After a call of the book; 20 stands first in the list of each.
    fn after(&self, call: impl FnOnce(Book) -> (Book, Result<(), Refusal>)) -> Result<Daybook, Refusal> {
        self.judge()?;
        let (book, answer) = call(self.book);
        answer?;
        Ok(Daybook { book, summary: self.chosen_day_in(&book)? })
    }

    /// 20 where the book is malformed, or the summary is not its own. One whose day is no
    /// day's first instant isn't: what is worked out begins with the day.
    fn judge(&self) -> Result<(), Refusal> {
        self.book.formed()?;
        if self.summary == self.chosen_day_in(&self.book)? {
            Ok(())
        } else {
            Err(Refusal::plain(20))
        }
    }

    /// The chosen day, if there is one, worked out from this book.
    fn chosen_day_in(&self, book: &Book) -> Result<Option<Summary>, Refusal> {
        self.summary.map(|summary| Summary::afresh(book, summary.day)).transpose()
    }
}

#[cfg(test)]
mod tests {
    use super::*;
    use crate::book::{CommandLayout, FIRST_INSTANT, LAST_INSTANT};
    use crate::stretches::Struck;

    /// 15-01-2025 00:00:00 UTC.
    const MIDNIGHT: u32 = 790_214_400;
    const LAST_DAY: u32 = 4_294_944_000;

    fn fresh() -> Book {
        Book::fresh(b"U").0
    }

    fn order(number: u64, start: u32, end: u32) -> Order {
        Order { number, layout: CommandLayout::Market, start, end, ..Order::EMPTY }
    }

    /// A book of these orders, by ascending number.
    fn holding(floor: u32, orders: &[Order]) -> Book {
        let mut book = Book { floor, ..fresh() };
        orders.iter().enumerate().for_each(|(place, order)| book.put_in(place, *order));
        book
    }

    /// The filled entries of the day that has `t`, with their places.
    fn filled(book: &Book, t: u32) -> Vec<(usize, u64)> {
        let entries = Summary::afresh(book, t).unwrap().entries;
        entries.iter().enumerate().filter_map(|(place, entry)| Some((place, (*entry)?))).collect()
    }

    /// By the letter, instant by instant: the greatest number in force in this quarter.
    fn counted(book: &Book, from: u32) -> Option<u64> {
        let in_force = |order: &&Order, t: u32| {
            let is_struck = order.struck.0.iter().any(|stretch| stretch.from <= t && t < stretch.to);
            order.start <= t && t < order.end && !is_struck
        };
        let held = &book.orders[..book.held];
        let greatest = |t| held.iter().filter(|order| in_force(order, t)).map(|order| order.number).max();
        (from..from + QUARTER).filter(|&t| t >= book.floor).filter_map(greatest).max()
    }

    /// The same throws in every run.
    struct Dice(u64);

    impl Dice {
        fn below(&mut self, most: u32) -> u32 {
            self.0 = self.0.wrapping_mul(6_364_136_223_846_793_005).wrapping_add(1);
            ((self.0 >> 33) % u64::from(most)) as u32
        }

        /// In the six quarters from `first` on; one of three stands about a quarter's edge.
        fn instant(&mut self, first: u32) -> u32 {
            let quarter = first + QUARTER * self.below(6);
            match self.below(3) {
                0 => quarter + self.below(3) - 1,
                _ => quarter + self.below(QUARTER),
            }
        }

        /// With up to five strikes, of which those that would leave a fifth stretch fail.
        fn order(&mut self, number: u64, first: u32, floor: u32) -> Order {
            let end = self.instant(first).max(floor + 1);
            let start = self.instant(first).min(end - 1);
            let mut order = order(number, start, end);
            for _ in 0..self.below(6) {
                let from = self.instant(first).clamp(start, end - 1);
                let to = self.instant(first).clamp(from + 1, end);
                order.struck = order.struck.with(Stretch { from, to }).unwrap_or(order.struck);
            }
            order
        }

        /// Up to seven orders in six quarters from `first` on. The floor is among them or
        /// below them all.
        fn book(&mut self, first: u32) -> Book {
            let floor = [0, self.instant(first)][self.below(2) as usize];
            let mut number = 0;
            let orders: Vec<Order> = (0..self.below(8))
                .map(|_| {
                    number += u64::from(1 + self.below(9));
                    self.order(number, first, floor)
                })
                .collect();
            holding(floor, &orders)
        }
    }

    /// The six quarters lie about the day's beginning, in it, and about its end.
    #[test]
    fn entries_are_the_literal_count() {
        let mut dice = Dice(0x2545_f491_4f6c_dd1d);
        let (mut numbers, mut nones) = (0, 0);
        for round in 0..4_000 {
            let first = MIDNIGHT + [0, 40 * QUARTER, DAY][round % 3] - 3 * QUARTER;
            let book = dice.book(first);
            let summary = Summary::afresh(&book, MIDNIGHT + dice.below(DAY)).unwrap();
            assert_eq!(summary.day, MIDNIGHT);
            for (place, entry) in summary.entries.iter().enumerate() {
                let from = MIDNIGHT + place as u32 * QUARTER;
                // a throw about an edge may lie a second before the six
                let near = (first - QUARTER..first + 6 * QUARTER).contains(&from);
                assert_eq!(*entry, if near { counted(&book, from) } else { None }, "{place} {book:?}");
                numbers += usize::from(entry.is_some());
                nones += usize::from(near && entry.is_none());
            }
        }
        assert!(numbers > 4_000 && nones > 4_000, "{numbers} {nones}");
    }

    #[test]
    fn one_second_is_enough() {
        let q = MIDNIGHT + 40 * QUARTER;
        assert_eq!(filled(&holding(0, &[order(9, q, q + 1)]), q), [(40, 9)]);
        assert_eq!(filled(&holding(0, &[order(9, q - 1, q)]), q), [(39, 9)]);
        assert_eq!(filled(&holding(0, &[order(9, q - 1, q + 1)]), q), [(39, 9), (40, 9)]);
        assert_eq!(filled(&holding(0, &[order(9, q, q + QUARTER)]), q), [(40, 9)]);
        assert_eq!(filled(&holding(0, &[order(9, q, q + QUARTER + 1)]), q), [(40, 9), (41, 9)]);
        let both = holding(0, &[order(8, q, q + 2 * QUARTER), order(9, q + 500, q + 501)]);
        assert_eq!(filled(&both, q), [(40, 9), (41, 8)]);
        assert_eq!(filled(&holding(0, &[order(0, q, q + 1)]), q), [(40, 0)]); // 0 is a number
    }

    /// Three quarters, of which the middle one is struck: all of it, and all but a second.
    #[test]
    fn a_struck_middle() {
        let q = MIDNIGHT + 40 * QUARTER;
        let struck = |pairs: &[(u32, u32)]| {
            let mut greater = order(9, q, q + 3 * QUARTER);
            for &(from, to) in pairs {
                greater.struck = greater.struck.with(Stretch { from: q + from, to: q + to }).unwrap();
            }
            filled(&holding(0, &[order(5, q, q + 3 * QUARTER), greater]), q).iter().map(|entry| entry.1).collect()
        };
        let entries: Vec<u64> = struck(&[(900, 1_800)]);
        assert_eq!(entries, [9, 5, 9]);
        for all_but_a_second in [&[(901, 1_800)][..], &[(900, 1_799)], &[(900, 1_300), (1_301, 1_800)]] {
            assert_eq!(struck(all_but_a_second), [9, 9, 9], "{all_but_a_second:?}");
        }
        assert_eq!(struck(&[(900, 1_300), (1_300, 1_800)]), [9, 5, 9]); // touching ones are one
        assert_eq!(struck(&[(0, 2_700)]), [5, 5, 5]);
        assert_eq!(struck(&[(1, 2_699)]), [9, 5, 9]);
    }

    #[test]
    fn a_floor_inside_a_quarter() {
        let q = MIDNIGHT + 40 * QUARTER;
        let at = |floor: u32| {
            let both = [order(8, q + 450, q + 2_000), order(9, q + 100, q + 300)];
            let above: Vec<Order> = both.into_iter().filter(|order| order.end > floor).collect();
            filled(&holding(floor, &above), q)
        };
        for floor in [0, q, q + 100, q + 299] {
            assert_eq!(at(floor), [(40, 9), (41, 8), (42, 8)], "{floor}");
        }
        for floor in [q + 300, q + 450, q + 899] {
            assert_eq!(at(floor), [(40, 8), (41, 8), (42, 8)], "{floor}");
        }
        assert_eq!(at(q + 900), [(41, 8), (42, 8)]);
        assert_eq!(at(q + 1_999), [(42, 8)]);
        // what is left of the quarter is struck
        let mut struck = order(9, q + 100, q + 1_000);
        struck.struck = Struck::only(Stretch { from: q + 500, to: q + 1_000 });
        assert_eq!(filled(&holding(q + 499, &[struck]), q), [(40, 9)]);
        assert_eq!(filled(&holding(q + 500, &[struck]), q), []);
    }

    #[test]
    fn orders_across_midnight() {
        let book = holding(0, &[order(9, MIDNIGHT - 1, MIDNIGHT + 1)]);
        assert_eq!(filled(&book, MIDNIGHT - 1), [(95, 9)]);
        assert_eq!(filled(&book, MIDNIGHT), [(0, 9)]);
        assert_eq!(filled(&book, MIDNIGHT + DAY - 1), [(0, 9)]);
        assert_eq!(filled(&book, MIDNIGHT + DAY), []);
        let longer = holding(0, &[order(9, MIDNIGHT - 1, MIDNIGHT + DAY + 1)]);
        assert_eq!(filled(&longer, MIDNIGHT).len(), QUARTERS);
        let day = holding(0, &[order(9, MIDNIGHT, MIDNIGHT + DAY)]);
        assert_eq!(filled(&day, MIDNIGHT).len(), QUARTERS);
        assert_eq!(filled(&day, MIDNIGHT - 1), []);
        assert_eq!(filled(&day, MIDNIGHT + DAY), []);
    }

    /// No date gives an instant of these days, so they have no numbers; they are days like
    /// others all the same.
    #[test]
    fn day_0_and_the_last_day() {
        let longest = holding(0, &[order(9, FIRST_INSTANT, LAST_INSTANT)]);
        for (t, day) in [(0, 0), (86_399, 0), (LAST_DAY, LAST_DAY), (u32::MAX, LAST_DAY)] {
            let (kept, answer) = Daybook::without_day(longest).choose(t);
            assert_eq!(answer, Ok(()));
            assert_eq!(kept.summary, Some(Summary { day, entries: [None; QUARTERS] }));
            let (closed, answer) = kept.close(u32::MAX);
            assert_eq!((closed.summary, answer), (kept.summary, Ok(())));
        }
        // the first date is 31-12-2000 22:00:00 UTC, the last 31-12-2099 22:59:59 UTC
        assert_eq!(filled(&longest, FIRST_INSTANT), (88..96).map(|place| (place, 9)).collect::<Vec<_>>());
        assert_eq!(filled(&longest, LAST_INSTANT), (0..92).map(|place| (place, 9)).collect::<Vec<_>>());
    }
}
