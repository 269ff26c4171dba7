//! The book of commands of one unit ("The book of commands").
//!
//! Held orders fill the first places by ascending number. An empty place is
//! known by its end, 0, which no order has; number 0 is a number like others.
//! Each call judges the whole book first (20): fields are public, and the book
//! comes from outside.
//!
//! How many orders are held and when the next one ends stand in the book (document
//! 02, A7). The calls that put orders in or drop them keep both; every call judges
//! them by the orders.

use crate::record::{Body, Record};
use crate::stretches::{Stretch, Struck};
use crate::valid;
use crate::values::{self, Unit, MOST_SEQUENCE};
use crate::Refusal;

pub const PLACES: usize = 96;

/// The earliest and the latest instant of a valid date.
pub(crate) const FIRST_INSTANT: u32 = 31_615_200;
pub(crate) const LAST_INSTANT: u32 = 3_155_756_399;

#[derive(Clone, Copy, Debug, PartialEq, Eq)]
pub enum CommandLayout {
    Market,
    Mfrr,
}

/// A held order, or an empty place.
#[derive(Clone, Copy, Debug, PartialEq, Eq)]
pub struct Order {
    pub number: u64,
    pub layout: CommandLayout,
    /// mFRR: TINI1 and TFIN2.
    pub start: u32,
    pub end: u32,
    /// mFRR: its one, then 0.
    pub variations: [i32; 2],
    /// The parts of its time that were revoked.
    pub struck: Struck,
}

impl Order {
    pub const EMPTY: Order = Order {
        number: 0,
        layout: CommandLayout::Market,
        start: 0,
        end: 0,
        variations: [0; 2],
        struck: Struck::NOTHING,
    };

    /// All of its time.
    pub fn whole(&self) -> Stretch {
        Stretch { from: self.start, to: self.end }
    }

    /// In its time and outside of every struck stretch.
    fn is_in_force(&self, t: u32) -> bool {
        self.whole().has(t) && !self.struck.has(t)
    }

    /// At some instant of this time: it shares some, and not all of those are struck.
    pub(crate) fn is_in_force_within(&self, time: &Stretch) -> bool {
        let shared = self.whole().shared(time);
        shared.from < shared.to && !self.struck.covers(&shared)
    }

    /// Number, layout, instants and variations are what some valid CB record
    /// gives. Every instant of the range is some valid date's; mFRR has two ramps
    /// of at least a second each.
    fn is_possible(&self) -> bool {
        let least = match self.layout {
            CommandLayout::Market => 1,
            CommandLayout::Mfrr => 2,
        };
        self.number <= MOST_SEQUENCE
            && self.start >= FIRST_INSTANT
            && self.end <= LAST_INSTANT
            && self.start < self.end
            && self.end - self.start >= least
            && self.variations.into_iter().all(valid::number)
            && (self.layout == CommandLayout::Market || self.variations[1] == 0)
    }
}

/// What the panel shows.
#[derive(Clone, Copy, Debug, PartialEq, Eq)]
pub struct Panel {
    pub held: usize,
    pub next_end: u32,
}

#[derive(Clone, Copy, Debug, PartialEq, Eq)]
pub struct Book {
    pub unit: Unit,
    pub floor: u32,
    /// How many orders are held, struck or not.
    pub held: usize,
    /// The least end of those held, struck or not; 0 where none is.
    pub next_end: u32,
    pub orders: [Order; PLACES],
}

impl Book {
    /// The all-zero book, which every call refuses: its unit is bad.
    pub const ZERO: Book = Book { unit: Unit::EMPTY, floor: 0, held: 0, next_end: 0, orders: [Order::EMPTY; PLACES] };

    /// A fresh book for a unit; a bad unit code is refused 21 and gives the zero book.
    pub fn fresh(unit: &[u8]) -> (Book, Result<(), Refusal>) {
        match values::unit(unit) {
            Some(unit) => (Book { unit, ..Book::ZERO }, Ok(())),
            None => (Book::ZERO, Err(Refusal::plain(21))),
        }
    }

    /// Holds the order of a CB record.
    pub fn command(mut self, record: &Record) -> (Book, Result<(), Refusal>) {
        let answer = self.hold(record);
        (self, answer)
    }

    /// Strikes the order that an RC record names, from the revocation's start to its end.
    pub fn revoke(mut self, record: &Record) -> (Book, Result<(), Refusal>) {
        let answer = self.strike(record);
        (self, answer)
    }

    /// Moves the floor to `t`; orders that end by then go.
    pub fn close(mut self, t: u32) -> (Book, Result<(), Refusal>) {
        let answer = self.close_at(t);
        (self, answer)
    }

    /// The greatest number in force at `t`, if any.
    pub fn in_force(self, t: u32) -> (Book, Result<Option<u64>, Refusal>) {
        let answer = self.in_force_at(t);
        (self, answer)
    }

    /// How many orders are held, and when the next one ends.
    pub fn panel(self) -> (Book, Result<Panel, Refusal>) {
        let answer = self.shown();
        (self, answer)
    }

    /// [`Book::command`] in place; a refusal leaves the book as it was.
    pub fn hold(&mut self, record: &Record) -> Result<(), Refusal> {
        self.judge(record)?;
        let order = order_of(record).ok_or(Refusal::plain(29))?;
        self.same_unit(record)?;
        if order.end <= self.floor {
            return Err(Refusal::plain(23));
        }
        let place = match self.orders[..self.held].binary_search_by_key(&order.number, |order| order.number) {
            Ok(_) => return Err(Refusal::plain(22)),
            Err(_) if self.held == PLACES => return Err(Refusal::plain(24)),
            Err(place) => place,
        };
        self.put_in(place, order);
        Ok(())
    }

    /// [`Book::revoke`] in place. The sequence names the order, not the revocation's own
    /// number. A stretch that sticks out of the order is refused, not cut; the floor is
    /// not asked. The order stays held with its end, so the panel's numbers stay too.
    pub fn strike(&mut self, record: &Record) -> Result<(), Refusal> {
        self.judge(record)?;
        let Body::Revocation { span, sequence } = record.body else {
            return Err(Refusal::plain(29));
        };
        self.same_unit(record)?;
        let place = self.orders[..self.held]
            .binary_search_by_key(&sequence, |order| order.number)
            .map_err(|_| Refusal::plain(25))?;
        let order = &mut self.orders[place];
        let stretch = Stretch { from: span.start.instant(), to: span.end.instant() };
        if !stretch.lies_in(&order.whole()) {
            return Err(Refusal::plain(31));
        }
        if order.struck.covers(&stretch) {
            return Err(Refusal::plain(26));
        }
        order.struck = order.struck.with(stretch).ok_or(Refusal::plain(32))?;
        Ok(())
    }

    /// [`Book::close`] in place.
    pub fn close_at(&mut self, t: u32) -> Result<(), Refusal> {
        self.formed()?;
        if t < self.floor {
            return Err(Refusal::plain(27));
        }
        self.floor = t;
        // Up to the next end no order goes, so the places stay as they are.
        if self.next_end <= t {
            self.drop_ended(t);
        }
        Ok(())
    }

    /// [`Book::in_force`] on a lent book.
    pub fn in_force_at(&self, t: u32) -> Result<Option<u64>, Refusal> {
        let orders = self.formed()?;
        if t < self.floor {
            return Err(Refusal::plain(28));
        }
        // Numbers ascend, so the last that fits is the greatest.
        Ok(orders.iter().rev().find(|order| order.is_in_force(t)).map(|order| order.number))
    }

    /// [`Book::panel`] on a lent book.
    pub fn shown(&self) -> Result<Panel, Refusal> {
        self.formed()?;
        Ok(Panel { held: self.held, next_end: self.next_end })
    }

    /// Puts an order in at its place; those from there on move up. There is room.
    pub(crate) fn put_in(&mut self, place: usize, order: Order) {
        self.orders.copy_within(place..self.held, place + 1);
        self.orders[place] = order;
        self.held += 1;
        self.next_end = sooner(self.next_end, order.end);
    }

    /// Orders that end by `t` go, the others move down. The next end is that of the
    /// kept ones: the one that stood there has gone.
    fn drop_ended(&mut self, t: u32) {
        let (mut kept, mut next_end) = (0, 0);
        for place in 0..self.held {
            let order = self.orders[place];
            if order.end > t {
                self.orders[kept] = order;
                kept += 1;
                next_end = sooner(next_end, order.end);
            }
        }
        self.orders[kept..self.held].fill(Order::EMPTY);
        self.held = kept;
        self.next_end = next_end;
    }

    /// The first two refusals of a command or revocation.
    fn judge(&self, record: &Record) -> Result<(), Refusal> {
        self.formed()?;
        if valid::is_valid(record) {
            Ok(())
        } else {
            Err(Refusal::plain(12))
        }
    }

    fn same_unit(&self, record: &Record) -> Result<(), Refusal> {
        if self.unit == record.unit {
            Ok(())
        } else {
            Err(Refusal::plain(21))
        }
    }

    /// The held orders, or 20 if the book is malformed. They are found by the places and
    /// not by the two stored numbers, which are judged by them.
    pub(crate) fn formed(&self) -> Result<&[Order], Refusal> {
        let mut held = 0;
        let mut least = 0; // the next number may not be below this
        let mut well = valid::unit(&self.unit);
        for order in &self.orders {
            if order.end == 0 {
                break;
            }
            well &= order.is_possible() & (order.end > self.floor) & (order.number >= least);
            well &= order.struck.are_well_in(&order.whole());
            least = order.number.saturating_add(1);
            held += 1;
        }
        let (orders, rest) = self.orders.split_at(held);
        well &= rest.iter().all(|place| *place == Order::EMPTY);
        well &= self.held == held && self.next_end == least_end(orders);
        if well {
            Ok(orders)
        } else {
            Err(Refusal::plain(20))
        }
    }
}

/// When the next of these ends; 0 where there is none.
fn least_end(orders: &[Order]) -> u32 {
    orders.iter().map(|order| order.end).min().unwrap_or(0)
}

/// The next end with one order more; 0 says that there was none.
fn sooner(next_end: u32, end: u32) -> u32 {
    if next_end == 0 {
        end
    } else {
        next_end.min(end)
    }
}

/// The order that a valid CB record gives.
fn order_of(record: &Record) -> Option<Order> {
    let (layout, variations) = match &record.body {
        Body::Market(order) => (CommandLayout::Market, [order.variation.initial, order.variation.last]),
        Body::Mfrr(order) => (CommandLayout::Mfrr, [order.variation, 0]),
        _ => return None,
    };
    let (start, end) = record.dates();
    Some(Order {
        number: record.number,
        layout,
        start: start.instant(),
        end: end?.instant(),
        variations,
        struck: Struck::NOTHING,
    })
}
