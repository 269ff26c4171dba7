//! The reference's side of `crates/bench_book/src/lib.rt`: the book's calls in a loop, on the same book and with the same
//! numbers and instants, so that the sums are the same. Like a host it keeps the book that a call hands back; only a
//! command that is taken and a revocation meet the same book again.

use halimpung_reference::stretches::Struck;
use halimpung_reference::{read, Body, Book, Order, Record, Refusal};

/// The calls of one kind: kind, rounds, orders held, plan, the command's file at 7, 300 and the revocation's at 7, 301.
pub type Pace = fn(u32, u32, u32, &[u8], &[u8], &[u8]) -> u32;

pub fn theirs(call: u32, rounds: u32, held: u32, plan: &[u8], command: &[u8], revocation: &[u8]) -> u32 {
    let [command, revocation] =
        [(300, command), (301, revocation)].map(|(ioa, file)| read(7, ioa, plan, file).expect("a sample is accepted"));
    let book = filled(command, held);
    let sum = match call {
        0 => ask(book, rounds),
        1 => close(book, rounds),
        2 => put_in(book, command, rounds),
        3 => repeat(book, command, rounds),
        _ => revoke(book, revocation, rounds),
    };
    sum % 65_536
}

fn filled(mut command: Record, held: u32) -> Book {
    let (mut book, _) = Book::fresh(command.unit.get());
    for order in 0..held {
        command.number = u64::from(order) * 2 + 2;
        (book, _) = book.command(&command);
    }
    book
}

fn total(rounds: u32, round: impl FnMut(u32) -> u32) -> u32 {
    (0..rounds).map(round).fold(0, u32::wrapping_add)
}

fn wrapped(number: u64) -> u32 {
    (number % 65_536) as u32
}

fn number(answer: Result<(), Refusal>) -> u32 {
    answer.map_or_else(|refusal| refusal.number, |()| 0)
}

/// The revocation's time is the command's, so an order is struck whole or not at all.
fn said(answer: Result<(), Refusal>, order: &Order) -> u32 {
    number(answer) + if order.struck == Struck::NOTHING { wrapped(order.number) } else { 1 }
}

fn ask(mut book: Book, rounds: u32) -> u32 {
    let first = book.orders[0].start;
    total(rounds, |round| {
        book.floor = round % 1_024;
        let (next, answer) = book.in_force(first.wrapping_add(round % 1_024));
        book = next;
        answer.map_or_else(|refusal| refusal.number, |number| number.map_or(0, wrapped))
    })
}

fn close(mut book: Book, rounds: u32) -> u32 {
    total(rounds, |round| {
        book.floor = round % 1_024;
        let (next, answer) = book.close(round % 1_024);
        book = next;
        said(answer, &book.orders[round as usize % 96])
    })
}

fn put_in(mut book: Book, mut command: Record, rounds: u32) -> u32 {
    total(rounds, |round| {
        command.number = u64::from(round % 16) * 2 + 81;
        book.floor = round % 1_024;
        let (next, answer) = book.command(&command);
        said(answer, &next.orders[round as usize % 96])
    })
}

fn repeat(mut book: Book, mut command: Record, rounds: u32) -> u32 {
    total(rounds, |round| {
        command.number = u64::from(round % 96) * 2 + 2;
        book.floor = round % 1_024;
        let (next, answer) = book.command(&command);
        book = next;
        said(answer, &book.orders[round as usize % 96])
    })
}

fn revoke(mut book: Book, mut revocation: Record, rounds: u32) -> u32 {
    total(rounds, |round| {
        if let Body::Revocation { sequence, .. } = &mut revocation.body {
            *sequence = u64::from(round % 96) * 2 + 2;
        }
        book.floor = round % 1_024;
        let (next, answer) = book.revoke(&revocation);
        said(answer, &next.orders[round as usize % 96])
    })
}
