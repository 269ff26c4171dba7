//! "Both sides of each line" of document 01. The dates and numbers on their own
//! are tested beside their code; here they go through the reader.

mod common;

use common::*;
use halimpung_reference::{program, write, Book, Refusal};

const START: &str = "15-01-2025 10:00:00 S";
const END: &str = "15-01-2025 10:30:00 S";

#[test]
fn samples_are_in_written_form() {
    for (sample, (_, file)) in SAMPLES.iter().enumerate() {
        let record = read_as(sample, file).unwrap();
        let mut out = [0xaa; 8192];
        let length = write(&record, &mut out).unwrap();
        assert_eq!(std::str::from_utf8(&out[..length]).unwrap(), *file);
        assert!(out[length..].iter().all(|&byte| byte == 0xaa));
        assert_eq!(write(&record, &mut out[..length]), Ok(length));
        assert_eq!(write(&record, &mut [0; 5]), Err(Refusal::new(11, length as u32)));
    }
}

#[test]
fn the_program_s_example() {
    let input = format!("ca=7\nioa=300\n{}", SAMPLES[RC].1);
    let output = program(Some(plan("RC").as_bytes()), input.as_bytes());
    let lines = "result=0\ntype=RC\nnumber=42\nunit=UP_PROVA_1\nstart=790246800\nend=790248600\n";
    assert_eq!(String::from_utf8(output).unwrap(), lines);
    assert_eq!(program(None, input.as_bytes()), b"result=13\ndetail=0\n");
    assert_eq!(program(Some(plan("RC").as_bytes()), b"ca=07\nioa=300\n"), b"result=1\ndetail=0\n");
    assert_eq!(program(Some(plan("RC").as_bytes()), b"ca=7\nioa=300"), b"result=1\ndetail=0\n");
    assert_eq!(program(Some(plan("RC").as_bytes()), b"ca=7\nioa=300\n"), b"result=2\ndetail=0\n");
}

#[test]
fn dates() {
    let instants = |start: &str, end: &str| {
        let (start, end) = with(RC, &[(START, start), (END, end)])?.dates();
        Ok::<_, (u32, u32)>((start.instant(), end.unwrap().instant()))
    };
    assert_eq!(instants("01-01-2001 00:00:00 S", "31-12-2099 23:59:59 S"), Ok((31_618_800, 3_155_756_399)));
    assert_eq!(instants("29-10-2023 02:30:00 L", "29-10-2023 02:30:00 S"), Ok((751_854_600, 751_858_200)));
    assert!(instants("29-02-2024 10:00:00 S", END).is_ok());
    assert_eq!(instants("29-02-2023 10:00:00 S", END), Err((7, 3)));
    assert_eq!(instants(START, "01-01-2100 00:00:00 S"), Err((7, 4)));
    assert_eq!(instants(END, END), Err((8, 1)));
}

#[test]
fn numbers() {
    for (text, taken) in [("-0.5", true), ("-0", true), ("1.2345", false), ("+3", false), ("1000000", false)] {
        let answer = with(MFRR, &[("= 30\n", &format!("= {text}\n")), (";30;", &format!(";{text};"))]);
        assert_eq!(answer.map(|_| ()), if taken { Ok(()) } else { Err((7, 7)) }, "{text}");
    }
}

#[test]
fn reason_of_128() {
    let old = "Prova di comunicazione; rete 380 kV";
    assert!(with(MG, &[(old, &"m".repeat(128))]).is_ok());
    assert_eq!(with(MG, &[(old, &"m".repeat(129))]), refused(7, 5));
    let old = "Confermare al telefono entro dieci minuti";
    assert!(with(MG, &[(old, &"n".repeat(256))]).is_ok());
    assert_eq!(with(MG, &[(old, &"n".repeat(257))]), refused(7, 6));
}

#[test]
fn the_97th_command() {
    let (mut book, answer) = Book::fresh(b"UP_PROVA_1");
    assert_eq!(answer, Ok(()));
    let mut record = read_as(MARKET, SAMPLES[MARKET].1).unwrap();
    // Numbers that do not come in order, 0 among them.
    for place in 0..96 {
        record.number = place * 35 % 96;
        let (next, answer) = book.command(&record);
        assert_eq!(answer, Ok(()));
        book = next;
    }
    assert!(book.orders.windows(2).all(|two| two[0].number + 1 == two[1].number));
    assert_eq!(book.command(&record), (book, Err(Refusal::plain(22))));
    record.number = 96;
    assert_eq!(book.command(&record), (book, Err(Refusal::plain(24))));
    // A struck order keeps its place until it is closed.
    let mut revocation = read_as(RC, SAMPLES[RC].1).unwrap();
    let (book, answer) = book.revoke(&revocation);
    assert_eq!(answer, Ok(()));
    assert_eq!(book.revoke(&revocation).1, Err(Refusal::plain(26)));
    assert_eq!(book.command(&record).1, Err(Refusal::plain(24)));
    revocation.number = 1; // its own number says nothing
    assert_eq!(book.revoke(&revocation).1, Err(Refusal::plain(26)));
    let (book, answer) = book.close(790_248_600);
    assert_eq!((answer, book.orders, book.floor), (Ok(()), Book::ZERO.orders, 790_248_600));
    assert_eq!(book.command(&record).1, Err(Refusal::plain(23)));
}

#[test]
fn close_at_an_order_s_end() {
    let (start, end) = (790_246_800, 790_248_600);
    let record = read_as(MARKET, SAMPLES[MARKET].1).unwrap();
    let (book, _) = Book::fresh(b"UP_PROVA_1").0.command(&record);
    assert_eq!(book.in_force(start - 1).1, Ok(None));
    assert_eq!(book.in_force(start).1, Ok(Some(1234)));
    assert_eq!(book.in_force(end - 1).1, Ok(Some(1234)));
    assert_eq!(book.in_force(end).1, Ok(None));
    let (kept, _) = book.close(end - 1);
    assert_eq!(kept.orders[0].number, 1234);
    let (gone, _) = kept.close(end);
    assert_eq!(gone.orders, Book::ZERO.orders);
    assert_eq!(gone.close(end - 1), (gone, Err(Refusal::plain(27))));
    assert_eq!(gone.in_force(end - 1), (gone, Err(Refusal::plain(28))));
    assert_eq!(gone.close(end).1, Ok(()));
}
