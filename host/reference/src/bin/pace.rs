//! Nanoseconds for each call, on the samples: `pace [rounds]`. For each figure
//! the least of the rounds, since other work on the machine only adds.

use halimpung_reference::*;
use std::hint::black_box;
use std::time::Instant;

const SAMPLES: [(&str, &str, &[u8]); 10] = [
    ("CB market", "CB", include_bytes!("../../../../examples/market.txt")),
    ("CB mFRR", "CB", include_bytes!("../../../../examples/mfrr.txt")),
    ("RC", "RC", include_bytes!("../../../../examples/rc.txt")),
    ("MG", "MG", include_bytes!("../../../../examples/mg.txt")),
    ("EB", "EB", include_bytes!("../../../../examples/eb.txt")),
    ("LB", "LB", include_bytes!("../../../../examples/lb.txt")),
    ("SR", "SR", include_bytes!("../../../../examples/sr.txt")),
    ("VQ", "VQ", include_bytes!("../../../../examples/vq.txt")),
    ("RI", "RI", include_bytes!("../../../../examples/ri.txt")),
    ("QR", "QR", include_bytes!("../../../../examples/qr.txt")),
];

fn main() {
    let rounds: u32 = std::env::args().nth(1).and_then(|word| word.parse().ok()).unwrap_or(500);
    println!("{:<12}{:>7}{:>12}{:>12}{:>12}{:>12}", "layout", "bytes", "read", "read 64", "normalise", "write");
    let mut out = [0; 8192];
    for (name, code, file) in SAMPLES {
        let one = plan(1, code);
        let many = plan(64, code);
        let record = read(7, 300, one.as_bytes(), file).expect(name);
        let figures = [
            pace(rounds, || read_entry(7, 300, black_box(one.as_bytes()), black_box(file), &mut out)),
            pace(rounds, || read_entry(7, 300, black_box(many.as_bytes()), black_box(file), &mut out)),
            pace(rounds, || normalise_entry(7, 300, black_box(one.as_bytes()), black_box(file), &mut out)),
            pace(rounds, || write(black_box(&record), &mut out).unwrap() as u32),
        ];
        print!("{name:<12}{:>7}", file.len());
        figures.iter().for_each(|figure| print!("{figure:>12.0}"));
        println!();
    }
    book(rounds);
}

/// A plan whose last row is ca=7, ioa=300.
fn plan(rows: u32, code: &str) -> String {
    (0..rows).rev().map(|k| format!("ca=7\nioa={}\nunit=UP_PROVA_1\ntype={code}\n", 300 - k)).collect()
}

/// A book of 95 orders: one more command, a question, the panel, a close that drops none.
fn book(rounds: u32) {
    let (mut book, _) = Book::fresh(b"UP_PROVA_1");
    let mut record = read(7, 300, plan(1, "CB").as_bytes(), SAMPLES[0].2).unwrap();
    for number in 0..95 {
        record.number = number;
        book.hold(&record).unwrap();
    }
    record.number = 95;
    let revocation = read(7, 300, plan(1, "RC").as_bytes(), SAMPLES[2].2).unwrap();
    println!("book of 95, by value:");
    println!("  command  {:>8.0}", pace(rounds, || black_box(book).command(black_box(&record)).1.is_ok() as u32));
    println!("  revoke   {:>8.0}", pace(rounds, || black_box(book).revoke(black_box(&revocation)).1.is_ok() as u32));
    println!("  close    {:>8.0}", pace(rounds, || black_box(book).close(black_box(5)).1.is_ok() as u32));
    println!("  in force {:>8.0}", pace(rounds, || black_box(book).in_force(black_box(5)).1.is_ok() as u32));
    println!("  panel    {:>8.0}", pace(rounds, || black_box(book).panel().1.is_ok() as u32));
    println!("lent:");
    println!("  in force {:>8.0}", pace(rounds, || black_box(&book).in_force_at(black_box(5)).is_ok() as u32));
    println!("  panel    {:>8.0}", pace(rounds, || black_box(&book).shown().is_ok() as u32));
    println!("  close    {:>8.0}", pace(rounds, || black_box(&mut book).close_at(black_box(5)).is_ok() as u32));
}

fn pace(rounds: u32, mut call: impl FnMut() -> u32) -> f64 {
    const CALLS: u32 = 200;
    (0..rounds)
        .map(|_| {
            let start = Instant::now();
            for _ in 0..CALLS {
                black_box(call());
            }
            start.elapsed().as_nanos() as f64 / f64::from(CALLS)
        })
        .fold(f64::INFINITY, f64::min)
}
