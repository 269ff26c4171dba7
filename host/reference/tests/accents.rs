//! Request A1 of document 02, accented labels and the short VMAX, by the numbers of docs/READINGS.md. Files here are
//! strings of which each character is one byte, so `à` is byte E0.

mod common;

use common::*;
use halimpung_reference::{normalise_entry, read_entry, write, Record};

const MODE: &str = "Modalità funzionamento";
const QUANTITY: &str = "Quantità Riservata (MW)";
const UP_TO: &str = "Quantità Riservata";

/// The sample with its own labels accented.
fn accented(sample: usize) -> String {
    SAMPLES[sample].1.replace("Modalita", "Modalità").replace("Quantita", "Quantità")
}

fn plain(sample: usize) -> Result<Record, (u32, u32)> {
    read_as(sample, SAMPLES[sample].1)
}

/// Refusal 3 at the n-th accent of the file, from 0.
fn at_accent(file: &str, n: usize) -> Result<Record, (u32, u32)> {
    let place = file.chars().enumerate().filter(|&(_, byte)| byte == 'à').nth(n).expect("an accent").0;
    refused(3, place as u32)
}

/// The file with this line before the line that starts so.
fn before(file: &str, start: &str, line: &str) -> String {
    assert_eq!(file.matches(&format!("\n{start}")).count(), 1, "{start}");
    file.replace(&format!("\n{start}"), &format!("\n{line}\n{start}"))
}

/// The row of a file, which is its line before the last.
fn with_row(file: &str, row: &str) -> String {
    let mut lines: Vec<&str> = file.lines().collect();
    let place = lines.len() - 2;
    lines[place] = row;
    lines.join("\n") + "\n"
}

fn written(record: &Record) -> String {
    let mut out = [0; 4_096];
    let length = write(record, &mut out).expect("a valid record");
    String::from_utf8(out[..length].to_vec()).expect("plain bytes")
}

/// A VQ file of one row of the table, its words as given; the summary row has its own, so that the two may differ.
fn voltage(state: &str, mode: &str, regulation: &str, body: [&str; 4], row: [&str; 4]) -> Result<Record, (u32, u32)> {
    let file = SAMPLES[VQ].1;
    let [sart, rat, change, reactive] = body;
    let values = [
        ("Stato Sart/Report", state),
        ("Modalita funzionamento", mode),
        ("Regolazione", regulation),
        ("Impostazione Sart/Report", sart),
        ("Impostazione RAT", rat),
        ("Variazione", change),
        ("Potenza reattiva", reactive),
    ];
    let line = |line: &str| match values.iter().find(|(label, _)| line.starts_with(label)) {
        Some((label, value)) => format!("{label} = {value}\n"),
        None => format!("{line}\n"),
    };
    let body: String = file.lines().map(line).collect();
    let row = [&[state, mode, regulation][..], &row].concat().join(";");
    read_as(VQ, &body.replace("E;RAT;TENSIONE (MT);;V MAX;-2.5;", &row))
}

#[test]
fn accented_files_are_read() {
    for sample in [VQ, QR] {
        let file = accented(sample);
        assert_ne!(file, SAMPLES[sample].1);
        assert_eq!(read_as(sample, &file), plain(sample));
        assert_eq!(read_as(sample, &file.replace('\n', "\r\n")), plain(sample));
        assert_eq!(read_as(sample, file.trim_end()), plain(sample));
        // blanks about the label are trimmed, and none need be there
        assert_eq!(read_as(sample, &file.replace('\n', "\n  ").replace('=', "   =")), plain(sample));
        assert_eq!(read_as(sample, &file.replace(" =", "=").replace("  ", "")), plain(sample));
    }
    // one of the two, either
    for label in [QUANTITY, UP_TO] {
        let padded = format!("\n{label:<36}");
        assert_eq!(read_as(QR, &SAMPLES[QR].1.replace(&padded.replace('à', "a"), &padded)), plain(QR));
    }
}

#[test]
fn the_line_may_stand_anywhere() {
    for (sample, label) in [(VQ, MODE), (QR, QUANTITY), (QR, UP_TO)] {
        let file = accented(sample);
        let line = file.lines().find(|line| line.starts_with(label) && line[label.len()..].trim().starts_with('='));
        let line = line.expect("a line of the label");
        let others = file.replacen(&format!("{line}\n"), "", 1);
        assert_eq!(read_as(sample, &others), refused(6, 1));
        for end in ["\n", "\r\n"] {
            assert_eq!(read_as(sample, &format!("{line}{end}{others}")), plain(sample));
        }
        for end in ["", "\n", "\r\n"] {
            assert_eq!(read_as(sample, &format!("{others}{line}{end}")), plain(sample));
        }
        // a CR that no LF follows is the first byte not allowed, and the accent above it is allowed
        let cut = format!("{others}{line}\r");
        assert_eq!(read_as(sample, &cut), refused(3, cut.chars().count() as u32 - 1));
    }
}

#[test]
fn reading_9_the_row_is_a_line_too() {
    for (sample, label) in [(VQ, MODE), (QR, QUANTITY), (QR, UP_TO)] {
        for row in [format!("{label}=1"), format!("  {label}   = 1;2 "), format!("{label}=")] {
            assert_eq!(read_as(sample, &with_row(SAMPLES[sample].1, &row)), refused(10, 0), "{row}");
            assert_eq!(read_as(sample, &with_row(&accented(sample), &row)), refused(10, 0), "{row}");
        }
        for row in [label.to_string(), format!("x;{label}=1"), format!("{label}=à"), format!("= {label}")] {
            let file = with_row(SAMPLES[sample].1, &row);
            let last = file.matches('à').count() - 1;
            assert_eq!(read_as(sample, &file), at_accent(&file, last), "{row}");
        }
    }
    // it is no parameter line there: the label is not found in the row
    let missing = SAMPLES[VQ].1.replace("Modalita funzionamento", "Modalita");
    assert_eq!(read_as(VQ, &with_row(&missing, &format!("{MODE}=RAT"))), refused(6, 1));
    // and between more lines, where separators are refused, it is allowed all the same
    let file = before(SAMPLES[VQ].1, "VQ-0000000047;", &format!("{MODE} = RAT"));
    assert_eq!(read_as(VQ, &file), refused(4, 2));
    assert_eq!(read_as(VQ, &format!("{MODE} = RAT")), refused(4, 0));
    assert_eq!(read_as(VQ, MODE), refused(3, 7));
}

#[test]
fn reading_9_bytes_go_first() {
    // the first byte not allowed from the top, be it an accent or another
    let file = accented(VQ);
    assert_eq!(read_as(VQ, &format!("{file}à")), refused(3, file.chars().count() as u32));
    assert_eq!(read_as(VQ, &format!("\t{file}")), refused(3, 0));
    let both = file.replace("Note ", "Notà ").replace("V MAX", "V\tMAX");
    assert_eq!(read_as(VQ, &both), refused(3, both.find('\t').expect("a tab") as u32 - 1));
    // 13, 1 and 2 go before
    assert_eq!(read_as(VQ, &"à".repeat(8_193)), refused(2, 0));
    assert_eq!(read_as(VQ, &"à".repeat(8_192)), refused(3, 0));
    let long = format!("{file}{}", " ".repeat(8_192 - file.chars().count()));
    assert_eq!(read_as(VQ, &long), plain(VQ));
    assert_eq!(read_as(VQ, &(long + " ")), refused(2, 0));
}

#[test]
fn reading_10_labels_of_the_plan_s_type() {
    let lines = [MODE, QUANTITY, UP_TO].map(|label| format!("{label} = 1"));
    for (sample, (code, file)) in SAMPLES.iter().enumerate() {
        for (line, (own, field)) in lines.iter().zip([("VQ", 6), ("QR", 6), ("QR", 7)]) {
            let file = before(file, "Identificatore messaggio", line);
            let answer = if own == *code { refused(5, field) } else { at_accent(&file, 0) };
            assert_eq!(read_as(sample, &file), answer, "{code}: {line}");
        }
    }
    // the plan says the type, not the banner nor the identifier
    let file = accented(VQ);
    assert_eq!(read_as(QR, &file), at_accent(&file, 0));
    assert_eq!(read_as(QR, SAMPLES[VQ].1), refused(6, 3));
    let file = accented(QR);
    assert_eq!(read_as(VQ, &file), at_accent(&file, 0));
    assert_eq!(read_as(RC, &file), at_accent(&file, 0));
}

#[test]
fn reading_11_only_before_the_first_equals() {
    for (sample, label) in [(VQ, MODE), (QR, QUANTITY), (QR, UP_TO)] {
        for line in [
            label.to_string(),
            format!("= {label}"),
            format!("= {label} ="),
            format!("x = {label} = 1"),
            format!("Note aggiuntive = {label}"),
            format!("{label} + 1"),
        ] {
            let file = before(SAMPLES[sample].1, "Identificatore messaggio", &line);
            assert_eq!(read_as(sample, &file), at_accent(&file, 0), "{line}");
        }
        let file = format!("{}{label}", SAMPLES[sample].1);
        assert_eq!(read_as(sample, &file), at_accent(&file, 0));
        // the second accent of the line
        for line in [format!("{label} = à"), format!("{label} = {label}"), format!("{label}==à")] {
            let file = before(SAMPLES[sample].1, "Identificatore messaggio", &line);
            assert_eq!(read_as(sample, &file), at_accent(&file, 1), "{line}");
        }
    }
    // the rest of an accented line is judged as any: here it is the CR that is refused
    let file = accented(VQ).replace("= RAT\n", "= R\rAT\n");
    assert_eq!(read_as(VQ, &file), refused(3, file.chars().position(|byte| byte == '\r').expect("a CR") as u32));
}

#[test]
fn reading_12_the_label_is_exact() {
    let other = [
        (VQ, "Modalità di funzionamento"),
        (VQ, "modalità funzionamento"),
        (VQ, "MODALITà FUNZIONAMENTO"),
        (VQ, "Modalità  funzionamento"),
        (VQ, "Modalitàfunzionamento"),
        (VQ, "Modalità funzionamento\r"),
        (VQ, "Modalità funzionamento \r "),
        (VQ, "\rModalità funzionamento"),
        (VQ, "Modalità\tfunzionamento"),
        (VQ, "Modalitàà funzionamento"),
        (VQ, "Modalità funzionàmento"),
        (VQ, "Modàlità funzionamento"),
        (VQ, "Modalitaà funzionamento"),
        (VQ, "Modàlita funzionamento"),
        (VQ, "Modalità"),
        (VQ, "Modalità funzionament"),
        (VQ, "Modalità funzionamento (MW)"),
        (VQ, "x Modalità funzionamento"),
        (VQ, "Regolàzione"),
        (VQ, "à"),
        (QR, "Quantità"),
        (QR, "Quantità Riservata(MW)"),
        (QR, "Quantità Riservata (MW"),
        (QR, "Quantità Riservata (mw)"),
        (QR, "Quantità Riservata (MW) (MW)"),
        (QR, "Quantità  Riservata"),
        (QR, "Quantità riservata"),
        (QR, "Quantità Riservatà"),
        (QR, "Quàntità Riservata"),
        (QR, "Quantità Riservata x"),
    ];
    for (sample, label) in other {
        for line in [format!("{label} = 1"), format!("  {label}=1")] {
            let file = before(SAMPLES[sample].1, "Identificatore messaggio", &line);
            // nothing here comes before the accent but one CR
            let first = if label.starts_with('\r') {
                refused(3, file.find('\r').expect("a CR") as u32)
            } else {
                at_accent(&file, 0)
            };
            assert_eq!(read_as(sample, &file), first, "{label:?}");
        }
    }
    // other bytes for the accent
    for bytes in ["\u{c0}", "\u{e1}", "\u{e8}", "\u{c3}\u{a0}", "\u{85}", "\u{ff}", "\t"] {
        for (sample, label) in [(VQ, MODE), (QR, QUANTITY), (QR, UP_TO)] {
            let line = format!("{} = 1", label.replace('à', bytes));
            let file = before(SAMPLES[sample].1, "Identificatore messaggio", &line);
            let place = file.find(bytes).expect("all bytes above it are plain");
            assert_eq!(read_as(sample, &file), refused(3, place as u32), "{bytes:?} {label}");
        }
    }
    // values and texts
    for (from, to) in [("= Fino a", "= Fino à"), ("= RAT\n", "= RàT\n"), ("= UP_PROVA_1", "= à"), ("=\n", "= à\n")]
    {
        let file = SAMPLES[VQ].1.replacen(from, to, 1);
        assert_eq!(read_as(VQ, &file), at_accent(&file, 0), "{to}");
    }
}

#[test]
fn reading_13_two_spellings_are_a_repeat() {
    for (sample, label, field) in [(VQ, MODE, 6), (QR, QUANTITY, 6), (QR, UP_TO, 7)] {
        let bare = label.replace('à', "a");
        for one in [label, &bare] {
            for place in ["Identificatore messaggio", "Note "] {
                for file in [SAMPLES[sample].1, &accented(sample)] {
                    assert_eq!(read_as(sample, &before(file, place, &format!("{one} ="))), refused(5, field));
                }
            }
            assert_eq!(read_as(sample, &format!("{}{one}=", accented(sample))), refused(5, field));
            assert_eq!(read_as(sample, &format!("{one}=\r\n{}", accented(sample))), refused(5, field));
        }
        // neither spelling: missing
        let file = accented(sample).replacen(&format!("{label:<36}="), "x =", 1);
        assert_eq!(read_as(sample, &file), refused(6, 1));
    }
    // the first repeat from the top
    for accents in 0..16 {
        let top = |fields: [usize; 4]| {
            let lines = fields.iter().enumerate().map(|(place, &field)| {
                let label = [QUANTITY, UP_TO][field - 6];
                let label = if accents >> place & 1 == 0 { label.replace('à', "a") } else { label.into() };
                format!("{label} = 1\n")
            });
            read_as(QR, &(lines.collect::<String>() + SAMPLES[QR].1))
        };
        assert_eq!(top([6, 7, 7, 6]), refused(5, 7));
        assert_eq!(top([7, 6, 6, 7]), refused(5, 6));
        assert_eq!(top([6, 6, 7, 7]), refused(5, 6));
        assert_eq!(top([7, 7, 6, 6]), refused(5, 7));
    }
    // the two labels of QR are two, in any spelling
    let file = SAMPLES[QR].1;
    assert_eq!(read_as(QR, &file.replace("Quantita Riservata (MW)", QUANTITY)), plain(QR));
    assert_eq!(read_as(QR, &file.replace("Quantita Riservata (MW)", UP_TO)), refused(5, 7));
}

#[test]
fn reading_14_short_settings() {
    const RTS: [&str; 3] = ["I", "RTS", "VSRIF"];
    const RAT: [&str; 3] = ["E", "RAT", "TENSIONE (MT)"];
    let read = |[state, mode, regulation]: [&str; 3], body: [&str; 4]| voltage(state, mode, regulation, body, body);
    for (short, long) in [("VMAX", "V MAX"), ("VMIN", "V MIN")] {
        for change in ["", "-2.5"] {
            let sart = read(RTS, [short, "", change, ""]);
            assert!(sart.is_ok());
            assert_eq!(sart, read(RTS, [long, "", change, ""]));
            for state in ["E", ""] {
                let rat = read([state, RAT[1], RAT[2]], ["", short, change, ""]);
                assert!(rat.is_ok());
                assert_eq!(rat, read([state, RAT[1], RAT[2]], ["", long, change, ""]));
            }
        }
        // rule 8 as for the long spelling: row 4 takes a number only
        assert_eq!(read(["", "RTS", "VSRIF"], [short, "", "", ""]), refused(8, 8));
        assert_eq!(read(RTS, ["", short, "", ""]), refused(8, 8));
        assert_eq!(read(RTS, [short, short, "", ""]), refused(8, 8));
        // not in the other two
        for word in [short, long] {
            assert_eq!(read(RTS, ["V MAX", "", word, ""]), refused(7, 10), "{word}");
            assert_eq!(read(RAT, ["", "VMAX", word, ""]), refused(7, 10), "{word}");
            assert_eq!(read(["E", "MAN", "POTENZA REATTIVA"], ["", "", "", word]), refused(7, 11), "{word}");
        }
    }
    for bad in [
        "Vmax",
        "Vmin",
        "vmax",
        "V  MAX",
        "V  MIN",
        "VMA",
        "VMAXX",
        "V MAX.",
        "VMAX VMIN",
        "VMED",
        "V",
        "V-MAX",
        "V_MIN",
        "VMI N",
    ] {
        assert_eq!(read(RTS, [bad, "", "", ""]), refused(7, 8), "{bad}");
        assert_eq!(read(RAT, ["", bad, "", ""]), refused(7, 9), "{bad}");
    }
    // in no other word either
    assert_eq!(read(["E", "RAT", "TENSIONE(MT)"], ["", "VMAX", "", ""]), refused(7, 7));
}

#[test]
fn reading_15_the_writer_keeps_its_spelling() {
    for sample in [VQ, QR] {
        let file = accented(sample).replace("V MAX", "VMAX");
        let record = read_as(sample, &file).expect("accepted");
        assert_eq!(written(&record), SAMPLES[sample].1);
        let (plan, bytes) = (plan(SAMPLES[sample].0), bytes(&file));
        let mut out = [0xaa; 4_096];
        let length = normalise_entry(7, 300, plan.as_bytes(), &bytes, &mut out) as usize;
        assert_eq!(&out[..length], SAMPLES[sample].1.as_bytes());
        assert!(out[length..].iter().all(|&byte| byte == 0xaa));
        let mut other = [0xaa; 96];
        let mut own = [0xaa; 96];
        let answers = [(&bytes[..], &mut other), (SAMPLES[sample].1.as_bytes(), &mut own)]
            .map(|(file, out)| read_entry(7, 300, plan.as_bytes(), file, out));
        assert_eq!((answers[0], other), (answers[1], own));
    }
    let record = voltage("I", "RTS", "VSRIF", ["VMIN", "", "1", ""], ["VMIN", "", "1", ""]).expect("accepted");
    let form = written(&record);
    assert!(form.contains("\nImpostazione Sart/Report            = V MIN\n"));
    assert!(form.contains(";I;RTS;VSRIF;V MIN;;1;;"));
}

#[test]
fn reading_16_the_row_as_the_body_came() {
    let words = ["VMAX", "V MAX", "VMIN", "V MIN"];
    for body in words {
        for row in words {
            let answer = if body == row { Ok(()) } else { Err((10, 0)) };
            let sart = voltage("I", "RTS", "VSRIF", [body, "", "", ""], [row, "", "", ""]);
            assert_eq!(sart.map(|_| ()), answer, "{body}, {row}");
            let rat = voltage("", "RAT", "TENSIONE (MT)", ["", body, "3", ""], ["", row, "3", ""]);
            assert_eq!(rat.map(|_| ()), answer, "{body}, {row}");
        }
    }
    // blanks at the row's two ends are trimmed, those inside a word are not
    let file = SAMPLES[VQ].1.replace("V MAX", "VMAX").replace("\nVQ-", "\n  VQ-");
    assert!(read_as(VQ, &file).is_ok());
    assert_eq!(read_as(VQ, &file.replace(";VMAX;", ";VMAX ;")), refused(10, 0));
}

#[test]
fn the_example() {
    let [plan, file, own] =
        ["plan.txt", "vq-accented.txt", "vq.txt"].map(|name| std::fs::read(format!("{EXAMPLES}/{name}")).expect(name));
    assert!(file.contains(&0xe0) && file.windows(4).any(|four| four == b"VMAX"));
    let record = halimpung_reference::read(7, 303, &plan, &file).expect("accepted");
    assert_eq!(record.number, 10);
    assert!(halimpung_reference::read(7, 303, &plan, &own).is_ok());
    let form = written(&record);
    assert!(form.contains("\nModalita funzionamento ") && form.contains("= V MAX\n") && form.contains(";V MAX;"));
    assert_eq!(halimpung_reference::read(7, 303, &plan, form.as_bytes()), Ok(record));
}

const EXAMPLES: &str = concat!(env!("CARGO_MANIFEST_DIR"), "/../../examples");
