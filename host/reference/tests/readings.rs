//! "Readings that look right" of document 01, and the points that readings.md
//! marks with (!).

mod common;

use common::*;

#[test]
fn a_label_is_no_prefix() {
    // Only the longer label: the shorter one is missing, not found in it.
    assert_eq!(with(QR, &[("Quantita Riservata                  = FINO A PMAX\n", "")]), refused(6, 1));
    assert_eq!(with(QR, &[("Quantita Riservata (MW)             =\n", "")]), refused(6, 1));
    assert_eq!(with(QR, &[("Quantita Riservata (MW)", "Quantita Riservata     ")]), refused(5, 7));
    assert!(with(QR, &[("Quantita Riservata (MW)             =\n", "Quantita Riservata (MW)=\n")]).is_ok());
}

#[test]
fn the_row_is_not_cut() {
    // The sample's reason holds a `;`; one more changes body and row alike.
    assert!(with(MG, &[("; rete", ";; = +++++ ; rete")]).is_ok());
    assert_eq!(with(MG, &[("; rete 380 kV\nNote", ";rete 380 kV\nNote")]), refused(10, 0));
}

#[test]
fn dates_are_ordered_by_instant() {
    let dates = |start, end| with(RC, &[("15-01-2025 10:00:00 S", start), ("15-01-2025 10:30:00 S", end)]);
    assert!(dates("29-10-2023 02:45:00 L", "29-10-2023 02:15:00 S").is_ok());
    assert_eq!(dates("29-10-2023 02:15:00 S", "29-10-2023 02:45:00 L"), refused(8, 1));
}

#[test]
fn the_banner_says_nothing() {
    assert!(with(RC, &[("MESSAGGIO DI REVOCA COMANDO", "MESSAGGIO GENERICO")]).is_ok());
    assert!(with(RC, &[("*****\n", "")]).is_ok());
    assert_eq!(read_as(MG, SAMPLES[RC].1), refused(6, 5));
    assert_eq!(with(MARKET, &[("DI COMANDO", "DI COMANDO MFRR")]).map(|record| record.is_mfrr()), Ok(false));
}

#[test]
fn bytes_and_size() {
    assert_eq!(read_as(RC, ""), refused(2, 0));
    assert_eq!(read_as(RC, "\x7f"), refused(3, 0));
    assert_eq!(read_as(RC, &"\x7f".repeat(8_193)), refused(2, 0));
    assert_eq!(read_as(RC, "ab\r\r\n"), refused(3, 2));
    assert_eq!(read_as(RC, "ab\r"), refused(3, 2));
    assert!(with(RC, &[("\n", "  \r\n")]).is_ok());
    assert!(with(RC, &[("17\n+++++\n", "17\n  +++++++ \n")]).is_ok());
    assert!(read_as(RC, SAMPLES[RC].1.trim_end()).is_ok());
}

#[test]
fn separators() {
    assert_eq!(read_as(RC, "x"), refused(4, 0));
    assert_eq!(with(RC, &[("= 17\n+++++\n", "= 17\n++++\n")]), refused(4, 1));
    assert_eq!(with(RC, &[("= 17\n+++++\n", "= 17\n+++++\n\n")]), refused(4, 2));
    assert_eq!(with(RC, &[("= 17\n+++++\n", "= 17\n+++++\n+++++\n")]), refused(4, 3));
    // An empty row is judged last; here a label is missing too.
    assert_eq!(read_as(RC, "+++++\n\n+++++"), refused(6, 5));
}

#[test]
fn layouts_of_cb() {
    assert_eq!(with(MARKET, &[("Gradienti", "Tipo Comando =\nGradienti")]), refused(6, 9));
    assert_eq!(with(MARKET, &[("Gradienti", "Tipo Comando\nGradienti")]).map(|record| record.is_mfrr()), Ok(false));
    assert_eq!(with(MFRR, &[("Tipo Comando", "Tipo comando")]), refused(6, 24));
    assert_eq!(with(MFRR, &[("Prifbil (TINI1)", "Tipo Comando = x\nPrifbil (TINI1)")]), refused(5, 8));
    // A label of the other layout may come twice.
    let twice = "Data Ora Inizio Comando = x\nData Ora Inizio Comando = x\nTipo Comando";
    assert!(with(MFRR, &[("Tipo Comando", twice)]).is_ok());
}

#[test]
fn the_first_repeat() {
    let file = |order: [usize; 4]| {
        let labels = ["", "Identificatore messaggio", "", "", "", "Sequenza Comando"];
        let top: String = order.iter().map(|&field| format!("{} = x\n", labels[field])).collect();
        read_as(RC, &(top + SAMPLES[RC].1))
    };
    assert_eq!(file([5, 1, 1, 5]), refused(5, 1));
    assert_eq!(file([1, 5, 5, 1]), refused(5, 5));
}

#[test]
fn the_first_bad_field_is_the_lowest() {
    let changes = [("15-01-2025 10:00:00 S", "x"), ("= 17", "= 017")];
    assert_eq!(with(RC, &changes), refused(7, 3));
    assert_eq!(with(MARKET, &[("= 0,120,2.5;120,250,4;250,400,6.25", "=")]), refused(7, 26));
    assert_eq!(with(SR, &[("= 12.5;10", "= ;")]), refused(7, 6));
    assert_eq!(with(SR, &[("12.5;10", "-1;10")]), refused(8, 7));
    assert_eq!(with(SR, &[("= 12.5;10", "=")]), refused(8, 7));
    // A bad field goes before a broken rule.
    assert_eq!(with(MARKET, &[("= SCWEB", "= GAUDI"), ("250,400,6.25", "250,400")]), refused(7, 26));
    assert_eq!(with(MARKET, &[("= SCWEB", "= GAUDI")]), refused(8, 2));
}

#[test]
fn the_row_as_the_body_came() {
    assert!(with(MARKET, &[("0.6;0.75", "0.60; 0.75")]).is_ok());
    assert_eq!(with(MARKET, &[("= 0.6;0.75", "= 0.6; 0.75")]), refused(10, 0));
    assert!(with(SR, &[("= 12.5;10", "= 12.5 ; 10")]).is_ok());
    assert_eq!(with(SR, &[("12.5;10", "12.5 ; 10")]), refused(10, 0));
    let blank = [("= INSERIMENTO", "= SOSPENSIONE"), ("= 12.5;10", "="), ("INSERIMENTO;12.5;10", "SOSPENSIONE;;")];
    assert!(with(SR, &blank).is_ok());
}

#[test]
fn rows_of_the_voltage_table() {
    // The sample is row 8; its parts are changed in body and row alike.
    let row = |state: &str, mode: &str, regulation: &str, settings: [&str; 4]| {
        let [sart, rat, change, reactive] = settings;
        with(
            VQ,
            &[
                ("= V MAX\n", &format!("= {rat}\n")),
                ("= E\n", &format!("= {state}\n")),
                ("= RAT\n", &format!("= {mode}\n")),
                ("= TENSIONE (MT)\n", &format!("= {regulation}\n")),
                ("Impostazione Sart/Report            =", &format!("Impostazione Sart/Report = {sart}")),
                ("= -2.5\n", &format!("= {change}\n")),
                ("Potenza reattiva                    =", &format!("Potenza reattiva = {reactive}")),
                ("E;RAT;TENSIONE (MT);;V MAX;-2.5;", &[state, mode, regulation, sart, rat, change, reactive].join(";")),
            ],
        )
        .map(|_| ())
    };
    let good = [
        ("I", "RRT", "", ["", "", "", ""]),
        ("I", "RTS", "PROFILO MEMORIZZATO", ["", "", "", ""]),
        ("I", "RTS", "VSRIF", ["400", "", "", ""]),
        ("I", "RTS", "VSRIF", ["V MIN", "", "", ""]),
        ("", "RTS", "VSRIF", ["400", "", "", ""]),
        ("I", "RTS", "VSRIF", ["V MAX", "", "-1", ""]),
        ("E", "RAT", "TENSIONE (MT)", ["", "101.5", "", ""]),
        ("", "RAT", "TENSIONE (MT)", ["", "V MAX", "", ""]),
        ("E", "RAT", "TENSIONE (MT)", ["", "V MIN", "2", ""]),
        ("", "RAT", "TENSIONE (MT)", ["", "V MAX", "2", ""]),
        ("E", "MAN", "POTENZA REATTIVA", ["", "", "", "Q=0"]),
        ("", "MAN", "POTENZA REATTIVA", ["", "", "", "-30"]),
    ];
    for (state, mode, regulation, settings) in good {
        assert_eq!(row(state, mode, regulation, settings), Ok(()), "{state} {mode} {regulation} {settings:?}");
    }
    let broken = [
        ("", "RRT", "", ["", "", "", ""]),
        ("I", "RRT", "VSRIF", ["", "", "", ""]),
        ("I", "RTS", "", ["", "", "", ""]),
        ("I", "RTS", "VSRIF", ["", "", "", ""]),
        ("", "RTS", "VSRIF", ["V MAX", "", "", ""]),
        ("I", "RTS", "VSRIF", ["400", "", "-1", ""]),
        ("E", "RAT", "TENSIONE (MT)", ["", "100", "2", ""]),
        ("I", "MAN", "POTENZA REATTIVA", ["", "", "", "Q=0"]),
    ];
    for (state, mode, regulation, settings) in broken {
        assert_eq!(row(state, mode, regulation, settings), Err((8, 8)), "{state} {mode} {regulation} {settings:?}");
    }
    assert_eq!(row("7", "RAT", "TENSIONE (MT)", ["", "100", "", ""]), Err((7, 5)));
    assert_eq!(row("E", "RAT", "TENSIONE (MT)", ["", "V MED", "", ""]), Err((7, 9)));
    assert_eq!(row("E", "RAT", "TENSIONE (MT)", ["", "V MAX", "+2", ""]), Err((7, 10)));
}
