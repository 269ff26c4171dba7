//! Values that a rule across fields joins, set together: the ways that document 01 allows, and their neighbours. Single values
//! changed at random would hardly ever meet a row of VQ's table, or an LB that lifts its limits. (The h lines of rule 3 are set by
//! [`crate::profiles`].)

use crate::body;
use crate::dice::Dice;
use crate::kinds::number;
use crate::lines::Lines;
use crate::samples::Sample;
use crate::values::of_kind;

/// Labels, and texts for them: `*` stands for one of the label's kind, `#` for a number, `%` for `V MAX` or `V MIN` in
/// either spelling.
struct Table {
    layout: &'static str,
    labels: &'static [&'static str],
    rows: &'static [&'static [&'static str]],
}

#[rustfmt::skip]
static TABLES: [Table; 8] = [
    Table {
        layout: "CB market",
        labels: &["Origine Dati Tecnici a Trif", "Data Ora Aggiornamento Dati a Trif"],
        rows: &[&["SCWEB", "*"], &["SCWEB", "14-01-2025 18:20:31 L"], &["GAUDI", ""], &["SCWEB", ""], &["GAUDI", "*"]],
    },
    Table { layout: "CB market", labels: &["Gradienti (Pmin,Pmax,Grad)"], rows: &[&["*"]] },
    Table {
        layout: "CB mFRR",
        labels: &["Data Ora Inizio Rampa1 TINI1", "Data Ora Fine Rampa1 TFIN1", "Data Ora Inizio Rampa2 TINI2", "Data Ora Fine Rampa2 TFIN2"],
        rows: &[
            &["15-01-2025 10:00:00 S", "15-01-2025 10:10:00 S", "15-01-2025 10:10:00 S", "15-01-2025 10:20:00 S"],
            &["15-01-2025 10:00:00 S", "15-01-2025 10:00:00 S", "15-01-2025 10:10:00 S", "15-01-2025 10:20:00 S"],
            &["15-01-2025 10:00:00 S", "15-01-2025 10:10:00 S", "15-01-2025 10:20:00 S", "15-01-2025 10:20:00 S"],
            &["15-01-2025 10:00:00 S", "15-01-2025 10:10:01 S", "15-01-2025 10:10:00 S", "15-01-2025 10:20:00 S"],
            &["26-10-2025 02:45:00 L", "26-10-2025 02:15:00 S", "26-10-2025 03:15:00 L", "26-10-2025 02:16:00 S"],
            &["26-10-2025 02:15:00 L", "26-10-2025 02:45:00 L", "26-10-2025 02:00:00 S", "26-10-2025 02:01:00 S"],
        ],
    },
    Table {
        layout: "EB",
        labels: &["Riammissione", "Motivazione"],
        rows: &[&["NO", "*"], &["SI", ""], &["SI", "*"], &["NO", ""]],
    },
    Table {
        layout: "LB",
        labels: &["Reintegro", "Limite Potenza massima", "Limite Potenza Minima", "Motivazione"],
        rows: &[
            &["SI", "", "", ""], &["NO", "#", "", "*"], &["NO", "", "#", "*"], &["NO", "#", "#", "*"], &["NO", "350", "350.0", "Rete"],
            &["NO", "350", "350.001", "Rete"], &["NO", "", "", "Rete"], &["SI", "#", "", ""], &["SI", "", "#", ""], &["SI", "", "", "*"],
            &["NO", "#", "", ""],
        ],
    },
    Table {
        layout: "SR",
        labels: &["Tipo Operazione", "Semibande"],
        rows: &[
            &["SOSPENSIONE", ""], &["SOSPENSIONE", "*"], &["INSERIMENTO", ""], &["PROGRAMMA", ""], &["PROGRAMMA", "*"],
            &["INSERIMENTO", "0 ; -0"], &["INSERIMENTO", "-0.001;1"], &["PROGRAMMA", "1;-0.001"], &["INSERIMENTO", ";"], &["SOSPENSIONE", " ; "],
        ],
    },
    Table {
        layout: "VQ",
        labels: &[
            "Stato Sart/Report", "Modalita funzionamento", "Regolazione", "Impostazione Sart/Report", "Impostazione RAT", "Variazione",
            "Potenza reattiva",
        ],
        rows: &[
            &["I", "RRT", "", "", "", "", ""],
            &["I", "RTS", "PROFILO MEMORIZZATO", "", "", "", ""],
            &["I", "RTS", "VSRIF", "#", "", "", ""],
            &["", "RTS", "VSRIF", "#", "", "", ""],
            &["I", "RTS", "VSRIF", "%", "", "", ""],
            &["I", "RTS", "VSRIF", "%", "", "#", ""],
            &["E", "RAT", "TENSIONE (MT)", "", "#", "", ""],
            &["", "RAT", "TENSIONE (MT)", "", "%", "", ""],
            &["E", "RAT", "TENSIONE (MT)", "", "%", "#", ""],
            &["", "RAT", "TENSIONE (MT)", "", "%", "#", ""],
            &["E", "MAN", "POTENZA REATTIVA", "", "", "", "Q=0"],
            &["E", "MAN", "POTENZA REATTIVA", "", "", "", "MAX SOVRAECCITAZIONE"],
            &["", "MAN", "POTENZA REATTIVA", "", "", "", "MAX SOTTOECCITAZIONE"],
            &["", "MAN", "POTENZA REATTIVA", "", "", "", "#"],
            &["E", "RAT", "TENSIONE (MT)", "", "#", "#", ""],
            &["", "RTS", "VSRIF", "%", "", "", ""],
            &["I", "RTS", "VSRIF", "%", "", "%", ""],
            &["E", "RAT", "TENSIONE (MT)", "", "%", "%", ""],
            &["", "MAN", "POTENZA REATTIVA", "", "", "", "%"],
        ],
    },
    Table {
        layout: "QR",
        labels: &["Quantita Riservata (MW)", "Quantita Riservata"],
        rows: &[&["#", ""], &["", "FINO A PMIN"], &["", "FINO A PMAX"], &["", ""], &["#", "FINO A PMAX"]],
    },
];

/// One row of one of the layout's tables; RC, MG and RI have none.
pub fn change(lines: &mut Lines, sample: &Sample, dice: &mut Dice) {
    let tables: Vec<&Table> = TABLES.iter().filter(|table| table.layout == sample.name).collect();
    if tables.is_empty() {
        return;
    }
    let table = dice.pick(&tables);
    let (row, other) = (dice.pick(table.rows), dice.pick(table.rows));
    // now and then one column is another row's
    let mixed = if dice.once_in(4) { dice.below(row.len()) } else { row.len() };
    for (column, label) in table.labels.iter().enumerate() {
        let text = if column == mixed { other[column] } else { row[column] };
        body::set(lines, label, filled(text, label, sample.code, dice).as_bytes());
    }
}

fn filled(text: &str, label: &str, code: &str, dice: &mut Dice) -> String {
    match text {
        "*" => of_kind(label, code, dice),
        "#" => number(dice),
        "%" => dice.pick(&["V MAX", "V MIN", "VMAX", "VMIN"]).into(),
        _ => text.into(),
    }
}
