//! The constants of the layouts, by label.

use crate::dice::Dice;

/// A constant of the layout; now and then another label's.
pub fn word(label: &str, dice: &mut Dice) -> String {
    let own = words(label);
    if own.is_empty() || dice.once_in(8) {
        dice.pick(&WORDS).into()
    } else {
        dice.pick(own).into()
    }
}

fn words(label: &str) -> &'static [&'static str] {
    match label {
        "Stato Gradiente Comando" => &["NORMALE"],
        "Stato Continuazione Comando" => &["STAI", "MANTIENI DIFFERENZA"],
        "Richiesta SuperMassimo" => &["NO", "NO", "SI"],
        "Origine Dati Tecnici a Trif" => &["GAUDI", "SCWEB"],
        "Tipo Comando" => &["SA", "DA"],
        "Tipo Operazione" => &["SOSPENSIONE", "INSERIMENTO", "PROGRAMMA"],
        "Tipo Riserva" => &["RISERVA A SCENDERE", "RISERVA A SALIRE"],
        "Quantita Riservata" => &["FINO A PMIN", "FINO A PMAX"],
        "Ordine di Raccordo" | "PV finale(TINI)" | "PV finale(TFIN)" | "Riammissione" | "Reintegro" => &["SI", "NO"],
        _ => &[],
    }
}

#[rustfmt::skip]
const WORDS: [&str; 25] = [
    "SI", "NO", "no", "NORMALE", "STAI", "MANTIENI DIFFERENZA", "GAUDI", "SCWEB", "SA", "DA", "SOSPENSIONE", "INSERIMENTO", "PROGRAMMA",
    "I", "E", "RRT", "RTS", "RAT", "MAN", "VSRIF", "RISERVA A SCENDERE", "RISERVA A SALIRE", "FINO A PMIN", "FINO A PMAX", "PROFILO MEMORIZZATO",
];
