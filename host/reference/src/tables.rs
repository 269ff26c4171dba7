//! The ten layouts of document 000, 2.3 to 2.11: banners, labels in printed
//! order, and the order of the values in the summary row. Banners stand byte for
//! byte as there, without trailing blanks (mFRR has no blank before its last
//! asterisks, RI three asterisks about its middle line); labels letter for
//! letter, with a plain `a` for an accented one; those that have one also with
//! byte E0 for it, as a second spelling (A1).

use crate::layouts::{Layout, MFRR_SHIFT};

pub static MARKET: Layout = Layout {
    banner: b"*****\n***** MESSAGGIO DI COMANDO *****\n***** PER UPA/UCA *****\n*****\n\n",
    labels: &[
        b"Identificatore messaggio",
        b"Nome UPA/UCA",
        b"Data Ora Inizio Comando",
        b"Data Ora Fine Comando",
        b"Variazione potenza Prog Vinc (TINI)",
        b"Variazione potenza Prog Vinc (TFIN)",
        b"Stato Gradiente Comando",
        b"Stato Continuazione Comando",
        b"Richiesta SuperMassimo",
        b"PV(Data ora Inizio Comando)",
        b"PV(Data ora Fine Comando)",
        b"Ordine di Raccordo",
        b"Tempo di avviamento",
        b"Tempo di rampa",
        b"PV finale(TINI)",
        b"PV finale(TFIN)",
        b"Data Ora Riferimento Dati (Trif)",
        b"Origine Dati Tecnici a Trif",
        b"Data Ora Aggiornamento Dati a Trif",
        b"Profilo normalizzato di rampa h1",
        b"Profilo normalizzato di rampa h2",
        b"Profilo normalizzato di rampa h3",
        b"Profilo normalizzato di rampa h4",
        b"Profilo normalizzato di rampa h5",
        b"Profilo normalizzato di rampa h6",
        b"Gradienti (Pmin,Pmax,Grad)",
    ],
    accented: &[],
    row: &[1, 2, 3, 4, 5, 6, 7, 8, 9, 10, 11, 12, 13, 14, 15, 16, 17, 18, 19, 20, 21, 22, 23, 24, 25, 26],
    shift: 0,
};

pub static MFRR: Layout = Layout {
    banner: b"*****\n***** MESSAGGIO DI COMANDO MFRR*****\n***** PER UPA/UCA *****\n*****\n\n",
    labels: &[
        b"Identificatore messaggio",
        b"Nome UPA/UCA",
        b"Data Ora Inizio Rampa1 TINI1",
        b"Data Ora Fine Rampa1 TFIN1",
        b"Data Ora Inizio Rampa2 TINI2",
        b"Data Ora Fine Rampa2 TFIN2",
        b"Variazione potenza al TFIN1",
        b"Tipo Comando",
        b"Prifbil (TINI1)",
        b"Prifbil (TFIN1)",
        b"Prifbil (TINI2)",
        b"Prifbil (TFIN2)",
    ],
    accented: &[],
    row: &[1, 2, 3, 4, 5, 6, 7, 8, 9, 10, 11, 12],
    shift: MFRR_SHIFT,
};

pub static REVOCATION: Layout = Layout {
    banner: b"*****\n***** MESSAGGIO DI REVOCA COMANDO *****\n*****\n\n",
    labels: &[
        b"Identificatore messaggio",
        b"Nome UPA/UCA",
        b"Data Ora Inizio Revoca Comando",
        b"Data Ora Fine Revoca Comando",
        b"Sequenza Comando",
    ],
    accented: &[],
    row: &[1, 2, 3, 4, 5],
    shift: 0,
};

pub static GENERIC: Layout = Layout {
    banner: b"*****\n***** MESSAGGIO GENERICO *****\n*****\n\n",
    labels: &[
        b"Identificatore messaggio",
        b"Nome UPA/UCA",
        b"Data Ora Inizio",
        b"Data Ora Fine",
        b"Motivazione",
        b"Note",
        b"Data Creazione Msg",
    ],
    accented: &[],
    row: &[1, 2, 3, 4, 5],
    shift: 0,
};

pub static EXCLUSION: Layout = Layout {
    banner: b"*****\n***** MESSAGGIO DI ESCLUSIONE *****\n***** DAL BILANCIAMENTO *****\n*****\n\n",
    labels: &[
        b"Identificatore messaggio",
        b"Nome UPA/UCA",
        b"Data Ora Inizio",
        b"Data Ora Fine",
        b"Motivazione",
        b"Note",
        b"Riammissione",
        b"Data Creazione Msg",
    ],
    accented: &[],
    row: &[1, 2, 3, 4, 7],
    shift: 0,
};

pub static LIMITATION: Layout = Layout {
    banner: b"*****\n***** MESSAGGIO DI LIMITAZIONE *****\n***** AL BILANCIAMENTO *****\n*****\n\n",
    labels: &[
        b"Identificatore messaggio",
        b"Nome UPA/UCA",
        b"Data Ora Inizio",
        b"Data Ora Fine",
        b"Limite Potenza massima",
        b"Limite Potenza Minima",
        b"Motivazione",
        b"Note",
        b"Reintegro",
        b"Data Creazione Msg",
    ],
    accented: &[],
    // The row lists the minimum first, the body the maximum.
    row: &[1, 2, 3, 4, 6, 5, 9],
    shift: 0,
};

pub static SECONDARY: Layout = Layout {
    banner: b"*****\n***** MESSAGGIO PER IL SERVIZIO *****\n***** DI REGOLAZIONE SECONDARIA *****\n*****\n\n",
    labels: &[
        b"Identificatore messaggio",
        b"Nome UPA/UCA",
        b"Data Ora Inizio",
        b"Data Ora Fine",
        b"Tipo Operazione",
        b"Semibande",
        b"Motivazione",
        b"Note",
        b"Data Creazione Msg",
    ],
    accented: &[],
    row: &[1, 2, 3, 4, 5, 6],
    shift: 0,
};

pub static VOLTAGE: Layout = Layout {
    banner: b"*****\n***** MESSAGGIO DI REGOLAZIONE V-Q *****\n*****\n\n",
    labels: &[
        b"Identificatore messaggio",
        b"Nome UPA/UCA",
        b"Data Ora Inizio",
        b"Data Ora Fine",
        b"Stato Sart/Report",
        b"Modalita funzionamento",
        b"Regolazione",
        b"Impostazione Sart/Report",
        b"Impostazione RAT",
        b"Variazione",
        b"Potenza reattiva",
        b"Note",
        b"Data Creazione Msg",
    ],
    accented: &[(b"Modalit\xe0 funzionamento", 6)],
    row: &[1, 2, 3, 4, 5, 6, 7, 8, 9, 10, 11, 12, 13],
    shift: 0,
};

pub static REFUSED: Layout = Layout {
    banner: b"*****\n*** MESSAGGIO DI RIFIUTO DELL'INDISPONIBILITA ***\n*****\n\n",
    labels: &[
        b"Identificatore messaggio",
        b"Nome UPA/UCA",
        b"Data Ora Inizio",
        b"Data Ora Fine",
        b"Motivazione",
        b"Note",
    ],
    accented: &[],
    row: &[1, 2, 3, 4],
    shift: 0,
};

pub static RESERVED: Layout = Layout {
    banner: b"*****\n***** MESSAGGIO DI QUANTITA *****\n***** RISERVATA *****\n*****\n\n",
    labels: &[
        b"Identificatore messaggio",
        b"Nome UPA/UCA",
        b"Data Ora Inizio",
        b"Data Ora Fine",
        b"Tipo Riserva",
        b"Quantita Riservata (MW)",
        b"Quantita Riservata",
        b"Note",
        b"Data Creazione Msg",
    ],
    accented: &[(b"Quantit\xe0 Riservata (MW)", 6), (b"Quantit\xe0 Riservata", 7)],
    row: &[1, 2, 3, 4, 5, 6, 7],
    shift: 0,
};
