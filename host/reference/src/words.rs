//! The constants of the layouts ("Constants as printed in the layout"), one enum
//! for each set of words, so that a record cannot hold another word.

macro_rules! words {
    ($(#[$note:meta])* $name:ident { $($case:ident = $word:literal),+ $(,)? }) => {
        $(#[$note])*
        #[derive(Clone, Copy, Debug, PartialEq, Eq)]
        pub enum $name { $($case),+ }

        impl $name {
            /// The case whose word is this text, letter for letter.
            pub fn read(text: &[u8]) -> Option<Self> {
                match text {
                    $($word => Some(Self::$case),)+
                    _ => None,
                }
            }

            pub const fn word(self) -> &'static [u8] {
                match self {
                    $(Self::$case => $word),+
                }
            }
        }
    };
}

words! {
    /// Message types, by their codes in plan and identifier (document 000, 1.3).
    Type {
        Cb = b"CB", Rc = b"RC", Mg = b"MG", Eb = b"EB", Lb = b"LB",
        Sr = b"SR", Vq = b"VQ", Ri = b"RI", Qr = b"QR",
    }
}

words! { YesNo { Yes = b"SI", No = b"NO" } }
words! { Continuation { Stay = b"STAI", KeepDifference = b"MANTIENI DIFFERENZA" } }
words! { Origin { Gaudi = b"GAUDI", Scweb = b"SCWEB" } }
words! {
    /// `Tipo Comando` of the mFRR layout: scheduled or direct auction.
    Auction { Scheduled = b"SA", Direct = b"DA" }
}
words! { Operation { Suspension = b"SOSPENSIONE", Insertion = b"INSERIMENTO", Program = b"PROGRAMMA" } }
words! { SartState { Included = b"I", Excluded = b"E" } }
words! { Mode { Rrt = b"RRT", Rts = b"RTS", Rat = b"RAT", Man = b"MAN" } }
words! {
    Regulation {
        StoredProfile = b"PROFILO MEMORIZZATO", Vsrif = b"VSRIF",
        MediumVoltage = b"TENSIONE (MT)", ReactivePower = b"POTENZA REATTIVA",
    }
}
words! {
    /// The two words that may stand for a number in the voltage settings of VQ, as
    /// they are written.
    Extreme { VMax = b"V MAX", VMin = b"V MIN" }
}
words! {
    /// The words that may stand for a number in `Potenza reattiva`.
    ReactiveWord {
        Zero = b"Q=0", MaxOver = b"MAX SOVRAECCITAZIONE", MaxUnder = b"MAX SOTTOECCITAZIONE",
    }
}
words! { Reserve { Down = b"RISERVA A SCENDERE", Up = b"RISERVA A SALIRE" } }
words! { UpTo { Pmin = b"FINO A PMIN", Pmax = b"FINO A PMAX" } }
words! {
    /// `Stato Gradiente Comando` and `Richiesta SuperMassimo` have one word each,
    /// so the record keeps neither.
    NormalGradient { Normal = b"NORMALE" }
}
words! { NoSuperMaximum { No = b"NO" } }
