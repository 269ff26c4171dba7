//! The ten samples, one a layout, and for each the fields of its summary row by their place in the body (document 000,
//! 2.3 to 2.11), so that a file whose values were changed can be given a row that fits.

pub struct Sample {
    pub name: &'static str,
    /// the type, as in the plan
    pub code: &'static str,
    pub file: &'static str,
    /// places of the row's values, from 0
    pub row: &'static [usize],
}

macro_rules! sample {
    ($name:literal, $code:literal, $file:literal, $row:expr) => {
        Sample { name: $name, code: $code, file: include_str!(concat!("../../../examples/", $file)), row: $row }
    };
}

const ALL: [usize; 26] = [0, 1, 2, 3, 4, 5, 6, 7, 8, 9, 10, 11, 12, 13, 14, 15, 16, 17, 18, 19, 20, 21, 22, 23, 24, 25];

/// The body's first values, in its order.
const fn first(count: usize) -> &'static [usize] {
    ALL.split_at(count).0
}

pub static SAMPLES: [Sample; 10] = [
    sample!("CB market", "CB", "market.txt", first(26)),
    sample!("CB mFRR", "CB", "mfrr.txt", first(12)),
    sample!("RC", "RC", "rc.txt", first(5)),
    sample!("MG", "MG", "mg.txt", first(5)),
    sample!("EB", "EB", "eb.txt", &[0, 1, 2, 3, 6]),
    sample!("LB", "LB", "lb.txt", &[0, 1, 2, 3, 5, 4, 8]),
    sample!("SR", "SR", "sr.txt", first(6)),
    sample!("VQ", "VQ", "vq.txt", first(13)),
    sample!("RI", "RI", "ri.txt", first(4)),
    sample!("QR", "QR", "qr.txt", first(7)),
];

pub const CODES: [&str; 9] = ["CB", "RC", "MG", "EB", "LB", "SR", "VQ", "RI", "QR"];
pub const UNIT: &str = "UP_PROVA_1";

/// A row of a plan.
pub fn row(ca: u32, ioa: u32, unit: &str, code: &str) -> String {
    format!("ca={ca}\nioa={ioa}\nunit={unit}\ntype={code}\n")
}

impl Sample {
    /// The labels of the layout, in printed order.
    pub fn labels(&self) -> impl Iterator<Item = &'static str> {
        self.file
            .lines()
            .take_while(|line| !line.starts_with('+'))
            .filter_map(|line| Some(line.split_once('=')?.0.trim()))
    }

    /// A plan of so many rows, the last of which gives address 7, 300 to this sample.
    pub fn plan(&self, rows: u32) -> String {
        (0..rows).rev().map(|k| row(7, 300 - k, UNIT, self.code)).collect()
    }
}
