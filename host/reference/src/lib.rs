//! Messages of Annex A.34 Rev. 10, read, written and booked as document 01 says,
//! with requests A1 (accented labels and the short VMAX), A2 (files from their
//! segments), A4 (a book over a restart), A5 (profiles with fewer than 24 values), A6 (a
//! revocation for part of the time), A7 (the panel's two numbers) and A8 (the day in
//! quarter hours) of document 02.
//!
//! The path of a file: [`plan`] gives the type and unit of the address, [`lines`]
//! walks the file once and finds where each value lies, [`fields`] turns the
//! values into a [`record`], [`rules`] judges the record, [`reader`] puts these
//! in the order of the refusal numbers. [`writer`] goes the other way. Before all
//! of these, [`collect`] makes a file of the units in which it came.
//!
//! Nothing on that path allocates: values stay slices of the file until they are
//! typed, and a record has fixed room for its texts. A collector does: it keeps
//! the octets that came; and so does [`saved`], which makes a book's text aside.
#![forbid(unsafe_code)]

pub mod book;
pub mod collect;
pub mod dates;
pub mod day;
pub mod entries;
pub mod fields;
pub mod keyed;
pub mod layouts;
pub mod lines;
pub mod lists;
pub mod normaliser;
pub mod pen;
pub mod plan;
pub mod program;
pub mod reader;
pub mod record;
pub mod rules;
pub mod runs;
pub mod saved;
pub mod stretches;
pub mod tables;
pub mod times;
pub mod valid;
pub mod values;
pub mod words;
pub mod writer;

pub use book::{Book, Order, Panel};
pub use collect::{Collector, Heard};
pub use day::{Daybook, Summary};
pub use entries::{normalise_entry, read_entry};
pub use normaliser::normalise;
pub use program::program;
pub use reader::read;
pub use record::{Body, Record};
pub use times::{ramp_time, start_up_time};
pub use writer::write;

/// A refusal: its number and detail from the table "Refusal numbers".
#[derive(Clone, Copy, Debug, PartialEq, Eq)]
pub struct Refusal {
    pub number: u32,
    pub detail: u32,
}

impl Refusal {
    pub const fn new(number: u32, detail: u32) -> Self {
        Refusal { number, detail }
    }

    /// A refusal whose detail is 0.
    pub const fn plain(number: u32) -> Self {
        Refusal { number, detail: 0 }
    }
}
