//! The typed record of a message. Words are enums, blanks are `None`, texts have
//! fixed room. Fields are public: a caller may build any record, and the writer
//! and the book judge it first ([`crate::valid`]).

use crate::dates::Date;
use crate::lists::{Gradients, HalfBands, Profile};
use crate::values::{Note, Reason, Unit};
use crate::words::*;

#[derive(Clone, Copy, Debug, PartialEq, Eq)]
pub struct Record {
    /// The ten digits of the identifier; its type code follows from the body.
    pub number: u64,
    pub unit: Unit,
    pub body: Body,
}

/// One case for each layout.
// The cases differ in size, and boxing the wide ones would allocate.
#[allow(clippy::large_enum_variant)]
#[derive(Clone, Copy, Debug, PartialEq, Eq)]
pub enum Body {
    Market(Market),
    Mfrr(Mfrr),
    Revocation {
        span: Span,
        sequence: u64,
    },
    Generic {
        span: Span,
        reason: Reason,
        note: Note,
        created: Date,
    },
    Exclusion {
        span: Span,
        reason: Reason,
        note: Note,
        readmitted: YesNo,
        created: Date,
    },
    Limitation(Limitation),
    Secondary {
        span: Span,
        operation: Operation,
        half_bands: Option<HalfBands>,
        reason: Reason,
        note: Note,
        created: Date,
    },
    Voltage(Voltage),
    Refused {
        span: Span,
        reason: Reason,
        note: Note,
    },
    Reserved {
        span: Span,
        reserve: Reserve,
        quantity: Option<i32>,
        up_to: Option<UpTo>,
        note: Note,
        created: Date,
    },
}

#[derive(Clone, Copy, Debug, PartialEq, Eq)]
pub struct Span {
    pub start: Date,
    pub end: Date,
}

impl Span {
    /// By instant, not by digits: 02:45 L precedes 02:15 S.
    pub fn is_forward(self) -> bool {
        self.start.instant() < self.end.instant()
    }
}

/// A pair of values at TINI and TFIN.
#[derive(Clone, Copy, Debug, PartialEq, Eq)]
pub struct Ends<T> {
    pub initial: T,
    pub last: T,
}

/// CB, market layout (2.3.1). Numbers are thousandths, here and below.
#[derive(Clone, Copy, Debug, PartialEq, Eq)]
pub struct Market {
    pub span: Span,
    pub variation: Ends<i32>,
    pub continuation: Continuation,
    pub program: Ends<i32>,
    pub joining: YesNo,
    pub start_up_time: Option<i32>,
    pub ramp_time: Option<i32>,
    pub final_program: Ends<YesNo>,
    pub reference: Date,
    pub origin: Origin,
    pub updated: Option<Date>,
    pub profiles: [Option<Profile>; 6],
    pub gradients: Gradients,
}

/// CB, mFRR layout (2.3.2).
#[derive(Clone, Copy, Debug, PartialEq, Eq)]
pub struct Mfrr {
    pub first: Span,
    pub second: Span,
    pub variation: i32,
    pub auction: Auction,
    /// At TINI1, TFIN1, TINI2, TFIN2.
    pub programs: [i32; 4],
}

#[derive(Clone, Copy, Debug, PartialEq, Eq)]
pub struct Limitation {
    pub span: Span,
    pub maximum: Option<i32>,
    pub minimum: Option<i32>,
    pub reason: Reason,
    pub note: Note,
    pub restored: YesNo,
    pub created: Date,
}

#[derive(Clone, Copy, Debug, PartialEq, Eq)]
pub struct Voltage {
    pub start: Date,
    pub end: Option<Date>,
    pub state: Option<SartState>,
    pub mode: Mode,
    pub regulation: Option<Regulation>,
    pub sart: Option<Setting<Kilovolts>>,
    pub rat: Option<Setting<RatPercent>>,
    pub change: Option<ChangePercent>,
    pub reactive: Option<Reactive>,
    pub note: Note,
    pub created: Date,
}

// The four quantities of VQ are types of their own, each over thousandths, so
// that none can be put for another.
#[derive(Clone, Copy, Debug, PartialEq, Eq)]
pub struct Kilovolts(pub i32);
#[derive(Clone, Copy, Debug, PartialEq, Eq)]
pub struct RatPercent(pub i32);
#[derive(Clone, Copy, Debug, PartialEq, Eq)]
pub struct ChangePercent(pub i32);
#[derive(Clone, Copy, Debug, PartialEq, Eq)]
pub struct Megavars(pub i32);

#[derive(Clone, Copy, Debug, PartialEq, Eq)]
pub enum Setting<Q> {
    At(Q),
    To(Extreme),
}

#[derive(Clone, Copy, Debug, PartialEq, Eq)]
pub enum Reactive {
    At(Megavars),
    To(ReactiveWord),
}

impl Record {
    pub fn kind(&self) -> Type {
        match self.body {
            Body::Market(_) | Body::Mfrr(_) => Type::Cb,
            Body::Revocation { .. } => Type::Rc,
            Body::Generic { .. } => Type::Mg,
            Body::Exclusion { .. } => Type::Eb,
            Body::Limitation(_) => Type::Lb,
            Body::Secondary { .. } => Type::Sr,
            Body::Voltage(_) => Type::Vq,
            Body::Refused { .. } => Type::Ri,
            Body::Reserved { .. } => Type::Qr,
        }
    }

    pub fn is_mfrr(&self) -> bool {
        matches!(self.body, Body::Mfrr(_))
    }

    /// Start and end; mFRR: TINI1 and TFIN2. Only a VQ may lack its end.
    pub fn dates(&self) -> (Date, Option<Date>) {
        match &self.body {
            Body::Voltage(voltage) => (voltage.start, voltage.end),
            Body::Mfrr(order) => (order.first.start, Some(order.second.end)),
            Body::Market(Market { span, .. })
            | Body::Limitation(Limitation { span, .. })
            | Body::Revocation { span, .. }
            | Body::Generic { span, .. }
            | Body::Exclusion { span, .. }
            | Body::Secondary { span, .. }
            | Body::Refused { span, .. }
            | Body::Reserved { span, .. } => (span.start, Some(span.end)),
        }
    }
}
