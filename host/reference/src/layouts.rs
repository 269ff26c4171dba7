//! What a layout is, and how its fields lie among the labels that one walk over
//! a file looks for. The ten layouts themselves are in [`crate::tables`].

use crate::tables::*;
use crate::words::Type;

/// Fields of the widest layout, and slots of the widest set of labels.
pub const MOST_FIELDS: usize = 26;
pub const SLOTS: usize = 36;

/// The accented letter of `Modalità` and `Quantità` as two plants send it (A1).
pub const ACCENT: u8 = 0xe0;

pub struct Layout {
    /// Banner lines, each with its LF, and the empty line after them.
    pub banner: &'static [u8],
    /// Labels; the field numbers of document 01 are places here, from 1.
    pub labels: &'static [&'static [u8]],
    /// The second spellings of labels, with [`ACCENT`], each with its field
    /// number; the writer never uses them.
    pub accented: &'static [(&'static [u8], usize)],
    /// Field numbers in the order of the summary row.
    pub row: &'static [u8],
    /// Slots that the third field on lies behind its place; see [`labels`].
    pub shift: usize,
}

impl Layout {
    /// Slot of a field (from 1) in the labels of its type.
    pub fn slot(&self, field: usize) -> usize {
        if field <= 2 {
            field - 1
        } else {
            field - 1 + self.shift
        }
    }

    /// Field (from 1) of one of its slots.
    pub fn field(&self, slot: usize) -> usize {
        if slot < 2 {
            slot + 1
        } else {
            slot + 1 - self.shift
        }
    }

    /// Its slots as a bit set.
    pub fn slots(&self) -> u64 {
        0b11 | (((1 << (self.labels.len() - 2)) - 1) << (2 + self.shift))
    }
}

/// The labels that a file of this type may carry, one slot each. For CB both
/// layouts' labels are looked for in the one walk, since only the whole file
/// tells which of the two it is: slots 0 and 1 are common, the market layout has
/// 2 to 25, mFRR the ten from 26.
///
/// The second spellings stand beside them, with their slots; neither layout of
/// CB has any.
pub fn labels(kind: Type) -> Labels {
    let layout = layout(kind, false);
    let plain = if kind == Type::Cb { &COMMAND_LABELS } else { layout.labels };
    Labels { plain, layout }
}

/// The labels of a type, in both spellings.
#[derive(Clone, Copy)]
pub struct Labels {
    plain: &'static [&'static [u8]],
    /// Of the second spellings.
    layout: &'static Layout,
}

impl Labels {
    /// The plain spelling of a slot, if there is such a slot.
    pub fn at(self, slot: usize) -> Option<&'static [u8]> {
        self.plain.get(slot).copied()
    }

    /// The slot of a label in either spelling, letter for letter.
    pub fn slot(self, label: &[u8]) -> Option<usize> {
        let plain = self.plain.iter().position(|&known| known == label);
        plain.or_else(|| self.accented().find(|&(known, _)| known == label).map(|(_, slot)| slot))
    }

    /// The second spellings and their slots.
    pub fn accented(self) -> impl Iterator<Item = (&'static [u8], usize)> {
        self.layout.accented.iter().map(move |&(label, field)| (label, self.layout.slot(field)))
    }
}

/// Field of SR whose two halves stand as two values in the row.
pub const HALF_BANDS_FIELD: usize = 6;

/// The slot of `Tipo Comando`, whose presence makes a CB file mFRR.
pub const AUCTION_SLOT: usize = 7 + MFRR_SHIFT;
pub const MFRR_SHIFT: usize = 24;

static COMMAND_LABELS: [&[u8]; SLOTS] = {
    let mut all = [MARKET.labels[0]; SLOTS];
    let mut slot = 0;
    while slot < SLOTS {
        all[slot] = if slot < 26 { MARKET.labels[slot] } else { MFRR.labels[slot - MFRR_SHIFT] };
        slot += 1;
    }
    all
};

pub fn layout(kind: Type, mfrr: bool) -> &'static Layout {
    match kind {
        Type::Cb if mfrr => &MFRR,
        Type::Cb => &MARKET,
        Type::Rc => &REVOCATION,
        Type::Mg => &GENERIC,
        Type::Eb => &EXCLUSION,
        Type::Lb => &LIMITATION,
        Type::Sr => &SECONDARY,
        Type::Vq => &VOLTAGE,
        Type::Ri => &REFUSED,
        Type::Qr => &RESERVED,
    }
}
