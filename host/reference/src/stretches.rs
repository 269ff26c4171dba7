//! The struck stretches of a held order (document 02, A6). A stretch runs from its
//! start up to, not with, its end, as an order does.

pub const MOST_STRETCHES: usize = 4;

#[derive(Clone, Copy, Debug, PartialEq, Eq)]
pub struct Stretch {
    pub from: u32,
    pub to: u32,
}

impl Stretch {
    pub const UNUSED: Stretch = Stretch { from: 0, to: 0 };

    pub fn has(&self, t: u32) -> bool {
        self.from <= t && t < self.to
    }

    pub fn lies_in(&self, other: &Stretch) -> bool {
        other.from <= self.from && self.to <= other.to
    }

    /// The instants of both. Where there are none, its start is not before its end.
    pub fn shared(&self, other: &Stretch) -> Stretch {
        Stretch { from: self.from.max(other.from), to: self.to.min(other.to) }
    }

    /// They overlap or touch: no instant lies between them.
    fn meets(&self, other: &Stretch) -> bool {
        self.from <= other.to && other.from <= self.to
    }

    fn joined(self, other: &Stretch) -> Stretch {
        Stretch { from: self.from.min(other.from), to: self.to.max(other.to) }
    }
}

/// The stretches of one order: in time order and apart, then unused places. So one set
/// of struck instants has one form, and each piece of it is one stretch.
#[derive(Clone, Copy, Debug, PartialEq, Eq)]
pub struct Struck(pub [Stretch; MOST_STRETCHES]);

impl Struck {
    pub const NOTHING: Struck = Struck([Stretch::UNUSED; MOST_STRETCHES]);

    pub fn only(stretch: Stretch) -> Struck {
        let mut struck = Struck::NOTHING;
        struck.0[0] = stretch;
        struck
    }

    /// Those before the first unused place.
    pub fn stretches(&self) -> &[Stretch] {
        let count = self.0.iter().position(|stretch| *stretch == Stretch::UNUSED);
        &self.0[..count.unwrap_or(MOST_STRETCHES)]
    }

    pub fn has(&self, t: u32) -> bool {
        self.stretches().iter().any(|stretch| stretch.has(t))
    }

    /// Whether all of this stretch is struck. Stretches are apart, so only one can have
    /// the whole of it.
    pub fn covers(&self, stretch: &Stretch) -> bool {
        self.stretches().iter().any(|struck| stretch.lies_in(struck))
    }

    /// With one more stretch, which is joined with those that it meets. None where a
    /// fifth would be left: it is the result that is counted, so a stretch that bridges
    /// two is taken with four there. (What is joined meets no further one: it reaches
    /// past the new stretch only as far as stretches that were apart from the others.)
    pub fn with(&self, new: Stretch) -> Option<Struck> {
        let old = self.stretches().iter();
        let before = old.clone().take_while(|stretch| stretch.to < new.from);
        let joined = old.clone().filter(|stretch| stretch.meets(&new)).fold(new, Stretch::joined);
        let after = old.skip_while(|stretch| stretch.from <= new.to);
        let mut struck = Struck::NOTHING;
        let mut places = struck.0.iter_mut();
        for stretch in before.chain([&joined]).chain(after) {
            *places.next()? = *stretch;
        }
        Some(struck)
    }

    /// Whether a book may hold these for an order of this time: each with its start
    /// before its end and inside the order, in time order, an instant at least between
    /// two of them, and zero where unused.
    pub fn are_well_in(&self, order: &Stretch) -> bool {
        let used = self.stretches();
        used.iter().all(|stretch| stretch.from < stretch.to && stretch.lies_in(order))
            && used.windows(2).all(|two| two[0].to < two[1].from)
            && self.0[used.len()..].iter().all(|place| *place == Stretch::UNUSED)
    }
}

#[cfg(test)]
mod tests {
    use super::*;

    fn struck(pairs: &[(u32, u32)]) -> Struck {
        let mut struck = Struck::NOTHING;
        for (place, &(from, to)) in struck.0.iter_mut().zip(pairs) {
            *place = Stretch { from, to };
        }
        struck
    }

    fn with(pairs: &[(u32, u32)], from: u32, to: u32) -> Option<Struck> {
        struck(pairs).with(Stretch { from, to })
    }

    /// Every set of instants of a day of eleven that has at most four pieces, and every
    /// stretch: the result has the instants of both, in good form, or would have five pieces.
    #[test]
    fn joining_is_the_union_of_the_instants() {
        const DAY: u32 = 11;
        let whole = Stretch { from: 1, to: DAY + 1 };
        let pieces = |set: u32| (set & !(set << 1)).count_ones();
        let of_set = |set: u32| {
            let edges = |set: u32| (1..=DAY + 1).filter(move |t| set >> t & 1 == 1);
            let starts = edges(set & !(set << 1));
            struck(&starts.zip(edges(!set & (set << 1))).collect::<Vec<_>>())
        };
        for set in (0..1 << DAY).map(|set: u32| set << 1).filter(|&set| pieces(set) <= 4) {
            let old = of_set(set);
            assert!(old.are_well_in(&whole));
            assert!((0..DAY + 2).all(|t| old.has(t) == (set >> t & 1 == 1)));
            for (from, to) in (1..=DAY).flat_map(|from| (from + 1..=DAY + 1).map(move |to| (from, to))) {
                let new = (1 << to) - (1 << from);
                assert_eq!(old.covers(&Stretch { from, to }), set & new == new);
                let wanted = Some(set | new).filter(|&union| pieces(union) <= 4).map(of_set);
                assert_eq!(old.with(Stretch { from, to }), wanted, "{old:?} {from} {to}");
            }
        }
    }

    #[test]
    fn touching_stretches_are_one() {
        assert_eq!(with(&[(10, 20)], 20, 30), Some(struck(&[(10, 30)])));
        assert_eq!(with(&[(10, 20)], 5, 10), Some(struck(&[(5, 20)])));
        assert_eq!(with(&[(10, 20)], 21, 30), Some(struck(&[(10, 20), (21, 30)])));
        assert_eq!(with(&[(10, 20), (30, 40)], 20, 30), Some(struck(&[(10, 40)])));
    }

    #[test]
    fn the_result_is_counted() {
        let four = [(10, 20), (30, 40), (50, 60), (70, 80)];
        assert_eq!(with(&four, 85, 90), None);
        assert_eq!(with(&four, 42, 48), None);
        assert_eq!(with(&four, 40, 50), Some(struck(&[(10, 20), (30, 60), (70, 80)])));
        assert_eq!(with(&four, 35, 41), Some(struck(&[(10, 20), (30, 41), (50, 60), (70, 80)])));
        assert_eq!(with(&four, 1, 99), Some(struck(&[(1, 99)])));
    }

    #[test]
    fn forms_that_no_book_has() {
        let order = Stretch { from: 10, to: 90 };
        for good in [&[][..], &[(10, 90)], &[(10, 11), (12, 13), (14, 15), (89, 90)]] {
            assert!(struck(good).are_well_in(&order), "{good:?}");
        }
        for bad in [
            &[(20, 20)][..],
            &[(30, 20)],
            &[(9, 20)],
            &[(80, 91)],
            &[(0, 20)],
            &[(20, 0)],
            &[(30, 40), (20, 25)],
            &[(20, 30), (25, 40)],
            &[(20, 30), (30, 40)],
            &[(20, 30), (20, 30)],
            &[(0, 0), (20, 30)],
            &[(20, 30), (0, 0), (40, 50)],
            &[(20, 30), (0, 0), (0, 0), (0, 1)],
        ] {
            assert!(!struck(bad).are_well_in(&order), "{bad:?}");
        }
    }
}
