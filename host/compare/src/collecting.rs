//! Gives a run of units to both sides from a fresh collector, and compares after each unit the answers, every byte of the file and every
//! byte of the state that the header speaks of.

use crate::units::Units;
use crate::units_met::{turn, word};
use halimpung_reference::collect::Transfer;
use halimpung_reference::{Collector, Heard};

/// What the host keeps for the entry between calls: so many bytes of state, and room for a file.
pub const STATE: usize = 16;
pub const MOST: usize = 8_192;

/// Bytes about state and file that no entry may touch; they are compared too.
const FENCE: usize = 64;
const FILE: usize = FENCE + STATE + FENCE;
const ALL: usize = FILE + MOST + FENCE;

pub struct Difference {
    /// the place of the unit, from 0
    pub unit: usize,
    pub ours: u32,
    pub theirs: u32,
    /// the first byte that differs, in words
    pub byte: Option<String>,
}

/// State and file between fences.
struct Lent([u8; ALL]);

impl Lent {
    /// The state is zero; all else is a pattern that differs from byte to byte, so that no byte can be put to another's
    /// place unseen.
    fn fresh() -> Self {
        let mut bytes = [0; ALL];
        for (place, byte) in bytes.iter_mut().enumerate() {
            *byte = (place as u32).wrapping_mul(0x9e37_79b1).to_be_bytes()[0] | 0x80;
        }
        bytes[FENCE..FENCE + STATE].fill(0);
        Lent(bytes)
    }

    fn parts(&mut self) -> (&mut [u8; STATE], &mut [u8; MOST]) {
        let (before, file) = self.0.split_at_mut(FILE);
        (before[FENCE..].first_chunk_mut().expect("a state"), file.first_chunk_mut().expect("a file"))
    }

    /// What must be there after a unit: a segment that was taken is behind those before it, and nothing else has changed.
    fn note(&mut self, collector: &Collector, heard: &Heard) {
        let (state, file) = self.parts();
        *state = collector.transfer.as_ref().map_or([0; STATE], state_of);
        let octets = match (heard, &collector.transfer) {
            (Heard::Whole { octets, .. }, _) => octets,
            (_, Some(transfer)) => &transfer.octets,
            _ => return,
        };
        file[..octets.len()].copy_from_slice(octets);
    }

    fn first_difference(&self, other: &Lent) -> Option<String> {
        if self.0 == other.0 {
            return None;
        }
        let place = self.0.iter().zip(&other.0).position(|(one, two)| one != two)?;
        let (of, from) = if place <= FENCE + STATE { ("state", FENCE) } else { ("file", FILE) };
        Some(format!("{of} {}", place as isize - from as isize))
    }
}

/// The bytes of the state, as the header has them.
fn state_of(transfer: &Transfer) -> [u8; STATE] {
    let [ca0, ca1, ..] = transfer.ca.to_le_bytes();
    let [ioa0, ioa1, ioa2, _] = transfer.ioa.to_le_bytes();
    let turn = if transfer.open.is_some() { 2 } else { 1 };
    let (start, due) = transfer.open.map_or((0, 0), |section| (section.start, section.length));
    let numbers = [transfer.length, start, due, transfer.octets.len()].map(|number| (number as u16).to_le_bytes());
    let mut state = [0; STATE];
    state[..7].copy_from_slice(&[turn, transfer.ended, ca0, ca1, ioa0, ioa1, ioa2]);
    state[7..15].copy_from_slice(&numbers.concat());
    state
}

fn number(heard: &Heard) -> u32 {
    match heard {
        Heard::More => 0,
        Heard::Whole { octets, .. } => octets.len() as u32,
        Heard::Refused(refusal) => 65_536 * refusal.number + refusal.detail,
    }
}

/// What became of each unit, in words, or where the two sides differ. Ours is the entry; the other side is the reference's collector.
pub fn check(
    mut ours: impl FnMut(&[u8], &mut [u8; STATE], &mut [u8; MOST]) -> u32,
    units: &Units,
) -> Result<Vec<&'static str>, Difference> {
    let mut collector = Collector::default();
    let (mut lent, mut expected) = (Lent::fresh(), Lent::fresh());
    let mut words = Vec::new();
    for (place, unit) in units.iter().enumerate() {
        let turn = turn(&collector);
        let heard = collector.take(unit);
        expected.note(&collector, &heard);
        let (state, file) = lent.parts();
        let (mine, theirs) = (ours(unit, state, file), number(&heard));
        match lent.first_difference(&expected) {
            None if mine == theirs => words.push(word(turn, unit, &heard)),
            byte => return Err(Difference { unit: place, ours: mine, theirs, byte }),
        }
    }
    Ok(words)
}

/// That a side which is wrong is seen: by its answer, by a byte of the state or of the file, by one about them. And that the runs meet every
/// answer, by the reference alone.
#[cfg(test)]
mod tests {
    use super::*;
    use crate::transfers::run;
    use crate::units::transfer;
    use crate::units_met::UnitsTally;

    /// A right side: the reference's collector, in the entry's manner.
    fn right() -> impl FnMut(&[u8], &mut [u8; STATE], &mut [u8; MOST]) -> u32 {
        let mut collector = Collector::default();
        move |unit, state, file| {
            let heard = collector.take(unit);
            *state = collector.transfer.as_ref().map_or([0; STATE], state_of);
            if let Some(Transfer { octets, .. }) = &collector.transfer {
                file[..octets.len()].copy_from_slice(octets);
            }
            number(&heard)
        }
    }

    /// Nine units: the file ready is 0, segments are 2, 3 and 6.
    fn good() -> Units {
        let mut units = transfer([0, 7, 0, 45, 1, 0], &[&b"AB"[..], b"CDE"], 3);
        let second = units[2].split_off(14);
        units[2][12] = 1;
        units.insert(3, [&units[2][..13], &second].concat());
        units
    }

    /// The unit and the byte of the first difference, where one side is spoilt behind the call for one unit.
    fn seen(at: usize, spoil: fn(&mut u32, &mut [u8; STATE], &mut [u8; MOST])) -> Option<(usize, Option<String>)> {
        let (mut right, mut place) = (right(), 0);
        let wrong = |unit: &[u8], state: &mut [u8; STATE], file: &mut [u8; MOST]| {
            let mut answer = right(unit, state, file);
            if place == at {
                spoil(&mut answer, state, file);
            }
            place += 1;
            answer
        };
        check(wrong, &good()).err().map(|difference| (difference.unit, difference.byte))
    }

    #[test]
    fn equal_sides_agree() {
        let words = check(right(), &good()).unwrap_or_else(|_| panic!("a difference"));
        assert_eq!(words, [&["taken"; 8][..], &["whole"]].concat());
        assert!(seen(9, |answer, _, _| *answer += 1).is_none());
    }

    #[test]
    fn another_answer_is_seen() {
        for at in 0..9 {
            assert_eq!(seen(at, |answer, _, _| *answer += 1), Some((at, None)));
        }
    }

    #[test]
    fn a_changed_byte_is_seen() {
        for at in 0..9 {
            assert_eq!(seen(at, |_, state, _| state[15] = 1), Some((at, Some("state 15".into()))));
            assert_eq!(seen(at, |_, state, _| state[0] ^= 3), Some((at, Some("state 0".into()))));
            assert_eq!(seen(at, |_, _, file| file[5] ^= 1), Some((at, Some("file 5".into()))));
            assert_eq!(seen(at, |_, _, file| file[MOST - 1] ^= 1), Some((at, Some("file 8191".into()))));
        }
        // an octet that was collected, changed by a later call
        assert_eq!(seen(8, |_, _, file| file[0] = b'a'), Some((8, Some("file 0".into()))));
        // the two numbers of a section, within one and between
        assert_eq!(seen(2, |_, state, _| state[11] = 9), Some((2, Some("state 11".into()))));
        assert_eq!(seen(4, |_, state, _| state[11] = 9), Some((4, Some("state 11".into()))));
    }

    #[test]
    fn fences_are_compared() {
        for (place, word) in
            [(FENCE - 1, "state -1"), (FENCE + STATE, "state 16"), (FILE - 1, "file -1"), (FILE + MOST, "file 8192")]
        {
            let (mut one, two) = (Lent::fresh(), Lent::fresh());
            one.0[place] ^= 1;
            assert_eq!(one.first_difference(&two), Some(word.into()));
        }
    }

    #[test]
    fn runs_meet_every_answer() {
        for seed in [1, 2, 7] {
            let mut tally = UnitsTally::default();
            for number in (0..5_000).step_by(4) {
                let words = check(right(), &run(seed, number)).unwrap_or_else(|_| panic!("one collector differs"));
                tally.add(&words);
            }
            tally.print();
            assert_eq!(tally.missing(5_000), Vec::<String>::new());
        }
    }
}
