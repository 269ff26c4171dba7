//! Gives one input to an entry on both sides, and compares the answers and every byte of the two outputs.

use crate::input::{Input, Room, MOST_ROOM};
use crate::Entry;

/// Bytes about the output that no entry may touch; they are compared too.
const FENCE: usize = 64;

pub struct Difference {
    pub room: usize,
    pub ours: u32,
    pub theirs: u32,
    /// the first byte of the outputs that differs, counted from the output's start
    pub byte: Option<isize>,
}

/// An output between two fences.
struct Output {
    bytes: [u8; MOST_ROOM + 2 * FENCE],
    room: usize,
}

impl Output {
    /// Filled with a pattern that differs from byte to byte, so that no byte can be put to another's place unseen.
    fn new(room: usize) -> Self {
        let mut bytes = [0; MOST_ROOM + 2 * FENCE];
        for (place, byte) in bytes.iter_mut().enumerate() {
            *byte = (place as u32).wrapping_mul(0x9e37_79b1).to_be_bytes()[0] | 0x80;
        }
        Output { bytes, room }
    }

    fn out(&mut self) -> &mut [u8] {
        &mut self.bytes[FENCE..FENCE + self.room]
    }

    fn first_difference(&self, other: &Output) -> Option<isize> {
        if self.bytes == other.bytes {
            return None;
        }
        let place = self.bytes.iter().zip(&other.bytes).position(|(one, two)| one != two)?;
        Some(place as isize - FENCE as isize)
    }
}

fn call(entry: Entry, input: &Input, output: &mut Output) -> u32 {
    entry(input.ca, input.ioa, &input.plan, &input.file, output.out())
}

/// The answer on which both agree, or how they differ.
pub fn check(ours: Entry, theirs: Entry, input: &Input) -> Result<u32, Difference> {
    let room = room(theirs, input);
    let (mut one, mut two) = (Output::new(room), Output::new(room));
    let (mine, other) = (call(ours, input, &mut one), call(theirs, input, &mut two));
    match one.first_difference(&two) {
        None if mine == other => Ok(mine),
        byte => Err(Difference { room, ours: mine, theirs: other, byte }),
    }
}

/// The room in bytes. Where it depends on the length needed, the reference is asked for that with no room at all.
fn room(theirs: Entry, input: &Input) -> usize {
    let less = match input.room {
        Room::Of(room) => return room,
        Room::Exact => 0,
        Room::OneLess => 1,
    };
    match call(theirs, input, &mut Output::new(0)) {
        refused if refused >> 16 == 11 => (refused & 0xffff) as usize - less,
        _ => MOST_ROOM,
    }
}

/// That a side which is wrong is seen: by its answer, by a byte within the output, by one before or past it.
#[cfg(test)]
mod tests {
    use super::*;
    use crate::samples::SAMPLES;
    use halimpung_reference::read_entry;

    fn sample(room: Room) -> Input {
        let sample = &SAMPLES[2];
        let (plan, file) = (sample.plan(1).into_bytes(), sample.file.as_bytes().to_vec());
        Input { sample, ca: 7, ioa: 300, plan, file, room }
    }

    fn other_answer(ca: u32, ioa: u32, plan: &[u8], file: &[u8], out: &mut [u8]) -> u32 {
        read_entry(ca, ioa, plan, file, out) + 1
    }

    fn last_byte(ca: u32, ioa: u32, plan: &[u8], file: &[u8], out: &mut [u8]) -> u32 {
        let answer = read_entry(ca, ioa, plan, file, out);
        *out.last_mut().unwrap() ^= 1;
        answer
    }

    #[test]
    fn equal_sides_agree() {
        assert!(check(read_entry, read_entry, &sample(Room::Exact)).is_ok_and(|length| length < 90));
        assert!(check(read_entry, read_entry, &sample(Room::OneLess)).is_ok_and(|answer| answer >> 16 == 11));
    }

    #[test]
    fn another_answer_is_seen() {
        assert!(check(other_answer, read_entry, &sample(Room::Of(100))).is_err());
        assert!(check(other_answer, read_entry, &sample(Room::Of(0))).is_err());
    }

    #[test]
    fn a_changed_byte_is_seen() {
        for room in [Room::Exact, Room::OneLess, Room::Of(MOST_ROOM)] {
            let Err(difference) = check(last_byte, read_entry, &sample(room)) else { panic!("not seen") };
            assert_eq!(difference.byte, Some(difference.room as isize - 1));
        }
    }

    #[test]
    fn fences_are_compared() {
        let (mut one, two) = (Output::new(10), Output::new(10));
        one.bytes[FENCE + 10] ^= 1;
        assert_eq!(one.first_difference(&two), Some(10));
        one.bytes[FENCE - 1] ^= 1;
        assert_eq!(one.first_difference(&two), Some(-1));
    }
}
