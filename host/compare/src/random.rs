//! Files that are no changed samples: random bytes, random pieces of messages, and files brought to a length near the most.

use crate::dice::Dice;
use crate::samples::SAMPLES;

/// The longest file made here; document 01 allows 8,192 bytes.
const LONGEST: usize = 8_300;

pub fn text(dice: &mut Dice) -> Vec<u8> {
    match dice.below(3) {
        0 => any_bytes(dice),
        1 => plain_bytes(dice),
        _ => pieces(dice),
    }
}

fn any_bytes(dice: &mut Dice) -> Vec<u8> {
    (0..dice.below(200)).map(|_| dice.below(256) as u8).collect()
}

fn plain_bytes(dice: &mut Dice) -> Vec<u8> {
    (0..dice.below(600)).map(|_| if dice.once_in(15) { b'\n' } else { dice.from_to(0x20, 0x7e) as u8 }).collect()
}

/// Lines of any samples, in any order.
fn pieces(dice: &mut Dice) -> Vec<u8> {
    let mut text = Vec::new();
    for _ in 0..dice.below(40) {
        let lines: Vec<&str> = SAMPLES[dice.below(SAMPLES.len())].file.lines().collect();
        text.extend_from_slice(dice.pick(&lines).as_bytes());
        text.push(b'\n');
    }
    text
}

/// The file made longer with lines above it that no layout knows, to a length that is often just the most or one more.
pub fn long(file: &[u8], dice: &mut Dice) -> Vec<u8> {
    let length = if dice.once_in(2) { dice.from_to(8_188, 8_196) } else { dice.below(LONGEST + 1) };
    let mut text = filler(length.saturating_sub(file.len()), dice);
    text.extend_from_slice(file);
    text
}

fn filler(length: usize, dice: &mut Dice) -> Vec<u8> {
    let line: &[u8] =
        dice.pick(&[&b"\n"[..], b" \n", b"++++\n", b"x=1\n", b"Campo nuovo del testo = qualche valore\r\n"]);
    let mut text: Vec<u8> = line.iter().copied().cycle().take(length).collect();
    if let Some(last) = text.last_mut() {
        *last = b'\n';
    }
    text
}
