//! Samples with a few bytes changed, many times over: no call panics, an accepted
//! file's written form reads back to the same record, a refusal writes nothing.

mod common;

use common::*;
use halimpung_reference::*;

/// A small generator, so that each run has the same cases.
struct Dice(u64);

impl Dice {
    fn below(&mut self, most: usize) -> usize {
        self.0 ^= self.0 << 13;
        self.0 ^= self.0 >> 7;
        self.0 ^= self.0 << 17;
        (self.0 % most as u64) as usize
    }
}

const BYTES: &[u8] = b" =;,+-.0123456789LS\n\r\x7f\xe0_AI";

fn change(text: &mut Vec<u8>, dice: &mut Dice) {
    let at = dice.below(text.len() + 1);
    match dice.below(6) {
        0 if at < text.len() => drop(text.remove(at)),
        1 if at < text.len() => text[at] = BYTES[dice.below(BYTES.len())],
        2 => text.insert(at, BYTES[dice.below(BYTES.len())]),
        3 => {
            // A blank before or after a `=`, a line's end, or a separator's `+`.
            let places: Vec<usize> = (0..text.len()).filter(|&at| b"=\n+".contains(&text[at])).collect();
            if !places.is_empty() {
                text.insert(places[dice.below(places.len())] + dice.below(2), b' ');
            }
        }
        4 => {
            // The second spelling of VQ's and QR's labels: of the topmost, or of all.
            let all = dice.below(2) == 0;
            for at in 0..text.len().saturating_sub(8) {
                if [b"Modalita", b"Quantita"].contains(&text[at..at + 8].first_chunk().expect("eight")) {
                    text[at + 7] = 0xe0;
                    if !all {
                        break;
                    }
                }
            }
        }
        _ => {
            // A line moved to the top.
            let end = text[at..].iter().position(|&byte| byte == b'\n').map_or(text.len(), |end| at + end + 1);
            let start = text[..at].iter().rposition(|&byte| byte == b'\n').map_or(0, |start| start + 1);
            let line: Vec<u8> = text.drain(start..end).collect();
            text.splice(0..0, line);
        }
    }
}

#[test]
fn a_hundred_thousand() {
    let mut dice = Dice(0x9e37_79b9_7f4a_7c15);
    let (mut accepted, mut refused) = (0, 0);
    for round in 0..100_000 {
        let (code, sample) = SAMPLES[round % SAMPLES.len()];
        let mut plan = plan(code).into_bytes();
        let mut file = sample.as_bytes().to_vec();
        for _ in 0..1 + dice.below(3) {
            change(&mut file, &mut dice);
        }
        if dice.below(10) == 0 {
            change(&mut plan, &mut dice);
        }
        let mut out = [0xaa; 4500];
        let answer = normalise_entry(7, 300, &plan, &file, &mut out);
        let lines = read_entry(7, 300, &plan, &file, &mut [0; 96]);
        match read(7, 300, &plan, &file) {
            Ok(record) => {
                accepted += 1;
                let form = &out[..answer as usize];
                assert!(lines < 96 && out[answer as usize..].iter().all(|&byte| byte == 0xaa));
                assert_eq!(read(7, 300, &plan, form), Ok(record));
                let mut tight = vec![0; form.len()];
                assert_eq!((write(&record, &mut tight), &tight[..]), (Ok(form.len()), form));
                let short = form.len() - 1;
                assert_eq!(normalise_entry(7, 300, &plan, form, &mut tight[..short]), 11 * 65_536 + answer);
            }
            Err(refusal) => {
                refused += 1;
                assert_eq!(answer, 65_536 * refusal.number + refusal.detail);
                assert_eq!(answer, lines);
                assert!(out.iter().all(|&byte| byte == 0xaa));
            }
        }
    }
    println!("{accepted} accepted, {refused} refused");
    assert!(accepted > 10_000 && refused > 10_000);
}
