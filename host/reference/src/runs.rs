//! How long a run of plain bytes or of blanks is. Most of a message is such
//! runs, so they are taken eight bytes at a step, as one number; the first byte
//! of the text is the lowest of the number.

use crate::values::is_plain;

/// A one in each byte of a step.
const ONES: u64 = 0x0101_0101_0101_0101;

/// How many bytes from 20 to 7E hex the text starts with.
#[inline]
pub fn plain_run(text: &[u8]) -> usize {
    let mut rest = text;
    while let Some((step, after)) = rest.split_first_chunk() {
        let step = u64::from_le_bytes(*step);
        // The high bit of a byte shows that it is above 7E (itself, or with one
        // added) or below 20 (with 20 taken away). Carries and borrows come from
        // such bytes only and go upwards, so the lowest bit found is true.
        let other = (step | step.wrapping_add(ONES) | step.wrapping_sub(ONES * 0x20)) & (ONES * 0x80);
        if other != 0 {
            return text.len() - rest.len() + bytes_below(other);
        }
        rest = after;
    }
    text.len() - rest.len() + rest.iter().take_while(|&&byte| is_plain(byte)).count()
}

/// The text without the blanks it starts with.
#[inline]
pub fn skip_blanks(text: &[u8]) -> &[u8] {
    let mut rest = text;
    while let Some((step, after)) = rest.split_first_chunk() {
        let other = u64::from_le_bytes(*step) ^ (ONES * 0x20);
        if other != 0 {
            return &rest[bytes_below(other)..];
        }
        rest = after;
    }
    while let [b' ', after @ ..] = rest {
        rest = after;
    }
    rest
}

/// Whole bytes below the lowest bit.
#[inline]
fn bytes_below(bits: u64) -> usize {
    (bits.trailing_zeros() / 8) as usize
}

#[cfg(test)]
mod tests {
    use super::*;

    /// Each byte at each place of two steps and a rest, after a plain and before
    /// each of some bytes that carry or borrow.
    #[test]
    fn first_other_byte() {
        for byte in 0..=255 {
            for place in 0..20 {
                for next in [b' ', b'~', 0x00, 0x1f, 0x7f, 0x80, 0xff] {
                    for fill in [b' ', b'~'] {
                        let mut text = [fill; 21];
                        text[place] = byte;
                        text[place + 1] = next;
                        let plain = text.iter().position(|&byte| !(0x20..=0x7e).contains(&byte)).unwrap_or(21);
                        assert_eq!(plain_run(&text), plain);
                        let blanks = text.iter().position(|&byte| byte != b' ').unwrap_or(21);
                        assert_eq!(skip_blanks(&text), &text[blanks..]);
                    }
                }
            }
        }
        assert_eq!((plain_run(b""), skip_blanks(b"")), (0, &b""[..]));
    }
}
