//! `key=value` lines, each ended by LF: the plan, the unit sheet and the head of
//! the program's input ("Addresses", "Times", "The program").
//!
//! Each function takes one line off the front of a text and gives its value and
//! what follows it. `None` says that the line is bad: missing, lacking its LF,
//! with another key, or with a value not of the kind. Reading runs from the key
//! straight through to the LF, so no line is looked at twice.

pub const MAX_CA: u32 = 65_534;
pub const MAX_IOA: u32 = 16_777_215;

/// The `ca=` line.
pub fn ca(text: &[u8]) -> Option<(u32, &[u8])> {
    address(text.strip_prefix(b"ca=")?, MAX_CA)
}

/// The `ioa=` line.
pub fn ioa(text: &[u8]) -> Option<(u32, &[u8])> {
    address(text.strip_prefix(b"ioa=")?, MAX_IOA)
}

/// The `unit=` line: 1 to 16 letters, digits or `_`.
pub fn unit(text: &[u8]) -> Option<(&[u8], &[u8])> {
    let text = text.strip_prefix(b"unit=")?;
    let length = text.iter().take(17).take_while(|&&byte| crate::values::is_unit_byte(byte)).count();
    match text[length..] {
        [b'\n', ref rest @ ..] if (1..=16).contains(&length) => Some((&text[..length], rest)),
        _ => None,
    }
}

/// Decimal from 1 to `most` without leading zeros, then LF. Eight digits hold
/// every address, so that a longer string is bad before it could wrap.
fn address(text: &[u8], most: u32) -> Option<(u32, &[u8])> {
    let mut value = 0;
    let mut at = 0;
    while let Some(digit) = text.get(at).map(|byte| byte.wrapping_sub(b'0')).filter(|&digit| digit < 10) {
        if at == 8 || (at == 0 && digit == 0) {
            return None;
        }
        value = value * 10 + u32::from(digit);
        at += 1;
    }
    match text[at..] {
        [b'\n', ref rest @ ..] if at > 0 && value <= most => Some((value, rest)),
        _ => None,
    }
}

/// A line with this key (its `=` included) and any value, as the sheet has.
pub fn line<'a>(text: &'a [u8], key: &[u8]) -> Option<(&'a [u8], &'a [u8])> {
    let text = text.strip_prefix(key)?;
    let end = text.iter().position(|&byte| byte == b'\n')?;
    Some((&text[..end], &text[end + 1..]))
}
