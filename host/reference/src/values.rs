//! Single values ("Values"): texts with their room, unit, identifier, sequence
//! and number.

use crate::words::Type;

pub const MOST_SEQUENCE: u64 = 9_999_999_999;
pub const MOST_THOUSANDTHS: i32 = 999_999_999;

/// A text of at most `N` bytes. Unused room is zero in every valid record; the
/// fields are public, so a caller may break that, and [`crate::valid`] sees it.
#[derive(Clone, Copy, Debug, PartialEq, Eq)]
pub struct Text<const N: usize> {
    pub bytes: [u8; N],
    pub length: u16,
}

pub type Unit = Text<16>;
pub type Reason = Text<128>;
pub type Note = Text<256>;

impl<const N: usize> Text<N> {
    pub const EMPTY: Self = Text { bytes: [0; N], length: 0 };

    /// The text, or nothing if it is longer than the room.
    pub fn new(text: &[u8]) -> Option<Self> {
        let mut bytes = [0; N];
        bytes.get_mut(..text.len())?.copy_from_slice(text);
        Some(Text { bytes, length: text.len() as u16 })
    }

    /// The bytes in use; none if the length is beyond the room.
    pub fn get(&self) -> &[u8] {
        self.bytes.get(..usize::from(self.length)).unwrap_or(&[])
    }

    pub fn is_blank(&self) -> bool {
        self.length == 0
    }

    /// Length within the room, and the unused room zero.
    pub fn is_kept_well(&self) -> bool {
        self.bytes.get(usize::from(self.length)..).is_some_and(|rest| rest.iter().all(|&byte| byte == 0))
    }
}

/// "Blank" means the space, and nothing else is trimmed.
pub fn trim(mut text: &[u8]) -> &[u8] {
    while let [b' ', rest @ ..] = text {
        text = rest;
    }
    trim_end(text)
}

pub fn trim_end(mut text: &[u8]) -> &[u8] {
    while let [rest @ .., b' '] = text {
        text = rest;
    }
    text
}

/// 20 to 7E hex: the bytes of a line.
pub const fn is_plain(byte: u8) -> bool {
    byte.wrapping_sub(0x20) < 0x5f
}

/// Letters (either case, kept as they are), digits, and the house's underscore.
pub const fn is_unit_byte(byte: u8) -> bool {
    byte.is_ascii_alphanumeric() || byte == b'_'
}

pub fn is_unit(text: &[u8]) -> bool {
    (1..=16).contains(&text.len()) && text.iter().all(|&byte| is_unit_byte(byte))
}

pub fn unit(text: &[u8]) -> Option<Unit> {
    if is_unit(text) {
        Text::new(text)
    } else {
        None
    }
}

/// The type's own code, `-`, ten digits. Number 0 is a number like others.
pub fn identifier(text: &[u8], kind: Type) -> Option<u64> {
    match text.strip_prefix(kind.word())? {
        [b'-', digits @ ..] if digits.len() == 10 => digits_only(digits),
        _ => None,
    }
}

/// RC `Sequenza Comando`: 1 to 10 digits, no leading zero unless it is `0`.
pub fn sequence(text: &[u8]) -> Option<u64> {
    match text {
        [b'0'] => Some(0),
        [b'0', ..] | [] => None,
        _ if text.len() <= 10 => digits_only(text),
        _ => None,
    }
}

fn digits_only(text: &[u8]) -> Option<u64> {
    let mut value = 0;
    for &byte in text {
        if !byte.is_ascii_digit() {
            return None;
        }
        value = value * 10 + u64::from(byte - b'0');
    }
    Some(value)
}

/// A whole value that is a number, in thousandths.
pub fn number(text: &[u8]) -> Option<i32> {
    match number_at(text)? {
        (value, []) => Some(value),
        _ => None,
    }
}

/// A number at the front of a text, and what follows it: optional `-`, 1 to 6
/// digits, optionally `.` and 1 to 3 digits. `-0` is 0, since thousandths have
/// no sign at zero. Lists use this too, so that they are read in one pass.
pub fn number_at(text: &[u8]) -> Option<(i32, &[u8])> {
    let (negative, text) = match text {
        [b'-', rest @ ..] => (true, rest),
        _ => (false, text),
    };
    let (whole, _, mut text) = digits_at(text, 6)?;
    let mut value = whole * 1000;
    if let [b'.', rest @ ..] = text {
        let (part, wide, after) = digits_at(rest, 3)?;
        value += part * [100, 10, 1][wide - 1];
        text = after;
    }
    Some((if negative { -value } else { value }, text))
}

/// 1 to `most` digits, not followed by another: their value, their count, the rest.
#[inline]
fn digits_at(text: &[u8], most: usize) -> Option<(i32, usize, &[u8])> {
    let mut value = 0;
    let mut count = 0;
    while let Some(byte) = text.get(count).filter(|byte| byte.is_ascii_digit()) {
        if count == most {
            return None;
        }
        value = value * 10 + i32::from(byte - b'0');
        count += 1;
    }
    if count == 0 {
        None
    } else {
        Some((value, count, &text[count..]))
    }
}

#[cfg(test)]
mod tests {
    use super::*;

    #[test]
    fn numbers() {
        let of = |text: &str| number(text.as_bytes());
        assert_eq!(of("-0.5"), Some(-500));
        assert_eq!(of("-0"), Some(0));
        assert_eq!(of("-0.000"), Some(0));
        assert_eq!(of("007.50"), Some(7_500));
        assert_eq!(of("000001"), Some(1_000));
        assert_eq!(of("999999.999"), Some(MOST_THOUSANDTHS));
        for bad in ["1.2345", "+3", "1000000", "0000000", "", "-", "1.", ".5", "- 1", "1,5", "1 ", "--1", "1.5.2"] {
            assert_eq!(of(bad), None, "{bad}");
        }
    }

    #[test]
    fn identifiers_and_sequences() {
        assert_eq!(identifier(b"RC-0000000042", Type::Rc), Some(42));
        assert_eq!(identifier(b"RC-0000000000", Type::Rc), Some(0));
        assert_eq!(identifier(b"RC-0000000042", Type::Cb), None);
        assert_eq!(identifier(b"RC-000000042", Type::Rc), None);
        assert_eq!(identifier(b"RC-00000000042", Type::Rc), None);
        assert_eq!(sequence(b"0"), Some(0));
        assert_eq!(sequence(b"9999999999"), Some(MOST_SEQUENCE));
        for bad in ["", "00", "017", "10000000000", "1 7", "-1"] {
            assert_eq!(sequence(bad.as_bytes()), None, "{bad}");
        }
    }

    #[test]
    fn units() {
        assert!(is_unit(b"UP_PROVA_1") && is_unit(b"a") && is_unit(&[b'Z'; 16]));
        assert!(!is_unit(b"") && !is_unit(&[b'Z'; 17]) && !is_unit(b"A-B") && !is_unit(b"A B"));
    }
}
