//! Writing bytes one after the other into a buffer that is known to have room.

use crate::words::Type;

pub struct Pen<'a> {
    pub out: &'a mut [u8],
    pub at: usize,
}

impl Pen<'_> {
    #[inline]
    pub fn put(&mut self, bytes: &[u8]) {
        self.out[self.at..][..bytes.len()].copy_from_slice(bytes);
        self.at += bytes.len();
    }

    /// Decimal without leading zeros.
    pub fn decimal(&mut self, value: u64) {
        let mut digits = [0; 20];
        let mut first = digits.len();
        let mut rest = value;
        loop {
            first -= 1;
            digits[first] = b'0' + (rest % 10) as u8;
            rest /= 10;
            if rest == 0 {
                break;
            }
        }
        self.put(&digits[first..]);
    }

    /// Thousandths in their shortest form: no `-0`, no zeros that say nothing.
    pub fn number(&mut self, thousandths: i32) {
        if thousandths < 0 {
            self.put(b"-");
        }
        let size = thousandths.unsigned_abs();
        self.decimal(u64::from(size / 1000));
        let part = size % 1000;
        if part != 0 {
            let digits = [b'.', digit(part / 100), digit(part / 10), digit(part)];
            let zeros = usize::from(part.is_multiple_of(10)) + usize::from(part.is_multiple_of(100));
            self.put(&digits[..4 - zeros]);
        }
    }

    /// Numbers with a mark between each two, without blanks.
    pub fn numbers(&mut self, numbers: &[i32], mark: &[u8]) {
        for (place, &number) in numbers.iter().enumerate() {
            if place > 0 {
                self.put(mark);
            }
            self.number(number);
        }
    }

    /// Type code, `-`, ten digits.
    pub fn identifier(&mut self, kind: Type, number: u64) {
        let mut text = *b"XX-0000000000";
        text[..2].copy_from_slice(kind.word());
        let mut rest = number;
        for place in text[3..].iter_mut().rev() {
            *place = b'0' + (rest % 10) as u8;
            rest /= 10;
        }
        self.put(&text);
    }
}

fn digit(value: u32) -> u8 {
    b'0' + (value % 10) as u8
}

#[cfg(test)]
mod tests {
    use super::*;

    fn shortest(thousandths: i32) -> String {
        let mut out = [0; 16];
        let mut pen = Pen { out: &mut out, at: 0 };
        pen.number(thousandths);
        let length = pen.at;
        String::from_utf8(out[..length].to_vec()).unwrap()
    }

    #[test]
    fn numbers() {
        let cases = [
            (0, "0"),
            (-500, "-0.5"),
            (7_500, "7.5"),
            (1, "0.001"),
            (10, "0.01"),
            (1_100, "1.1"),
            (100_000, "100"),
            (-999_999_999, "-999999.999"),
        ];
        for (value, text) in cases {
            assert_eq!(shortest(value), text);
        }
    }
}
