//! Lists of numbers: the h lines, the gradients and SR's half-bands (rules 3, 4
//! and 7). Parts are trimmed; a bad number or a wrong count is a bad value (7),
//! while what the numbers say is left to the rules (8).

use crate::values::number_at;

/// One band of `Gradienti (Pmin,Pmax,Grad)`, in thousandths.
#[derive(Clone, Copy, Debug, PartialEq, Eq)]
pub struct Band {
    pub low: i32,
    pub high: i32,
    pub gradient: i32,
}

pub const MOST_BANDS: usize = 16;

/// 1 to 16 bands; unused places are zero.
#[derive(Clone, Copy, Debug, PartialEq, Eq)]
pub struct Gradients {
    pub bands: [Band; MOST_BANDS],
    pub count: u8,
}

impl Gradients {
    pub const EMPTY: Self = Gradients { bands: [Band { low: 0, high: 0, gradient: 0 }; MOST_BANDS], count: 0 };

    /// The bands in use; none if the count is beyond the room.
    pub fn get(&self) -> &[Band] {
        self.bands.get(..usize::from(self.count)).unwrap_or(&[])
    }
}

pub const MOST_IN_A_LINE: usize = 4;

/// One line of a ramp profile: 1 to 4 numbers (A5); unused places are zero.
#[derive(Clone, Copy, Debug, PartialEq, Eq)]
pub struct Profile {
    pub numbers: [i32; MOST_IN_A_LINE],
    pub count: u8,
}

impl Profile {
    pub const EMPTY: Self = Profile { numbers: [0; MOST_IN_A_LINE], count: 0 };

    /// The numbers in use; none if the count is beyond the room.
    pub fn get(&self) -> &[i32] {
        self.numbers.get(..usize::from(self.count)).unwrap_or(&[])
    }

    pub fn is_full(&self) -> bool {
        usize::from(self.count) == MOST_IN_A_LINE
    }
}

/// SR `Semibande`: upward, downward.
#[derive(Clone, Copy, Debug, PartialEq, Eq)]
pub struct HalfBands {
    pub up: i32,
    pub down: i32,
}

/// Which lines may have fewer than four is rule 3's affair.
pub fn profile(mut text: &[u8]) -> Option<Profile> {
    let mut profile = Profile::EMPTY;
    for place in &mut profile.numbers {
        let (number, rest) = bare_part(text)?;
        *place = number;
        profile.count += 1;
        match rest {
            [] => return Some(profile),
            [b';', rest @ ..] => text = rest,
            _ => return None,
        }
    }
    None // a `;` after the fourth number
}

pub fn half_bands(text: &[u8]) -> Option<HalfBands> {
    let (up, text) = part(text, b';')?;
    Some(HalfBands { up, down: last_part(text)? })
}

pub fn gradients(mut text: &[u8]) -> Option<Gradients> {
    let mut gradients = Gradients::EMPTY;
    for place in &mut gradients.bands {
        let (low, after_low) = part(text, b',')?;
        let (high, after_high) = part(after_low, b',')?;
        let (gradient, rest) = bare_part(after_high)?;
        *place = Band { low, high, gradient };
        gradients.count += 1;
        match rest {
            [] => return Some(gradients),
            [b';', rest @ ..] => text = rest,
            _ => return None,
        }
    }
    None // a `;` after the sixteenth band
}

/// A number with blanks about it, and what follows.
#[inline]
fn bare_part(text: &[u8]) -> Option<(i32, &[u8])> {
    let (value, rest) = number_at(skip_blanks(text))?;
    Some((value, skip_blanks(rest)))
}

/// A part that ends at `mark`, and what follows the mark.
#[inline]
fn part(text: &[u8], mark: u8) -> Option<(i32, &[u8])> {
    match bare_part(text)? {
        (value, [first, rest @ ..]) if *first == mark => Some((value, rest)),
        _ => None,
    }
}

/// The part that ends the list.
#[inline]
fn last_part(text: &[u8]) -> Option<i32> {
    match bare_part(text)? {
        (value, []) => Some(value),
        _ => None,
    }
}

#[inline]
fn skip_blanks(mut text: &[u8]) -> &[u8] {
    while let [b' ', rest @ ..] = text {
        text = rest;
    }
    text
}

#[cfg(test)]
mod tests {
    use super::*;

    #[test]
    fn profiles() {
        assert_eq!(profile(b"0.1; 0.2 ;-3;4"), Some(Profile { numbers: [100, 200, -3_000, 4_000], count: 4 }));
        assert_eq!(profile(b"1;2;3"), Some(Profile { numbers: [1_000, 2_000, 3_000, 0], count: 3 }));
        assert_eq!(profile(b"-1 ; 2"), Some(Profile { numbers: [-1_000, 2_000, 0, 0], count: 2 }));
        assert_eq!(profile(b"0"), Some(Profile { numbers: [0; 4], count: 1 }));
        for bad in ["", ";", "1;", ";1", "1;2;", ";;;", "1;;3;4", "1;2;3;4;", "1;2;3;4;5", "1;2;3;4;5;6"] {
            assert_eq!(profile(bad.as_bytes()), None, "{bad}");
        }
        for bad in ["x", "1 2", "1;2;3;x", "1;2;3 3;4", "1,2,3,4", "1000000"] {
            assert_eq!(profile(bad.as_bytes()), None, "{bad}");
        }
    }

    #[test]
    fn half_band_pairs() {
        assert_eq!(half_bands(b"1 ; -2"), Some(HalfBands { up: 1_000, down: -2_000 }));
        for bad in ["", ";", "1;", ";1", "1", "1;2;", "1;2;3", "1,2"] {
            assert_eq!(half_bands(bad.as_bytes()), None, "{bad}");
        }
    }

    #[test]
    fn bands() {
        let two = gradients(b"1 , 2 ,3 ; 4,5,6").unwrap();
        assert_eq!(
            two.get(),
            &[Band { low: 1_000, high: 2_000, gradient: 3_000 }, Band { low: 4_000, high: 5_000, gradient: 6_000 }]
        );
        for bad in ["", "1,2,3;", "1,2", "1,2,3,4", "1,2,3;;4,5,6", "1;2;3", ";1,2,3"] {
            assert_eq!(gradients(bad.as_bytes()), None, "{bad}");
        }
        assert_eq!(gradients(["1,2,3"; 16].join(";").as_bytes()).unwrap().count, 16);
        assert_eq!(gradients(["1,2,3"; 17].join(";").as_bytes()), None);
    }
}
