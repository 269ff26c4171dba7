//! Dates and their instants ("Values").

/// `X` of a date: summer time (`L`, legale) or standard time (`S`, solare).
#[derive(Clone, Copy, Debug, PartialEq, Eq)]
pub enum Season {
    Summer,
    Standard,
}

/// A date as it stands in a message; the record keeps all of its parts.
#[derive(Clone, Copy, Debug, PartialEq, Eq)]
pub struct Date {
    pub year: u16,
    pub month: u8,
    pub day: u8,
    pub hour: u8,
    pub minute: u8,
    pub second: u8,
    pub season: Season,
}

/// Days passed in a common year when a month begins.
const DAYS_BEFORE: [u32; 12] = [0, 31, 59, 90, 120, 151, 181, 212, 243, 273, 304, 334];
const DAYS_IN: [u8; 12] = [31, 28, 31, 30, 31, 30, 31, 31, 30, 31, 30, 31];

impl Date {
    /// `DD-MM-YYYY HH:MI:SS X`, or nothing.
    pub fn read(text: &[u8]) -> Option<Date> {
        let text: &[u8; 21] = text.try_into().ok()?;
        let marks = text[2] == b'-'
            && text[5] == b'-'
            && text[10] == b' '
            && text[13] == b':'
            && text[16] == b':'
            && text[19] == b' ';
        let season = match text[20] {
            b'L' => Season::Summer,
            b'S' => Season::Standard,
            _ => return None,
        };
        let date = Date {
            year: u16::from(pair(text[6], text[7])?) * 100 + u16::from(pair(text[8], text[9])?),
            month: pair(text[3], text[4])?,
            day: pair(text[0], text[1])?,
            hour: pair(text[11], text[12])?,
            minute: pair(text[14], text[15])?,
            second: pair(text[17], text[18])?,
            season,
        };
        (marks && date.is_valid()).then_some(date)
    }

    /// Every fourth year of 2001 to 2099 is a leap year, without exception.
    fn is_leap(self) -> bool {
        self.year.is_multiple_of(4)
    }

    pub fn is_valid(self) -> bool {
        (2001..=2099).contains(&self.year)
            && (1..=12).contains(&self.month)
            && self.day >= 1
            && self.day <= DAYS_IN[usize::from(self.month) - 1] + u8::from(self.month == 2 && self.is_leap())
            && self.hour <= 23
            && self.minute <= 59
            && self.second <= 59
    }

    /// Seconds since 2000 began in UTC, of a valid date.
    pub fn instant(self) -> u32 {
        let year = u32::from(self.year);
        let days = 365 * (year - 2000)
            + (year - 1997) / 4
            + DAYS_BEFORE[usize::from(self.month) - 1]
            + u32::from(self.month > 2 && self.is_leap())
            + u32::from(self.day)
            - 1;
        let seconds = u32::from(self.hour) * 3_600 + u32::from(self.minute) * 60 + u32::from(self.second);
        let ahead = match self.season {
            Season::Standard => 3_600,
            Season::Summer => 7_200,
        };
        days * 86_400 + seconds - ahead
    }

    /// The 21 bytes of the written form.
    pub fn written(self) -> [u8; 21] {
        let mut text = *b"00-00-0000 00:00:00 S";
        let mut put = |at: usize, value: u8| {
            text[at] = b'0' + value / 10;
            text[at + 1] = b'0' + value % 10;
        };
        put(0, self.day);
        put(3, self.month);
        put(6, (self.year / 100) as u8);
        put(8, (self.year % 100) as u8);
        put(11, self.hour);
        put(14, self.minute);
        put(17, self.second);
        if self.season == Season::Summer {
            text[20] = b'L';
        }
        text
    }
}

/// Two digits.
#[inline]
fn pair(tens: u8, ones: u8) -> Option<u8> {
    let (tens, ones) = (tens.wrapping_sub(b'0'), ones.wrapping_sub(b'0'));
    (tens < 10 && ones < 10).then(|| tens * 10 + ones)
}

#[cfg(test)]
mod tests {
    use super::*;

    fn instant(text: &str) -> Option<u32> {
        let date = Date::read(text.as_bytes())?;
        assert_eq!(date.written(), text.as_bytes());
        Some(date.instant())
    }

    #[test]
    fn both_sides() {
        assert_eq!(instant("01-01-2001 00:00:00 S"), Some(31_618_800));
        assert_eq!(instant("01-01-2001 00:00:00 L"), Some(31_615_200));
        assert_eq!(instant("31-12-2099 23:59:59 S"), Some(3_155_756_399));
        assert_eq!(instant("29-10-2023 02:30:00 L"), Some(751_854_600));
        assert_eq!(instant("29-10-2023 02:30:00 S"), Some(751_858_200));
        assert!(instant("29-02-2024 00:00:00 S").is_some());
        assert_eq!(instant("29-02-2023 00:00:00 S"), None);
    }

    #[test]
    fn not_dates() {
        for bad in [
            "",
            "31-12-2000 00:00:00 S",
            "01-01-2100 00:00:00 S",
            "00-01-2025 00:00:00 S",
            "31-04-2025 00:00:00 S",
            "01-00-2025 00:00:00 S",
            "01-13-2025 00:00:00 S",
            "01-01-2025 24:00:00 S",
            "01-01-2025 00:60:00 S",
            "01-01-2025 00:00:60 S",
            "01-01-2025 00:00:00 s",
            "01-01-2025 00:00:00  S",
            "1-01-2025 00:00:00 S",
            "01/01/2025 00:00:00 S",
            "01-01-2025 00:00:00 S ",
            "0:-01-2025 00:00:00 S",
        ] {
            assert_eq!(instant(bad), None, "{bad}");
        }
    }

    #[test]
    fn every_day_follows_the_one_before() {
        let mut last = Date::read(b"31-12-2000 00:00:00 S").map(Date::instant);
        assert_eq!(last, None);
        for year in 2001..=2099 {
            for month in 1..=12 {
                for day in 1..=31 {
                    let date = Date { year, month, day, hour: 0, minute: 0, second: 0, season: Season::Standard };
                    if date.is_valid() {
                        assert!(last.is_none_or(|before| before + 86_400 == date.instant()));
                        last = Some(date.instant());
                    }
                }
            }
        }
    }
}
