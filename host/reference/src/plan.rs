//! The address plan ("Addresses"): it alone tells a message's type and unit.

use crate::keyed;
use crate::words::Type;
use crate::Refusal;

pub const MOST_ROWS: usize = 64;

/// What the plan says of one address.
#[derive(Clone, Copy, Debug, PartialEq, Eq)]
pub struct Row<'a> {
    pub unit: &'a [u8],
    pub kind: Type,
}

/// Judges the whole plan (13), then gives the row of the address, if any.
///
/// A bad line answers its number from 1; only the empty text has no line that
/// could be bad, and answers 0.
pub fn look_up(plan: &[u8], ca: u32, ioa: u32) -> Result<Option<Row<'_>>, Refusal> {
    if plan.is_empty() {
        return Err(Refusal::plain(13));
    }
    let wanted = (u64::from(ca) << 32) | u64::from(ioa);
    let mut found = None;
    let mut addresses = Addresses::new();
    let mut rest = plan;
    while !rest.is_empty() {
        let line = 4 * addresses.count as u32 + 1;
        let bad = |line| Refusal::new(13, line);
        if addresses.count == MOST_ROWS {
            return Err(bad(line));
        }
        let (row_ca, after_ca) = keyed::ca(rest).ok_or(bad(line))?;
        let (row_ioa, after_ioa) = keyed::ioa(after_ca).ok_or(bad(line + 1))?;
        let address = (u64::from(row_ca) << 32) | u64::from(row_ioa);
        if !addresses.add(address) {
            return Err(bad(line + 1));
        }
        let (unit, after_unit) = keyed::unit(after_ioa).ok_or(bad(line + 2))?;
        let (kind, after_type) = type_line(after_unit).ok_or(bad(line + 3))?;
        if address == wanted {
            found = Some(Row { unit, kind });
        }
        rest = after_type;
    }
    Ok(found)
}

/// The `type=` line.
fn type_line(text: &[u8]) -> Option<(Type, &[u8])> {
    let (code, rest) = text.strip_prefix(b"type=")?.split_at_checked(2)?;
    Some((Type::read(code)?, rest.strip_prefix(b"\n")?))
}

/// The addresses met so far, to find one that comes twice.
struct Addresses {
    met: [u64; MOST_ROWS],
    count: usize,
    greatest: u64,
}

impl Addresses {
    fn new() -> Self {
        Addresses { met: [0; MOST_ROWS], count: 0, greatest: 0 }
    }

    /// False if the address was met before. Plans are mostly kept in ascending
    /// order, and an address above all others needs no search.
    fn add(&mut self, address: u64) -> bool {
        if address > self.greatest {
            self.greatest = address;
        } else if self.met[..self.count].contains(&address) {
            return false;
        }
        self.met[self.count] = address;
        self.count += 1;
        true
    }
}

#[cfg(test)]
mod tests {
    use super::*;

    fn answer(plan: &str) -> Result<bool, (u32, u32)> {
        look_up(plan.as_bytes(), 7, 300).map(|row| row.is_some()).map_err(|r| (r.number, r.detail))
    }

    fn rows(count: u32) -> String {
        (0..count).map(|k| format!("ca=7\nioa={}\nunit=U\ntype=RC\n", 300 + k)).collect()
    }

    #[test]
    fn first_bad_line() {
        let good = "ca=7\nioa=300\nunit=UP_PROVA_1\ntype=RC\n";
        assert_eq!(answer(good), Ok(true));
        assert_eq!(answer(""), Err((13, 0)));
        assert_eq!(answer("\n"), Err((13, 1)));
        assert_eq!(answer("x"), Err((13, 1)));
        assert_eq!(answer("ca=7\n"), Err((13, 2)));
        assert_eq!(answer("ca=07\n"), Err((13, 1)));
        assert_eq!(answer("ca=4294967303\n"), Err((13, 1)));
        assert_eq!(answer("ca=65535\n"), Err((13, 1)));
        assert_eq!(answer("ca=7\nioa=16777216\n"), Err((13, 2)));
        assert_eq!(answer("ca=7\r\n"), Err((13, 1)));
        assert_eq!(answer("ca=7\nioa=300\nunit=A-B\n"), Err((13, 3)));
        assert_eq!(answer("ca=7\nioa=300\nunit=AAAAAAAAAAAAAAAA\ntype=RC\n"), Ok(true));
        assert_eq!(answer("ca=7\nioa=300\nunit=AAAAAAAAAAAAAAAAA\ntype=RC\n"), Err((13, 3)));
        assert_eq!(answer(&good[..good.len() - 1]), Err((13, 4)));
        assert_eq!(answer(&format!("{good}\n")), Err((13, 5)));
        assert_eq!(answer(&format!("{good}ca=8")), Err((13, 5)));
        assert_eq!(answer(&format!("{good}ca=8\n")), Err((13, 6)));
        assert_eq!(answer(&format!("{good}ca=7\nioa=300\nunit=-\n")), Err((13, 6)));
        assert_eq!(answer("ca=8\nioa=300\nunit=U\ntype=RC\n"), Ok(false));
    }

    #[test]
    fn rows_1_to_64() {
        assert_eq!(answer(&rows(64)), Ok(true));
        assert_eq!(answer(&rows(65)), Err((13, 257)));
        assert_eq!(answer(&(rows(64) + "\n")), Err((13, 257)));
        // Not in ascending order, so that the search is run.
        assert_eq!(answer(&(rows(3) + "ca=7\nioa=1\nunit=U\ntype=CB\n")), Ok(true));
        assert_eq!(answer(&(rows(3) + "ca=7\nioa=301\nunit=U\ntype=CB\n")), Err((13, 14)));
    }
}
