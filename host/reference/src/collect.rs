//! Files from their segments (request A2 of document 02): a collector is given
//! units of IEC 60870-5-101 one by one, and has the file when it is whole.
//!
//! The turn is file ready; then sections 1, 2, 3 and so on, each of section
//! ready, segments, last segment; then last section. Refusals are judged in the
//! order 44, 40, 41, 42, 43, and each leaves the collector fresh.

use crate::reader::MOST_BYTES;
use crate::Refusal;

/// What became of a unit.
#[derive(Clone, Debug, PartialEq, Eq)]
pub enum Heard {
    /// Taken; the file is not whole yet.
    More,
    /// Taken, and it makes the file whole that came for this address.
    Whole {
        ca: u32,
        ioa: u32,
        octets: Vec<u8>,
    },
    Refused(Refusal),
}

/// Collects one file after another. The default is a fresh one: no transfer is open.
#[derive(Clone, Debug, Default, PartialEq, Eq)]
pub struct Collector {
    pub transfer: Option<Transfer>,
}

/// A transfer, from its file ready on.
#[derive(Clone, Debug, PartialEq, Eq)]
pub struct Transfer {
    pub ca: u32,
    pub ioa: u32,
    /// The announced length of the file.
    pub length: usize,
    /// All octets so far.
    pub octets: Vec<u8>,
    /// How many sections have ended, which is the name of the last of them.
    pub ended: u8,
    pub open: Option<Section>,
}

/// A section between its section ready and its last segment.
#[derive(Clone, Copy, Debug, PartialEq, Eq)]
pub struct Section {
    pub name: u8,
    /// The announced length of the section.
    pub length: usize,
    /// How many octets of the file came before it.
    pub start: usize,
}

impl Collector {
    pub fn take(&mut self, unit: &[u8]) -> Heard {
        // What is not put back is dropped: a refusal and a whole file leave the collector fresh.
        match step(self.transfer.take(), unit) {
            Ok(Step::On(transfer)) => {
                self.transfer = Some(transfer);
                Heard::More
            }
            Ok(Step::Whole(Transfer { ca, ioa, octets, .. })) => Heard::Whole { ca, ioa, octets },
            Err(refusal) => Heard::Refused(refusal),
        }
    }
}

/// Where a transfer stands after a unit that was taken.
enum Step {
    On(Transfer),
    Whole(Transfer),
}

/// One unit, in a transfer or where none is open.
fn step(transfer: Option<Transfer>, unit: &[u8]) -> Result<Step, Refusal> {
    let Unit { ca, ioa, says } = Unit::read(unit).ok_or(Refusal::plain(44))?;
    match (transfer, says) {
        (Some(transfer), _) if (transfer.ca, transfer.ioa) != (ca, ioa) => Err(Refusal::plain(44)),
        (Some(transfer), says) => transfer.hear(says),
        (None, Says::FileReady { length }) => {
            within(length)?;
            Ok(Step::On(Transfer { ca, ioa, length, octets: Vec::new(), ended: 0, open: None }))
        }
        (None, _) => Err(Refusal::plain(40)),
    }
}

impl Transfer {
    /// A unit for this transfer's address. One whose turn it is has an arm; any other is 40.
    fn hear(mut self, says: Says) -> Result<Step, Refusal> {
        match (says, self.open) {
            // no octet names a 256th section
            (Says::SectionReady { name, length }, None) if self.ended.checked_add(1) == Some(name) => {
                within(length)?;
                self.open = Some(Section { name, length, start: self.octets.len() });
            }
            // more than was announced is found at the end, by 42
            (Says::Segment { name, octets }, Some(section)) if name == section.name => {
                within(self.octets.len() + octets.len())?;
                self.octets.extend_from_slice(octets);
            }
            (Says::LastSegment { name, checksum }, Some(section))
                if name == section.name && self.octets.len() > section.start =>
            {
                agree(&self.octets[section.start..], checksum, section.length)?;
                self.ended = name;
                self.open = None;
            }
            (Says::LastSection { name, checksum }, None) if self.ended > 0 && name == self.ended => {
                agree(&self.octets, checksum, self.length)?;
                return Ok(Step::Whole(self));
            }
            _ => return Err(Refusal::plain(40)),
        }
        Ok(Step::On(self))
    }
}

/// 41, then 42, at the end of a section or of the file.
fn agree(octets: &[u8], checksum: u8, announced: usize) -> Result<(), Refusal> {
    let sum = octets.iter().fold(0, |sum: u8, octet| sum.wrapping_add(*octet));
    if sum != checksum {
        Err(Refusal::plain(41))
    } else if octets.len() != announced {
        Err(Refusal::plain(42))
    } else {
        Ok(())
    }
}

/// 43: what is announced, and what is collected, is no more than the reader takes.
fn within(length: usize) -> Result<(), Refusal> {
    if length > MOST_BYTES {
        Err(Refusal::plain(43))
    } else {
        Ok(())
    }
}

/// A unit of one of the five layouts that names file 1.
struct Unit<'a> {
    ca: u32,
    ioa: u32,
    says: Says<'a>,
}

enum Says<'a> {
    FileReady { length: usize },
    SectionReady { name: u8, length: usize },
    Segment { name: u8, octets: &'a [u8] },
    LastSegment { name: u8, checksum: u8 },
    LastSection { name: u8, checksum: u8 },
}

impl<'a> Unit<'a> {
    /// All units begin alike: one object, cause 13 (file transfer, neither negative nor a test), any originator, the
    /// two addresses, the name of file. Then comes what the type has of its own, and nothing more.
    fn read(unit: &'a [u8]) -> Option<Self> {
        let &[kind, 1, 13, _originator, ca0, ca1, ioa0, ioa1, ioa2, 1, 0, ref rest @ ..] = unit else {
            return None;
        };
        let says = match (kind, rest) {
            (120, &[a, b, c, 0]) => Says::FileReady { length: length([a, b, c]) },
            (121, &[name, a, b, c, 0]) => Says::SectionReady { name, length: length([a, b, c]) },
            (125, &[name, count, ref octets @ ..]) if count > 0 && octets.len() == usize::from(count) => {
                Says::Segment { name, octets }
            }
            // 3 ends a section, 1 the file, both without deactivation
            (123, &[name, 3, checksum]) => Says::LastSegment { name, checksum },
            (123, &[name, 1, checksum]) => Says::LastSection { name, checksum },
            _ => return None,
        };
        let (ca, ioa) = (u32::from_le_bytes([ca0, ca1, 0, 0]), u32::from_le_bytes([ioa0, ioa1, ioa2, 0]));
        Some(Unit { ca, ioa, says })
    }
}

fn length([low, middle, high]: [u8; 3]) -> usize {
    u32::from_le_bytes([low, middle, high, 0]) as usize
}
