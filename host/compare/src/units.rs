//! Units of file transfers (docs/UNITS.md), and the transfers that they make.

pub type Units = Vec<Vec<u8>>;

/// Octets 4 to 9 of a unit: the originator, the common address and the information object address, as they stand.
pub type Address = [u8; 6];

fn unit(kind: u8, address: Address, own: &[u8]) -> Vec<u8> {
    [&[kind, 1, 13], &address[..], &[1, 0], own].concat()
}

pub fn file_ready(address: Address, length: usize) -> Vec<u8> {
    unit(120, address, &[&octets(length)[..], &[0]].concat())
}

pub fn section_ready(address: Address, name: u8, length: usize) -> Vec<u8> {
    unit(121, address, &[&[name], &octets(length)[..], &[0]].concat())
}

/// Of at most 255 octets.
pub fn segment(address: Address, name: u8, octets: &[u8]) -> Vec<u8> {
    unit(125, address, &[&[name, octets.len() as u8], octets].concat())
}

pub fn last_segment(address: Address, name: u8, section: &[u8]) -> Vec<u8> {
    unit(123, address, &[name, 3, checksum(section)])
}

pub fn last_section(address: Address, name: u8, file: &[u8]) -> Vec<u8> {
    unit(123, address, &[name, 1, checksum(file)])
}

/// A length as three octets, the low one first.
pub fn octets(length: usize) -> [u8; 3] {
    [length, length >> 8, length >> 16].map(|octet| octet as u8)
}

fn checksum(octets: &[u8]) -> u8 {
    octets.iter().fold(0, |sum: u8, octet| sum.wrapping_add(*octet))
}

/// A whole transfer of a file in these sections, each in segments of at most so many octets. A 256th section has the name 0.
pub fn transfer(address: Address, sections: &[&[u8]], most: usize) -> Units {
    let file = sections.concat();
    let mut units = vec![file_ready(address, file.len())];
    let mut name = 0u8;
    for section in sections {
        name = name.wrapping_add(1);
        units.push(section_ready(address, name, section.len()));
        units.extend(section.chunks(most).map(|part| segment(address, name, part)));
        units.push(last_segment(address, name, section));
    }
    units.push(last_section(address, name, &file));
    units
}
