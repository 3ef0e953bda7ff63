//! LACE (source document 004): units, runs, octets, Base32.

use crate::error::{error, error_at, Error, ErrorCode};
use crate::marks;
use crate::point::{first_not_point, fold, is_host_label, value_in, LABEL_MAX};
use crate::utf16::{points_of, units_of};

/// The Base32 characters for 0 to 31.
pub const CHARACTERS: &[u8; 32] = b"abcdefghijklmnopqrstuvwxyz234567";

/// The prefix that every label begins with.
pub const PREFIX: &[u8; 4] = b"lq--";

/// The octet before units that are written in full.
const FULL: u8 = 0xFF;

/// Encodes a text as a label. Order: 1, 2, 4, 6, 3.
pub fn encode(text: &[u32], out: &mut [u8]) -> Result<usize, Error> {
    if out.len() < LABEL_MAX {
        return error(ErrorCode::Capacity);
    }
    if text.is_empty() {
        return error(ErrorCode::Empty);
    }
    if let Some(position) = first_not_point(text) {
        return error_at(ErrorCode::NotAPoint, position);
    }
    if is_host_label(text) {
        return error(ErrorCode::HostLabel);
    }
    let units = match units_of(text) {
        Ok(units) => units,
        Err(position) => return error_at(ErrorCode::NotAPoint, position),
    };
    let octets = match octets_of(&units) {
        Some(octets) => octets,
        None => return error(ErrorCode::TooLong),
    };
    let base32 = base32_of(&octets);
    let count = PREFIX.len() + base32.len();
    out[..PREFIX.len()].copy_from_slice(PREFIX);
    out[PREFIX.len()..count].copy_from_slice(&base32);
    Ok(count)
}

/// Decodes a label to a text. Order: 1, 2, 3, 8, 7, 9, 6.
pub fn decode(label: &[u8], out: &mut [u32]) -> Result<usize, Error> {
    if out.len() < LABEL_MAX {
        return error(ErrorCode::Capacity);
    }
    if label.is_empty() {
        return error(ErrorCode::Empty);
    }
    if label.len() > LABEL_MAX {
        return error(ErrorCode::TooLong);
    }
    if !has_prefix(label) {
        return error(ErrorCode::NoPrefix);
    }
    let quintets = match quintets_of(&label[PREFIX.len()..]) {
        Ok(quintets) => quintets,
        Err(position) => return error_at(ErrorCode::OutsideAlphabet, PREFIX.len() + position),
    };
    let text = match text_from(&quintets) {
        Some(text) => text,
        None => return error(ErrorCode::NotWellFormed),
    };
    if is_host_label(&text) {
        return error(ErrorCode::HostLabel);
    }
    out[..text.len()].copy_from_slice(&text);
    Ok(text.len())
}

/// Encodes a text with its marks, all of which must be 0. Order: 1, 2, 4, 15, 6, 3.
pub fn encode_marked(text: &[u32], marks: &[u8], out: &mut [u8]) -> Result<usize, Error> {
    marks::judge(text, marks, out.len(), |_| false)?;
    encode(text, out)
}

/// Decodes a label to a text and its marks, all of which are 0.
/// Order: 1 for either buffer, 2, 3, 8, 7, 9, 6.
pub fn decode_marked(label: &[u8], out: &mut [u32], marks: &mut [u8]) -> Result<usize, Error> {
    if marks.len() < LABEL_MAX {
        return error(ErrorCode::Capacity);
    }
    let count = decode(label, out)?;
    marks[..count].fill(0);
    Ok(count)
}

/// The longest runs of units with equal high octet.
pub fn runs(units: &[u16]) -> Vec<&[u16]> {
    units.chunk_by(|one, next| one >> 8 == next >> 8).collect()
}

/// How many bytes the label of so many octets has, prefix included.
fn label_length(octets: usize) -> usize {
    PREFIX.len() + (8 * octets).div_ceil(5)
}

/// The octets of a row of units, if their label has at most 63 bytes.
pub fn octets_of(units: &[u16]) -> Option<Vec<u8>> {
    let runs = runs(units);
    let in_runs = 2 * runs.len() + units.len();
    let in_full = 1 + 2 * units.len();
    if in_runs <= 2 * units.len() {
        if label_length(in_runs) > LABEL_MAX {
            return None;
        }
        Some(runs.iter().flat_map(|run| run_octets(run)).collect())
    } else {
        if label_length(in_full) > LABEL_MAX {
            return None;
        }
        Some(full_octets(units))
    }
}

/// A run as octets: its count, its high octet, its low octets.
pub fn run_octets(run: &[u16]) -> Vec<u8> {
    let mut octets = vec![run.len() as u8, (run[0] >> 8) as u8];
    octets.extend(run.iter().map(|unit| (unit & 0xFF) as u8));
    octets
}

/// FF and then all units, high octet first.
pub fn full_octets(units: &[u16]) -> Vec<u8> {
    let mut octets = vec![FULL];
    octets.extend(units.iter().flat_map(|unit| unit.to_be_bytes()));
    octets
}

/// Octets in Base32: five bits a character, the last filled up with zero bits.
pub fn base32_of(octets: &[u8]) -> Vec<u8> {
    let mut bits: Vec<bool> = octets.iter().flat_map(|&octet| bits_of(octet, 8)).collect();
    while !bits.len().is_multiple_of(5) {
        bits.push(false);
    }
    let character = |five: &[bool]| CHARACTERS[usize::from(number_of(five))];
    bits.chunks(5).map(character).collect()
}

/// The lowest `width` bits of a number, highest first.
fn bits_of(number: u8, width: u32) -> Vec<bool> {
    (0..width).rev().map(|shift| (number >> shift) & 1 == 1).collect()
}

/// The number of at most eight bits, highest first.
fn number_of(bits: &[bool]) -> u8 {
    bits.iter().fold(0, |number, &bit| number * 2 + u8::from(bit))
}

/// Whether the first four bytes are the prefix, case ignored.
pub fn has_prefix(label: &[u8]) -> bool {
    label.len() >= PREFIX.len() && PREFIX.iter().zip(label).all(|(&one, &byte)| fold(byte) == one)
}

/// The values of Base32 characters, or the index of the first byte that is none.
fn quintets_of(bytes: &[u8]) -> Result<Vec<u8>, usize> {
    let mut quintets = Vec::new();
    for (index, &byte) in bytes.iter().enumerate() {
        match value_in(CHARACTERS, byte) {
            Some(value) => quintets.push(value),
            None => return Err(index),
        }
    }
    Ok(quintets)
}

/// The text of Base32 values, if the rules of form admit them.
/// The rule against host labels is left to the caller.
fn text_from(quintets: &[u8]) -> Option<Vec<u32>> {
    let octets = octets_from(quintets)?;
    let units = units_from(&octets)?;
    points_of(&units).ok()
}

/// The octets of Base32 values: a lawful length, and spare bits that are zero.
fn octets_from(quintets: &[u8]) -> Option<Vec<u8>> {
    let lawful = matches!(quintets.len() % 8, 0 | 2 | 4 | 5 | 7);
    if quintets.is_empty() || !lawful {
        return None;
    }
    let bits: Vec<bool> = quintets.iter().flat_map(|&value| bits_of(value, 5)).collect();
    let (whole, spare) = bits.split_at(bits.len() / 8 * 8);
    if spare.contains(&true) {
        return None;
    }
    Some(whole.chunks(8).map(number_of).collect())
}

/// The units of octets in either form, if the form is the right one for them.
fn units_from(octets: &[u8]) -> Option<Vec<u16>> {
    match octets.split_first()? {
        (&FULL, rest) => units_in_full(rest),
        _ => units_in_runs(octets),
    }
}

/// One or more units in full, with 2r > n.
fn units_in_full(octets: &[u8]) -> Option<Vec<u16>> {
    if octets.is_empty() || !octets.len().is_multiple_of(2) {
        return None;
    }
    let unit = |pair: &[u8]| u16::from_be_bytes([pair[0], pair[1]]);
    let units: Vec<u16> = octets.chunks(2).map(unit).collect();
    if 2 * runs(&units).len() > units.len() {
        Some(units)
    } else {
        None
    }
}

/// Runs with count 1 or more, neighbours differing in high octet, ending
/// exactly at the end, with 2r at most n.
fn units_in_runs(octets: &[u8]) -> Option<Vec<u16>> {
    let mut units = Vec::new();
    let mut found = 0;
    let mut high_before = None;
    let mut left = octets;
    while !left.is_empty() {
        let (&count, rest) = left.split_first()?;
        let (&high, rest) = rest.split_first()?;
        let count = usize::from(count);
        if count == 0 || count > rest.len() || high_before == Some(high) {
            return None;
        }
        let (lows, rest) = rest.split_at(count);
        units.extend(lows.iter().map(|&low| u16::from_be_bytes([high, low])));
        found += 1;
        high_before = Some(high);
        left = rest;
    }
    if 2 * found <= units.len() {
        Some(units)
    } else {
        None
    }
}
