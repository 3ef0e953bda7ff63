//! Labels of all schemes, lawful and not.

use super::texts::{
    ldh_text, point, points_for, random_bytes, some_runs, units_of, unpaired, NOT_POINTS, ROW_MAX,
};
use super::Source;
use crate::brace::{self, Style};
use crate::point::{HYPHEN, LABEL_MAX};
use crate::scheme::Scheme;
use crate::{altdude, lace};

/// Bytes beside the letters and digits, and letters of one alphabet only.
const OUTSIDE: [u8; 28] = [
    0x00, 0x0A, 0x0D, 0x12, 0x13, 0x20, 0x2C, 0x2E, 0x2F, 0x30, 0x31, 0x38, 0x39, 0x3A, 0x40, 0x4C,
    0x4F, 0x5B, 0x5F, 0x60, 0x6C, 0x6F, 0x7B, 0x7F, 0x80, 0xAD, 0xE1, 0xFF,
];

/// Changes the case of some letters.
pub fn change_case(source: &mut Source, label: &mut [u8]) {
    for byte in label {
        if byte.is_ascii_alphabetic() && source.once_in(2) {
            *byte ^= 0x20;
        }
    }
}

/// A text that may be encoded, and its label.
fn lawful_pair(source: &mut Source, scheme: Scheme) -> (Vec<u32>, Vec<u8>) {
    let mut buffer = [0; LABEL_MAX];
    loop {
        let text = points_for(source, scheme);
        if let Ok(count) = scheme.encode(&text, &mut buffer) {
            return (text, buffer[..count].to_vec());
        }
    }
}

/// The label of a lawful text.
pub fn lawful(source: &mut Source, scheme: Scheme) -> Vec<u8> {
    lawful_pair(source, scheme).1
}

/// A lawful label of so many bytes, 1 to 63. Of LACE, which has not every length, it
/// is the longest of one run that is no longer, or the shortest.
pub fn lawful_of_length(source: &mut Source, scheme: Scheme, length: usize) -> Vec<u8> {
    match scheme {
        // one character a point, 60 to 6F
        Scheme::AltDude => (0..length).map(|_| source.pick(&altdude::CHARACTERS[..16])).collect(),
        Scheme::Lace => {
            let octets = length.saturating_sub(lace::PREFIX.len()) * 5 / 8;
            let units = octets.saturating_sub(2).max(1);
            let text: Vec<u32> = (0..units).map(|_| 0x430 + source.below(32) as u32).collect();
            let mut buffer = [0; LABEL_MAX];
            let count = lace::encode(&text, &mut buffer).expect("one run of so few units");
            buffer[..count].to_vec()
        }
        // a plain label
        Scheme::Brace => (0..length).map(|_| source.pick(b"abcxyzABCXYZ0129")).collect(),
    }
}

/// A text that may be encoded.
pub fn lawful_text(source: &mut Source, scheme: Scheme) -> Vec<u32> {
    lawful_pair(source, scheme).0
}

/// The label of one point, and then a group that a careless reader takes.
fn altdude_near_miss(source: &mut Source) -> Vec<u8> {
    let first = point(source);
    let first = if first == HYPHEN { 0x61 } else { first };
    let group = |from: u32, to: u32| altdude::group_for(from ^ to);
    let mut label = group(altdude::START, first);
    match source.below(6) {
        0 => label.extend(group(first, HYPHEN)),
        1 => label.extend(group(first, source.pick(&NOT_POINTS))),
        2 => {
            label.extend(vec![b's'; source.between(1, 9)]);
            label.extend(group(first, point(source)));
        }
        3 => {
            label.push(b't');
            label.extend(vec![b's'; source.between(4, 58)]);
            label.extend(b"ab");
        }
        4 => {
            let end = label.len() - 1;
            label.insert(end, b'-');
        }
        _ => label.push(altdude::CHARACTERS[source.between(16, 31)]),
    }
    if source.once_in(2) {
        label.extend(b"-a");
    }
    label
}

/// An AltDUDE label: lawful, nearly so, or of any of its characters.
fn altdude_label(source: &mut Source) -> Vec<u8> {
    match source.below(6) {
        0 => altdude_near_miss(source),
        1 => {
            let length = source.between(1, 66);
            (0..length).map(|_| source.pick(b"abcdmnpqrsstuw29-")).collect()
        }
        2 => {
            let mut label = lawful(source, Scheme::AltDude);
            let position = source.below(label.len());
            label.insert(position, b's');
            label
        }
        _ => lawful(source, Scheme::AltDude),
    }
}

/// Octets of runs that are cut apart: not the longest ones.
fn runs_cut_apart(source: &mut Source, units: &[u16]) -> Vec<u8> {
    let mut octets = Vec::new();
    for run in lace::runs(units) {
        let position = source.below(run.len());
        for part in [&run[..position], &run[position..]] {
            if !part.is_empty() {
                octets.extend(lace::run_octets(part));
            }
        }
    }
    octets
}

/// The units of a text that is short, mostly: LDH, in runs, or with surrogates.
fn some_units(source: &mut Source) -> Vec<u16> {
    if source.once_in(4) {
        let length = source.between(1, 34);
        return units_of(&ldh_text(source, length));
    }
    let mut units = match source.below(3) {
        0 => unpaired(source),
        _ => units_of(&some_runs(source)),
    };
    units.truncate(source.between(1, 18));
    units
}

/// Octets of units, in the right form or in a wrong one.
fn octets_in_a_form(source: &mut Source, units: &[u16]) -> Vec<u8> {
    match source.below(5) {
        0 => lace::full_octets(units),
        1 => lace::runs(units).iter().flat_map(|run| lace::run_octets(run)).collect(),
        2 => runs_cut_apart(source, units),
        _ => lace::octets_of(units).unwrap_or_default(),
    }
}

/// One fault of octets that are not empty.
fn octets_fault(source: &mut Source, octets: &mut Vec<u8>) {
    let position = source.below(octets.len());
    match source.below(7) {
        0 => octets.push(source.below(3) as u8),
        1 => octets.truncate(position),
        2 => octets[0] = octets[0].wrapping_add(1),
        3 => octets.insert(0, source.pick(&[0x00, 0x01, 0xFF])),
        4 => octets.extend([0x00, 0x51]),
        5 => octets.splice(0..0, [0x00, 0x51]).for_each(drop),
        _ => octets[position] = source.pick(&[0x00, 0x01, 0x02, 0x25, 0xD8, 0xDC, 0xFF]),
    }
}

/// A LACE label made from octets, sometimes with a spare bit set or zero bits
/// after the end.
fn lace_near_miss(source: &mut Source) -> Vec<u8> {
    let units = some_units(source);
    let mut octets = octets_in_a_form(source, &units);
    if !octets.is_empty() && source.once_in(3) {
        octets_fault(source, &mut octets);
    }
    let mut label = lace::PREFIX.to_vec();
    label.extend(lace::base32_of(&octets));
    if !octets.len().is_multiple_of(5) && source.once_in(4) {
        let last = label.len() - 1;
        let value = lace::CHARACTERS.iter().position(|&byte| byte == label[last]);
        label[last] = lace::CHARACTERS[value.unwrap_or(0) ^ 1];
    }
    if source.once_in(8) {
        label.push(b'a');
    }
    label
}

/// A LACE label: lawful, nearly so, or of any of its characters.
fn lace_label(source: &mut Source) -> Vec<u8> {
    let mut label = match source.below(8) {
        0..=3 => lawful(source, Scheme::Lace),
        4..=6 => lace_near_miss(source),
        _ => {
            let mut label = lace::PREFIX.to_vec();
            let length = source.between(0, 61);
            label.extend((0..length).map(|_| source.pick(b"aaaabcdeiqy47-")));
            label
        }
    };
    if source.once_in(12) {
        label[source.below(4)] = source.pick(&OUTSIDE);
    }
    label
}

/// One fault of what stands before BRACE's signature: other bits at the end, other
/// hyphens, or a group of copies in another place.
fn brace_fault(source: &mut Source, coded: &mut Vec<u8>) {
    let position = source.below(coded.len());
    match source.below(8) {
        0 => coded.push(b'2'),
        1 => coded.extend(b"22"),
        2 => coded[position] = source.pick(brace::CHARACTERS),
        3 => coded.insert(position, b'-'),
        4 => coded.extend(b"-"),
        5 if position > 0 => coded.swap(position - 1, position),
        6 => coded.insert(position, source.pick(b"aZ9")),
        _ => {
            coded.remove(position);
        }
    }
}

/// A BRACE label in a style that is mostly not its own, or with a fault.
fn brace_near_miss(source: &mut Source) -> Vec<u8> {
    let mut units = units_of(&points_for(source, Scheme::Brace));
    units.truncate(source.between(1, 20));
    let half_row = source.pick(&units) >> 7;
    let style = source.pick(&[
        brace::style_of(&units),
        brace::style_of(&units),
        Style::HalfRow(half_row),
        Style::FullRow(half_row >> 1),
        Style::Mixed(half_row),
        Style::Mixed(half_row ^ 1),
        Style::NoRow,
    ]);
    let symbols = brace::symbols_in(style, &units);
    let mut label: Vec<u8> = symbols.iter().map(|symbol| symbol.byte()).collect();
    label.truncate(label.len() - brace::SIGNATURE.len());
    if source.once_in(2) {
        brace_fault(source, &mut label);
    }
    label.extend(source.pick(&[brace::SIGNATURE, b"-8q9"]));
    label
}

/// A BRACE label: lawful, plain or nearly so, or of any of its characters.
fn brace_label(source: &mut Source) -> Vec<u8> {
    match source.below(8) {
        0..=3 => lawful(source, Scheme::Brace),
        4 => {
            let length = source.between(1, 20);
            ldh_text(source, length).iter().map(|&point| point as u8).collect()
        }
        5 | 6 => brace_near_miss(source),
        _ => {
            let length = source.between(0, 16);
            let mut label: Vec<u8> = (0..length).map(|_| source.pick(b"22IJSYZza9-")).collect();
            label.extend(brace::SIGNATURE);
            label
        }
    }
}

/// The characters of a scheme, and what its labels begin with.
fn alphabet(scheme: Scheme) -> (&'static [u8], &'static [u8; 32]) {
    match scheme {
        Scheme::AltDude => (b"", altdude::CHARACTERS),
        Scheme::Lace => (lace::PREFIX, lace::CHARACTERS),
        Scheme::Brace => (b"", brace::CHARACTERS),
    }
}

/// Characters of a scheme, in a number just below, at or above the limit.
fn at_limit(source: &mut Source, scheme: Scheme) -> Vec<u8> {
    let (prefix, characters) = alphabet(scheme);
    let mut label = prefix.to_vec();
    let length = source.between(LABEL_MAX - 1, LABEL_MAX + 2);
    label.resize_with(length, || source.pick(characters));
    label
}

/// One fault that any label may have.
fn fault(source: &mut Source, label: &mut Vec<u8>, characters: &[u8; 32]) {
    if label.is_empty() {
        return;
    }
    let position = source.below(label.len());
    match source.below(11) {
        0 => label[position] = source.pick(&OUTSIDE),
        1 => label[position] = source.byte(),
        2 => label[position] = source.pick(characters),
        3 => label.insert(position, source.pick(characters)),
        4 => label.push(source.pick(characters)),
        5 => label.truncate(position),
        6 => label[position] = b'-',
        7 => label[position] ^= 0x20,
        8 => label[position] = label[position].wrapping_add(1),
        9 => label.resize(source.between(1, ROW_MAX), b'a'),
        _ => label.extend(random_bytes(source, LABEL_MAX)),
    }
}

/// A label for a scheme: mostly of that scheme, lawful or not, in either case.
pub fn label(source: &mut Source, scheme: Scheme) -> Vec<u8> {
    let mut label = match (source.below(32), scheme) {
        (0, _) => random_bytes(source, LABEL_MAX + 7),
        (1, _) => at_limit(source, scheme),
        (2, Scheme::AltDude | Scheme::Brace) => lace_label(source),
        (2, Scheme::Lace) => altdude_label(source),
        (_, Scheme::AltDude) => altdude_label(source),
        (_, Scheme::Lace) => lace_label(source),
        (_, Scheme::Brace) => brace_label(source),
    };
    for _ in 0..source.faults() {
        fault(source, &mut label, alphabet(scheme).1);
    }
    if source.once_in(3) {
        change_case(source, &mut label);
    }
    label
}
