//! Texts as points, as units and as bytes. What is a point and what its units are
//! goes by the language's characters, so that an error of the implementation is
//! not shared.

use super::Source;
use crate::papers::{ever_changing, in_turn};
use crate::point::{HYPHEN, LABEL_MAX};
use crate::scheme::Scheme;

/// The most elements in a generated row.
pub const ROW_MAX: usize = 300;

/// Numbers that are no points.
pub const NOT_POINTS: [u32; 9] =
    [0xD800, 0xDBFF, 0xDC00, 0xDFFF, 0x110000, 0x11FFFF, 0x200061, 0x80000061, 0xFFFFFFFF];

/// Points at the borders of the rules.
const BORDER_POINTS: [u32; 16] = [
    0, 0x2C, 0x2D, 0x2E, 0x2F, 0x30, 0x3A, 0x40, 0x5B, 0x60, 0x7B, 0xD7FF, 0xE000, 0xFFFF, 0x10000,
    0x10FFFF,
];

/// High octets from which rows are drawn.
const HIGH_OCTETS: [u32; 10] = [0x00, 0x01, 0x03, 0x04, 0x09, 0x30, 0x4E, 0xAC, 0xFE, 0xFF];

/// Any point, planes above the first included.
pub fn point(source: &mut Source) -> u32 {
    loop {
        let number = match source.below(4) {
            0 => source.below(0x250) as u32,
            1 => source.below(0x10000) as u32,
            2 => source.below(0x110000) as u32,
            _ => source.pick(&BORDER_POINTS),
        };
        if char::from_u32(number).is_some() {
            return number;
        }
    }
}

/// A row of so many points with one high octet.
fn one_row(source: &mut Source, length: usize) -> Vec<u32> {
    let high = source.pick(&HIGH_OCTETS) << 8;
    (0..length).map(|_| high + u32::from(source.byte())).collect()
}

/// A row of so many LDH points.
fn ldh_row(source: &mut Source, length: usize) -> Vec<u32> {
    let characters = b"abcxyzABCXYZ0129-";
    (0..length).map(|_| u32::from(source.pick(characters))).collect()
}

/// LDH points: a host label about as often as not, else with a hyphen at an edge
/// or too many.
pub fn ldh_text(source: &mut Source, length: usize) -> Vec<u32> {
    let length = if source.once_in(3) { source.between(60, 70) } else { length };
    let mut text = ldh_row(source, length);
    match source.below(6) {
        0 => text[0] = HYPHEN,
        1 => text[length - 1] = HYPHEN,
        _ => {}
    }
    text
}

/// Some runs of one to five points each.
pub fn some_runs(source: &mut Source) -> Vec<u32> {
    let mut text = Vec::new();
    for _ in 0..source.between(1, 7) {
        let length = source.between(1, 5);
        text.extend(one_row(source, length));
    }
    text
}

/// A text whose label is as long as can be, or a text one point longer.
fn near_limit(source: &mut Source, scheme: Scheme) -> Vec<u32> {
    let wide = source.once_in(2);
    let mut text = vec![0xE4];
    while text.len() < LABEL_MAX + 2 {
        let next = if wide { point(source) } else { 0x430 + source.below(32) as u32 };
        text.push(if next == HYPHEN { 0x61 } else { next });
    }
    cut_at_limit(source, scheme, text)
}

/// As much of a text whose label is too long as can be encoded, or one point more.
fn cut_at_limit(source: &mut Source, scheme: Scheme, mut text: Vec<u32>) -> Vec<u32> {
    // The label of the first `fits` points is short enough, that of `over` is not.
    let (mut fits, mut over) = (1, text.len());
    while over - fits > 1 {
        let middle = (fits + over) / 2;
        match scheme.encode(&text[..middle], &mut [0; LABEL_MAX]) {
            Ok(_) => fits = middle,
            Err(_) => over = middle,
        }
    }
    text.truncate(source.pick(&[fits, over]));
    text
}

/// A row of points only, seldom over 70 of them.
pub fn points(source: &mut Source) -> Vec<u32> {
    let length = match source.below(4) {
        0 => source.between(1, 4),
        1 => source.between(15, 19),
        2 => source.between(32, 37),
        _ => source.between(1, 68),
    };
    match source.below(10) {
        0 | 1 => one_row(source, length),
        2 => (0..length).map(|_| point(source)).collect(),
        3 => some_runs(source),
        4 => ldh_text(source, length),
        5 => vec![point(source); length],
        6 => ever_changing(source.between(16, 19)),
        7 => in_turn(source.between(8, 13)),
        8 => near_limit(source, Scheme::AltDude),
        _ => near_limit(source, Scheme::Lace),
    }
}

/// Points of one to four half-rows, of which two make a row, with LDH between.
fn half_rows(source: &mut Source, length: usize) -> Vec<u32> {
    let first = (source.pick(&HIGH_OCTETS) << 8) + source.pick(&[0x00, 0x80]);
    let others = [point(source), point(source)].map(|point| point & !0x7F);
    let starts = [first, first ^ 0x80, others[0], others[1]];
    let half_rows = match source.below(3) {
        0 => &starts[..2],
        1 => &starts[1..3],
        _ => &starts[..source.between(1, 4)],
    };
    let ldh_in_eight = source.pick(&[0, 0, 1, 4, 7]);
    let mut next = || match source.below(8) < ldh_in_eight {
        true => u32::from(source.pick(b"abXZ019---")),
        false => source.pick(half_rows) + source.below(0x80) as u32,
    };
    (0..length).map(|_| next()).collect()
}

/// LDH points, with BRACE's signature at the end about as often as not.
fn signed_ldh(source: &mut Source) -> Vec<u32> {
    let length = source.between(1, 58);
    let mut text = ldh_text(source, length);
    if source.once_in(2) {
        text.extend(source.pick(&[b"-8Q9", b"-8q9", b"-8Q8"]).map(u32::from));
    }
    text
}

/// A row of points for BRACE: seldom one that is not made for it.
fn brace_points(source: &mut Source) -> Vec<u32> {
    match source.below(16) {
        0 => points(source),
        1 | 2 => signed_ldh(source),
        3 | 4 => {
            let long = half_rows(source, LABEL_MAX + 2);
            cut_at_limit(source, Scheme::Brace, long)
        }
        5 => {
            let length = source.between(1, 66);
            half_rows(source, length)
        }
        _ => {
            let length = source.between(1, 14);
            half_rows(source, length)
        }
    }
}

/// A row of points for a scheme.
pub fn points_for(source: &mut Source, scheme: Scheme) -> Vec<u32> {
    match scheme {
        Scheme::Brace => brace_points(source),
        Scheme::AltDude | Scheme::Lace => points(source),
    }
}

/// One fault of a text that is not empty.
fn fault(source: &mut Source, text: &mut Vec<u32>) {
    let position = source.below(text.len());
    match source.below(8) {
        0 | 1 => text[position] = source.pick(&NOT_POINTS),
        2 => text.insert(0, HYPHEN),
        3 => text.push(HYPHEN),
        4 => text.insert(position, HYPHEN),
        5 => *text = vec![HYPHEN; source.between(1, 66)],
        6 => text.resize(source.between(1, ROW_MAX), 0x61),
        _ => text.push(source.pick(&NOT_POINTS)),
    }
}

/// A text, lawful or not: no points, hyphens at the edges, too long, empty.
pub fn text(source: &mut Source) -> Vec<u32> {
    if source.once_in(64) {
        return Vec::new();
    }
    let mut text = points(source);
    for _ in 0..source.faults() {
        fault(source, &mut text);
    }
    text
}

/// The units of points.
pub fn units_of(points: &[u32]) -> Vec<u16> {
    let text: String = points.iter().filter_map(|&point| char::from_u32(point)).collect();
    text.encode_utf16().collect()
}

/// Units with an unpaired surrogate among them, mostly.
pub fn unpaired(source: &mut Source) -> Vec<u16> {
    let mut units: Vec<u16> = Vec::new();
    for _ in 0..source.between(1, 5) {
        let high = source.pick(&[0xD8u16, 0xDB, 0xDC, 0xDF, 0x04]) << 8;
        for _ in 0..source.between(1, 4) {
            units.push(high + u16::from(source.byte()));
        }
    }
    units
}

/// A row of units: pairs and others, with up to three surrogates put between.
pub fn units(source: &mut Source) -> Vec<u16> {
    units_for(source, Scheme::Lace)
}

/// A row of units for a scheme, made in the same way.
fn units_for(source: &mut Source, scheme: Scheme) -> Vec<u16> {
    let mut units = match source.below(5) {
        0 => unpaired(source),
        _ => units_of(&points_for(source, scheme)),
    };
    for _ in 0..source.faults() {
        let position = source.below(units.len() + 1);
        units.insert(position, source.pick(&[0xD800, 0xD83E, 0xDBFF, 0xDC00, 0xDDF6, 0xDFFF]));
    }
    if source.once_in(4) {
        units.truncate(source.below(units.len() + 1));
    }
    units
}

/// A text as units for BRACE or the C interface: also as long as the latter takes
/// and longer.
pub fn text_units(source: &mut Source, scheme: Scheme) -> Vec<u16> {
    let mut units = match source.below(3) {
        0 => units_for(source, scheme),
        _ => units_of(&points_for(source, scheme)),
    };
    match source.below(16) {
        0 => {
            let unit = source.pick(&[0x61, 0xFC, 0x431, 0xD800]);
            units = vec![unit; source.between(124, 128)];
        }
        1 => units.insert(0, HYPHEN as u16),
        2 => units.push(HYPHEN as u16),
        _ => {}
    }
    units
}

/// A text as bytes for the C interface: units, some of them cut in half.
pub fn text_bytes(source: &mut Source, scheme: Scheme) -> Vec<u8> {
    let mut bytes: Vec<u8> =
        text_units(source, scheme).iter().flat_map(|unit| unit.to_be_bytes()).collect();
    match source.below(16) {
        0 => bytes.truncate(bytes.len().saturating_sub(1)),
        1 => bytes.push(source.byte()),
        2 => bytes = random_bytes(source, ROW_MAX),
        _ => {}
    }
    bytes
}

/// At most so many bytes of any value.
pub fn random_bytes(source: &mut Source, most: usize) -> Vec<u8> {
    let length = source.below(most + 1);
    (0..length).map(|_| source.byte()).collect()
}
