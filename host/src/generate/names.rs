//! Host names, and texts to be written as such, lawful and not.

use super::labels::{self, change_case, lawful_text};
use super::texts::{self, ldh_text, random_bytes, units_of, ROW_MAX};
use super::Source;
use crate::lace;
use crate::point::HYPHEN;
use crate::scheme::Scheme;

/// The most bytes in a name, as 02 has it.
const NAME_MAX: usize = 253;

/// The point of the dot.
const DOT: u32 = 0x2E;

/// Points that look like a dot, and points that have 2E hex among their octets.
const LIKE_DOTS: [u32; 11] =
    [0x3002, 0x3002, 0xFF0E, 0xFF61, 0xB7, 0x2024, 0x12E, 0x42E, 0x2E00, 0x2E2E, 0x1002E];

/// Points outside LDH that are neighbours of letters and digits, or else in ASCII.
const NEAR_LDH: [u32; 10] = [0x20, 0x2C, 0x2F, 0x3A, 0x40, 0x5B, 0x5F, 0x60, 0x7B, 0x7F];

/// Numbers that are no points; some of them end as the dot does.
const NOT_POINTS: [u32; 9] =
    [0xD800, 0xDBFF, 0xDC2E, 0xDFFF, 0x110000, 0x11002E, 0x8000002E, 0x80000061, 0xFFFFFFFF];

/// Bytes outside LDH: neighbours of letters and digits, and bytes like the dot.
const OUTSIDE: [u8; 16] = [
    0x00, 0x0E, 0x20, 0x2C, 0x2F, 0x3A, 0x40, 0x5B, 0x5F, 0x5F, 0x60, 0x7B, 0x80, 0xAE, 0xE1, 0xFF,
];

/// What host labels begin with that almost begin with LACE's prefix.
const NEAR_PREFIXES: [&[u8]; 10] =
    [b"lq", b"lq-", b"LQ-", b"lq-a", b"lqa-", b"xlq--", b"ql--", b"1q--", b"lp--", b"xn--"];

/// A part of a name that may be read and written: its points, and its label.
struct Part {
    points: Vec<u32>,
    label: Vec<u8>,
}

/// The points of bytes.
fn points_of(bytes: &[u8]) -> Vec<u32> {
    bytes.iter().map(|&byte| u32::from(byte)).collect()
}

/// LACE's prefix in any case.
fn prefix(source: &mut Source) -> Vec<u8> {
    let mut prefix = lace::PREFIX.to_vec();
    change_case(source, &mut prefix);
    prefix
}

/// LDH bytes of so many, 1 or more, without a hyphen at either end.
fn ldh(source: &mut Source, length: usize) -> Vec<u8> {
    let mut label: Vec<u8> = (0..length).map(|_| source.pick(b"abcqxyzABLQYZ0129--")).collect();
    for edge in [0, length - 1] {
        label[edge] = source.pick(b"abklpqzABKLQZ0189");
    }
    label
}

/// How long a host label is: mostly short, at times as long as can be.
fn host_label_length(source: &mut Source) -> usize {
    match source.below(12) {
        0 => source.between(62, 63),
        1 => source.between(9, 61),
        _ => source.between(1, 8),
    }
}

/// A host label in any case; at times it almost begins with LACE's prefix.
fn host_label(source: &mut Source) -> Vec<u8> {
    let length = host_label_length(source);
    let mut label = ldh(source, length);
    if source.once_in(6) {
        label.splice(0..0, source.pick(&NEAR_PREFIXES).iter().copied());
        label.truncate(63);
        *label.last_mut().expect("not empty") = source.pick(b"azQ09");
    }
    label
}

/// LDH points with a hyphen at one end or at both; some begin with LACE's prefix.
fn with_edge_hyphen(source: &mut Source) -> Vec<u32> {
    let length = source.between(1, 12);
    let mut bytes = ldh(source, length);
    if source.once_in(3) {
        bytes.splice(0..0, prefix(source));
    }
    match source.below(4) {
        0 => bytes.insert(0, b'-'),
        1 => bytes = prefix(source),
        2 => bytes = [b"-", &bytes[..], b"-"].concat(),
        _ => bytes.push(b'-'),
    }
    points_of(&bytes)
}

/// Puts one of some numbers at the start of a text, at its end or anywhere in it.
fn put(source: &mut Source, text: &mut Vec<u32>, from: &[u32]) {
    let anywhere = source.below(text.len() + 1);
    let position = source.pick(&[0, anywhere, anywhere, text.len()]);
    text.insert(position, source.pick(from));
}

/// A text that LACE may take, but for its length: with a hyphen at an edge, with one point
/// that is no LDH, short, or of any kind.
fn text_for_lace(source: &mut Source) -> Vec<u32> {
    match source.below(8) {
        0 | 1 => with_edge_hyphen(source),
        2 | 3 => {
            let mut text = points_of(&host_label(source));
            let one_of = source.pick(&[&LIKE_DOTS[..], &LIKE_DOTS[..], &NEAR_LDH[..]]);
            put(source, &mut text, one_of);
            text
        }
        4 | 5 => (0..source.between(1, 6)).map(|_| texts::point(source)).collect(),
        6 => vec![0x430 + source.below(32) as u32; source.between(1, 34)],
        _ => lawful_text(source, Scheme::Lace),
    }
}

/// The label of a text under LACE, if it has one.
fn lace_label(text: &[u32]) -> Option<Vec<u8>> {
    let mut buffer = [0; 63];
    let count = lace::encode(text, &mut buffer).ok()?;
    Some(buffer[..count].to_vec())
}

/// A part that goes under LACE.
fn lace_part(source: &mut Source) -> Part {
    loop {
        let mut points = text_for_lace(source);
        points.retain(|&point| point != DOT);
        if let Some(label) = lace_label(&points) {
            return Part { points, label };
        }
    }
}

/// A part that goes as it is.
fn plain_part(label: Vec<u8>) -> Part {
    Part { points: points_of(&label), label }
}

/// A part of either kind.
fn part(source: &mut Source) -> Part {
    match source.below(2) {
        0 => plain_part(host_label(source)),
        _ => lace_part(source),
    }
}

/// How long the name of some parts is, one or more.
fn name_length(parts: &[Part]) -> usize {
    parts.iter().map(|part| part.label.len() + 1).sum::<usize>() - 1
}

/// Up to so many parts, one or more, whose name is not too long.
fn some_parts(source: &mut Source, count: usize) -> Vec<Part> {
    let mut parts = vec![part(source)];
    for _ in 1..count {
        parts.push(part(source));
        if name_length(&parts) > NAME_MAX {
            parts.pop();
        }
    }
    parts
}

/// Adds plain parts until the name is so long, if it was shorter by two or more. The last
/// part then changes its place with any.
fn fill_up(source: &mut Source, parts: &mut Vec<Part>, length: usize) {
    while name_length(parts) + 2 <= length {
        let left = length - name_length(parts) - 1;
        let most = left.min(63);
        // One byte more can't be a part with its dot.
        let taken = if left - most == 1 { most - 1 } else { most };
        parts.push(plain_part(ldh(source, taken)));
    }
    let place = source.below(parts.len());
    let last = parts.len() - 1;
    parts.swap(place, last);
}

/// So many parts of one letter, or of up to three.
fn many_parts(source: &mut Source, count: usize) -> Vec<Part> {
    let most = source.pick(&[1, 1, 3]);
    let mut parts = Vec::new();
    for _ in 0..count {
        let length = source.between(1, most);
        parts.push(plain_part(ldh(source, length)));
    }
    parts
}

/// Parts that may be read and written, one or more: mostly few, at times such that the name
/// has about 253 bytes, at times very many; seldom so many that the name is too long.
fn parts(source: &mut Source) -> Vec<Part> {
    match source.below(64) {
        0 => {
            let count = source.between(120, 129);
            many_parts(source, count)
        }
        1 => {
            let count = source.pick(&[127, 128, 140, 300, 400, 600]);
            many_parts(source, count)
        }
        2..=9 => {
            let count = source.between(1, 5);
            let mut parts = some_parts(source, count);
            let length = source.pick(&[251, 252, 253, 253, 253, 254, 254, 255]);
            fill_up(source, &mut parts, length);
            parts
        }
        10 => (0..source.between(4, 12)).map(|_| part(source)).collect(),
        11..=14 => {
            let count = source.between(5, 40);
            some_parts(source, count)
        }
        _ => {
            let count = source.pick(&[1, 2, 2, 3, 3, 4, 5]);
            some_parts(source, count)
        }
    }
}

/// Puts an empty part first, last or anywhere.
fn put_empty<T>(source: &mut Source, parts: &mut Vec<Vec<T>>) {
    let anywhere = source.below(parts.len() + 1);
    parts.insert(source.pick(&[0, anywhere, parts.len()]), Vec::new());
}

/// The label that a host label would have under LACE.
fn needless_label(source: &mut Source) -> Vec<u8> {
    let length = source.between(1, 14);
    let units = units_of(&points_of(&ldh(source, length)));
    let octets = lace::octets_of(&units).expect("so few units have a label");
    [&lace::PREFIX[..], &lace::base32_of(&octets)].concat()
}

/// A LACE label whose text holds a dot.
fn label_with_dot(source: &mut Source) -> Vec<u8> {
    loop {
        let mut text = match source.below(3) {
            0 => Vec::new(),
            1 => points_of(&host_label(source)),
            _ => text_for_lace(source),
        };
        for _ in 0..source.pick(&[1, 1, 1, 2]) {
            put(source, &mut text, &[DOT]);
        }
        if let Some(label) = lace_label(&text) {
            return label;
        }
    }
}

/// Puts a byte outside LDH in the place of any.
fn put_outside(source: &mut Source, label: &mut [u8]) {
    let position = source.below(label.len());
    label[position] = source.pick(&OUTSIDE);
}

/// A plain label that is refused: too long, with a byte outside LDH, with a hyphen at an
/// edge, or with two or three of these.
fn bad_plain(source: &mut Source) -> Vec<u8> {
    let mut label = host_label(source);
    let ways = source.between(1, 7);
    if ways & 1 != 0 {
        label.resize(source.pick(&[64, 64, 65, 70]), b'a');
    }
    if ways & 2 != 0 {
        put_outside(source, &mut label);
    }
    if ways & 4 != 0 {
        let last = label.len() - 1;
        label[source.pick(&[0, last])] = b'-';
    }
    label
}

/// A label with LACE's prefix that is refused, mostly.
fn bad_lace(source: &mut Source) -> Vec<u8> {
    match source.below(10) {
        0 | 1 => needless_label(source),
        2..=4 => label_with_dot(source),
        5 => lace::PREFIX[..source.between(3, 4)].to_vec(),
        6 => {
            let length = source.between(62, 66);
            let mut label = lace::PREFIX.to_vec();
            label.resize_with(length, || source.pick(b"aabcqyz27"));
            label
        }
        7 => {
            let mut label = lace_part(source).label;
            put_outside(source, &mut label);
            label
        }
        8 => {
            let mut label = lace_part(source).label;
            let position = source.between(4, label.len() - 1);
            label[position] = source.pick(b"-0189abyz27");
            label
        }
        _ => labels::label(source, Scheme::Lace),
    }
}

/// One fault of the labels of a name: one of them is empty or another that is refused.
fn label_fault(source: &mut Source, labels: &mut Vec<Vec<u8>>) {
    let index = source.below(labels.len());
    match source.below(8) {
        0 => labels[index].clear(),
        1 => put_empty(source, labels),
        2..=4 => labels[index] = bad_plain(source),
        _ => {
            labels[index] = bad_lace(source);
            if source.once_in(2) {
                change_case(source, &mut labels[index]);
            }
        }
    }
}

/// One fault of the bytes of a name: another byte in the place of one, perhaps of a dot, or
/// one more or fewer.
fn byte_fault(source: &mut Source, name: &mut Vec<u8>) {
    let dots: Vec<usize> = (0..name.len()).filter(|&index| name[index] == b'.').collect();
    let position = source.below(name.len().max(1));
    match source.below(6) {
        0 if !dots.is_empty() => name[source.pick(&dots)] = source.pick(&OUTSIDE),
        1 if !dots.is_empty() => name.truncate(source.pick(&dots)),
        2 if !name.is_empty() => name[position] = source.byte(),
        3 if !name.is_empty() => name[position] = b'.',
        4 => name.insert(position, b'.'),
        _ => name.push(source.pick(b".-a_")),
    }
}

/// A name, lawful or not, with letters of either case.
pub fn name(source: &mut Source) -> Vec<u8> {
    match source.below(128) {
        0 => return Vec::new(),
        1 => return random_bytes(source, ROW_MAX),
        2 => return vec![source.pick(b".a-"); source.pick(&[1, 2, 63, 64, 252, 253, 254])],
        _ => {}
    }
    let mut labels: Vec<Vec<u8>> = parts(source).into_iter().map(|part| part.label).collect();
    if source.once_in(2) {
        labels.iter_mut().for_each(|label| change_case(source, label));
    }
    for _ in 0..source.faults() {
        label_fault(source, &mut labels);
    }
    let mut name = labels.join(&b'.');
    if source.once_in(16) {
        byte_fault(source, &mut name);
    }
    name
}

/// A host label that begins with LACE's prefix, or one of 64 bytes.
fn prefixed(source: &mut Source) -> Vec<u32> {
    let length = match source.below(4) {
        0 => source.between(58, 60),
        _ => source.between(1, 20),
    };
    points_of(&[prefix(source), ldh(source, length)].concat())
}

/// A part that is too long as it is and under LACE, mostly: LDH, or of one row.
fn too_long(source: &mut Source) -> Vec<u32> {
    match source.below(3) {
        0 => {
            let length = source.between(63, 70);
            ldh_text(source, length)
        }
        1 => points_of(&ldh(source, 64)),
        _ => {
            let units = source.between(34, 40);
            (0..units).map(|_| 0x430 + source.below(32) as u32).collect()
        }
    }
}

/// Puts a number that is no point into a part, which at times is made too long first, or
/// made to begin with LACE's prefix.
fn put_not_point(source: &mut Source, part: &mut Vec<u32>) {
    match source.below(4) {
        0 => *part = too_long(source),
        1 => *part = prefixed(source),
        _ => {}
    }
    put(source, part, &NOT_POINTS);
}

/// One fault of the parts of a text, or what may be none: any text in the place of a part,
/// or a dot or one like it put into one.
fn part_fault(source: &mut Source, parts: &mut Vec<Vec<u32>>) {
    let index = source.below(parts.len());
    match source.below(16) {
        0 | 1 => parts[index].clear(),
        2 => put_empty(source, parts),
        3..=6 => parts[index] = prefixed(source),
        7..=9 => parts[index] = too_long(source),
        10..=12 => put_not_point(source, &mut parts[index]),
        13 => put(source, &mut parts[index], &LIKE_DOTS),
        14 => put(source, &mut parts[index], &[DOT, HYPHEN]),
        _ => parts[index] = texts::text(source),
    }
}

/// A text with dots in it, lawful or not.
pub fn text(source: &mut Source) -> Vec<u32> {
    match source.below(128) {
        0 => return Vec::new(),
        1 => return texts::text(source),
        2 => return vec![DOT; source.pick(&[1, 2, 63, 64, 253, 254])],
        _ => {}
    }
    let mut parts: Vec<Vec<u32>> = parts(source).into_iter().map(|part| part.points).collect();
    for _ in 0..source.faults() {
        part_fault(source, &mut parts);
    }
    parts.join(&DOT)
}
