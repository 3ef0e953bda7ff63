//! Tables of 01's form that come in chunks, whole, cut and damaged, and how many bytes
//! each chunk has.

use super::texts::random_bytes;
use super::{tables, Source};
use crate::nametable::{ENTRIES_MAX, ENTRY_LENGTH, HEADER_LENGTH};

/// What is received: the lengths of the chunks, and the bytes.
#[derive(Clone, Debug)]
pub struct Chunks {
    pub lengths: Vec<usize>,
    pub bytes: Vec<u8>,
}

/// Where the entries begin in so many bytes.
fn borders(bytes: usize) -> impl Iterator<Item = usize> {
    (HEADER_LENGTH..bytes).step_by(ENTRY_LENGTH)
}

/// Cuts the table short by a byte or where an entry begins, or puts bytes after it.
fn other_end(source: &mut Source, table: &mut Vec<u8>) {
    match source.below(4) {
        0 => table.truncate(table.len().saturating_sub(1)),
        1 => table.truncate(borders(source.below(table.len() + 1)).last().unwrap_or(0)),
        2 => table.push(source.pick(&[0x00, 0x41, 0x48])),
        _ => table.extend(vec![source.byte(); source.pick(&[1, 2, ENTRY_LENGTH, 90])]),
    }
}

/// A table of so many entries: whole, or with up to three faults.
fn table_with(source: &mut Source, entries: usize) -> Vec<u8> {
    let table = tables::whole_table(source, entries, None);
    tables::with_faults(source, table)
}

/// A table of one to three entries, seldom of more.
fn small(source: &mut Source) -> Vec<u8> {
    let entries = match source.below(64) {
        0 => source.between(4, 40),
        _ => source.between(1, 3),
    };
    table_with(source, entries)
}

/// A table of 500 entries, at times with another end.
fn longest(source: &mut Source) -> Vec<u8> {
    let mut table = table_with(source, ENTRIES_MAX);
    if source.once_in(2) {
        other_end(source, &mut table);
    }
    table
}

/// A table with so many bytes after it that there are as many as in the longest one, or
/// more, or as many as it has but for 2^16.
fn overlong(source: &mut Source) -> Vec<u8> {
    let mut table = small(source);
    let wrapping = 65_536 + table.len();
    let length = source.pick(&[33_502, 33_503, 33_504, 33_594, wrapping, wrapping]);
    table.resize(length, source.pick(&[0x00, 0x41, 0x48]));
    table
}

/// The bytes that are received: a table, whole or with up to three faults, at times with
/// another end; seldom a header alone, any bytes, or a table of 500 entries.
fn bytes(source: &mut Source) -> Vec<u8> {
    match source.below(2048) {
        0 | 1 => return longest(source),
        2 | 3 => return overlong(source),
        4..=50 => return random_bytes(source, 80),
        51..=150 => return tables::header(source).1,
        _ => {}
    }
    let mut table = small(source);
    if source.once_in(8) {
        other_end(source, &mut table);
    }
    table
}

/// Where so many bytes are cut: nowhere, at each byte, at each of some steps, where an
/// entry begins, there or near there, where a field of an entry ends, or anywhere.
fn cuts(source: &mut Source, bytes: usize) -> Vec<usize> {
    let anywhere = |source: &mut Source| source.below(bytes + 1);
    match source.below(8) {
        0 => Vec::new(),
        1 => (1..bytes).collect(),
        2 => {
            let step = source.between(2, 140);
            (step..bytes).step_by(step).collect()
        }
        3 => borders(bytes).collect(),
        4 => borders(bytes).map(|border| border + source.below(3) - 1).collect(),
        5 => borders(bytes).map(|border| border + source.between(1, 5)).collect(),
        6 => vec![anywhere(source)],
        _ => (0..source.between(2, 9)).map(|_| anywhere(source)).collect(),
    }
}

/// The lengths of the chunks between cuts. Where two are the same is a chunk of no bytes.
fn between(mut cuts: Vec<usize>, bytes: usize) -> Vec<usize> {
    cuts.push(bytes);
    cuts.iter_mut().for_each(|cut| *cut = bytes.min(*cut));
    cuts.sort();
    let mut start = 0;
    let length = |end| end - std::mem::replace(&mut start, end);
    cuts.into_iter().map(length).collect()
}

/// Puts chunks of no bytes among the others.
fn insert_empty(source: &mut Source, lengths: &mut Vec<usize>) {
    for _ in 0..source.between(1, 4) {
        let index = source.below(lengths.len() + 1);
        lengths.insert(index, 0);
    }
}

/// A length past the end of so many bytes, at times so large that the sum of it and of
/// those before it wraps.
fn past_the_end(source: &mut Source, bytes: usize) -> usize {
    let more = source.between(1, 70);
    let large = source.pick(&[1 << 32, 1 << 63, (1 << 63) + more, usize::MAX - 1, usize::MAX]);
    let wrapping = usize::MAX - source.below(bytes + 1);
    source.pick(&[bytes + more, large, wrapping])
}

/// Changes the lengths, of which there is one or more: chunks of no bytes, lengths past
/// the end, none for some of the bytes, or some for which there are no bytes.
fn change(source: &mut Source, lengths: &mut Vec<usize>, bytes: usize) {
    let last = lengths.len() - 1;
    match source.below(8) {
        0..=2 => insert_empty(source, lengths),
        3 => lengths[last] = past_the_end(source, bytes),
        4 => lengths[source.below(last + 1)] = past_the_end(source, bytes),
        5 => lengths.truncate(source.below(last + 1)),
        6 => lengths[last] = lengths[last].saturating_sub(source.between(1, 3)),
        _ => {
            let after = past_the_end(source, bytes);
            lengths.extend([source.below(70), after]);
        }
    }
}

/// Bytes, and the lengths of the chunks in which they are handed in: all of them, more
/// often than not. At times others follow them that are not handed in.
pub fn chunks(source: &mut Source) -> Chunks {
    let mut bytes = bytes(source);
    let cuts = cuts(source, bytes.len());
    let mut lengths = between(cuts, bytes.len());
    if source.once_in(2) {
        change(source, &mut lengths, bytes.len());
    }
    if source.once_in(16) {
        bytes.extend(random_bytes(source, ENTRY_LENGTH));
    }
    Chunks { lengths, bytes }
}
