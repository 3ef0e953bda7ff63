//! Lists of entries to be written as a table, lawful and not.

use super::labels::lawful_text;
use super::tables::{entries, rising, schemes};
use super::texts::{ldh_text, text};
use super::Source;
use crate::scheme::{Scheme, SCHEMES};

/// An entry of a list: reader number, scheme number, text.
pub type Entry = (u16, u32, Vec<u32>);

/// A list as it is given: the reader numbers, the scheme numbers, how many
/// points each text has, and the points of all texts one after the other.
#[derive(Clone, Debug)]
pub struct List {
    pub readers: Vec<u16>,
    pub schemes: Vec<u32>,
    pub lengths: Vec<usize>,
    pub points: Vec<u32>,
}

impl List {
    /// The rows of some entries.
    pub fn of(entries: &[Entry]) -> List {
        List {
            readers: entries.iter().map(|(reader, _, _)| *reader).collect(),
            schemes: entries.iter().map(|(_, scheme, _)| *scheme).collect(),
            lengths: entries.iter().map(|(_, _, text)| text.len()).collect(),
            points: entries.iter().flat_map(|(_, _, text)| text.iter().copied()).collect(),
        }
    }
}

/// So many entries that may be written. One of them has the scheme that is held,
/// if any is.
pub fn lawful_entries(source: &mut Source, entries: usize, held: Option<Scheme>) -> Vec<Entry> {
    let readers = rising(source, entries);
    let mut list = Vec::new();
    for (reader, scheme) in readers.into_iter().zip(schemes(source, entries, held)) {
        list.push((reader, scheme.number(), lawful_text(source, scheme)));
    }
    list
}

/// The entries of a list: as many as a table has, at times none or too many, also
/// so many that two bytes do not hold their number.
fn some_entries(source: &mut Source, held: Option<Scheme>) -> Vec<Entry> {
    match source.below(1024) {
        0..=15 => Vec::new(),
        16 => {
            let entries = source.pick(&[501, 501, 502, 65_538]);
            (0..entries).map(|index| (index as u16, 1, vec![0x61])).collect()
        }
        _ => {
            let entries = entries(source);
            lawful_entries(source, entries, held)
        }
    }
}

/// One fault of an entry, if there is one: mostly such that it can't be written.
fn entry_fault(source: &mut Source, entries: &mut [Entry]) {
    if entries.is_empty() {
        return;
    }
    let index = source.below(entries.len());
    let before = entries[index.saturating_sub(1)].0;
    let entry = &mut entries[index];
    match source.below(10) {
        0 => entry.0 = before,
        1 => entry.0 = before.wrapping_sub(1),
        2 => entry.0 = source.pick(&[0, 255, 256, 65_535]),
        3 | 4 => entry.1 = source.pick(&[0, 0, 4, 9, 256, 257, 259, 0x8000_0001, u32::MAX]),
        5 => entry.1 = source.pick(&SCHEMES).number(),
        6 => entry.2 = Vec::new(),
        7 => {
            let length = source.between(1, 63);
            *entry = (entry.0, 2, ldh_text(source, length));
        }
        _ => entry.2 = text(source),
    }
}

/// Makes a row shorter or longer.
fn other_length<T: Copy + Default>(source: &mut Source, row: &mut Vec<T>) {
    match source.below(4) {
        0 => row.truncate(row.len().saturating_sub(1)),
        1 => row.truncate(source.below(row.len() + 1)),
        2 => row.push(row.last().copied().unwrap_or_default()),
        _ => row.extend_from_within(..),
    }
}

/// Makes the first length larger and the last one smaller, by so much that the
/// sum stays the same or that it is the same modulo 2^64 alone.
fn shift_lengths(source: &mut Source, lengths: &mut [usize]) {
    if let [first, .., last] = lengths {
        let shift = source.pick(&[1, *last, last.wrapping_add(1), 1 << 63, usize::MAX]);
        *first = first.wrapping_add(shift);
        *last = last.wrapping_sub(shift);
    }
}

/// One fault of the rows: another length of one of them, or lengths of texts that
/// do not fit the points or the texts.
fn row_fault(source: &mut Source, list: &mut List) {
    match source.below(8) {
        0 => other_length(source, &mut list.readers),
        1 => other_length(source, &mut list.schemes),
        2 => other_length(source, &mut list.lengths),
        3 => other_length(source, &mut list.points),
        4 if !list.lengths.is_empty() => {
            let index = source.below(list.lengths.len());
            let more = source.pick(&[1, 1 << 32, 1 << 63, usize::MAX]);
            list.lengths[index] = list.lengths[index].wrapping_add(more);
        }
        _ => shift_lengths(source, &mut list.lengths),
    }
}

/// A list: lawful, or with faults of up to three entries, of the rows, or of both.
/// Before them an entry has the scheme that is held, if any is.
pub fn list(source: &mut Source, held: Option<Scheme>) -> List {
    let mut entries = some_entries(source, held);
    for _ in 0..source.faults() {
        entry_fault(source, &mut entries);
    }
    let mut list = List::of(&entries);
    if source.once_in(6) {
        for _ in 0..source.between(1, 2) {
            row_fault(source, &mut list);
        }
    }
    list
}
