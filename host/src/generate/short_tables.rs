//! Short name tables, whole, cut and damaged, and the same entries in 01's form.

use super::labels::{change_case, lawful, lawful_of_length};
use super::tables::{self, change_byte, header_fault, other_label, rising, schemes};
use super::Source;
use crate::nametable::HEADER_LENGTH;
use crate::papers::{short_entry, short_table_with, table_of};
use crate::scheme::Scheme;

/// An entry of either form: scheme, reader number, label.
pub type Entry = (Scheme, u16, Vec<u8>);

/// The bytes of a table of 01's form with these entries.
pub fn long_of(entries: &[Entry]) -> Vec<u8> {
    let row = |(scheme, reader, label): &Entry| (scheme.kind(), *reader, label.clone());
    table_of(&entries.iter().map(row).collect::<Vec<_>>())
}

/// The bytes of an entry in a short table.
fn record((scheme, reader, label): &Entry) -> Vec<u8> {
    short_entry(&(scheme.number() as u8, *reader, label.clone()))
}

/// The bytes of a short table with these entries.
pub fn short_of(entries: &[Entry]) -> Vec<u8> {
    short_table_with(&entries.iter().map(record).collect::<Vec<_>>())
}

/// A lawful label, in either case: of any text, or of a length, often one of those
/// where a kind of entry ends or the next begins.
fn some_label(source: &mut Source, scheme: Scheme) -> Vec<u8> {
    let length = match source.below(2) {
        0 => source.pick(&[1, 15, 16, 17, 31, 32, 33, 62, 63]),
        _ => source.between(1, 63),
    };
    let mut label = match source.below(4) {
        0 => lawful(source, scheme),
        _ => lawful_of_length(source, scheme, length),
    };
    if source.once_in(3) {
        change_case(source, &mut label);
    }
    label
}

/// So many entries in order with lawful labels, some of them with capitals.
pub fn lawful_entries(source: &mut Source, entries: usize) -> Vec<Entry> {
    let readers = rising(source, entries);
    let mut list = Vec::new();
    for (reader, scheme) in readers.into_iter().zip(schemes(source, entries, None)) {
        list.push((scheme, reader, some_label(source, scheme)));
    }
    list
}

/// Some lawful entries: few, seldom many, now and then 500.
pub fn some_entries(source: &mut Source) -> Vec<Entry> {
    let entries = tables::entries(source);
    lawful_entries(source, entries)
}

/// Puts an entry into a kind that is larger than needed, with zeros after the label:
/// another kind, or in the largest one a shorter label.
fn enlarge(source: &mut Source, entry: &mut Vec<u8>) {
    if entry.len() == 68 {
        let length = source.between(1, 32);
        entry[4] = length as u8;
        entry[5 + length..].fill(0);
        return;
    }
    let (kind, length) =
        if entry.len() == 21 && source.once_in(2) { (0x52, 37) } else { (0x53, 68) };
    entry[0] = kind;
    entry.resize(length, 0);
}

/// Puts another label, lawful or not, into an entry, in the smallest kind for it.
fn change_label(source: &mut Source, entry: &mut Vec<u8>) {
    let scheme = Scheme::of_own_number(entry[3].into()).unwrap_or(Scheme::Lace);
    let label = other_label(source, scheme);
    *entry = short_entry(&(entry[3], u16::from_be_bytes([entry[1], entry[2]]), label));
}

/// One fault of an entry, at times the reader number that is given.
fn entry_fault(source: &mut Source, entry: &mut Vec<u8>, reader: [u8; 2]) {
    const KINDS: [u8; 10] = [0x00, 0x41, 0x49, 0x50, 0x51, 0x52, 0x53, 0x54, 0x71, 0xD1];
    let capacity = entry.len() - 5;
    match source.below(16) {
        0 => entry[0] = source.pick(&KINDS),
        1 | 2 => enlarge(source, entry),
        3 => entry[3] = source.pick(&[0, 0, 4, 255, 0x41, 0x4C]),
        4 => entry[3] = source.between(1, 3) as u8,
        5 => entry[4] = source.pick(&[0, capacity as u8, capacity as u8 + 1, 255]),
        6 => entry[4] = entry[4].wrapping_add(source.pick(&[1, 255])),
        7 => entry[5 + source.below(capacity)] = source.pick(b"\x00\x01a-sx7LQ"),
        8 => entry[4 + capacity] = source.pick(&[0x01, 0x61, 0x80]),
        9 => entry[1 + source.below(2)] = source.byte(),
        10 | 11 => entry[1..3].copy_from_slice(&reader),
        _ => change_label(source, entry),
    }
}

/// One fault of the entries of a table: in one of them, or one too few or too many.
fn record_fault(source: &mut Source, records: &mut Vec<Vec<u8>>) {
    if records.is_empty() {
        return;
    }
    let index = source.below(records.len());
    match source.below(12) {
        0 => records.truncate(index),
        1 => records.push(records[index].clone()),
        _ => {
            let before = index.checked_sub(1).map(|before| &records[before]);
            let reader = before.map_or([0xFF, 0xFF], |before| [before[1], before[2]]);
            entry_fault(source, &mut records[index], reader);
        }
    }
}

/// One fault of a table of whatever length: in the header, at any byte, or in the length.
fn byte_fault(source: &mut Source, table: &mut Vec<u8>) {
    match source.below(8) {
        0 if table.len() >= HEADER_LENGTH => {
            header_fault(source, table, &[0x00, 0x41, 0x48, 0x4A, 0x51, 0x69]);
        }
        1 => {
            let byte = source.byte();
            table.extend(vec![source.pick(&[0x00, byte]); source.pick(&[1, 1, 21])]);
        }
        2..=4 if !table.is_empty() => change_byte(source, table),
        _ => table.truncate(source.below(table.len() + 1)),
    }
}

/// A short table: whole, or with up to three faults; seldom a whole one of 01's form.
pub fn table(source: &mut Source) -> Vec<u8> {
    let entries = some_entries(source);
    if source.once_in(32) {
        return long_of(&entries);
    }
    with_faults(source, &entries)
}

/// A short table of some entries: whole, or with up to three faults.
pub fn with_faults(source: &mut Source, entries: &[Entry]) -> Vec<u8> {
    let faults = source.faults();
    let in_bytes = (0..faults).filter(|_| source.once_in(3)).count();
    let mut records: Vec<_> = entries.iter().map(record).collect();
    for _ in in_bytes..faults {
        record_fault(source, &mut records);
    }
    let mut table = short_table_with(&records);
    table[1..HEADER_LENGTH].copy_from_slice(&(entries.len() as u16).to_be_bytes());
    for _ in 0..in_bytes {
        byte_fault(source, &mut table);
    }
    table
}

/// A table of 01's form with labels of all lengths: whole, or with up to three
/// faults; seldom a whole short one.
pub fn long_table(source: &mut Source) -> Vec<u8> {
    let entries = some_entries(source);
    if source.once_in(32) {
        return short_of(&entries);
    }
    tables::with_faults(source, long_of(&entries))
}
