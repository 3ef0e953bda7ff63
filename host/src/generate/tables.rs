//! Name tables, whole, cut and damaged.

use super::labels::{label, lawful};
use super::texts::random_bytes;
use super::Source;
use crate::nametable::{ENTRIES_MAX, ENTRY_LENGTH, HEADER_LENGTH};
use crate::papers::table_of;
use crate::point::LABEL_MAX;
use crate::scheme::{Scheme, SCHEMES};

/// So many reader numbers that rise: one or more, and 501 at most.
pub fn rising(source: &mut Source, entries: usize) -> Vec<u16> {
    // The reader numbers stay below 65,536 where they begin with one of these.
    let step = source.pick(&[1, 2, 500 / entries]).max(1) as u16;
    let last = (entries - 1) as u16;
    let first = source.pick(&[0, 1, 7, 255, 256, 65_535 - last * step]);
    (0..=last).map(|index| first + index * step).collect()
}

/// The schemes of so many entries: one or more, and 501 at most. One of them is
/// the scheme that is held, if any is.
pub fn schemes(source: &mut Source, entries: usize, held: Option<Scheme>) -> Vec<Scheme> {
    let mut schemes: Vec<Scheme> = (0..entries).map(|_| source.pick(&SCHEMES)).collect();
    if let Some(scheme) = held {
        schemes[source.below(entries)] = scheme;
    }
    schemes
}

/// A table of so many entries in order, with lawful labels. One of them has the
/// scheme that is held, if any is.
pub fn whole_table(source: &mut Source, entries: usize, held: Option<Scheme>) -> Vec<u8> {
    let readers = rising(source, entries);
    let mut rows = Vec::new();
    for (reader, scheme) in readers.into_iter().zip(schemes(source, entries, held)) {
        rows.push((scheme.kind(), reader, lawful(source, scheme)));
    }
    table_of(&rows)
}

/// How many entries a table has: few, seldom many, now and then the most.
pub fn entries(source: &mut Source) -> usize {
    if source.once_in(2000) {
        return ENTRIES_MAX;
    }
    match source.below(64) {
        0 => source.between(6, 60),
        _ => source.between(1, 5),
    }
}

/// A label for an entry, lawful or not, of 63 bytes at most.
pub fn other_label(source: &mut Source, scheme: Scheme) -> Vec<u8> {
    let mut label = match scheme {
        // a host label, which `label` makes seldom
        Scheme::Lace if source.once_in(8) => b"lq--aiagcyq".to_vec(),
        _ => label(source, scheme),
    };
    label.truncate(LABEL_MAX);
    label
}

/// Puts another label, lawful or not, into the entry that begins at an index.
fn change_label(source: &mut Source, table: &mut [u8], start: usize) {
    let scheme = Scheme::of_kind(table[start]).unwrap_or(Scheme::Lace);
    let label = other_label(source, scheme);
    table[start + 3] = label.len() as u8;
    table[start + 4..start + ENTRY_LENGTH].fill(0);
    table[start + 4..start + 4 + label.len()].copy_from_slice(&label);
}

/// One fault of the entry that begins at an index of the table.
fn entry_fault(source: &mut Source, table: &mut [u8], start: usize) {
    let length = usize::from(table[start + 3]).clamp(1, LABEL_MAX);
    match source.below(10) {
        0 => table[start] = source.pick(&[0x00, 0x40, 0x43, 0x48, 0x61, 0x62, 0x6C]),
        1 => table[start] = source.pick(&SCHEMES).kind(),
        2 => table[start + 1] = source.pick(&[0x00, 0xFF]),
        3 => table[start + 2] = source.byte(),
        4 => table[start + 3] = source.pick(&[0, 1, 62, 63, 64, 67, 255]),
        5 => table[start + 3] = (length + source.below(3) - 1) as u8,
        6 => table[start + 4 + source.below(63)] = source.pick(&[0x00, 0x01, 0x61, 0x2D]),
        // the reader number of the entry before
        7 if start > ENTRY_LENGTH => table.copy_within(start - 66..start - 64, start + 1),
        8 => table[start + 3..start + ENTRY_LENGTH].fill(0),
        _ => table[start + 4 + source.below(length)] = source.pick(b"absx7-LQ\x00\x0D"),
    }
}

/// One fault of the header: another kind, one of some or any, or a count that is not
/// that of the entries.
pub fn header_fault(source: &mut Source, table: &mut [u8], kinds: &[u8]) {
    match source.below(4) {
        0 => table[0] = source.pick(kinds),
        1 => table[source.below(HEADER_LENGTH)] = source.byte(),
        2 => table[2] = table[2].wrapping_add(source.pick(&[1, 255])),
        _ => {
            let count: u16 = source.pick(&[0, 500, 501, 65_535]);
            table[1..HEADER_LENGTH].copy_from_slice(&count.to_be_bytes());
        }
    }
}

/// Changes a byte of a table that is not empty.
pub fn change_byte(source: &mut Source, table: &mut [u8]) {
    let position = source.below(table.len());
    table[position] = source.byte();
}

/// One fault of a table of whatever length: at any byte, in an entry, in the
/// header, or in the length.
fn fault(source: &mut Source, table: &mut Vec<u8>) {
    let entries = table.len().saturating_sub(HEADER_LENGTH) / ENTRY_LENGTH;
    let at_entry = |source: &mut Source| HEADER_LENGTH + ENTRY_LENGTH * source.below(entries);
    match source.below(12) {
        0 | 1 => table.truncate(source.below(table.len() + 1)),
        2 => table.extend(vec![source.byte(); source.pick(&[1, 1, ENTRY_LENGTH])]),
        3 if table.len() >= HEADER_LENGTH => {
            header_fault(source, table, &[0x00, 0x41, 0x47, 0x49, 0x4C, 0x68]);
        }
        4 | 5 if !table.is_empty() => change_byte(source, table),
        6..=8 if entries > 0 => {
            let start = at_entry(source);
            entry_fault(source, table, start);
        }
        _ if entries > 0 => {
            let start = at_entry(source);
            change_label(source, table, start);
        }
        _ => {}
    }
}

/// A whole table as it is, or with up to three faults.
pub fn with_faults(source: &mut Source, mut table: Vec<u8>) -> Vec<u8> {
    for _ in 0..source.faults() {
        fault(source, &mut table);
    }
    table
}

/// A table: whole, or with up to three faults. Before them one of its entries has
/// the scheme that is held, if any is.
pub fn table(source: &mut Source, held: Option<Scheme>) -> Vec<u8> {
    let entries = entries(source);
    let table = whole_table(source, entries, held);
    with_faults(source, table)
}

/// One entry by itself: whole, with up to three faults, cut or too long.
pub fn lone_entry(source: &mut Source) -> Vec<u8> {
    let mut table = whole_table(source, 1, None);
    for _ in 0..source.faults() {
        match source.below(2) {
            0 => entry_fault(source, &mut table, HEADER_LENGTH),
            _ => change_label(source, &mut table, HEADER_LENGTH),
        }
    }
    let mut entry = table.split_off(HEADER_LENGTH);
    match source.below(16) {
        0 => entry.truncate(source.below(ENTRY_LENGTH)),
        1 => entry.truncate(ENTRY_LENGTH - 1),
        2 => entry.extend(vec![source.byte(); source.pick(&[1, 1, 2, ENTRY_LENGTH])]),
        _ => {}
    }
    entry
}

/// A kind, and a table whose header is mostly of that kind: the header alone, or
/// cut, or with any bytes after it.
pub fn header(source: &mut Source) -> (u8, Vec<u8>) {
    let kind = match source.below(8) {
        0 => source.byte(),
        _ => source.pick(&[0x48, 0x49]),
    };
    let first = match source.below(8) {
        0 => source.byte(),
        1 => kind ^ 1,
        _ => kind,
    };
    let count = match source.below(4) {
        0 => source.pick(&[0, 1, 255, 256, 499, 500, 501, 502, 512, 756, 65_535]),
        1 => source.below(65_536),
        _ => source.between(1, ENTRIES_MAX),
    };
    let mut table = vec![first];
    table.extend((count as u16).to_be_bytes());
    match source.below(4) {
        0 => table.truncate(source.below(HEADER_LENGTH)),
        1 => table.extend(random_bytes(source, ENTRY_LENGTH)),
        _ => {}
    }
    (kind, table)
}
