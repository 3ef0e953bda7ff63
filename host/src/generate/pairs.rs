//! Two name tables that have much in common, each in either form, whole, cut and
//! damaged.

use super::labels::{change_case, lawful};
use super::short_tables::{self, lawful_entries, long_of, short_of, some_entries, Entry};
use super::texts::{point, random_bytes};
use super::{tables, Source};
use crate::nametable::ENTRIES_MAX;
use crate::point::LABEL_MAX;
use crate::scheme::{Scheme, SCHEMES};

/// The text of a lawful label.
fn text_of(scheme: Scheme, label: &[u8]) -> Vec<u32> {
    let mut points = [0; LABEL_MAX];
    let count = scheme.decode(label, &mut points).expect("the label is lawful");
    points[..count].to_vec()
}

/// The label of a text, if it may be encoded.
fn label_of(scheme: Scheme, text: &[u32]) -> Option<Vec<u8>> {
    let mut label = [0; LABEL_MAX];
    let count = scheme.encode(text, &mut label).ok()?;
    Some(label[..count].to_vec())
}

/// The label with the case of some letters changed. Under BRACE its text may be another.
fn in_other_case(source: &mut Source, label: &[u8]) -> Vec<u8> {
    let mut label = label.to_vec();
    change_case(source, &mut label);
    label
}

/// Another scheme than one.
fn other_scheme(source: &mut Source, scheme: Scheme) -> Scheme {
    let others: Vec<Scheme> = SCHEMES.into_iter().filter(|&other| other != scheme).collect();
    source.pick(&others)
}

/// A text that is nearly the same: a point more or fewer at either end, or another
/// point in place of one, at times one that is the same in its last 8 or 16 bits.
fn near_text(source: &mut Source, mut text: Vec<u32>) -> Vec<u32> {
    let position = source.below(text.len());
    match source.below(8) {
        0 => text.push(source.pick(&[0, 0x61, 0xFC])),
        1 => text.push(text[text.len() - 1]),
        2 => text.insert(0, text[0]),
        3 => text.truncate(text.len() - 1),
        4 => text[position] ^= source.pick(&[1, 0x20, 0x80]),
        5 => text[position] ^= source.pick(&[0x100, 0x8000, 0x10000, 0x20000]),
        6 => text[position] = point(source),
        _ => text.reverse(),
    }
    text
}

/// What the other table has under the reader number of an entry, if it has any: the
/// same, the label in another case, the same text under another scheme, a text that is
/// nearly the same under either, or any label. It has none where such a text can't be
/// encoded.
fn counterpart(source: &mut Source, entry: &Entry) -> Option<Entry> {
    let (scheme, reader, label) = entry;
    let text = text_of(*scheme, label);
    let other = other_scheme(source, *scheme);
    let (scheme, label) = match source.below(16) {
        0..=3 => return Some(entry.clone()),
        4 | 5 => (*scheme, Some(in_other_case(source, label))),
        6..=8 => (other, label_of(other, &text)),
        9 | 10 => (*scheme, label_of(*scheme, &near_text(source, text))),
        11 => (other, label_of(other, &near_text(source, text))),
        12 => (other, Some(lawful(source, other))),
        _ => return None,
    };
    label.map(|label| (scheme, *reader, label))
}

/// A reader number beside one, at either end, the same in one of its bytes, or any.
fn near_reader(source: &mut Source, reader: u16) -> u16 {
    match source.below(8) {
        0..=2 => reader.wrapping_add(1),
        3 => reader.wrapping_sub(1),
        4 => reader.wrapping_add(256),
        5 => source.pick(&[0, 65_535]),
        6 => reader.swap_bytes(),
        _ => source.below(65_536) as u16,
    }
}

/// Puts a new entry among some others, if its reader number is not theirs.
fn insert(source: &mut Source, entries: &mut Vec<Entry>, near: u16) {
    let reader = near_reader(source, near);
    if entries.len() < ENTRIES_MAX && entries.iter().all(|(_, taken, _)| *taken != reader) {
        let scheme = source.pick(&SCHEMES);
        entries.push((scheme, reader, lawful(source, scheme)));
        entries.sort_by_key(|(_, reader, _)| *reader);
    }
}

/// The same entries, each with the next reader number, if there is one for all.
fn moved_up(mut entries: Vec<Entry>) -> Vec<Entry> {
    if entries.iter().all(|(_, reader, _)| *reader < 65_535) {
        entries.iter_mut().for_each(|(_, reader, _)| *reader += 1);
    }
    entries
}

/// The entries of a table that has much in common with some others, or nothing; one or
/// more.
fn others(source: &mut Source, entries: &[Entry]) -> Vec<Entry> {
    let mut others: Vec<Entry> = match source.below(16) {
        0 => some_entries(source),
        1 => moved_up(entries.to_vec()),
        2 => entries.to_vec(),
        _ => entries.iter().filter_map(|entry| counterpart(source, entry)).collect(),
    };
    let inserted = source.pick(&[0, 0, 1, 2]).max(usize::from(others.is_empty()));
    for _ in 0..inserted {
        let near = entries[source.below(entries.len())].1;
        insert(source, &mut others, near);
    }
    others
}

/// As many entries as there may be on each side, without a common reader number: in
/// turn, or those of one side before those of the other.
fn nothing_in_common(source: &mut Source) -> [Vec<Entry>; 2] {
    let step = source.pick(&[1, 2]);
    let numbered = |source: &mut Source, first: u16| {
        let entry = |(index, (scheme, _, label))| (scheme, first + step * index as u16, label);
        lawful_entries(source, ENTRIES_MAX).into_iter().enumerate().map(entry).collect()
    };
    let first = source.pick(&[0, 7, 65_535 - 999]);
    let second = if step == 1 { first + ENTRIES_MAX as u16 } else { first + 1 };
    [numbered(source, first), numbered(source, second)]
}

/// The entries of two tables.
pub fn lawful_pair(source: &mut Source) -> [Vec<Entry>; 2] {
    let mut pair = match source.below(4000) {
        0 => nothing_in_common(source),
        _ => {
            let entries = some_entries(source);
            let others = others(source, &entries);
            [entries, others]
        }
    };
    if source.once_in(2) {
        pair.reverse();
    }
    pair
}

/// The entries as a table of either form.
pub fn whole(source: &mut Source, entries: &[Entry]) -> Vec<u8> {
    match source.below(2) {
        0 => long_of(entries),
        _ => short_of(entries),
    }
}

/// The entries as a table of either form, with up to three faults; seldom any bytes.
fn damaged(source: &mut Source, entries: &[Entry]) -> Vec<u8> {
    match source.below(16) {
        0 => random_bytes(source, 80),
        1..=7 => tables::with_faults(source, long_of(entries)),
        _ => short_tables::with_faults(source, entries),
    }
}

/// Two tables, the left one first: both whole more often than not, else one or both
/// with faults.
pub fn pair(source: &mut Source) -> [Vec<u8>; 2] {
    let entries = lawful_pair(source);
    let faulty = source.pick(&[[false, false], [false, true], [true, false], [true, true]]);
    let faulty = if source.once_in(2) { [false, false] } else { faulty };
    [0, 1].map(|side| match faulty[side] {
        true => damaged(source, &entries[side]),
        false => whole(source, &entries[side]),
    })
}
