//! The short name table (02's short cards): reading it, one entry by index, and
//! the moves from 01's form and back.

use crate::error::{error, error_at, Error, ErrorCode};
use crate::nametable::{self, entry_at, header, label_in, put, Entry, Fields, HEADER_LENGTH};
use crate::point::LABEL_MAX;
use crate::scheme::Scheme;

/// The kind of the first record.
pub const HEADER_KIND: u8 = 0x49;

/// The kinds of an entry, each with the most bytes of label that it holds; the
/// smallest stands first.
const KINDS: [(u8, usize); 3] = [(0x51, 16), (0x52, 32), (0x53, LABEL_MAX)];

/// Where the label of an entry begins: after kind, reader number, scheme and length.
const LABEL_START: usize = 5;

/// Reads a whole table and answers its number of entries.
pub fn read(table: &[u8]) -> Result<usize, Error> {
    Ok(judged(table)?.len())
}

/// Reads the entry at an index. The whole table is judged before the index.
pub fn entry(table: &[u8], index: usize, out: &mut [u32]) -> Result<Entry, Error> {
    if out.len() < LABEL_MAX {
        return error(ErrorCode::Capacity);
    }
    entry_at(&judged(table)?, index, out)
}

/// Moves a table of 01's form to the short form and answers its number of bytes.
pub fn to_short(table: &[u8], short: &mut [u8]) -> Result<usize, Error> {
    let records: Vec<_> = nametable::judged(table)?.iter().map(record).collect();
    put(HEADER_KIND, &records, short)
}

/// Moves a short table to 01's form and answers its number of bytes.
pub fn to_long(short: &[u8], table: &mut [u8]) -> Result<usize, Error> {
    let records: Vec<_> = judged(short)?.iter().map(Fields::record).collect();
    put(nametable::HEADER_KIND, &records, table)
}

/// Judges a whole table and answers the fields of each entry. How long the table
/// must be shows only entry by entry: each is judged before the next is looked for.
pub fn judged(table: &[u8]) -> Result<Vec<Fields<'_>>, Error> {
    let count = header(HEADER_KIND, table)?;
    let mut rest = &table[HEADER_LENGTH..];
    let mut entries = Vec::new();
    let mut least = 0;
    for index in 0..count {
        let Some(&kind) = rest.first() else {
            return error(ErrorCode::Truncated);
        };
        let Some(capacity) = capacity_of(kind) else {
            return error_at(ErrorCode::Malformed, index);
        };
        let Some((entry, later)) = rest.split_at_checked(LABEL_START + capacity) else {
            return error(ErrorCode::Truncated);
        };
        match fields_of(entry, least) {
            Ok(fields) => {
                least = fields.next_least();
                entries.push(fields);
            }
            Err(code) => return error_at(code, index),
        }
        rest = later;
    }
    if rest.is_empty() {
        Ok(entries)
    } else {
        error(ErrorCode::Malformed)
    }
}

/// The most bytes of label that an entry of a kind holds; none for an unknown kind.
fn capacity_of(kind: u8) -> Option<usize> {
    KINDS.iter().find(|(known, _)| *known == kind).map(|(_, capacity)| *capacity)
}

/// The smallest kind that holds a label of so many bytes, 63 at most, and the most
/// bytes that it holds.
fn smallest_for(length: usize) -> (u8, usize) {
    let holding = KINDS.iter().find(|(_, capacity)| length <= *capacity);
    *holding.expect("the largest kind holds every label")
}

/// The fields of one whole entry of a known kind, once it is in order: number,
/// scheme, length, the kind no larger than needed, filling, label.
fn fields_of(entry: &[u8], least: usize) -> Result<Fields<'_>, ErrorCode> {
    let reader = u16::from_be_bytes([entry[1], entry[2]]);
    if usize::from(reader) < least {
        return Err(ErrorCode::Malformed);
    }
    let scheme = Scheme::of_own_number(entry[3].into()).ok_or(ErrorCode::Malformed)?;
    let length = usize::from(entry[4]);
    if length == 0 || length > entry.len() - LABEL_START {
        return Err(ErrorCode::Malformed);
    }
    if entry[0] != smallest_for(length).0 {
        return Err(ErrorCode::Malformed);
    }
    Ok(Fields { reader, scheme, label: label_in(&entry[LABEL_START..], length, scheme)? })
}

/// The bytes of an entry in a short table.
fn record(fields: &Fields) -> Vec<u8> {
    let (kind, capacity) = smallest_for(fields.label.len());
    let mut record = vec![kind];
    record.extend(fields.reader.to_be_bytes());
    record.push(fields.scheme.number() as u8);
    record.push(fields.label.len() as u8);
    record.extend(fields.label);
    record.resize(LABEL_START + capacity, 0);
    record
}
