//! The name table (01's book of names): reading it, one entry by index, and
//! writing it (02) from a list. What it shares with the short form (`short_table`)
//! is here as well: the header, the fields of an entry, and how a table is stored.

use crate::error::{error, error_at, Error, ErrorCode};
use crate::point::LABEL_MAX;
use crate::scheme::Scheme;

/// The kind of the first record.
pub const HEADER_KIND: u8 = 0x48;
/// The header's length: kind and number of entries.
pub const HEADER_LENGTH: usize = 3;
/// An entry's length: kind, reader number, label length, 63 bytes of label.
pub const ENTRY_LENGTH: usize = 67;
/// The most entries in a table.
pub const ENTRIES_MAX: usize = 500;

/// What reading one entry answers; the points are in the buffer passed.
#[derive(Clone, Copy, Debug, PartialEq, Eq)]
pub struct Entry {
    pub reader: u16,
    pub scheme: Scheme,
    pub count: usize,
}

/// The fields of an entry that was judged, in either form.
pub struct Fields<'a> {
    pub reader: u16,
    pub scheme: Scheme,
    pub label: &'a [u8],
}

impl Fields<'_> {
    /// The least reader number that the next entry may have.
    pub fn next_least(&self) -> usize {
        usize::from(self.reader) + 1
    }

    /// Decodes the label into a buffer that is long enough.
    fn read(&self, out: &mut [u32]) -> Result<Entry, Error> {
        let count = self.scheme.decode(self.label, out)?;
        Ok(Entry { reader: self.reader, scheme: self.scheme, count })
    }

    /// The bytes of the entry in a table of 01's form.
    pub fn record(&self) -> Vec<u8> {
        let mut record = vec![self.scheme.kind()];
        record.extend(self.reader.to_be_bytes());
        record.push(self.label.len() as u8);
        record.extend(self.label);
        record.resize(ENTRY_LENGTH, 0);
        record
    }
}

/// Reads a whole table and answers its number of entries.
pub fn read(table: &[u8]) -> Result<usize, Error> {
    Ok(judged(table)?.len())
}

/// Judges a whole table and answers the fields of each entry.
pub fn judged(table: &[u8]) -> Result<Vec<Fields<'_>>, Error> {
    let count = header(HEADER_KIND, table)?;
    let length = HEADER_LENGTH + ENTRY_LENGTH * count;
    if table.len() < length {
        return error(ErrorCode::Truncated);
    }
    if table.len() > length {
        return error(ErrorCode::Malformed);
    }
    let mut entries = Vec::new();
    let mut least = 0;
    for index in 0..count {
        match fields_of(entry_bytes(table, index), least) {
            Ok(fields) => {
                least = fields.next_least();
                entries.push(fields);
            }
            Err(code) => return error_at(code, index),
        }
    }
    Ok(entries)
}

/// Reads the entry at an index. The whole table is judged before the index.
pub fn entry(table: &[u8], index: usize, out: &mut [u32]) -> Result<Entry, Error> {
    if out.len() < LABEL_MAX {
        return error(ErrorCode::Capacity);
    }
    entry_at(&judged(table)?, index, out)
}

/// Reads one of the entries of a judged table into a buffer that is long enough:
/// 14 at 0 for an index that none has.
pub fn entry_at(entries: &[Fields], index: usize, out: &mut [u32]) -> Result<Entry, Error> {
    match entries.get(index) {
        Some(fields) => fields.read(out),
        None => error(ErrorCode::Malformed),
    }
}

/// Reads the entry at an index of a table that was judged before. The table is
/// not judged again: of its header only the count is looked at, and of its
/// entries only this one, whose reader number may be any.
pub fn judged_entry(table: &[u8], index: usize, out: &mut [u32]) -> Result<Entry, Error> {
    if out.len() < LABEL_MAX {
        return error(ErrorCode::Capacity);
    }
    if table.len() < HEADER_LENGTH {
        return error(ErrorCode::Truncated);
    }
    if index >= count_of(table) {
        return error(ErrorCode::Malformed);
    }
    if table.len() < HEADER_LENGTH + ENTRY_LENGTH * (index + 1) {
        return error(ErrorCode::Truncated);
    }
    lone_entry(entry_bytes(table, index), 0, index, out)
}

/// Reads one entry by itself. Its reader number must be at least so high, and its
/// own errors are reported at the position.
pub fn lone_entry(
    entry: &[u8],
    least: usize,
    position: usize,
    out: &mut [u32],
) -> Result<Entry, Error> {
    if out.len() < LABEL_MAX {
        return error(ErrorCode::Capacity);
    }
    if entry.len() < ENTRY_LENGTH {
        return error(ErrorCode::Truncated);
    }
    if entry.len() > ENTRY_LENGTH {
        return error(ErrorCode::Malformed);
    }
    match fields_of(entry, least) {
        Ok(fields) => fields.read(out),
        Err(code) => error_at(code, position),
    }
}

/// Writes the table of a list and answers its number of bytes. An entry has one
/// of the readers, one of the schemes, and as many of the points as its length
/// says. Order: 1; 14 at 0 for rows that do not agree; then entry by entry, at its
/// index, 14 for a reader number that does not rise, and what `new_entry` says.
pub fn write(
    readers: &[u16],
    schemes: &[u32],
    lengths: &[usize],
    points: &[u32],
    out: &mut [u8],
) -> Result<usize, Error> {
    let entries = readers.len();
    if (out.len() as u128) < HEADER_LENGTH as u128 + ENTRY_LENGTH as u128 * entries as u128 {
        return error(ErrorCode::Capacity);
    }
    if !rows_agree(entries, schemes, lengths, points) {
        return error(ErrorCode::Malformed);
    }
    let mut records = Vec::new();
    let mut rest = points;
    for index in 0..entries {
        let (text, later) = rest.split_at(lengths[index]);
        rest = later;
        if index > 0 && readers[index] <= readers[index - 1] {
            return error_at(ErrorCode::Malformed, index);
        }
        match new_entry(readers[index], schemes[index], text) {
            Ok(record) => records.push(record),
            Err(code) => return error_at(code, index),
        }
    }
    put(HEADER_KIND, &records, out)
}

/// Stores a table in a buffer, 1 to 500 records with a header of a kind, and answers
/// its number of bytes: 1 for a buffer that is shorter.
pub fn put(kind: u8, records: &[Vec<u8>], out: &mut [u8]) -> Result<usize, Error> {
    let mut table = vec![kind];
    table.extend((records.len() as u16).to_be_bytes());
    table.extend(records.concat());
    match out.get_mut(..table.len()) {
        Some(front) => front.copy_from_slice(&table),
        None => return error(ErrorCode::Capacity),
    }
    Ok(table.len())
}

/// Whether the rows have so many entries each, 1 to 500, and the texts all points
/// between them.
fn rows_agree(entries: usize, schemes: &[u32], lengths: &[usize], points: &[u32]) -> bool {
    let announced: u128 = lengths.iter().map(|&length| length as u128).sum();
    let lawful_count = entries > 0 && entries <= ENTRIES_MAX;
    let as_long = schemes.len() == entries && lengths.len() == entries;
    lawful_count && as_long && announced == points.len() as u128
}

/// The bytes of a new entry: 14 for an unknown scheme, and the default's number
/// 0 is one; then the label's own refusal.
fn new_entry(reader: u16, scheme: u32, text: &[u32]) -> Result<Vec<u8>, ErrorCode> {
    let scheme = Scheme::of_own_number(scheme).ok_or(ErrorCode::Malformed)?;
    let mut label = [0; LABEL_MAX];
    let length = scheme.encode(text, &mut label).map_err(|error| error.code)?;
    Ok(Fields { reader, scheme, label: &label[..length] }.record())
}

/// The number of entries that a whole header announces.
fn count_of(table: &[u8]) -> usize {
    usize::from(u16::from_be_bytes([table[1], table[2]]))
}

/// The number of entries that the header of a table announces, once the header is
/// in order. It must be of a kind.
pub fn header(kind: u8, table: &[u8]) -> Result<usize, Error> {
    if table.is_empty() {
        return error(ErrorCode::Truncated);
    }
    if table[0] != kind {
        return error(ErrorCode::Malformed);
    }
    if table.len() < HEADER_LENGTH {
        return error(ErrorCode::Truncated);
    }
    let entries = count_of(table);
    if entries == 0 || entries > ENTRIES_MAX {
        return error(ErrorCode::Malformed);
    }
    Ok(entries)
}

/// The bytes of an entry in a table of lawful length.
fn entry_bytes(table: &[u8], index: usize) -> &[u8] {
    let start = HEADER_LENGTH + ENTRY_LENGTH * index;
    &table[start..start + ENTRY_LENGTH]
}

/// The fields of one entry, once it is in order: kind, number, length, filling, label.
fn fields_of(entry: &[u8], least: usize) -> Result<Fields<'_>, ErrorCode> {
    let scheme = Scheme::of_kind(entry[0]).ok_or(ErrorCode::Malformed)?;
    let reader = u16::from_be_bytes([entry[1], entry[2]]);
    if usize::from(reader) < least {
        return Err(ErrorCode::Malformed);
    }
    let length = usize::from(entry[3]);
    if length == 0 || length > LABEL_MAX {
        return Err(ErrorCode::Malformed);
    }
    Ok(Fields { reader, scheme, label: label_in(&entry[4..], length, scheme)? })
}

/// The label that stands first in some bytes and is so long, once it is in order:
/// the filling after it, then the label.
pub fn label_in(bytes: &[u8], length: usize, scheme: Scheme) -> Result<&[u8], ErrorCode> {
    let (label, filling) = bytes.split_at(length);
    if filling.iter().any(|&byte| byte != 0) {
        return Err(ErrorCode::Malformed);
    }
    match scheme.decode(label, &mut [0; LABEL_MAX]) {
        Ok(_) => Ok(label),
        Err(error) => Err(error.code),
    }
}
