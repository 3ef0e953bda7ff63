//! The functions that are compared, all but seven in one shape: what the proved library
//! exports for tests, and the two functions of the C interface.

use crate::c_interface::{self, ERROR_BASE};
use crate::error::Error;
use crate::scheme::Scheme;
use crate::utf16::{self, PointCount, UnitCount};
use crate::{altdude, brace, host_name, lace, nametable, receiver, short_table, table_diff};

/// Code (0 when done), position, count, and for an entry of a table reader
/// number and scheme number.
pub type Numbers = [u64; 5];

/// A function on the row given, the number beside it (a count, an index, a scheme
/// number or a header's kind, else it is not looked at), the buffer to fill, and the
/// row in which the five numbers of the answer are stored. Beside an entry by itself
/// are two numbers, its least reader number and its position.
pub type Function<G, B, N = usize> = fn(&[G], N, &mut [B], &mut [u64]);

/// A function that encodes a text with its marks: the two rows, the buffer to fill, and
/// the row of the five numbers.
pub type EncodeMarked = fn((&[u32], &[u8]), &mut [u8], &mut [u64]);

/// A function that decodes a label to a text and its marks: the label, the two buffers to
/// fill, and the row of the five numbers.
pub type DecodeMarked = fn(&[u8], (&mut [u32], &mut [u8]), &mut [u64]);

/// The function that writes a table: rows of reader numbers, scheme numbers,
/// lengths of texts and the points of all texts, the buffer to fill, and the row
/// of the five numbers.
pub type TableWrite = fn(&[u16], &[u32], &[usize], &[u32], &mut [u8], &mut [u64]);

/// The function that makes the sheet of what differs between two tables: the left one
/// and the right one, the buffer to fill, and the row of the five numbers.
pub type TableDiff = fn([&[u8]; 2], &mut [u8], &mut [u64]);

/// The function that receives a table in chunks: the lengths of the chunks, the bytes,
/// and the row of the five numbers. A length past the end takes what is left, and bytes
/// after the last chunk are not handed in.
pub type Receive = fn(&[usize], &[u8], &mut [u64]);

/// The functions of an implementation, and what it is called. Reading a table or
/// its header, and receiving a table, fill no buffer.
#[derive(Clone, Copy)]
pub struct Implementation {
    pub name: &'static str,
    pub to_units: Function<u32, u16>,
    pub to_points: Function<u16, u32>,
    pub altdude_encode: Function<u32, u8>,
    pub altdude_decode: Function<u8, u32>,
    pub lace_encode: Function<u32, u8>,
    pub lace_decode: Function<u8, u32>,
    pub altdude_encode_marked: EncodeMarked,
    pub altdude_decode_marked: DecodeMarked,
    pub lace_encode_marked: EncodeMarked,
    pub lace_decode_marked: DecodeMarked,
    pub brace_encode: Function<u16, u8>,
    pub brace_decode: Function<u8, u16>,
    pub name_encode: Function<u32, u8>,
    pub name_decode: Function<u8, u32>,
    pub table_read: Function<u8, u8>,
    pub table_entry: Function<u8, u32>,
    pub table_judged_entry: Function<u8, u32>,
    pub table_write: TableWrite,
    pub table_header: Function<u8, u8>,
    pub table_lone_entry: Function<u8, u32, [usize; 2]>,
    pub short_read: Function<u8, u8>,
    pub short_entry: Function<u8, u32>,
    pub to_short: Function<u8, u8>,
    pub to_long: Function<u8, u8>,
    pub table_diff: TableDiff,
    pub receive: Receive,
    pub write: Function<u8, u8>,
    pub read: Function<u8, u8>,
}

impl Implementation {
    /// The function that encodes points under a scheme. BRACE takes units.
    pub fn encode(&self, scheme: Scheme) -> Option<Function<u32, u8>> {
        match scheme {
            Scheme::AltDude => Some(self.altdude_encode),
            Scheme::Lace => Some(self.lace_encode),
            Scheme::Brace => None,
        }
    }

    /// The function that decodes to points under a scheme. BRACE gives units.
    pub fn decode(&self, scheme: Scheme) -> Option<Function<u8, u32>> {
        match scheme {
            Scheme::AltDude => Some(self.altdude_decode),
            Scheme::Lace => Some(self.lace_decode),
            Scheme::Brace => None,
        }
    }

    /// The function that encodes a text with its marks under a scheme. BRACE takes none.
    pub fn encode_marked(&self, scheme: Scheme) -> Option<EncodeMarked> {
        match scheme {
            Scheme::AltDude => Some(self.altdude_encode_marked),
            Scheme::Lace => Some(self.lace_encode_marked),
            Scheme::Brace => None,
        }
    }

    /// The function that decodes to a text and its marks under a scheme. BRACE gives none.
    pub fn decode_marked(&self, scheme: Scheme) -> Option<DecodeMarked> {
        match scheme {
            Scheme::AltDude => Some(self.altdude_decode_marked),
            Scheme::Lace => Some(self.lace_decode_marked),
            Scheme::Brace => None,
        }
    }
}

/// The independent implementation.
pub const INDEPENDENT: Implementation = Implementation {
    name: "independent",
    to_units: |points, count, units, answer| {
        let counted = utf16::to_units(points, PointCount(count), units);
        store(numbers(counted.map(|count| count.0)), answer);
    },
    to_points: |units, count, points, answer| {
        let counted = utf16::to_points(units, UnitCount(count), points);
        store(numbers(counted.map(|count| count.0)), answer);
    },
    altdude_encode: |text, _, label, answer| store(numbers(altdude::encode(text, label)), answer),
    altdude_decode: |label, _, text, answer| store(numbers(altdude::decode(label, text)), answer),
    lace_encode: |text, _, label, answer| store(numbers(lace::encode(text, label)), answer),
    lace_decode: |label, _, text, answer| store(numbers(lace::decode(label, text)), answer),
    altdude_encode_marked: |(text, marks), label, answer| {
        store(numbers(altdude::encode_marked(text, marks, label)), answer);
    },
    altdude_decode_marked: |label, (text, marks), answer| {
        store(numbers(altdude::decode_marked(label, text, marks)), answer);
    },
    lace_encode_marked: |(text, marks), label, answer| {
        store(numbers(lace::encode_marked(text, marks, label)), answer);
    },
    lace_decode_marked: |label, (text, marks), answer| {
        store(numbers(lace::decode_marked(label, text, marks)), answer);
    },
    brace_encode: |units, _, label, answer| store(numbers(brace::encode(units, label)), answer),
    brace_decode: |label, _, units, answer| store(numbers(brace::decode(label, units)), answer),
    name_encode: |text, _, name, answer| store(numbers(host_name::encode(text, name)), answer),
    name_decode: |name, _, text, answer| store(numbers(host_name::decode(name, text)), answer),
    table_read: |table, _, _, answer| store(numbers(nametable::read(table)), answer),
    table_entry: |table, index, text, answer| {
        store(entry_numbers(nametable::entry(table, index, text)), answer);
    },
    table_judged_entry: |table, index, text, answer| {
        store(entry_numbers(nametable::judged_entry(table, index, text)), answer);
    },
    table_write: |readers, schemes, lengths, points, table, answer| {
        store(numbers(nametable::write(readers, schemes, lengths, points, table)), answer);
    },
    table_header: |table, kind, _, answer| {
        store(numbers(nametable::header(kind as u8, table)), answer);
    },
    table_lone_entry: |entry, [least, position], text, answer| {
        store(entry_numbers(nametable::lone_entry(entry, least, position, text)), answer);
    },
    short_read: |table, _, _, answer| store(numbers(short_table::read(table)), answer),
    short_entry: |table, index, text, answer| {
        store(entry_numbers(short_table::entry(table, index, text)), answer);
    },
    to_short: |table, _, short, answer| store(numbers(short_table::to_short(table, short)), answer),
    to_long: |short, _, table, answer| store(numbers(short_table::to_long(short, table)), answer),
    table_diff: |[left, right], sheet, answer| {
        store(numbers(table_diff::diff(left, right, sheet)), answer);
    },
    receive: |lengths, bytes, answer| store(numbers(receiver::receive(lengths, bytes)), answer),
    write: |text, scheme, label, answer| {
        store(interface_numbers(c_interface::write(scheme as u32, text, label)), answer);
    },
    read: |label, scheme, text, answer| {
        store(interface_numbers(c_interface::read(scheme as u32, label, text)), answer);
    },
};

/// The implementations at hand: the independent one, and with the feature
/// `proved` the proved one.
pub fn implementations() -> Vec<Implementation> {
    vec![
        INDEPENDENT,
        #[cfg(feature = "proved")]
        crate::proved::PROVED,
    ]
}

/// Stores the five numbers in a row that is long enough. A shorter row is left
/// as it is.
pub fn store(numbers: Numbers, answer: &mut [u64]) {
    if let Some(front) = answer.get_mut(..numbers.len()) {
        front.copy_from_slice(&numbers);
    }
}

/// The five numbers of a count or an error.
fn numbers(answer: Result<usize, Error>) -> Numbers {
    match answer {
        Ok(count) => [0, 0, count as u64, 0, 0],
        Err(error) => [u64::from(error.number()), error.position as u64, 0, 0, 0],
    }
}

/// The five numbers of an entry or an error.
fn entry_numbers(answer: Result<nametable::Entry, Error>) -> Numbers {
    let mut five = numbers(answer.map(|entry| entry.count));
    if let Ok(entry) = answer {
        five[3] = u64::from(entry.reader);
        five[4] = u64::from(entry.scheme.number());
    }
    five
}

/// The one number of the C interface as five: it tells code and count.
pub fn interface_numbers(number: u32) -> Numbers {
    match number.checked_sub(ERROR_BASE) {
        Some(code) => [u64::from(code), 0, 0, 0, 0],
        None => [0, 0, u64::from(number), 0, 0],
    }
}
