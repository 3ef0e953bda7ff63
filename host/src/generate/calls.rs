//! Calls of each function that is compared. The capacities are the scope paper's
//! numbers and not the implementation's constants, so that a wrong constant is
//! not shared.

use super::chunks::{self, Chunks};
use super::lists::{self, List};
use super::marks::{self, MarkedText};
use super::{labels, names, pairs, short_tables, tables, texts, Source};
use crate::scheme::Scheme;

/// A call: what is given, and the lengths of the buffer, or of each of two, and of the
/// answer row.
#[derive(Clone, Debug)]
pub struct Call<G, C = usize> {
    pub given: G,
    pub capacity: C,
    pub answer: usize,
}

/// A row that is given, and the number beside it: a count, an index, a scheme number
/// or a header's kind, else 0. Beside an entry by itself are two numbers.
#[derive(Clone, Debug)]
pub struct Row<T, N = usize> {
    pub elements: Vec<T>,
    pub number: N,
}

/// How long the answer row is: mostly as long as the five numbers.
fn answer_length(source: &mut Source) -> usize {
    match source.below(8) {
        0 => source.below(5),
        1 => source.between(6, 9),
        _ => 5,
    }
}

/// A call on one row and a number, or what stands in its place.
fn call<T, N, C>(
    source: &mut Source,
    elements: Vec<T>,
    number: N,
    capacity: C,
) -> Call<Row<T, N>, C> {
    Call { given: Row { elements, number }, capacity, answer: answer_length(source) }
}

/// A capacity around the one that is needed: none, one short, exact, more.
pub fn capacity_around(source: &mut Source, need: usize) -> usize {
    match source.below(16) {
        0 => 0,
        1 => source.below(need + 1),
        2 => need.saturating_sub(1),
        3 => need + 1,
        4 => need + source.between(2, 70),
        _ => need,
    }
}

/// A count for a row: mostly its length, at times less or more, or so much that
/// twice the count wraps.
fn count_for(source: &mut Source, length: usize) -> usize {
    const HALF: usize = 1 << 63;
    match source.below(16) {
        0 | 1 => source.below(length + 1),
        2 => length + source.between(1, 3),
        3 => source.pick(&[HALF, HALF + 1, HALF + length, usize::MAX - 1, usize::MAX]),
        _ => length,
    }
}

/// An index into a table of so many entries and bytes: mostly of an entry, at times
/// beyond the last, or so much that 67 times the index wraps.
fn index_for(source: &mut Source, entries: usize, length: usize) -> usize {
    // 67 times this number is 1 more than a multiple of 2^64.
    const INVERSE_OF_67: usize = 0xF0B7_672A_07A4_4C6B;
    match source.below(16) {
        0 => entries,
        1 => entries + source.between(1, 3),
        2 => source.pick(&[1 << 63, (1 << 63) + 1, usize::MAX - 1, usize::MAX]),
        3 => INVERSE_OF_67.wrapping_mul(source.below(length + 1)),
        _ => source.below(entries.max(1)),
    }
}

/// A number for a scheme of the C interface.
fn scheme_number(source: &mut Source) -> u32 {
    match source.below(16) {
        0 => source.pick(&[4, 9, 256, 257, 259, 0x8000_0000, u32::MAX]),
        _ => source.below(4) as u32,
    }
}

/// Points to units.
pub fn to_units(source: &mut Source) -> Call<Row<u32>> {
    let points = texts::text(source);
    let count = count_for(source, points.len());
    let capacity = capacity_around(source, 2 * count.min(points.len()));
    call(source, points, count, capacity)
}

/// Units to points.
pub fn to_points(source: &mut Source) -> Call<Row<u16>> {
    let units = texts::units(source);
    let count = count_for(source, units.len());
    let capacity = capacity_around(source, count.min(units.len()));
    call(source, units, count, capacity)
}

/// Encoding a text under AltDUDE or LACE.
pub fn encode(source: &mut Source) -> Call<Row<u32>> {
    let text = texts::text(source);
    let capacity = capacity_around(source, 63);
    call(source, text, 0, capacity)
}

/// Encoding units under BRACE.
pub fn brace_encode(source: &mut Source) -> Call<Row<u16>> {
    let units = texts::text_units(source, Scheme::Brace);
    let capacity = capacity_around(source, 63);
    call(source, units, 0, capacity)
}

/// Decoding a label of a scheme.
fn decode(source: &mut Source, scheme: Scheme) -> Call<Row<u8>> {
    let label = labels::label(source, scheme);
    let capacity = capacity_around(source, 63);
    call(source, label, 0, capacity)
}

/// Decoding an AltDUDE label.
pub fn altdude_decode(source: &mut Source) -> Call<Row<u8>> {
    decode(source, Scheme::AltDude)
}

/// Decoding a LACE label.
pub fn lace_decode(source: &mut Source) -> Call<Row<u8>> {
    decode(source, Scheme::Lace)
}

/// Decoding a BRACE label.
pub fn brace_decode(source: &mut Source) -> Call<Row<u8>> {
    decode(source, Scheme::Brace)
}

/// Encoding a text with marks under a scheme.
fn encode_marked(source: &mut Source, scheme: Scheme) -> Call<MarkedText> {
    let given = marks::marked_text(source, scheme);
    let capacity = capacity_around(source, 63);
    Call { given, capacity, answer: answer_length(source) }
}

/// Encoding a text with marks under AltDUDE.
pub fn altdude_encode_marked(source: &mut Source) -> Call<MarkedText> {
    encode_marked(source, Scheme::AltDude)
}

/// Encoding a text with marks under LACE.
pub fn lace_encode_marked(source: &mut Source) -> Call<MarkedText> {
    encode_marked(source, Scheme::Lace)
}

/// Decoding a label of a scheme to a text and its marks.
fn decode_marked(source: &mut Source, scheme: Scheme) -> Call<Row<u8>, [usize; 2]> {
    let label = marks::marked_label(source, scheme);
    let capacities = [capacity_around(source, 63), capacity_around(source, 63)];
    call(source, label, 0, capacities)
}

/// Decoding an AltDUDE label to a text and its marks.
pub fn altdude_decode_marked(source: &mut Source) -> Call<Row<u8>, [usize; 2]> {
    decode_marked(source, Scheme::AltDude)
}

/// Decoding a LACE label to a text and its marks.
pub fn lace_decode_marked(source: &mut Source) -> Call<Row<u8>, [usize; 2]> {
    decode_marked(source, Scheme::Lace)
}

/// Writing a text as a host name.
pub fn name_encode(source: &mut Source) -> Call<Row<u32>> {
    let text = names::text(source);
    let capacity = capacity_around(source, 253);
    call(source, text, 0, capacity)
}

/// Reading a host name.
pub fn name_decode(source: &mut Source) -> Call<Row<u8>> {
    let name = names::name(source);
    let capacity = capacity_around(source, 253);
    call(source, name, 0, capacity)
}

/// Reading a table in which a scheme may be held, which fills no buffer.
fn table_read_holding(source: &mut Source, held: Option<Scheme>) -> Call<Row<u8>> {
    let table = tables::table(source, held);
    call(source, table, 0, 0)
}

/// Reading a table.
pub fn table_read(source: &mut Source) -> Call<Row<u8>> {
    table_read_holding(source, None)
}

/// Reading a table that holds a BRACE label.
pub fn brace_table_read(source: &mut Source) -> Call<Row<u8>> {
    table_read_holding(source, Some(Scheme::Brace))
}

/// Reading one entry of a table in which a scheme may be held, judged before or not.
fn table_entry_holding(source: &mut Source, held: Option<Scheme>) -> Call<Row<u8>> {
    let table = tables::table(source, held);
    let index = index_for(source, table.len() / 67, table.len());
    let capacity = capacity_around(source, 63);
    call(source, table, index, capacity)
}

/// Reading one entry of a table.
pub fn table_entry(source: &mut Source) -> Call<Row<u8>> {
    table_entry_holding(source, None)
}

/// Reading one entry of a table that holds a BRACE label.
pub fn brace_table_entry(source: &mut Source) -> Call<Row<u8>> {
    table_entry_holding(source, Some(Scheme::Brace))
}

/// Writing the table of a list in which a scheme may be held. The buffer may also
/// be as long as a header, one byte shorter, or as long as a table of one entry.
fn table_write_holding(source: &mut Source, held: Option<Scheme>) -> Call<List> {
    let given = lists::list(source, held);
    let capacity = match source.below(16) {
        0 => source.pick(&[2, 3, 69, 70]),
        _ => capacity_around(source, 3 + 67 * given.readers.len()),
    };
    Call { given, capacity, answer: answer_length(source) }
}

/// Writing the table of a list.
pub fn table_write(source: &mut Source) -> Call<List> {
    table_write_holding(source, None)
}

/// Writing the table of a list that holds a BRACE entry.
pub fn brace_table_write(source: &mut Source) -> Call<List> {
    table_write_holding(source, Some(Scheme::Brace))
}

/// Judging the header of a table, which fills no buffer.
pub fn table_header(source: &mut Source) -> Call<Row<u8>> {
    let (kind, table) = tables::header(source);
    call(source, table, usize::from(kind), 0)
}

/// Reading one entry by itself: the least reader number is mostly about its own, at
/// times one that is the same in its last two or four bytes alone.
pub fn table_lone_entry(source: &mut Source) -> Call<Row<u8, [usize; 2]>> {
    let entry = tables::lone_entry(source);
    let reader = match entry[..] {
        [_, high, low, ..] => usize::from(u16::from_be_bytes([high, low])),
        _ => 0,
    };
    let least = match source.below(8) {
        0 => reader + 1,
        1 => reader.saturating_sub(1),
        2 => reader,
        3 => source.below(65_538),
        4 => source.pick(&[reader + 65_536, reader + (1 << 32), 1 << 63, usize::MAX]),
        _ => 0,
    };
    let position = source.pick(&[0, 1, 7, 499, 500, 65_536, 1 << 32, usize::MAX]);
    let capacity = capacity_around(source, 63);
    call(source, entry, [least, position], capacity)
}

/// Reading a short table, which fills no buffer.
pub fn short_read(source: &mut Source) -> Call<Row<u8>> {
    let table = short_tables::table(source);
    call(source, table, 0, 0)
}

/// How many entries a short table announces, but no more than could be in it.
fn announced(short: &[u8]) -> usize {
    match short {
        [_, high, low, ..] => usize::from(u16::from_be_bytes([*high, *low])).min(short.len() / 21),
        _ => 0,
    }
}

/// Reading one entry of a short table.
pub fn short_entry(source: &mut Source) -> Call<Row<u8>> {
    let table = short_tables::table(source);
    let index = index_for(source, announced(&table), table.len());
    let capacity = capacity_around(source, 63);
    call(source, table, index, capacity)
}

/// Moving a table to the short form. The capacity goes by the labels' lengths.
pub fn to_short(source: &mut Source) -> Call<Row<u8>> {
    let table = short_tables::long_table(source);
    let lengths = table.iter().skip(6).step_by(67);
    let entries = lengths.map(|length| match length {
        0..=16 => 21,
        17..=32 => 37,
        _ => 68,
    });
    let need = 3 + entries.sum::<usize>();
    let capacity = capacity_around(source, need);
    call(source, table, 0, capacity)
}

/// Moving a short table to 01's form.
pub fn to_long(source: &mut Source) -> Call<Row<u8>> {
    let short = short_tables::table(source);
    let capacity = capacity_around(source, 3 + 67 * announced(&short));
    call(source, short, 0, capacity)
}

/// Making the sheet of two tables.
pub fn table_diff(source: &mut Source) -> Call<[Vec<u8>; 2]> {
    let given = pairs::pair(source);
    let capacity = capacity_around(source, 16_546);
    Call { given, capacity, answer: answer_length(source) }
}

/// Receiving a table in chunks, which fills no buffer.
pub fn receive(source: &mut Source) -> Call<Chunks> {
    let given = chunks::chunks(source);
    Call { given, capacity: 0, answer: answer_length(source) }
}

/// The scheme of a number; LACE's labels and texts are made for an unknown one.
fn scheme_of(number: u32) -> Scheme {
    Scheme::of_number(number).unwrap_or(Scheme::Lace)
}

/// Writing through the C interface under a scheme's number.
fn write_under(source: &mut Source, scheme: u32) -> Call<Row<u8>> {
    let text = texts::text_bytes(source, scheme_of(scheme));
    let capacity = capacity_around(source, 63);
    call(source, text, scheme as usize, capacity)
}

/// Writing through the C interface.
pub fn write(source: &mut Source) -> Call<Row<u8>> {
    let scheme = scheme_number(source);
    write_under(source, scheme)
}

/// Writing through the C interface under BRACE.
pub fn brace_write(source: &mut Source) -> Call<Row<u8>> {
    write_under(source, 3)
}

/// Reading through the C interface under a scheme's number.
fn read_under(source: &mut Source, scheme: u32) -> Call<Row<u8>> {
    let label = labels::label(source, scheme_of(scheme));
    let capacity = capacity_around(source, 252);
    call(source, label, scheme as usize, capacity)
}

/// Reading through the C interface.
pub fn read(source: &mut Source) -> Call<Row<u8>> {
    let scheme = scheme_number(source);
    read_under(source, scheme)
}

/// Reading through the C interface under BRACE.
pub fn brace_read(source: &mut Source) -> Call<Row<u8>> {
    read_under(source, 3)
}
