//! The short name table (02's short cards): reading it, reading one entry, and the
//! moves from 01's form and back. On each implementation at hand.

mod shared;
#[path = "shared/tables.rs"]
mod tables;

use distelhut_host::functions::{implementations, Function, Implementation};
use distelhut_host::generate::short_tables::{lawful_entries, long_of, short_of, Entry};
use distelhut_host::generate::Source;
use distelhut_host::papers::{
    sample_short_table, sample_table, short_entry, short_entry_in, short_table_of,
    short_table_with, table_of,
};
use distelhut_host::scheme::Scheme;
use shared::{called, Error};

/// The number of entries, or the error.
fn verdict(one: &Implementation, table: &[u8]) -> Result<u64, Error> {
    tables::verdict(one.short_read, table)
}

/// The reader number, the scheme number and the points of an entry, or the error.
fn entry(one: &Implementation, table: &[u8], index: usize) -> Result<(u64, u64, Vec<u32>), Error> {
    tables::entry(one.short_entry, table, index)
}

/// Moves a table into a buffer of a capacity. Answers the bytes written, or the error.
fn moved(function: Function<u8, u8>, table: &[u8], capacity: usize) -> Result<Vec<u8>, Error> {
    called(function, table, 0, capacity)
}

/// All three functions that judge a short table answer with this error, the entry at
/// any index and the move with any capacity.
fn refused(one: &Implementation, table: &[u8], error: Error) {
    assert_eq!(verdict(one, table), Err(error), "{table:X?}");
    for index in [0, 1, 2, 500, usize::MAX] {
        assert_eq!(entry(one, table, index), Err(error), "{index} of {table:X?}");
    }
    for capacity in [0, 136, 137, 33_503] {
        assert_eq!(moved(one.to_long, table, capacity), Err(error), "{capacity}, {table:X?}");
    }
}

/// A lawful AltDUDE label of so many bytes.
fn label_of(length: usize) -> Vec<u8> {
    vec![b'a'; length]
}

/// The sample with some bytes changed.
fn changed(changes: &[(usize, u8)]) -> Vec<u8> {
    let mut table = sample_short_table();
    for &(position, byte) in changes {
        table[position] = byte;
    }
    table
}

/// The first bytes of the sample, and others after them.
fn sample_start(length: usize, after: &[u8]) -> Vec<u8> {
    [&sample_short_table()[..length], after].concat()
}

#[test]
fn the_papers_table() {
    let bytes = [
        &[0x49, 0x00, 0x02][..],
        &[0x51, 0x00, 0x07, 0x01, 0x02],
        b"3n\0\0\0\0\0\0\0\0\0\0\0\0\0\0",
        &[0x51, 0x01, 0x2C, 0x02, 0x09],
        b"lq--74apy\0\0\0\0\0\0\0",
    ]
    .concat();
    assert_eq!(sample_short_table(), bytes);
    for one in implementations() {
        assert_eq!(verdict(&one, &bytes), Ok(2));
        assert_eq!(entry(&one, &bytes, 0), Ok((7, 1, vec![0xFC])));
        assert_eq!(entry(&one, &bytes, 1), Ok((300, 2, vec![0xFC])));
        for capacity in [45, 46, 137, 34_003] {
            assert_eq!(moved(one.to_short, &sample_table(), capacity).as_ref(), Ok(&bytes));
        }
        for capacity in [137, 138, 33_503] {
            assert_eq!(moved(one.to_long, &bytes, capacity), Ok(sample_table()));
        }
    }
}

#[test]
fn the_capacity_of_a_move() {
    for one in implementations() {
        for capacity in 0..45 {
            assert_eq!(moved(one.to_short, &sample_table(), capacity), Err((1, 0)));
        }
        for capacity in 0..137 {
            assert_eq!(moved(one.to_long, &sample_short_table(), capacity), Err((1, 0)));
        }
        // The table's own refusal comes before it.
        let (long, short) = (sample_table(), sample_short_table());
        assert_eq!(moved(one.to_short, &long[..136], 0), Err((13, 0)));
        assert_eq!(moved(one.to_short, &[], 0), Err((13, 0)));
        assert_eq!(moved(one.to_short, &[&long[..], &[0]].concat(), 0), Err((14, 0)));
        assert_eq!(moved(one.to_long, &short[..44], 0), Err((13, 0)));
        let label = |label: &[u8]| (0x41, 7, label.to_vec());
        assert_eq!(moved(one.to_short, &table_of(&[label(b"x")]), 0), Err((9, 0)));
        assert_eq!(moved(one.to_short, &table_of(&[label(b"b"), label(b"b")]), 0), Err((14, 1)));
    }
}

#[test]
fn capitals_stay() {
    let entries: [Entry; 3] = [
        (Scheme::AltDude, 7, b"3N".to_vec()),
        (Scheme::Lace, 8, b"Lq--74ApY".to_vec()),
        (Scheme::Brace, 9, b"22zI-Ab-8q9".to_vec()),
    ];
    let (long, short) = (long_of(&entries), short_of(&entries));
    assert_eq!(short[8..10], *b"3N");
    for one in implementations() {
        assert_eq!(moved(one.to_short, &long, 66).as_ref(), Ok(&short));
        assert_eq!(moved(one.to_long, &short, 204).as_ref(), Ok(&long));
        assert_eq!(entry(&one, &short, 2), Ok((9, 3, vec![0xFC, 0x41, 0x62])));
    }
}

#[test]
fn the_kind_goes_by_the_length() {
    let kinds = [(1, 0x51), (15, 0x51), (16, 0x51), (17, 0x52), (31, 0x52), (32, 0x52)];
    for one in implementations() {
        for (length, kind) in kinds.into_iter().chain([(33, 0x53), (62, 0x53), (63, 0x53)]) {
            let long = table_of(&[(0x41, 7, label_of(length))]);
            let short = moved(one.to_short, &long, 71).unwrap();
            let record = short_entry_in(kind, &(1, 7, label_of(length)));
            assert_eq!(short, short_table_with(&[record]), "{length}");
            assert_eq!(verdict(&one, &short), Ok(1));
            assert_eq!(moved(one.to_long, &short, 70), Ok(long));
        }
    }
}

#[test]
fn a_kind_is_no_larger_than_needed() {
    for one in implementations() {
        for (kind, length) in [(0x52, 1), (0x52, 16), (0x53, 1), (0x53, 16), (0x53, 17), (0x53, 32)]
        {
            let record = short_entry_in(kind, &(1, 7, label_of(length)));
            refused(&one, &short_table_with(&[record]), (14, 0));
        }
        for (kind, length) in [(0x51, 16), (0x52, 17), (0x52, 32), (0x53, 33), (0x53, 63)] {
            let record = short_entry_in(kind, &(1, 7, label_of(length)));
            assert_eq!(verdict(&one, &short_table_with(&[record])), Ok(1));
        }
        // Before the label's own refusal.
        let record = short_entry_in(0x52, &(1, 7, b"x".to_vec()));
        refused(&one, &short_table_with(&[record]), (14, 0));
    }
}

#[test]
fn the_longest_table() {
    let rows: Vec<_> = (0..501).map(|reader| (0x41, reader, label_of(33))).collect();
    let short_rows: Vec<_> = (0..501).map(|reader| (1, reader, label_of(33))).collect();
    let short = short_table_of(&short_rows[..500]);
    assert_eq!(short.len(), 34_003);
    for one in implementations() {
        let long = table_of(&rows[..500]);
        assert_eq!(moved(one.to_short, &long, 34_002), Err((1, 0)));
        assert_eq!(moved(one.to_short, &long, 34_003).as_ref(), Ok(&short));
        assert_eq!(moved(one.to_long, &short, 33_502), Err((1, 0)));
        assert_eq!(moved(one.to_long, &short, 33_503), Ok(long));
        assert_eq!(verdict(&one, &short), Ok(500));
        assert_eq!(entry(&one, &short, 499), Ok((499, 1, vec![0x60; 33])));
        assert_eq!(entry(&one, &short, 500), Err((14, 0)));
        // an unfinished group at the end of the last label
        let mut bad = short.clone();
        bad[34_003 - 63 + 32] = b'x';
        refused(&one, &bad, (9, 499));
        refused(&one, &short_table_of(&short_rows), (14, 0));
    }
}

#[test]
fn headers() {
    let headers: [(&[u8], u64); 12] = [
        (&[], 13),
        (&[0x49], 13),
        (&[0x48], 14),
        (&[0x51], 14),
        (&[0x49, 0x00], 13),
        (&[0x48, 0x00], 14),
        (&[0x49, 0x00, 0x00], 14),
        (&[0x49, 0x01, 0xF5], 14),
        (&[0x49, 0xFF, 0xFF], 14),
        (&[0x48, 0x00, 0x01], 14),
        (&[0x49, 0x00, 0x01], 13),
        (&[0x49, 0x01, 0xF4], 13),
    ];
    for one in implementations() {
        for (header, code) in headers {
            refused(&one, header, (code, 0));
        }
    }
}

#[test]
fn cuts_of_the_papers_table() {
    for one in implementations() {
        for length in 0..45 {
            refused(&one, &sample_start(length, &[]), (13, 0));
        }
        // The kind is known, then the entry is whole; the rest of it comes after that.
        refused(&one, &sample_start(24, &[0x41]), (14, 1));
        refused(&one, &sample_start(24, &[0x53, 0, 0, 0]), (13, 0));
        refused(&one, &sample_start(24, &[0x51, 0, 0, 0, 0]), (13, 0));
        refused(&one, &sample_start(3, &[0x00]), (14, 0));
        refused(&one, &sample_start(45, &[0x00]), (14, 0));
        refused(&one, &sample_start(45, &[0x51]), (14, 0));
        refused(&one, &sample_start(45, &[0; 21]), (14, 0));
    }
}

#[test]
fn an_entry_is_judged_before_the_next_is_looked_for() {
    for one in implementations() {
        let first = short_entry(&(1, 7, b"x".to_vec()));
        let second = short_entry(&(1, 8, b"b".to_vec()));
        let table = short_table_with(&[first, second]);
        refused(&one, &table, (9, 0));
        for length in 24..45 {
            refused(&one, &table[..length], (9, 0));
        }
        for length in 3..24 {
            refused(&one, &table[..length], (13, 0));
        }
        // Also before what follows the last entry, and before an unknown kind.
        refused(&one, &[&table[..], &[0]].concat(), (9, 0));
        refused(&one, &[&table[..], &[0; 200]].concat(), (9, 0));
        refused(&one, &[&table[..24], &[0x41]].concat(), (9, 0));
    }
}

#[test]
fn each_rule_of_an_entry() {
    let bad: [(&[(usize, u8)], u64); 21] = [
        // kind
        (&[(3, 0x48)], 0),
        (&[(3, 0x50)], 0),
        (&[(24, 0x54)], 1),
        (&[(24, 0x41)], 1),
        // reader number
        (&[(25, 0x00), (26, 0x07)], 1),
        (&[(25, 0x00), (26, 0x06)], 1),
        (&[(4, 0xFF), (5, 0xFF)], 1),
        // scheme
        (&[(6, 0)], 0),
        (&[(6, 4)], 0),
        (&[(6, 255)], 0),
        (&[(27, 0)], 1),
        (&[(27, 0x4C)], 1),
        // length
        (&[(7, 0)], 0),
        (&[(7, 17)], 0),
        (&[(7, 255)], 0),
        (&[(28, 32)], 1),
        // filling
        (&[(7, 1)], 0),
        (&[(10, 1)], 0),
        (&[(23, 1)], 0),
        (&[(28, 8)], 1),
        (&[(44, 1)], 1),
    ];
    for one in implementations() {
        for (changes, position) in bad {
            refused(&one, &changed(changes), (14, position));
        }
        assert_eq!(verdict(&one, &changed(&[(25, 0x00), (26, 0x08)])), Ok(2));
        assert_eq!(verdict(&one, &changed(&[(4, 0x00), (5, 0x00)])), Ok(2));
        assert_eq!(verdict(&one, &changed(&[(25, 0xFF), (26, 0xFF)])), Ok(2));
    }
}

#[test]
fn lengths_around_those_of_each_kind() {
    for one in implementations() {
        for (kind, capacity) in [(0x51, 16), (0x52, 32), (0x53, 63)] {
            let whole = short_table_with(&[short_entry_in(kind, &(1, 7, label_of(capacity)))]);
            assert_eq!(verdict(&one, &whole), Ok(1));
            for length in [0, capacity as u8 + 1, 64, 255] {
                let mut table = whole.clone();
                table[7] = length;
                refused(&one, &table, (14, 0));
            }
            // an empty label with zeros after it
            let empty = short_entry_in(kind, &(1, 7, Vec::new()));
            refused(&one, &short_table_with(&[empty]), (14, 0));
        }
    }
}

#[test]
fn an_error_of_a_label_has_the_index_of_the_entry() {
    let labels: [(u8, &[u8], u64); 15] = [
        (1, b"3l", 7),
        (1, b"-b", 5),
        (1, b"sb", 9),
        (1, b"lq--74apy", 7),
        (1, b"3n\0", 7),
        (2, b"lq--74ap0", 7),
        (2, b"3n", 8),
        (2, b"lq--", 9),
        (2, b"lq--74apz", 9),
        (2, b"lq--aiagcyq", 6),
        (3, b"-a.b", 7),
        (3, b"ab-", 5),
        (3, b"a.b-8Q9", 9),
        (3, b"22ZJ-8q9", 9),
        (3, b"8S9S-8Q9", 9),
    ];
    for one in implementations() {
        for (scheme, label, code) in labels {
            let bad = (scheme, 2, label.to_vec());
            refused(&one, &short_table_of(&[(1, 1, b"3n".to_vec()), bad.clone()]), (code, 1));
            let last = (1, 3, b"3n".to_vec());
            refused(&one, &short_table_of(&[(1, 1, b"3n".to_vec()), bad, last]), (code, 1));
        }
    }
}

#[test]
fn order_within_an_entry() {
    for one in implementations() {
        // Number, scheme, length and filling are 14; a label's code shows only at the end.
        refused(&one, &changed(&[(37, 0x7A)]), (9, 1));
        refused(&one, &changed(&[(37, 0x7A), (25, 0x00), (26, 0x07)]), (14, 1));
        refused(&one, &changed(&[(37, 0x7A), (27, 0)]), (14, 1));
        refused(&one, &changed(&[(37, 0x7A), (28, 0)]), (14, 1));
        refused(&one, &changed(&[(37, 0x7A), (44, 1)]), (14, 1));
        refused(&one, &changed(&[(8, b's'), (24, 0)]), (9, 0));
    }
}

#[test]
fn capacity_before_table_before_index() {
    let table = sample_short_table();
    for one in implementations() {
        assert_eq!(called(one.short_entry, &[], 0, 62), Err((1, 0)));
        assert_eq!(called(one.short_entry, &table, 0, 62), Err((1, 0)));
        assert_eq!(called(one.short_entry, &table, 2, 0), Err((1, 0)));
        assert_eq!(called(one.short_entry, &table, 0, 63), Ok(vec![0xFC]));
        assert_eq!(entry(&one, &table, 2), Err((14, 0)));
        assert_eq!(entry(&one, &table, 1 << 63), Err((14, 0)));
        assert_eq!(entry(&one, &table, usize::MAX), Err((14, 0)));
    }
}

#[test]
fn each_form_refuses_the_other() {
    let (long, short) = (sample_table(), sample_short_table());
    for one in implementations() {
        refused(&one, &long, (14, 0));
        assert_eq!(tables::verdict(one.table_read, &short), Err((14, 0)));
        for capacity in [0, 45, 34_003] {
            assert_eq!(moved(one.to_short, &short, capacity), Err((14, 0)));
        }
        for index in [0, 1, 2, usize::MAX] {
            assert_eq!(tables::entry(one.table_entry, &short, index), Err((14, 0)));
        }
    }
}

/// Some lawful entries, in every turn others: few, and at times more.
fn generated(source: &mut Source, turn: usize) -> Vec<Entry> {
    let entries = if turn % 100 == 99 { source.between(8, 60) } else { 1 + turn % 7 };
    lawful_entries(source, entries)
}

#[test]
fn generated_tables_are_moved_and_moved_back() {
    for one in implementations() {
        let mut source = Source::new(31);
        for turn in 0..3000 {
            let entries = generated(&mut source, turn);
            let (long, short) = (long_of(&entries), short_of(&entries));
            let there = moved(one.to_short, &long, short.len()).unwrap();
            assert_eq!(there, short);
            assert_eq!(moved(one.to_long, &there, long.len()).as_ref(), Ok(&long));
            let back = moved(one.to_long, &short, long.len() + 7).unwrap();
            assert_eq!(moved(one.to_short, &back, short.len() + 7).as_ref(), Ok(&short));
            assert_eq!(moved(one.to_short, &long, short.len() - 1), Err((1, 0)));
            assert_eq!(moved(one.to_long, &short, long.len() - 1), Err((1, 0)));
        }
    }
}

#[test]
fn both_forms_answer_alike() {
    for one in implementations() {
        let mut source = Source::new(32);
        for turn in 0..2000 {
            let entries = generated(&mut source, turn);
            let (long, short) = (long_of(&entries), short_of(&entries));
            assert_eq!(verdict(&one, &short), Ok(entries.len() as u64));
            assert_eq!(tables::verdict(one.table_read, &long), Ok(entries.len() as u64));
            for index in 0..entries.len() + 2 {
                let answer = entry(&one, &short, index);
                assert_eq!(answer.is_ok(), index < entries.len());
                assert_eq!(answer, tables::entry(one.table_entry, &long, index));
            }
        }
    }
}

#[test]
fn every_cut_of_a_generated_table() {
    for one in implementations() {
        let mut source = Source::new(33);
        for turn in 0..300 {
            let entries = generated(&mut source, turn);
            let table = short_of(&entries);
            for length in 0..table.len() {
                let cut = &table[..length];
                assert_eq!(verdict(&one, cut), Err((13, 0)));
                for index in [0, entries.len() - 1, entries.len(), source.below(600), usize::MAX] {
                    assert_eq!(entry(&one, cut, index), Err((13, 0)));
                }
                assert_eq!(moved(one.to_long, cut, 0), Err((13, 0)));
            }
        }
    }
}
