//! The name table: reading it, reading one entry, a header and an entry by themselves.
//! On each implementation at hand.

mod shared;
#[path = "shared/tables.rs"]
mod tables;

use distelhut_host::functions::{implementations, Implementation};
use distelhut_host::papers::{sample_table, table_of};
use shared::{called, numbers, Error};

/// The number of entries, or the error.
fn verdict(one: &Implementation, table: &[u8]) -> Result<u64, Error> {
    tables::verdict(one.table_read, table)
}

/// The reader number, the scheme number and the points of an entry, or the error.
fn entry(one: &Implementation, table: &[u8], index: usize) -> Result<(u64, u64, Vec<u32>), Error> {
    tables::entry(one.table_entry, table, index)
}

/// The answer on an entry of a table that was judged before: reader number,
/// scheme number and points.
fn judged_entry(
    one: &Implementation,
    table: &[u8],
    index: usize,
) -> Result<(u64, u64, Vec<u32>), Error> {
    tables::entry(one.table_judged_entry, table, index)
}

fn changed(changes: &[(usize, u8)]) -> Vec<u8> {
    let mut table = sample_table();
    for &(position, byte) in changes {
        table[position] = byte;
    }
    table
}

#[test]
fn the_papers_table() {
    let table = sample_table();
    assert_eq!(table.len(), 137);
    for one in implementations() {
        assert_eq!(verdict(&one, &table), Ok(2));
        assert_eq!(entry(&one, &table, 0), Ok((7, 1, vec![0xFC])));
        assert_eq!(entry(&one, &table, 1), Ok((300, 2, vec![0xFC])));
    }
}

#[test]
fn cut_at_every_byte() {
    let table = sample_table();
    for one in implementations() {
        for length in 0..table.len() {
            assert_eq!(verdict(&one, &table[..length]), Err((13, 0)));
            for index in [0, 1, 2, usize::MAX] {
                assert_eq!(entry(&one, &table[..length], index), Err((13, 0)));
            }
        }
    }
}

#[test]
fn one_byte_more() {
    let mut table = sample_table();
    table.push(0);
    for one in implementations() {
        assert_eq!(verdict(&one, &table), Err((14, 0)));
        assert_eq!(entry(&one, &table, 0), Err((14, 0)));
    }
}

#[test]
fn headers() {
    let headers: [(&[u8], u64); 9] = [
        (&[], 13),
        (&[0x48], 13),
        (&[0x49], 14),
        (&[0x48, 0x01], 13),
        (&[0x49, 0x01], 14),
        (&[0x48, 0x00, 0x00], 14),
        (&[0x48, 0x01, 0xF4], 13),
        (&[0x48, 0x01, 0xF5], 14),
        (&[0x48, 0xFF, 0xFF], 14),
    ];
    for one in implementations() {
        for (header, code) in headers {
            assert_eq!(verdict(&one, header), Err((code, 0)), "{header:X?}");
        }
    }
}

#[test]
fn each_rule_of_an_entry() {
    let bad: [(&[(usize, u8)], u64); 13] = [
        (&[(3, 0x48)], 0),
        (&[(70, 0x00)], 1),
        (&[(70, 0x6C)], 1),
        (&[(71, 0x00), (72, 0x07)], 1),
        (&[(71, 0x00), (72, 0x06)], 1),
        (&[(6, 0)], 0),
        (&[(6, 64)], 0),
        (&[(6, 1)], 0),
        (&[(73, 255)], 1),
        (&[(73, 8)], 1),
        (&[(69, 1)], 0),
        (&[(136, 1)], 1),
        (&[(9, 1)], 0),
    ];
    for one in implementations() {
        for (changes, position) in bad {
            let answer = verdict(&one, &changed(changes));
            assert_eq!(answer, Err((14, position)), "{changes:?}");
        }
        assert_eq!(verdict(&one, &changed(&[(71, 0x00), (72, 0x08)])), Ok(2));
    }
}

#[test]
fn an_error_of_a_label_has_the_index_of_the_entry() {
    let labels: [(u8, &[u8], u64); 14] = [
        (0x41, b"3l", 7),
        (0x41, b"-b", 5),
        (0x41, b"sb", 9),
        (0x41, b"lq--74apy", 7),
        (0x4C, b"lq--74ap0", 7),
        (0x4C, b"3n", 8),
        (0x4C, b"lq--", 9),
        (0x4C, b"lq--74apz", 9),
        (0x4C, b"lq--aiagcyq", 6),
        (0x42, b"-a.b", 7),
        (0x42, b"ab-", 5),
        (0x42, b"a.b-8Q9", 9),
        (0x42, b"22ZJ-8q9", 9),
        (0x42, b"8S9S-8Q9", 9),
    ];
    for one in implementations() {
        for (kind, label, code) in labels {
            let table = table_of(&[(0x41, 1, b"3n".to_vec()), (kind, 2, label.to_vec())]);
            assert_eq!(verdict(&one, &table), Err((code, 1)));
            assert_eq!(entry(&one, &table, 0), Err((code, 1)));
            assert_eq!(entry(&one, &table, 7), Err((code, 1)));
        }
    }
}

#[test]
fn a_lace_name_may_begin_with_a_hyphen() {
    let table = table_of(&[(0x4C, 7, b"lq--amac2ylc".to_vec())]);
    for one in implementations() {
        assert_eq!(verdict(&one, &table), Ok(1));
        assert_eq!(entry(&one, &table, 0), Ok((7, 2, vec![0x2D, 0x61, 0x62])));
    }
}

#[test]
fn brace_has_kind_42() {
    let table = table_of(&[
        (0x42, 7, b"22zI-Ab-8q9".to_vec()),
        (0x42, 8, b"YS9VGZE-8Q9".to_vec()),
        (0x42, 9, b"3n".to_vec()),
        (0x42, 10, b"lq--74apy".to_vec()),
    ]);
    let plain = b"lq--74apy".map(u32::from).to_vec();
    for one in implementations() {
        assert_eq!(verdict(&one, &table), Ok(4));
        assert_eq!(entry(&one, &table, 0), Ok((7, 3, vec![0xFC, 0x41, 0x62])));
        assert_eq!(entry(&one, &table, 1), Ok((8, 3, vec![0x1F9F6])));
        assert_eq!(entry(&one, &table, 2), Ok((9, 3, vec![0x33, 0x6E])));
        assert_eq!(entry(&one, &table, 3), Ok((10, 3, plain.clone())));
        assert_eq!(judged_entry(&one, &table, 3), Ok((10, 3, plain.clone())));
    }
}

#[test]
fn order_within_an_entry() {
    for one in implementations() {
        // Kind before number, number before length, length before filling, filling
        // before label: all are 14, but a label's code shows only at the end.
        assert_eq!(verdict(&one, &changed(&[(82, 0x7A), (136, 1)])), Err((14, 1)));
        assert_eq!(verdict(&one, &changed(&[(82, 0x7A)])), Err((9, 1)));
        // The label of an entry comes before the kind of a later one.
        assert_eq!(verdict(&one, &changed(&[(7, b's'), (70, 0)])), Err((9, 0)));
        // A zero inside the counted label is a byte of the label, not filling.
        assert_eq!(verdict(&one, &changed(&[(6, 3)])), Err((7, 0)));
    }
}

#[test]
fn capacity_before_table_before_index() {
    let table = sample_table();
    for one in implementations() {
        assert_eq!(called(one.table_entry, &[], 0, 62), Err((1, 0)));
        assert_eq!(called(one.table_entry, &table, 0, 62), Err((1, 0)));
        assert_eq!(entry(&one, &table, 2), Err((14, 0)));
        assert_eq!(entry(&one, &table, 1 << 63), Err((14, 0)));
        assert_eq!(entry(&one, &table, usize::MAX), Err((14, 0)));
    }
}

#[test]
fn reader_number_zero_is_lawful() {
    let entry = |reader: u16| (0x41, reader, b"3n".to_vec());
    for one in implementations() {
        let verdict = |entries: &[_]| verdict(&one, &table_of(entries));
        assert_eq!(verdict(&[entry(0), entry(1), entry(65535)]), Ok(3));
        assert_eq!(verdict(&[entry(0), entry(0)]), Err((14, 1)));
        assert_eq!(verdict(&[entry(0), entry(1), entry(1)]), Err((14, 2)));
        assert_eq!(verdict(&[entry(256), entry(255)]), Err((14, 1)));
    }
}

#[test]
fn the_longest_table() {
    let row = |reader: u16| (0x41, reader, b"3n".to_vec());
    let rows: Vec<_> = (0..501).map(row).collect();
    for one in implementations() {
        let mut table = table_of(&rows[..500]);
        assert_eq!(table.len(), 33_503);
        assert_eq!(verdict(&one, &table), Ok(500));
        assert_eq!(entry(&one, &table, 499), Ok((499, 1, vec![0xFC])));
        assert_eq!(entry(&one, &table, 500), Err((14, 0)));
        table[33_503 - 67 + 4] = b's';
        assert_eq!(verdict(&one, &table), Err((9, 499)));
        table.push(0);
        assert_eq!(verdict(&one, &table), Err((14, 0)));
        assert_eq!(verdict(&one, &table_of(&rows)), Err((14, 0)));
    }
}

#[test]
fn an_entry_of_a_judged_table() {
    let table = sample_table();
    for one in implementations() {
        for index in 0..4 {
            assert_eq!(judged_entry(&one, &table, index), entry(&one, &table, index));
        }
        assert_eq!(called(one.table_judged_entry, &[], 0, 62), Err((1, 0)));
        assert_eq!(judged_entry(&one, &table, usize::MAX), Err((14, 0)));
        // Of the header only the count is looked at, and it is not judged.
        assert_eq!(judged_entry(&one, &changed(&[(0, 0)]), 1), Ok((300, 2, vec![0xFC])));
        assert_eq!(judged_entry(&one, &changed(&[(2, 1)]), 1), Err((14, 0)));
        assert_eq!(judged_entry(&one, &changed(&[(1, 255)]), 1), Ok((300, 2, vec![0xFC])));
        assert_eq!(judged_entry(&one, &changed(&[(1, 255)]), 2), Err((13, 0)));
        // A table that ends behind the entry is whole enough for it.
        for length in 0..table.len() {
            let cut = &table[..length];
            let first = if length < 70 { Err((13, 0)) } else { Ok((7, 1, vec![0xFC])) };
            assert_eq!(judged_entry(&one, cut, 0), first);
            assert_eq!(judged_entry(&one, cut, 1), Err((13, 0)));
            assert_eq!(judged_entry(&one, cut, 2), Err((if length < 3 { 13 } else { 14 }, 0)));
        }
        // The entry's own refusal is reported at its index, and no other entry's.
        assert_eq!(judged_entry(&one, &changed(&[(70, 0)]), 1), Err((14, 1)));
        assert_eq!(judged_entry(&one, &changed(&[(70, 0)]), 0), Ok((7, 1, vec![0xFC])));
        assert_eq!(judged_entry(&one, &changed(&[(7, b's')]), 0), Err((9, 0)));
        assert_eq!(judged_entry(&one, &changed(&[(7, b's')]), 1), Ok((300, 2, vec![0xFC])));
        // A reader number below that of the entry before is not looked at.
        assert_eq!(judged_entry(&one, &changed(&[(71, 0), (72, 0)]), 1), Ok((0, 2, vec![0xFC])));
    }
}

#[test]
fn a_header_by_itself() {
    let headers: [(u8, &[u8], Result<u64, Error>); 18] = [
        (0x48, &[], Err((13, 0))),
        (0x48, &[0x48], Err((13, 0))),
        (0x48, &[0x49], Err((14, 0))),
        (0x49, &[0x48], Err((14, 0))),
        (0x49, &[0x49, 0x00], Err((13, 0))),
        (0x49, &[0x48, 0x00], Err((14, 0))),
        (0x48, &[0x48, 0x00, 0x00], Err((14, 0))),
        (0x48, &[0x48, 0x00, 0x01], Ok(1)),
        (0x49, &[0x49, 0x00, 0x02], Ok(2)),
        (0x48, &[0x49, 0x00, 0x02], Err((14, 0))),
        (0x49, &[0x49, 0x01, 0x00], Ok(256)),
        (0x49, &[0x49, 0x01, 0xF4], Ok(500)),
        (0x49, &[0x49, 0x01, 0xF5], Err((14, 0))),
        (0x49, &[0x49, 0xFF, 0xFF], Err((14, 0))),
        (0x00, &[0x00, 0x00, 0x07], Ok(7)),
        (0xFF, &[0xFF, 0x00, 0x07], Ok(7)),
        // What follows is not looked at.
        (0x48, &[0x48, 0x00, 0x02, 0xFF], Ok(2)),
        (0x48, &[0x48, 0x01, 0xF5, 0x00], Err((14, 0))),
    ];
    for one in implementations() {
        for (kind, table, answer) in headers {
            let call = |five: &mut [u64]| (one.table_header)(table, kind.into(), &mut [], five);
            assert_eq!(numbers(call).map(|five| five[2]), answer, "{kind:X} {table:X?}");
        }
    }
}

#[test]
fn an_entry_by_itself() {
    let whole = &sample_table()[70..];
    let changed = |position: usize, byte: u8| {
        let mut entry = whole.to_vec();
        entry[position] = byte;
        entry
    };
    for one in implementations() {
        let read = |bytes: &[u8], least, position| {
            tables::entry(one.table_lone_entry, bytes, [least, position])
        };
        for least in [0, 1, 299, 300] {
            assert_eq!(read(whole, least, 5), Ok((300, 2, vec![0xFC])));
        }
        for least in [301, 65_535, 65_536 + 300, (1 << 32) + 300, usize::MAX] {
            assert_eq!(read(whole, least, 5), Err((14, 5)));
        }
        for length in 0..67 {
            assert_eq!(read(&whole[..length], 0, 5), Err((13, 0)));
        }
        assert_eq!(read(&[whole, &[0]].concat(), 0, 5), Err((14, 0)));
        assert_eq!(read(&[whole, whole].concat(), 0, 5), Err((14, 0)));
        // kind, length 0 and 64, filling; then the label's own
        for (position, byte) in [(0, 0x48), (0, 0x51), (3, 0), (3, 64), (3, 8), (66, 1)] {
            assert_eq!(read(&changed(position, byte), 0, 7), Err((14, 7)));
        }
        assert_eq!(read(&changed(12, b'z'), 0, usize::MAX), Err((9, u64::MAX)));
        assert_eq!(read(&changed(0, 0x41), 300, 1), Err((7, 1)));
        assert_eq!(read(&changed(4, b'x'), 300, 0), Err((8, 0)));
        assert_eq!(read(&changed(4, b'x'), 301, 1), Err((14, 1)));
        // Capacity before length.
        assert_eq!(called(one.table_lone_entry, whole, [0, 1], 62), Err((1, 0)));
        assert_eq!(called(one.table_lone_entry, &[], [0, 1], 62), Err((1, 0)));
        assert_eq!(called(one.table_lone_entry, whole, [0, 1], 64), Ok(vec![0xFC]));
    }
}
