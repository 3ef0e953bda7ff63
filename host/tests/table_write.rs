//! Writing a name table from a list (02), and reading it back. On each
//! implementation at hand; with the feature `proved` the proved program lists it.

mod shared;
#[path = "shared/tables.rs"]
mod tables;

use distelhut_host::functions::{implementations, Implementation};
use distelhut_host::generate::lists::{lawful_entries, Entry, List};
use distelhut_host::generate::{tables::whole_table, Source};
use distelhut_host::papers::{ever_changing, in_turn, sample_table, table_of};
#[cfg(feature = "proved")]
use distelhut_host::scheme::Scheme;
use shared::{filled, Error};
use tables::{entry, verdict};

/// A text of so many small letters a.
fn a(times: usize) -> Vec<u32> {
    vec![0x61; times]
}

/// The bytes that a table of so many entries has.
fn length_of(entries: usize) -> usize {
    3 + 67 * entries
}

/// Writes rows into a buffer of a capacity. Answers the bytes written, or the error.
fn rows_written(one: &Implementation, list: &List, capacity: usize) -> Result<Vec<u8>, Error> {
    let List { readers, schemes, lengths, points } = list;
    filled(capacity, |table, answer| {
        (one.table_write)(readers, schemes, lengths, points, table, answer);
    })
}

/// Writes entries into a buffer that is long enough and no longer.
fn written(one: &Implementation, entries: &[Entry]) -> Result<Vec<u8>, Error> {
    rows_written(one, &List::of(entries), length_of(entries.len()))
}

/// The entries of a table, read one by one.
fn entries_of(one: &Implementation, table: &[u8]) -> Result<Vec<Entry>, Error> {
    let count = verdict(one.table_read, table)? as usize;
    let listed = |index| {
        let (reader, scheme, text) = entry(one.table_entry, table, index)?;
        Ok((reader as u16, scheme as u32, text))
    };
    (0..count).map(listed).collect()
}

#[test]
fn the_papers_table() {
    let entries = [(7, 1, vec![0xFC]), (300, 2, vec![0xFC])];
    for one in implementations() {
        assert_eq!(written(&one, &entries), Ok(sample_table()));
        for capacity in [138, 200, 33_503] {
            let table = rows_written(&one, &List::of(&entries), capacity);
            assert_eq!(table, Ok(sample_table()));
        }
        for capacity in 0..137 {
            assert_eq!(rows_written(&one, &List::of(&entries), capacity), Err((1, 0)));
        }
    }
}

#[test]
fn capacity_before_all_else() {
    for one in implementations() {
        let list = List::of(&[(7, 9, Vec::new())]);
        assert_eq!(rows_written(&one, &list, 69), Err((1, 0)));
        assert_eq!(rows_written(&one, &list, 70), Err((14, 0)));
        // The number of entries is that of the reader numbers.
        let more = List { schemes: vec![1; 3], lengths: vec![1; 3], points: a(3), ..list };
        assert_eq!(rows_written(&one, &more, 69), Err((1, 0)));
        assert_eq!(rows_written(&one, &more, 70), Err((14, 0)));
        let fewer = List { readers: vec![7, 8], schemes: vec![1], lengths: vec![1], points: a(1) };
        assert_eq!(rows_written(&one, &fewer, 136), Err((1, 0)));
        assert_eq!(rows_written(&one, &fewer, 137), Err((14, 0)));
    }
}

#[test]
fn the_number_of_entries() {
    let entries: Vec<Entry> = (0..65_538).map(|index| (index as u16, 1, a(1))).collect();
    for one in implementations() {
        for capacity in 0..3 {
            assert_eq!(rows_written(&one, &List::of(&[]), capacity), Err((1, 0)));
        }
        assert_eq!(rows_written(&one, &List::of(&[]), 3), Err((14, 0)));
        assert_eq!(rows_written(&one, &List::of(&entries[..501]), 33_569), Err((1, 0)));
        assert_eq!(rows_written(&one, &List::of(&entries[..501]), 33_570), Err((14, 0)));
        assert_eq!(rows_written(&one, &List::of(&entries[..500]), 33_502), Err((1, 0)));
        let rows: Vec<_> = (0..500).map(|reader| (0x41, reader, b"b".to_vec())).collect();
        assert_eq!(rows_written(&one, &List::of(&entries[..500]), 33_503), Ok(table_of(&rows)));
        // Two more than two bytes hold: neither capacity nor number is taken for that of two.
        assert_eq!(rows_written(&one, &List::of(&entries), 33_503), Err((1, 0)));
        assert_eq!(written(&one, &entries), Err((14, 0)));
    }
}

#[test]
fn rows_of_other_lengths() {
    let good = List::of(&[(7, 1, a(1)), (8, 1, a(1))]);
    let bad = [
        List { schemes: vec![1, 1, 1], ..good.clone() },
        List { schemes: vec![1], ..good.clone() },
        List { schemes: Vec::new(), ..good.clone() },
        List { lengths: vec![2], ..good.clone() },
        List { lengths: vec![1, 1, 0], ..good.clone() },
        List { lengths: Vec::new(), points: Vec::new(), ..good.clone() },
        List { points: a(1), ..good.clone() },
        List { points: a(3), ..good.clone() },
        List { points: Vec::new(), ..good.clone() },
        // Before any entry: the reader numbers do not rise, the scheme is unknown, the text bad.
        List { readers: vec![7, 7], points: a(3), ..good.clone() },
        List { schemes: vec![0, 9], points: a(3), ..good.clone() },
        List { points: vec![0x61, 0xD800, 0x61], ..good.clone() },
    ];
    for one in implementations() {
        assert!(rows_written(&one, &good, 137).is_ok());
        for list in &bad {
            assert_eq!(rows_written(&one, list, 137), Err((14, 0)), "{list:?}");
        }
        let three_schemes = List { schemes: vec![1; 3], ..List::of(&[(7, 1, a(1))]) };
        assert_eq!(rows_written(&one, &three_schemes, 70), Err((14, 0)));
    }
}

#[test]
fn the_sum_of_the_lengths_does_not_wrap() {
    let half = 1 << 63;
    let lengths = [
        vec![usize::MAX, 3],
        vec![3, usize::MAX],
        vec![half, half + 2],
        vec![half + 1, half + 1],
        vec![1, (1 << 32) + 1],
        vec![1, usize::MAX],
    ];
    for one in implementations() {
        for lengths in &lengths {
            let good = List::of(&[(7, 1, a(1)), (8, 1, a(1))]);
            let list = List { lengths: lengths.clone(), ..good };
            assert_eq!(rows_written(&one, &list, 137), Err((14, 0)), "{lengths:?}");
        }
        let four = List::of(&[(1, 1, a(1)), (2, 1, a(1)), (3, 1, a(1)), (4, 1, a(1))]);
        let list = List { lengths: vec![half, half, half, half + 4], ..four };
        assert_eq!(rows_written(&one, &list, 271), Err((14, 0)));
    }
}

#[test]
fn each_refusal_of_an_entry() {
    let bad: [(u16, u32, Vec<u32>, u64); 25] = [
        (7, 1, a(1), 14),
        (6, 1, a(1), 14),
        (0, 1, a(1), 14),
        (8, 0, a(1), 14),
        (8, 4, a(1), 14),
        (8, 9, a(1), 14),
        (8, 257, a(1), 14),
        (8, 258, a(1), 14),
        (8, u32::MAX, a(1), 14),
        (8, 1, Vec::new(), 2),
        (8, 2, Vec::new(), 2),
        (8, 1, vec![0x61, 0x61, 0x61, 0xD800], 4),
        (8, 2, vec![0x110000], 4),
        (8, 1, vec![0x2D, 0x61], 5),
        (8, 1, vec![0x61, 0x2D], 5),
        (8, 2, a(1), 6),
        (8, 2, a(63), 6),
        (8, 1, a(64), 3),
        (8, 2, vec![0x431; 300], 3),
        (8, 259, a(1), 14),
        (8, 3, Vec::new(), 2),
        (8, 3, vec![0x2D, 0xD83E, 0xDDF6], 4),
        (8, 3, a(64), 3),
        (8, 3, vec![0xFC; 41], 3),
        (8, 3, vec![0x1F9F6; 32], 3),
    ];
    for one in implementations() {
        for (reader, scheme, text, code) in &bad {
            let second = (*reader, *scheme, text.clone());
            let last = (9, 1, a(1));
            let entries = [(7, 1, a(1)), second, last];
            assert_eq!(written(&one, &entries[..2]), Err((*code, 1)), "{:?}", entries[1]);
            assert_eq!(written(&one, &entries), Err((*code, 1)), "{:?}", entries[1]);
        }
        assert_eq!(written(&one, &[(7, 2, vec![0x431; 300])]), Err((3, 0)));
    }
}

#[test]
fn order_of_the_refusals_of_entries() {
    let bad: [(Vec<Entry>, Error); 11] = [
        // An entry's label before the next one's number, and the number before the label.
        (vec![(7, 2, a(1)), (7, 1, a(1))], (6, 0)),
        (vec![(7, 1, a(1)), (7, 2, a(1))], (14, 1)),
        // Number before label, scheme before label.
        (vec![(7, 1, a(1)), (6, 1, Vec::new())], (14, 1)),
        (vec![(7, 1, a(1)), (8, 0, Vec::new())], (14, 1)),
        (vec![(7, 1, a(1)), (8, 9, vec![0xD800])], (14, 1)),
        // The label's own: 2, 4, then 5 or 6, then 3.
        (vec![(7, 1, vec![0x2D, 0xD800])], (4, 0)),
        (vec![(7, 2, [a(70), vec![0xD800]].concat())], (4, 0)),
        (vec![(7, 1, vec![0x2D; 70])], (5, 0)),
        (vec![(7, 3, [a(70), vec![0xD800]].concat())], (4, 0)),
        // A later entry is not looked at before an earlier one.
        (vec![(7, 1, a(1)), (8, 1, a(64)), (8, 0, Vec::new())], (3, 1)),
        (vec![(7, 1, a(1)), (8, 1, a(1)), (8, 1, a(1)), (9, 1, Vec::new())], (14, 2)),
    ];
    for one in implementations() {
        for (entries, error) in &bad {
            assert_eq!(written(&one, entries), Err(*error), "{entries:?}");
        }
    }
}

#[test]
fn edges_are_written_and_read_back() {
    let lists: [Vec<Entry>; 9] = [
        vec![(0, 1, a(1)), (65_535, 1, a(1))],
        vec![(65_535, 2, vec![0x2D, 0x61, 0x62])],
        vec![(255, 1, a(63)), (256, 2, vec![0x431; 34])],
        vec![(1, 1, in_turn(10)), (2, 2, ever_changing(17)), (3, 2, vec![0x2D; 34])],
        vec![(1, 1, vec![0x10FFFF]), (2, 2, vec![0x10FFFF])],
        vec![(1, 1, vec![0]), (2, 2, vec![0]), (3, 3, vec![0])],
        vec![(1, 3, a(63)), (2, 3, vec![0xFC; 40]), (3, 3, [vec![0xFC], a(54)].concat())],
        vec![(1, 3, vec![0x2D, 0x61, 0x62]), (2, 3, vec![0x10FFFF]), (3, 1, a(1))],
        vec![(1, 3, vec![0x41, 0xFC, 0x61]), (2, 3, vec![0x61, 0xFC, 0x41])],
    ];
    for one in implementations() {
        for entries in &lists {
            let table = written(&one, entries).unwrap();
            assert_eq!(table.len(), length_of(entries.len()));
            assert_eq!(entries_of(&one, &table).as_ref(), Ok(entries));
        }
    }
}

#[test]
fn generated_lists_are_read_back() {
    for one in implementations() {
        let mut source = Source::new(21);
        for turn in 0..3000 {
            let entries = lawful_entries(&mut source, 1 + turn % 7, None);
            let table = written(&one, &entries).unwrap();
            assert_eq!(entries_of(&one, &table), Ok(entries));
        }
    }
}

#[test]
fn what_is_read_is_written_again() {
    for one in implementations() {
        let mut source = Source::new(22);
        for turn in 0..3000 {
            let table = whole_table(&mut source, 1 + turn % 7, None);
            let entries = entries_of(&one, &table).unwrap();
            assert_eq!(written(&one, &entries), Ok(table));
        }
        // A label with a capital is written small, and BRACE's base-32 in capitals.
        let table = table_of(&[(0x41, 7, b"3N".to_vec()), (0x4C, 300, b"LQ--74apy".to_vec())]);
        let entries = entries_of(&one, &table).unwrap();
        assert_eq!(written(&one, &entries), Ok(sample_table()));
        let entries = entries_of(&one, &table_of(&[(0x42, 7, b"22zi-Ab-8q9".to_vec())])).unwrap();
        let table = table_of(&[(0x42, 7, b"22ZI-Ab-8Q9".to_vec())]);
        assert_eq!(written(&one, &entries), Ok(table));
    }
}

/// What the program prints for a list.
#[cfg(feature = "proved")]
fn listing_of(entries: &[Entry]) -> String {
    let line = |(reader, scheme, text): &Entry| {
        let letter = Scheme::of_number(*scheme).unwrap().letter();
        let points: String = text.iter().map(|point| format!(" U+{point:04X}")).collect();
        format!("{reader:05} {letter}{points}\n")
    };
    entries.iter().map(line).collect()
}

/// What the proved program prints for a table.
#[cfg(feature = "proved")]
fn listed(table: &[u8]) -> String {
    use std::io::Write;
    use std::process::{Command, Stdio};
    let program = concat!(env!("CARGO_MANIFEST_DIR"), "/../target/bin/nametable_list");
    let mut listing = Command::new(program)
        .stdin(Stdio::piped())
        .stdout(Stdio::piped())
        .spawn()
        .expect("the program is at hand");
    listing.stdin.take().unwrap().write_all(table).unwrap();
    String::from_utf8(listing.wait_with_output().unwrap().stdout).unwrap()
}

#[cfg(feature = "proved")]
#[test]
fn written_tables_are_listed() {
    let mut source = Source::new(23);
    let sizes = (0..60).map(|turn| 1 + turn % 9).chain([60, 500]);
    for entries in sizes.map(|size| lawful_entries(&mut source, size, None)) {
        for one in implementations() {
            let table = written(&one, &entries).unwrap();
            assert_eq!(listed(&table), listing_of(&entries));
        }
    }
    let sample = [(7, 1, vec![0xFC]), (300, 2, vec![0xFC]), (301, 3, vec![0xFC])];
    for one in implementations() {
        let table = written(&one, &sample).unwrap();
        assert_eq!(
            listed(&table),
            "00007 A U+00FC
00300 L U+00FC
00301 B U+00FC
"
        );
    }
}
