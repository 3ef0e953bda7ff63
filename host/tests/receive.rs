//! The receiver (02): a table that comes in chunks answers what it does when it is read
//! at once, however it was cut. On each implementation at hand; what is seen of the state
//! itself on the independent one.

#[path = "shared/handed_in.rs"]
mod handed_in;
mod shared;
#[path = "shared/tables.rs"]
mod tables;

use distelhut_host::functions::{implementations, Implementation};
use distelhut_host::generate::chunks::chunks;
use distelhut_host::generate::tables::{whole_table, with_faults};
use distelhut_host::generate::Source;
use distelhut_host::nametable;
use distelhut_host::papers::{sample_short_table, sample_table, table_of};
use distelhut_host::receiver::Receiver;
use handed_in::handed_in;
use shared::{numbers, Error};
use std::collections::BTreeSet;

/// The number of entries of a table received in chunks of these lengths, or the error.
fn received(one: &Implementation, lengths: &[usize], bytes: &[u8]) -> Result<u64, Error> {
    numbers(|five| (one.receive)(lengths, bytes, five)).map(|five| {
        assert_eq!(five[3..], [0, 0]);
        five[2]
    })
}

/// The number of entries of a table read at once, or the error.
fn at_once(one: &Implementation, table: &[u8]) -> Result<u64, Error> {
    tables::verdict(one.table_read, table)
}

/// Chunks of one length, enough for so many bytes.
fn steps(bytes: usize, step: usize) -> Vec<usize> {
    vec![step; bytes.div_ceil(step)]
}

/// Received whole, in chunks of 1 and of some other lengths, the answer is this.
fn answers(one: &Implementation, table: &[u8], expected: Result<u64, Error>) {
    assert_eq!(at_once(one, table), expected);
    assert_eq!(received(one, &[table.len()], table), expected);
    for step in [1, 2, 3, 4, 5, 66, 67, 68, 70, 71, 4096] {
        assert_eq!(received(one, &steps(table.len(), step), table), expected, "{step}");
    }
}

/// The sample with some bytes changed.
fn changed(changes: &[(usize, u8)]) -> Vec<u8> {
    let mut table = sample_table();
    for &(position, byte) in changes {
        table[position] = byte;
    }
    table
}

/// A table and a byte after it.
fn and_one(table: &[u8]) -> Vec<u8> {
    [table, &[0]].concat()
}

/// A table of so many entries, all in order.
fn table_with(entries: u16) -> Vec<u8> {
    table_of(&(0..entries).map(|reader| (0x41, reader, b"3n".to_vec())).collect::<Vec<_>>())
}

#[test]
fn headers() {
    let headers: [(&[u8], u64); 17] = [
        (&[], 13),
        (&[0x48], 13),
        (&[0x49], 14),
        (&[0x00], 14),
        (&[0x41], 14),
        (&[0x48, 0x00], 13),
        (&[0x48, 0xFF], 13),
        (&[0x49, 0x00], 14),
        (&[0x48, 0x00, 0x00], 14),
        (&[0x48, 0x00, 0x01], 13),
        (&[0x48, 0x01, 0x00], 13),
        (&[0x48, 0x01, 0xF4], 13),
        (&[0x48, 0x01, 0xF5], 14),
        (&[0x48, 0x02, 0x00], 14),
        (&[0x48, 0xFF, 0xFF], 14),
        (&[0x49, 0x00, 0x01], 14),
        (&[0x48, 0x00, 0x00, 0x00], 14),
    ];
    for one in implementations() {
        for (header, code) in headers {
            answers(&one, header, Err((code, 0)));
        }
        answers(&one, &sample_short_table(), Err((14, 0)));
    }
}

#[test]
fn the_papers_table() {
    let table = sample_table();
    assert_eq!(table.len(), 137);
    for one in implementations() {
        assert_eq!(received(&one, &[137], &table), Ok(2));
        assert_eq!(received(&one, &[1; 137], &table), Ok(2));
        assert_eq!(received(&one, &[70], &table), Err((13, 0)));
        assert_eq!(received(&one, &[1; 70], &table), Err((13, 0)));
        assert_eq!(received(&one, &[70, 67], &table), Ok(2));
        answers(&one, &table, Ok(2));
        answers(&one, &and_one(&table), Err((14, 0)));
        for length in 0..137 {
            assert_eq!(received(&one, &[length], &table), Err((13, 0)));
            assert_eq!(received(&one, &steps(length, 1), &table), Err((13, 0)));
        }
    }
}

#[test]
fn the_length_decides_before_an_entrys_refusal() {
    // The refusals of an entry, and those of its label.
    let bad: [(&[(usize, u8)], Error); 15] = [
        (&[(82, b'z')], (9, 1)),
        (&[(3, 0x43)], (14, 0)),
        (&[(70, 0x43)], (14, 1)),
        (&[(71, 0x00), (72, 0x07)], (14, 1)),
        (&[(71, 0x00), (72, 0x00)], (14, 1)),
        (&[(6, 0)], (14, 0)),
        (&[(6, 0), (7, 0), (8, 0)], (14, 0)),
        (&[(6, 64)], (14, 0)),
        (&[(9, 1)], (14, 0)),
        (&[(83, 1)], (14, 1)),
        (&[(69, 1)], (14, 0)),
        (&[(136, 1)], (14, 1)),
        (&[(7, b's')], (9, 0)),
        (&[(74, b'x')], (8, 1)),
        (&[(6, 3)], (7, 0)),
    ];
    for one in implementations() {
        for (changes, error) in bad {
            let table = changed(changes);
            answers(&one, &table[..136], Err((13, 0)));
            answers(&one, &table, Err(error));
            answers(&one, &and_one(&table), Err((14, 0)));
        }
        // one entry of kind 43
        let mut table = table_with(1);
        table[3] = 0x43;
        answers(&one, &table[..69], Err((13, 0)));
        answers(&one, &table, Err((14, 0)));
        answers(&one, &and_one(&table), Err((14, 0)));
    }
}

#[test]
fn the_first_refusal_counts() {
    let bad: [(&[(usize, u8)], Error); 9] = [
        (&[(7, b's'), (70, 0x43)], (9, 0)),
        (&[(7, b's'), (74, b'x')], (9, 0)),
        (&[(3, 0x43), (74, b'x')], (14, 0)),
        (&[(69, 1), (82, b'z')], (14, 0)),
        // within an entry: kind, number, length, filling before the label
        (&[(70, 0x43), (74, b'x')], (14, 1)),
        (&[(72, 0x00), (71, 0x00), (74, b'x')], (14, 1)),
        (&[(73, 64), (74, b'x')], (14, 1)),
        (&[(82, b'z'), (136, 1)], (14, 1)),
        // a header before an entry
        (&[(0, 0x49), (7, b's')], (14, 0)),
    ];
    for one in implementations() {
        for (changes, error) in bad {
            answers(&one, &changed(changes), Err(error));
        }
        // What follows a refused entry changes nothing.
        let label = |label: &[u8]| label.to_vec();
        let rows = [(0x41, 9, label(b"x")), (0x41, 3, label(b"3n")), (0x41, 4, label(b"3n"))];
        answers(&one, &table_of(&rows), Err((9, 0)));
        // A zero inside the counted label is a byte of the label, not filling.
        answers(&one, &table_of(&[(0x41, 9, label(b"3n\0"))]), Err((7, 0)));
    }
}

#[test]
fn each_kind_and_each_edge_of_an_entry() {
    let label = |length| vec![b'a'; length];
    for one in implementations() {
        let all = [
            (0x41, 0, label(63)),
            (0x42, 1, b"22zI-Ab-8q9".to_vec()),
            (0x4C, 255, b"lq--74apy".to_vec()),
            (0x41, 256, label(1)),
            (0x41, 65_535, label(62)),
        ];
        answers(&one, &table_of(&all), Ok(5));
        for kind in (0..=255).filter(|kind| ![0x41, 0x42, 0x4C].contains(kind)) {
            let mut table = table_of(&all);
            table[3 + 2 * 67] = kind;
            answers(&one, &table, Err((14, 2)));
        }
        for second in [0, 1, 254, 255] {
            let rows = [(0x41, 255, label(1)), (0x41, second, label(1))];
            answers(&one, &table_of(&rows), Err((14, 1)));
            let rows = [(0x41, 0, label(1)), rows[0].clone(), rows[1].clone()];
            answers(&one, &table_of(&rows), Err((14, 2)));
        }
        for (code, label) in [(5, "-b"), (6, "lq--aiagcyq"), (7, "3l"), (8, "3n"), (9, "sb")] {
            let kind = if [6, 8].contains(&code) { 0x4C } else { 0x41 };
            let rows = [(0x41, 1, b"3n".to_vec()), (kind, 2, label.as_bytes().to_vec())];
            answers(&one, &table_of(&rows), Err((code, 1)));
        }
    }
}

#[test]
fn the_longest_table() {
    for one in implementations() {
        let mut table = table_with(500);
        assert_eq!(table.len(), 33_503);
        answers(&one, &table[..33_502], Err((13, 0)));
        answers(&one, &table, Ok(500));
        answers(&one, &and_one(&table), Err((14, 0)));
        // 90 bytes more, in one chunk and in 90
        let longer = [&and_one(&table)[..], &[0; 90]].concat();
        answers(&one, &longer, Err((14, 0)));
        let lengths = [&[33_504][..], &[1; 90]].concat();
        assert_eq!(received(&one, &lengths, &longer), Err((14, 0)));
        table[33_503 - 67 + 4] = b's';
        answers(&one, &table[..33_502], Err((13, 0)));
        answers(&one, &table, Err((9, 499)));
        answers(&one, &and_one(&table), Err((14, 0)));
        answers(&one, &table_with(501), Err((14, 0)));
    }
}

#[test]
fn bytes_after_the_longest_table_change_nothing() {
    for one in implementations() {
        // As many bytes as a table has, but for 2^16, are no table.
        for start in [sample_table(), table_with(500), changed(&[(7, b's')])] {
            for more in [65_535, 65_536, 65_537, 131_072] {
                let table = [&start[..], &vec![0; more]].concat();
                assert_eq!(received(&one, &[table.len()], &table), Err((14, 0)));
                assert_eq!(received(&one, &steps(table.len(), 1), &table), Err((14, 0)));
            }
        }
        // 500 entries are announced, and whatever follows is bad.
        let mut table = vec![0xFF; 40_000];
        table[..3].copy_from_slice(&[0x48, 0x01, 0xF4]);
        for (length, error) in [(33_502, (13, 0)), (33_503, (14, 0)), (33_504, (14, 0))] {
            answers(&one, &table[..length], Err(error));
        }
        answers(&one, &table, Err((14, 0)));
    }
}

#[test]
fn bytes_that_are_not_handed_in() {
    let table = sample_table();
    for one in implementations() {
        // no lengths, and none that takes bytes
        assert_eq!(received(&one, &[], &table), Err((13, 0)));
        assert_eq!(received(&one, &[], &[0x49]), Err((13, 0)));
        assert_eq!(received(&one, &[0; 9], &table), Err((13, 0)));
        assert_eq!(received(&one, &[], &[]), Err((13, 0)));
        assert_eq!(received(&one, &[0, 5, usize::MAX], &[]), Err((13, 0)));
        // bytes after the last chunk
        for lengths in [&[137][..], &[3, 67, 67], &[0, 137, 0], &[1; 137]] {
            assert_eq!(received(&one, lengths, &and_one(&table)), Ok(2));
            assert_eq!(received(&one, lengths, &[&table[..], &table].concat()), Ok(2));
        }
        for lengths in [&[136][..], &[3, 67, 66], &[0, 0, 70], &[1; 136]] {
            assert_eq!(received(&one, lengths, &table), Err((13, 0)));
        }
        assert_eq!(received(&one, &[1], &[0x48, 0x00, 0x00]), Err((13, 0)));
        assert_eq!(received(&one, &[3], &[0x48, 0x00, 0x00, 0x00]), Err((14, 0)));
    }
}

#[test]
fn lengths_past_the_end() {
    const HALF: usize = 1 << 63;
    let table = sample_table();
    for one in implementations() {
        for past in [138, 1 << 32, HALF - 1, HALF, HALF + 1, usize::MAX - 1, usize::MAX] {
            for lengths in [
                &[past][..],
                &[past, past],
                &[past, past, past],
                &[0, past, 0],
                &[1, past],
                &[70, past, 1],
                &[136, past, past],
                &[137, past],
                &[past, 137],
            ] {
                assert_eq!(received(&one, lengths, &table), Ok(2), "{lengths:?}");
                assert_eq!(received(&one, lengths, &and_one(&table)), Err((14, 0)));
            }
        }
        // The sum of each of these is 137 modulo 2^64.
        for lengths in [[HALF, HALF, 137], [usize::MAX, 1, 137], [100, usize::MAX - 36, 74]] {
            assert_eq!(received(&one, &lengths, &and_one(&table)), Err((14, 0)));
            assert_eq!(received(&one, &lengths, &table), Ok(2));
        }
    }
}

#[test]
fn chunks_of_no_bytes_anywhere() {
    let tables = [
        (sample_table(), Ok(2)),
        (changed(&[(82, b'z')]), Err((9, 1))),
        (changed(&[(0, 0x49)]), Err((14, 0))),
        (and_one(&sample_table()), Err((14, 0))),
        (sample_table()[..136].to_vec(), Err((13, 0))),
    ];
    for one in implementations() {
        for (table, expected) in &tables {
            let rest = |cut| table.len() - cut;
            for cut in 0..=table.len() {
                assert_eq!(received(&one, &[0, cut, 0, rest(cut)], table), *expected);
                assert_eq!(received(&one, &[cut, 0, 0, 0, rest(cut), 0], table), *expected);
            }
            let among: Vec<usize> = (0..2 * table.len()).map(|index| index % 2).collect();
            assert_eq!(received(&one, &among, table), *expected);
        }
    }
}

/// Small tables: whole, damaged in several ways at once, cut and too long.
fn small_tables() -> Vec<Vec<u8>> {
    let one_entry = table_of(&[(0x4C, 300, b"lq--74apy".to_vec())]);
    let sample = sample_table();
    vec![
        one_entry.clone(),
        one_entry[..69].to_vec(),
        and_one(&one_entry),
        table_of(&[(0x4C, 300, b"lq--74apz".to_vec())]),
        sample.clone(),
        sample[..136].to_vec(),
        sample[..70].to_vec(),
        and_one(&sample),
        changed(&[(82, b'z')]),
        changed(&[(7, b's'), (70, 0x43)]),
        changed(&[(71, 0x00), (72, 0x07), (82, b'z')]),
        changed(&[(136, 1), (82, b'z')]),
        changed(&[(2, 3)]),
        changed(&[(2, 1), (7, b's')]),
        changed(&[(1, 2)]),
        changed(&[(0, 0x49), (3, 0)]),
    ]
}

#[test]
fn small_tables_cut_in_two_and_in_three() {
    for one in implementations() {
        for table in small_tables() {
            let expected = at_once(&one, &table);
            for first in 0..=table.len() {
                for second in first..=table.len() {
                    let lengths = [first, second - first, table.len() - second];
                    assert_eq!(received(&one, &lengths, &table), expected, "{lengths:?}");
                    // only two of the three handed in
                    let part = at_once(&one, &table[..second]);
                    assert_eq!(received(&one, &lengths[..2], &table), part, "{lengths:?}");
                }
            }
        }
    }
}

#[test]
fn small_tables_in_every_uniform_step() {
    for one in implementations() {
        for table in small_tables() {
            let expected = at_once(&one, &table);
            for step in 1..=table.len() + 1 {
                let lengths = steps(table.len(), step);
                assert_eq!(received(&one, &lengths, &table), expected, "{step}");
            }
        }
    }
}

#[test]
fn every_beginning_of_small_tables_byte_by_byte() {
    for one in implementations() {
        for table in small_tables() {
            for length in 0..=table.len() {
                let expected = at_once(&one, &table[..length]);
                assert_eq!(received(&one, &steps(length, 1), &table), expected);
            }
        }
    }
}

/// Every way of cutting so many bytes in chunks of one byte or more.
fn every_cutting(bytes: usize) -> Vec<Vec<usize>> {
    let cutting = |cuts: u32| {
        let mut lengths = vec![1];
        for index in 1..bytes {
            match cuts >> (index - 1) & 1 {
                1 => lengths.push(1),
                _ => *lengths.last_mut().unwrap() += 1,
            }
        }
        lengths
    };
    (0..1 << (bytes - 1)).map(cutting).collect()
}

#[test]
fn every_cutting_of_a_tables_first_bytes() {
    assert_eq!(every_cutting(3), [vec![3], vec![1, 2], vec![2, 1], vec![1, 1, 1]]);
    let sample = sample_table();
    for one in implementations() {
        for start in [&sample[..], &[0x48, 0x00, 0x00], &[0x49], &[0x48, 0x01, 0xF5, 0x41]] {
            for bytes in 1..=start.len().min(12) {
                let expected = at_once(&one, &start[..bytes]);
                for lengths in every_cutting(bytes) {
                    assert_eq!(received(&one, &lengths, &start[..bytes]), expected);
                }
            }
        }
    }
}

#[test]
fn every_cutting_of_a_tables_last_bytes() {
    let label = table_of(&[(0x41, 1, vec![b'a'; 63])]);
    let bad_label = table_of(&[(0x41, 1, [&[b'a'; 62][..], b"x"].concat())]);
    for one in implementations() {
        for table in [&sample_table(), &and_one(&sample_table()), &label, &bad_label] {
            let expected = at_once(&one, table);
            for last in every_cutting(11) {
                let lengths = [&[table.len() - 11][..], &last].concat();
                assert_eq!(received(&one, &lengths, table), expected);
            }
        }
    }
}

#[test]
fn every_cutting_where_an_entry_ends_and_the_next_begins() {
    let long = |kind, label: &[u8]| vec![(0x41, 7, vec![b'a'; 63]), (kind, 300, label.to_vec())];
    let tables = [
        (sample_table(), Ok(2)),
        (changed(&[(69, 1)]), Err((14, 0))),
        (changed(&[(70, 0x43)]), Err((14, 1))),
        (changed(&[(71, 0x00), (72, 0x07)]), Err((14, 1))),
        (changed(&[(73, 64)]), Err((14, 1))),
        (changed(&[(74, b'x')]), Err((8, 1))),
        (changed(&[(82, b'z')]), Err((9, 1))),
        // the first label goes up to the second entry
        (table_of(&long(0x41, b"3n")), Ok(2)),
        (table_of(&long(0x4C, b"3n")), Err((8, 1))),
    ];
    for one in implementations() {
        for (table, expected) in &tables {
            assert_eq!(at_once(&one, table), *expected);
            // The cuts are after 65 to 75 bytes: each of the eleven is made or not.
            for mut lengths in every_cutting(12) {
                lengths[0] += 64;
                *lengths.last_mut().unwrap() += table.len() - 76;
                assert_eq!(received(&one, &lengths, table), *expected, "{lengths:?}");
            }
        }
    }
}

/// The lengths of some chunks that hold so many bytes.
fn random_chunks(source: &mut Source, bytes: usize) -> Vec<usize> {
    let most = source.pick(&[1, 3, 67, 70, 500, 40_000]);
    let mut lengths = Vec::new();
    let mut rest = bytes;
    while rest > 0 {
        let length = source.below(most + 1);
        lengths.push(length);
        rest -= length.min(rest);
    }
    lengths
}

#[test]
fn large_tables_in_random_chunks() {
    for one in implementations() {
        let mut source = Source::new(45);
        let mut met = BTreeSet::new();
        for _ in 0..400 {
            let entries = source.pick(&[60, 255, 256, 499, 500]);
            let whole = whole_table(&mut source, entries, None);
            let mut table = with_faults(&mut source, whole);
            match source.below(8) {
                0 => table.truncate(source.below(table.len() + 1)),
                1 => table.extend(vec![0x41; source.pick(&[1, 67, 90, 40_000])]),
                _ => {}
            }
            let expected = at_once(&one, &table);
            met.insert(expected.map_or_else(|(code, _)| code, |_| 0));
            for _ in 0..3 {
                let lengths = random_chunks(&mut source, table.len());
                assert_eq!(received(&one, &lengths, &table), expected);
            }
        }
        assert!(met.is_superset(&BTreeSet::from([0, 7, 9, 13, 14])), "{met:?}");
    }
}

#[test]
fn generated_chunks() {
    for one in implementations() {
        let mut source = Source::new(46);
        let mut met = BTreeSet::new();
        for _ in 0..40_000 {
            let given = chunks(&mut source);
            let expected = at_once(&one, handed_in(&given.lengths, &given.bytes));
            assert_eq!(received(&one, &given.lengths, &given.bytes), expected, "{given:X?}");
            met.insert(expected.map_or_else(|(code, _)| code, |_| 0));
        }
        // Every refusal of a table was met.
        assert_eq!(met, BTreeSet::from([0, 5, 6, 7, 8, 9, 13, 14]));
    }
}

#[test]
fn the_number_of_entries_is_that_of_those_that_are_read_one_by_one() {
    for one in implementations() {
        let mut source = Source::new(47);
        for entries in [1, 2, 5, 60] {
            let table = whole_table(&mut source, entries, None);
            let lengths = random_chunks(&mut source, table.len());
            assert_eq!(received(&one, &lengths, &table), Ok(entries as u64));
            let read = |index| tables::entry(one.table_entry, &table, index);
            assert!((0..entries).all(|index| read(index).is_ok()));
            assert_eq!(read(entries), Err((14, 0)));
        }
    }
}

/// The independent receiver after a fresh start and some chunks.
fn receiver_after(chunks: &[&[u8]]) -> Receiver {
    let mut receiver = Receiver::start();
    chunks.iter().for_each(|chunk| receiver.take(chunk));
    receiver
}

#[test]
fn the_state_is_small() {
    assert!(size_of::<Receiver>() <= 160, "{}", size_of::<Receiver>());
}

#[test]
fn one_receiver_asked_after_every_byte() {
    for table in small_tables() {
        let mut receiver = Receiver::start();
        for length in 0..=table.len() {
            assert_eq!(receiver.finish(), nametable::read(&table[..length]));
            let in_one_chunk = receiver_after(&[&table[..length]]);
            assert_eq!(receiver, in_one_chunk);
            receiver.take(&[]);
            assert_eq!(receiver, in_one_chunk);
            receiver.take(&table[length..][..usize::from(length < table.len())]);
        }
    }
}

#[test]
fn bytes_are_counted_up_to_one_more_than_the_longest_table() {
    let starts = [table_with(500), sample_table(), vec![0x49], vec![0x48, 0x00, 0x00], vec![]];
    for mut table in starts {
        table.resize(33_503, 0);
        let mut receiver = receiver_after(&[&table]);
        let one_short = receiver.clone();
        receiver.take(&[0]);
        assert_ne!(receiver, one_short);
        assert_eq!(receiver.finish(), nametable::read(&and_one(&table)));
        let full = receiver.clone();
        for more in [1, 2, 67, 90, 65_536] {
            receiver.take(&vec![0x48; more]);
            assert_eq!(receiver, full);
        }
        assert_eq!(receiver, receiver_after(&[&table, &[0, 1, 2]]));
    }
}
