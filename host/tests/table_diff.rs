//! What differs between two name tables (02): the sheet. On each implementation at
//! hand; with the feature `proved` the proved program prints it too.

mod shared;
#[path = "shared/tables.rs"]
mod tables;

use distelhut_host::functions::{implementations, Implementation};
use distelhut_host::generate::pairs::{lawful_pair, pair, whole};
use distelhut_host::generate::short_tables::{lawful_entries, long_of, short_of, Entry};
use distelhut_host::generate::Source;
use distelhut_host::papers::{sample_short_table, sample_table, short_entry, short_table_with};
use distelhut_host::scheme::{Scheme, SCHEMES};
use shared::{filled, Error};
use std::collections::{BTreeMap, BTreeSet};
use tables::{entry, verdict};
use Scheme::{AltDude, Brace, Lace};

/// The capacity that a sheet needs.
const CAPACITY: usize = 16_546;

/// The last line of a sheet on which one entry is the same.
const ONE_SAME: &str = "same 1 other 0 respelled 0 left 0 right 0\n";

/// Makes the sheet of two tables in a buffer of a capacity. Answers it, or the error.
fn sheet_in(one: &Implementation, tables: [&[u8]; 2], capacity: usize) -> Result<String, Error> {
    let bytes = filled(capacity, |sheet, answer| (one.table_diff)(tables, sheet, answer))?;
    Ok(String::from_utf8(bytes).unwrap())
}

/// The sheet of two tables.
fn sheet(one: &Implementation, left: &[u8], right: &[u8]) -> String {
    sheet_in(one, [left, right], CAPACITY).unwrap()
}

/// Entries as a table of 01's form and as a short one.
fn both_forms(entries: &[Entry]) -> [Vec<u8>; 2] {
    [long_of(entries), short_of(entries)]
}

/// The sheet of these entries is this one, whatever the form of either table.
fn says(left: &[Entry], right: &[Entry], expected: &str) {
    for one in implementations() {
        for left in both_forms(left) {
            for right in both_forms(right) {
                assert_eq!(sheet(&one, &left, &right), expected);
            }
        }
    }
}

/// An entry by its label.
fn card(scheme: Scheme, reader: u16, label: &str) -> Entry {
    (scheme, reader, label.as_bytes().to_vec())
}

/// An entry by its text.
fn of_text(scheme: Scheme, reader: u16, text: &[u32]) -> Entry {
    let mut label = [0; 63];
    let count = scheme.encode(text, &mut label).unwrap();
    (scheme, reader, label[..count].to_vec())
}

/// The points of a text that is shown.
fn points(shown: &str) -> Vec<u32> {
    shown.chars().map(u32::from).collect()
}

/// The entries of 01's example.
fn sample() -> [Entry; 2] {
    [card(AltDude, 7, "3n"), card(Lace, 300, "lq--74apy")]
}

/// So many entries, the first of a reader number and each other one so much above.
fn stepping(entries: u16, first: u16, step: u16) -> Vec<Entry> {
    (0..entries).map(|index| card(AltDude, first + step * index, "b")).collect()
}

#[test]
fn the_requests_example() {
    let right = [card(Lace, 7, "lq--74apy")];
    let expected = "00007 respelled\n00300 only left\nsame 0 other 0 respelled 1 left 1 right 0\n";
    says(&sample(), &right, expected);
    for one in implementations() {
        for left in [sample_table(), sample_short_table()] {
            assert_eq!(sheet(&one, &left, &long_of(&right)), expected);
        }
    }
    let changed = "00007 respelled\n00300 only right\nsame 0 other 0 respelled 1 left 0 right 1\n";
    says(&right, &sample(), changed);
}

#[test]
fn labels_in_another_case() {
    let labels = [
        (AltDude, "3n", "3N"),
        (AltDude, "vsvpvd7hypuivf4q", "VSVpvd7hypuivf4Q"),
        (Lace, "lq--74apy", "LQ--74apy"),
        (Lace, "lq--74apy", "Lq--74ApY"),
        (Brace, "22ZI-8Q9", "22zi-8q9"),
        (Brace, "22ZI-8Q9", "22zI-8Q9"),
        (Brace, "22Z-a-I-8Q9", "22z-a-i-8q9"),
        (Brace, "S-a--8q9-8Q9", "s-a--8q9-8q9"),
    ];
    for (scheme, label, other) in labels {
        says(&[card(scheme, 7, label)], &[card(scheme, 7, other)], ONE_SAME);
        says(&[card(scheme, 7, other)], &[card(scheme, 7, label)], ONE_SAME);
    }
}

#[test]
fn capitals_that_brace_copies_are_another_text() {
    let expected = "00007 other text\nsame 0 other 1 respelled 0 left 0 right 0\n";
    for (one, other) in [("aB", "ab"), ("a\u{FC}", "A\u{FC}"), ("-Ab", "-ab"), ("a-8Q9", "a-8q9")] {
        let [one, other] = [one, other].map(|shown| of_text(Brace, 7, &points(shown)));
        assert_eq!(one.2.to_ascii_lowercase(), other.2.to_ascii_lowercase());
        says(std::slice::from_ref(&one), std::slice::from_ref(&other), expected);
        says(&[other], &[one], expected);
    }
    says(&[card(Brace, 7, "aB")], &[card(Brace, 7, "ab")], expected);
    says(&[card(Brace, 7, "22Z-a-I-8Q9")], &[card(Brace, 7, "22Z-A-I-8Q9")], expected);
    // Nor is the text of AltDUDE, which has no capitals, that of copied ones.
    says(&[of_text(AltDude, 7, &points("ab"))], &[card(Brace, 7, "AB")], expected);
}

#[test]
fn another_text_whatever_the_scheme() {
    let expected = "00007 other text\nsame 0 other 1 respelled 0 left 0 right 0\n";
    let texts: [(&[u32], &[u32]); 8] = [
        (&[0xFC], &[0xFC, 0xFC]),
        (&[0xFC, 0xFC], &[0xFC, 0xFC, 0xFC]),
        (&[0xFC, 0xE4], &[0xE4, 0xFC]),
        (&[0xFC, 0xE4], &[0xFC, 0xE5]),
        (&[0xFC, 0xE4], &[0xFD, 0xE4]),
        (&[0xFC], &[0x4FC]),
        (&[0xF9F6], &[0x1F9F6]),
        (&[0xFC], &[0xFC, 0x00]),
    ];
    for (text, other) in texts {
        for scheme in SCHEMES {
            for other_scheme in SCHEMES {
                let (one, other) = (of_text(scheme, 7, text), of_text(other_scheme, 7, other));
                says(std::slice::from_ref(&one), std::slice::from_ref(&other), expected);
                says(&[other], &[one], expected);
            }
        }
    }
    let (one, two) = (card(AltDude, 7, "3n"), card(Lace, 7, "lq--aiapz7a"));
    says(&[one], &[two], expected);
    // The longest texts, and only the last point another.
    let most = [0x61; 63].map(|point| point + 1);
    let mut last = most;
    last[62] = 0x61;
    says(&[of_text(AltDude, 7, &most)], &[of_text(AltDude, 7, &last)], expected);
    says(&[of_text(AltDude, 7, &most)], &[of_text(Brace, 7, &last)], expected);
    says(&[of_text(Brace, 7, &last)], &[of_text(AltDude, 7, &most[..62])], expected);
    // The same label under another scheme.
    says(&[card(AltDude, 7, "b")], &[card(Brace, 7, "b")], expected);
    says(&[card(Brace, 7, "3n")], &[card(AltDude, 7, "3n")], expected);
}

#[test]
fn the_same_text_under_each_scheme() {
    let respelled = "00007 respelled\nsame 0 other 0 respelled 1 left 0 right 0\n";
    let texts: [&[u32]; 5] =
        [&[0xFC], &[0xFC, 0xFC], &[0x1F9F6], &[0x10FFFF, 0x61], &[0x3042, 0x2D, 0x4E00]];
    for text in texts {
        for scheme in SCHEMES {
            for other in SCHEMES {
                let expected = if scheme == other { ONE_SAME } else { respelled };
                says(&[of_text(scheme, 7, text)], &[of_text(other, 7, text)], expected);
            }
        }
    }
    // A host label, which LACE does not encode; a hyphen at an edge, which AltDUDE does not.
    let ab = points("ab");
    says(&[of_text(AltDude, 7, &ab)], &[of_text(Brace, 7, &ab)], respelled);
    let ab = points("-ab");
    says(&[of_text(Lace, 7, &ab)], &[of_text(Brace, 7, &ab)], respelled);
}

#[test]
fn in_order_of_reader_number() {
    let expected = "00000 only right\n00001 only left\n00002 only right\n65535 only left\n\
                    same 1 other 0 respelled 0 left 2 right 2\n";
    let cards = |readers: [u16; 3]| readers.map(|reader| card(AltDude, reader, "3n"));
    says(&cards([1, 3, 65_535]), &cards([0, 2, 3]), expected);
    let changed = "00000 only left\n00001 only right\n00002 only left\n65535 only right\n\
                   same 1 other 0 respelled 0 left 2 right 2\n";
    says(&cards([0, 2, 3]), &cards([1, 3, 65_535]), changed);
    let expected = "00009 only left\n00010 only right\n00099 only left\n00100 only right\n\
                    00255 only left\n00256 only right\n00999 only left\n01000 only right\n\
                    09999 only left\n10000 only right\n\
                    same 0 other 0 respelled 0 left 5 right 5\n";
    let cards = |readers: [u16; 5]| readers.map(|reader| card(AltDude, reader, "3n"));
    says(&cards([9, 99, 255, 999, 9999]), &cards([10, 100, 256, 1000, 10_000]), expected);
}

#[test]
fn every_kind_of_line() {
    let left = [
        card(AltDude, 1, "3n"),
        card(AltDude, 2, "3n"),
        card(Lace, 3, "lq--74apy"),
        card(Lace, 5, "lq--aiapz7a"),
        card(Lace, 6, "lq--74apy"),
        card(Brace, 7, "22ZI-8Q9"),
        card(AltDude, 8, "b"),
    ];
    let right = [
        card(AltDude, 0, "3n"),
        card(AltDude, 1, "3N"),
        card(Lace, 2, "lq--74apy"),
        card(Lace, 3, "LQ--74APY"),
        card(Lace, 4, "lq--74apy"),
        card(AltDude, 5, "3n"),
        card(Brace, 6, "22ZI-8Q9"),
        card(Brace, 7, "22zi-8q9"),
    ];
    says(
        &left,
        &right,
        "00000 only right
00002 respelled
00004 only right
00005 other text
00006 respelled
00008 only left
same 3 other 1 respelled 2 left 1 right 2
",
    );
}

#[test]
fn a_table_with_itself_and_with_its_other_form() {
    for (entries, last) in [
        (sample().to_vec(), "same 2 other 0 respelled 0 left 0 right 0\n"),
        (vec![card(AltDude, 0, "b")], ONE_SAME),
        (vec![card(Brace, 65_535, "aB")], ONE_SAME),
        (stepping(500, 3, 5), "same 500 other 0 respelled 0 left 0 right 0\n"),
    ] {
        says(&entries, &entries, last);
    }
    let mut source = Source::new(41);
    for turn in 0..300 {
        let entries = lawful_entries(&mut source, 1 + turn % 9);
        let last = format!("same {} other 0 respelled 0 left 0 right 0\n", entries.len());
        says(&entries, &entries, &last);
    }
}

#[test]
fn the_longest_sheet() {
    // In turn, the left ones before the right ones, and the right ones before the left ones.
    for [left, right] in [
        [stepping(500, 1, 2), stepping(500, 0, 2)],
        [stepping(500, 0, 1), stepping(500, 500, 1)],
        [stepping(500, 65_036, 1), stepping(500, 7, 1)],
    ] {
        for one in implementations() {
            for left in both_forms(&left) {
                for right in both_forms(&right) {
                    let sheet = sheet_in(&one, [&left, &right], CAPACITY).unwrap();
                    assert_eq!(sheet.len(), 16_546);
                    assert_eq!(sheet.lines().count(), 1001);
                    assert_eq!(sheet.matches(" only left\n").count(), 500);
                    assert_eq!(sheet.matches(" only right\n").count(), 500);
                    assert!(sheet.ends_with("\nsame 0 other 0 respelled 0 left 500 right 500\n"));
                    assert!(sheet.lines().take(1000).is_sorted());
                }
            }
        }
    }
}

#[test]
fn full_tables_that_differ_in_every_entry() {
    let left: Vec<Entry> = (0..500).map(|reader| card(AltDude, reader, "3n")).collect();
    let respelled: Vec<Entry> = (0..500).map(|reader| card(Brace, reader, "22ZI-8Q9")).collect();
    let other: Vec<Entry> = (0..500).map(|reader| card(AltDude, reader, "3k")).collect();
    let lines = |words: &str| -> String {
        (0..500).map(|reader| format!("{reader:05} {words}\n")).collect()
    };
    let last = "same 0 other 0 respelled 500 left 0 right 0\n";
    says(&left, &respelled, &(lines("respelled") + last));
    let last = "same 0 other 500 respelled 0 left 0 right 0\n";
    says(&left, &other, &(lines("other text") + last));
}

#[test]
fn capacity_before_all_else() {
    let (whole, short) = (sample_table(), sample_short_table());
    let pairs: [[&[u8]; 2]; 6] = [
        [&whole, &whole],
        [&whole, &short],
        [&[], &whole],
        [&whole, &[]],
        [&[], &[]],
        [&[0x4A], &[0x4A]],
    ];
    for one in implementations() {
        for pair in pairs {
            for capacity in [0, 1, 20, 42, 63, 16_500, 16_544, 16_545] {
                assert_eq!(sheet_in(&one, pair, capacity), Err((1, 0)));
            }
            let exact = sheet_in(&one, pair, 16_546);
            assert!(exact.is_ok());
            for capacity in [16_547, 17_000, 70_000] {
                assert_eq!(sheet_in(&one, pair, capacity), exact);
            }
        }
    }
}

/// The sheet of two tables is this line, in which the word is the side.
fn refused(one: &Implementation, bad: &[u8], error: Error) {
    let (code, position) = error;
    for whole in [sample_table(), sample_short_table()] {
        assert_eq!(
            sheet(one, bad, &whole),
            format!("left refused {code} at {position}\n"),
            "{bad:X?}"
        );
        assert_eq!(
            sheet(one, &whole, bad),
            format!("right refused {code} at {position}\n"),
            "{bad:X?}"
        );
    }
    // Both: the left one's.
    assert_eq!(sheet(one, bad, bad), format!("left refused {code} at {position}\n"));
}

#[test]
fn the_left_tables_refusal_first() {
    for one in implementations() {
        // The left one's second entry is bad, the right one is cut.
        let bad = [card(AltDude, 1, "3n"), card(AltDude, 2, "x")];
        let whole = sample();
        for bad in both_forms(&bad) {
            for whole in both_forms(&whole) {
                let cut = &whole[..whole.len() - 1];
                assert_eq!(sheet(&one, &bad, cut), "left refused 9 at 1\n");
                assert_eq!(sheet(&one, cut, &bad), "left refused 13 at 0\n");
                assert_eq!(sheet(&one, &whole, cut), "right refused 13 at 0\n");
                assert_eq!(sheet(&one, &whole, &bad), "right refused 9 at 1\n");
                assert_eq!(sheet(&one, &bad, &whole), "left refused 9 at 1\n");
                assert_eq!(sheet(&one, &[], &bad), "left refused 13 at 0\n");
                assert_eq!(sheet(&one, &bad, &[]), "left refused 9 at 1\n");
                assert_eq!(sheet(&one, &whole, &[]), "right refused 13 at 0\n");
            }
        }
        assert_eq!(sheet(&one, &[], &[]), "left refused 13 at 0\n");
    }
}

#[test]
fn the_form_goes_by_the_first_byte() {
    let mut old = sample_table();
    let mut new = sample_short_table();
    for one in implementations() {
        refused(&one, &[], (13, 0));
        refused(&one, &[0x48], (13, 0));
        refused(&one, &[0x49], (13, 0));
        for other in [0x00, 0x41, 0x47, 0x4A, 0x51, 0x68, 0x69, 0xC8, 0xC9, 0xFF] {
            refused(&one, &[other], (14, 0));
            old[0] = other;
            refused(&one, &old, (14, 0));
            new[0] = other;
            refused(&one, &new, (14, 0));
        }
        // Each body with the header of the other form.
        old[0] = 0x49;
        refused(&one, &old, (14, 0));
        refused(&one, &old[..6], (14, 0));
        refused(&one, &old[..3], (13, 0));
        new[0] = 0x48;
        refused(&one, &new, (13, 0));
        refused(&one, &[&new[..], &[0; 92]].concat(), (14, 0));
        refused(&one, &[&new[..], &[0; 93]].concat(), (14, 0));
    }
}

#[test]
fn refusals_of_tables() {
    let labels: [(Scheme, &str, u64); 12] = [
        (AltDude, "3l", 7),
        (AltDude, "-b", 5),
        (AltDude, "sb", 9),
        (Lace, "lq--74ap0", 7),
        (Lace, "3n", 8),
        (Lace, "lq--74apz", 9),
        (Lace, "lq--aeapy", 9),
        (Lace, "lq--aiagcyq", 6),
        (Brace, "a.b", 7),
        (Brace, "ab-", 5),
        (Brace, "22ZJ-8q9", 9),
        (Brace, "8S9S-8Q9", 9),
    ];
    for one in implementations() {
        for (scheme, label, code) in labels {
            for index in [0, 1, 9, 10, 99, 499] {
                let mut entries = stepping(index + 1, 3, 2);
                entries[usize::from(index)] = card(scheme, 3 + 2 * index, label);
                for table in both_forms(&entries) {
                    refused(&one, &table, (code, index.into()));
                }
            }
        }
        for table in both_forms(&[card(AltDude, 7, "b"), card(AltDude, 7, "b")]) {
            refused(&one, &table, (14, 1));
        }
        for table in both_forms(&stepping(501, 0, 1)) {
            refused(&one, &table, (14, 0));
        }
        for table in both_forms(&[]) {
            refused(&one, &table, (14, 0));
        }
        for table in both_forms(&sample()) {
            refused(&one, &[&table[..], &[0]].concat(), (14, 0));
            for length in 0..table.len() {
                refused(&one, &table[..length], (13, 0));
            }
        }
        // A short table's first entry is judged before the second is looked for.
        let records = [(1, 7, b"x".to_vec()), (1, 8, b"b".to_vec())].map(|row| short_entry(&row));
        refused(&one, &short_table_with(&records)[..30], (9, 0));
    }
}

#[test]
fn the_longest_tables() {
    let entries: Vec<Entry> = (0..500).map(|reader| (AltDude, reader, vec![b'a'; 63])).collect();
    let [old, new] = both_forms(&entries);
    assert_eq!([old.len(), new.len()], [33_503, 34_003]);
    for one in implementations() {
        let last = "same 500 other 0 respelled 0 left 0 right 0\n";
        assert_eq!(sheet(&one, &old, &new), last);
        assert_eq!(sheet(&one, &new, &old), last);
        for table in [&old, &new] {
            refused(&one, &[&table[..], &[0]].concat(), (14, 0));
            refused(&one, &[&table[..], &[0; 500]].concat(), (14, 0));
            refused(&one, &table[..table.len() - 1], (13, 0));
        }
        refused(&one, &[0; 34_004], (14, 0));
    }
}

/// The scheme number and the text under each reader number, as an implementation reads
/// them entry by entry from a whole table of either form.
fn read_entries(one: &Implementation, table: &[u8]) -> BTreeMap<u64, (u64, Vec<u32>)> {
    let (read, read_entry) = match table[0] {
        0x49 => (one.short_read, one.short_entry),
        _ => (one.table_read, one.table_entry),
    };
    let count = verdict(read, table).unwrap() as usize;
    let listed = |index| {
        let (reader, scheme, text) = entry(read_entry, table, index).unwrap();
        (reader, (scheme, text))
    };
    (0..count).map(listed).collect()
}

/// The five counts of the last line.
fn counts(sheet: &str) -> [usize; 5] {
    let words: Vec<&str> = sheet.lines().last().unwrap().split(' ').collect();
    let ["same", same, "other", other, "respelled", respelled, "left", left, "right", right] =
        words[..]
    else {
        panic!("{sheet}");
    };
    [same, other, respelled, left, right].map(|count| count.parse().unwrap())
}

/// The reader numbers of the lines with these words, in their order.
fn numbers_of(sheet: &str, words: &str) -> Vec<u64> {
    let number = |line: &str| line.strip_suffix(words)?.strip_suffix(' ')?.parse().ok();
    sheet.lines().filter_map(number).collect()
}

#[test]
fn the_lines_are_those_of_the_entries_described() {
    for one in implementations() {
        let mut source = Source::new(42);
        let mut met = [0; 5];
        for _ in 0..4000 {
            let pair = lawful_pair(&mut source);
            let [left, right] = pair.each_ref().map(|entries| whole(&mut source, entries));
            // Reading entry by entry, each after the whole table, takes the square of their number.
            if pair.iter().any(|entries| entries.len() > 100) {
                continue;
            }
            let sheet = sheet(&one, &left, &right);
            let [left, right] = [left, right].map(|table| read_entries(&one, &table));
            let of = |described: &dyn Fn(&u64) -> bool| -> Vec<u64> {
                let readers: BTreeSet<&u64> = left.keys().chain(right.keys()).collect();
                readers.into_iter().filter(|reader| described(reader)).copied().collect()
            };
            let both = |reader: &u64| left.contains_key(reader) && right.contains_key(reader);
            let same_text = |reader: &u64| both(reader) && left[reader].1 == right[reader].1;
            let same = of(&|reader| same_text(reader) && left[reader].0 == right[reader].0);
            let described = [
                ("other text", of(&|reader| both(reader) && !same_text(reader))),
                ("respelled", of(&|reader| same_text(reader) && !same.contains(reader))),
                ("only left", of(&|reader| !right.contains_key(reader))),
                ("only right", of(&|reader| !left.contains_key(reader))),
            ];
            let counts = counts(&sheet);
            assert_eq!(counts[0], same.len());
            for (index, (words, readers)) in described.iter().enumerate() {
                assert_eq!(numbers_of(&sheet, words), *readers, "{sheet}");
                assert_eq!(counts[1 + index], readers.len(), "{sheet}");
            }
            let lines: usize = described.iter().map(|(_, readers)| readers.len()).sum();
            assert_eq!(sheet.lines().count(), lines + 1);
            assert!(sheet.lines().take(lines).is_sorted());
            assert!(sheet.ends_with('\n'));
            let [same, other, respelled, only_left, only_right] = counts;
            assert_eq!(same + other + respelled + only_left, left.len());
            assert_eq!(same + other + respelled + only_right, right.len());
            for (met, count) in met.iter_mut().zip(counts) {
                *met += usize::from(count > 0);
            }
        }
        // Each was to be found in many sheets.
        assert!(met.iter().all(|&met| met > 800), "{met:?}");
    }
}

#[test]
fn sides_changed() {
    for one in implementations() {
        let mut source = Source::new(43);
        for _ in 0..2000 {
            let pair = lawful_pair(&mut source);
            let [left, right] = pair.each_ref().map(|entries| whole(&mut source, entries));
            let [there, back] = [sheet(&one, &left, &right), sheet(&one, &right, &left)];
            let changed = |line: &str| match line.split_once(" only ") {
                Some((reader, "left")) => format!("{reader} only right\n"),
                Some((reader, _)) => format!("{reader} only left\n"),
                None => format!("{line}\n"),
            };
            let lines = there.lines().count() - 1;
            let expected: String = there.lines().take(lines).map(changed).collect();
            let [same, other, respelled, left, right] = counts(&there);
            let last = format!(
                "same {same} other {other} respelled {respelled} left {right} right {left}\n"
            );
            assert_eq!(back, expected + &last);
        }
    }
}

#[test]
fn a_sheet_tells_what_reading_the_tables_does() {
    for one in implementations() {
        let mut source = Source::new(44);
        let mut met = BTreeSet::new();
        for _ in 0..20_000 {
            let pair = pair(&mut source);
            let read = |table: &Vec<u8>| match table.first() {
                Some(0x49) => verdict(one.short_read, table),
                _ => verdict(one.table_read, table),
            };
            let sheet = sheet(&one, &pair[0], &pair[1]);
            let told = match pair.each_ref().map(read) {
                [Err((code, position)), _] => format!("left refused {code} at {position}\n"),
                [_, Err((code, position))] => format!("right refused {code} at {position}\n"),
                _ => sheet.clone(),
            };
            assert_eq!(sheet, told);
            assert_eq!(sheet.contains("refused"), sheet.starts_with(['l', 'r']));
            if sheet.contains("refused") {
                met.insert(told.split(' ').take(3).collect::<Vec<_>>().join(" "));
            }
        }
        // Every refusal of a table on either side was met.
        assert_eq!(met.len(), 14, "{met:?}");
    }
}

/// The proved program, on files.
#[cfg(feature = "proved")]
mod program {
    use super::{both_forms, card, pair, sample, stepping, CAPACITY, ONE_SAME};
    use distelhut_host::generate::Source;
    use distelhut_host::scheme::Scheme::{AltDude, Lace};
    use distelhut_host::table_diff::sheet_of;
    use std::ffi::OsStr;
    use std::fs;
    use std::io::Write;
    use std::os::unix::ffi::OsStrExt;
    use std::os::unix::fs::symlink;
    use std::path::{Path, PathBuf};
    use std::process::{self, Command, Output, Stdio};
    use std::time::Duration;

    const PROGRAM: &str = concat!(env!("CARGO_MANIFEST_DIR"), "/../target/bin/nametable_diff");

    const LEFT_EMPTY: &str = "left refused 13 at 0\n";
    const RIGHT_EMPTY: &str = "right refused 13 at 0\n";

    /// The request's example.
    const EXAMPLE: &str =
        "00007 respelled\n00300 only left\nsame 0 other 0 respelled 1 left 1 right 0\n";

    /// A folder for files, removed in the end.
    struct Folder(PathBuf);

    impl Folder {
        fn new(name: &str) -> Folder {
            let folder = std::env::temp_dir().join(format!("table_diff-{}-{name}", process::id()));
            fs::create_dir(&folder).unwrap();
            Folder(folder)
        }

        /// A path in the folder.
        fn path(&self, name: impl AsRef<Path>) -> PathBuf {
            self.0.join(name)
        }

        /// A file that holds a table.
        fn file(&self, name: impl AsRef<Path>, table: &[u8]) -> PathBuf {
            let path = self.path(name);
            fs::write(&path, table).unwrap();
            path
        }

        /// The files of the request's example, the left one in a form.
        fn example(&self, form: usize) -> [PathBuf; 2] {
            let left = &both_forms(&sample())[form];
            let right = &both_forms(&[card(Lace, 7, "lq--74apy")])[0];
            [self.file("left", left), self.file("right", right)]
        }

        /// A path of so many bytes. Its folders are there.
        fn long_path(&self, length: usize) -> PathBuf {
            let mut path = self.0.clone();
            while length - path.as_os_str().len() > 251 {
                path.push("d".repeat(200));
            }
            fs::create_dir_all(&path).unwrap();
            let rest = length - path.as_os_str().len() - 1;
            path.join("f".repeat(rest))
        }
    }

    impl Drop for Folder {
        fn drop(&mut self) {
            let _ = fs::remove_dir_all(&self.0);
        }
    }

    /// What was printed to standard output by a program whose status is 0.
    fn text_of(output: Output) -> String {
        assert_eq!(output.status.code(), Some(0), "{output:?}");
        String::from_utf8(output.stdout).unwrap()
    }

    /// What the program prints, given these arguments.
    fn printed<A: AsRef<OsStr>>(arguments: &[A]) -> String {
        let mut command = Command::new(PROGRAM);
        let output = command.args(arguments).stdin(Stdio::null()).output();
        text_of(output.expect("the program is at hand"))
    }

    #[test]
    fn the_requests_example() {
        let folder = Folder::new("example");
        for form in [0, 1] {
            let [left, right] = folder.example(form);
            assert_eq!(printed(&[&left, &right]), EXAMPLE);
            let changed =
                "00007 respelled\n00300 only right\nsame 0 other 0 respelled 1 left 0 right 1\n";
            assert_eq!(printed(&[&right, &left]), changed);
            // One path twice.
            let last = "same 2 other 0 respelled 0 left 0 right 0\n";
            assert_eq!(printed(&[&left, &left]), last);
            assert_eq!(printed(&[&right, &right]), ONE_SAME);
        }
    }

    #[test]
    fn arguments() {
        let folder = Folder::new("arguments");
        let [left, right] = folder.example(0);
        let bad = folder.file("bad", &both_forms(&[card(AltDude, 7, "x")])[0]);
        let none: [&Path; 0] = [];
        assert_eq!(printed(&none), LEFT_EMPTY);
        assert_eq!(printed(&[&left]), RIGHT_EMPTY);
        assert_eq!(printed(&[&bad]), "left refused 9 at 0\n");
        // Further ones are ignored.
        assert_eq!(printed(&[&left, &right, &bad]), EXAMPLE);
        assert_eq!(printed(&[&left, &right, &folder.path("missing"), &right, &right]), EXAMPLE);
        let many: Vec<&Path> = [&*left, &*right].into_iter().chain([&*bad; 300]).collect();
        assert_eq!(printed(&many), EXAMPLE);
        // An empty name is no file's.
        assert_eq!(printed(&[Path::new(""), &right]), LEFT_EMPTY);
        assert_eq!(printed(&[&*left, Path::new("")]), RIGHT_EMPTY);
    }

    #[test]
    fn files_that_are_not_there_or_cannot_be_read() {
        let folder = Folder::new("unreadable");
        let [left, _] = folder.example(1);
        symlink("loop", folder.path("loop")).unwrap();
        symlink("nowhere", folder.path("dangling")).unwrap();
        let empty = folder.file("empty", &[]);
        let unreadable = [
            folder.path("missing"),
            folder.path("missing/missing"),
            folder.path("loop"),
            folder.path("dangling"),
            folder.path("left/missing"),
            folder.path("n".repeat(256)),
            folder.0.clone(),
            PathBuf::from("/"),
            PathBuf::from("/proc/self/mem"),
            folder.long_path(4096),
            folder.path("d/".repeat(3000)),
            empty,
        ];
        for path in &unreadable {
            assert!(fs::read(path).unwrap_or_default().is_empty(), "{path:?}");
            assert_eq!(printed(&[path, &left]), LEFT_EMPTY, "{path:?}");
            assert_eq!(printed(&[&left, path]), RIGHT_EMPTY, "{path:?}");
            assert_eq!(printed(&[path, path]), LEFT_EMPTY, "{path:?}");
            assert_eq!(printed(&[path, &unreadable[0]]), LEFT_EMPTY, "{path:?}");
        }
    }

    #[test]
    fn names() {
        let folder = Folder::new("names");
        let [left, right] = folder.example(1);
        let bytes = [&left, &right].map(|path| fs::read(path).unwrap());
        let names: [&[u8]; 10] = [
            b"a b",
            b" ",
            b"  two  spaces  ",
            b"tab\tand\nline feed",
            b"-",
            b"--",
            b"--help",
            b"-l=\"x\"",
            b"$HOME *",
            "\u{FC}".as_bytes(),
        ];
        for name in names.map(OsStr::from_bytes) {
            let other_name = OsStr::new("other name");
            folder.file(name, &bytes[0]);
            folder.file(other_name, &bytes[1]);
            assert_eq!(printed(&[folder.path(name), folder.path(other_name)]), EXAMPLE, "{name:?}");
            // Beside the file, by its name alone.
            let mut command = Command::new(PROGRAM);
            command.current_dir(&folder.0).stdin(Stdio::null()).args([name, other_name]);
            assert_eq!(text_of(command.output().unwrap()), EXAMPLE, "{name:?}");
        }
        // A name that is not UTF-8 can't be opened.
        let no_text = OsStr::from_bytes(b"\xFF\xFE\x01");
        folder.file(no_text, &bytes[0]);
        assert_eq!(printed(&[folder.path(no_text), right.clone()]), LEFT_EMPTY);
        let [one, other] = [4095, 4094].map(|length| folder.long_path(length));
        assert_eq!([&one, &other].map(|path| path.as_os_str().len()), [4095, 4094]);
        fs::write(&one, &bytes[0]).unwrap();
        fs::write(&other, &bytes[1]).unwrap();
        assert_eq!(printed(&[&one, &other]), EXAMPLE);
        assert_eq!(printed(&[&one, &one]), "same 2 other 0 respelled 0 left 0 right 0\n");
        // A name with a byte more is not taken for the one of 4,095.
        let longer = OsStr::from_bytes(&[one.as_os_str().as_bytes(), b"f"].concat()).to_owned();
        assert_eq!(printed(&[&*longer, other.as_os_str()]), LEFT_EMPTY);
        symlink("left", folder.path("link")).unwrap();
        assert_eq!(printed(&[folder.path("link"), right]), EXAMPLE);
    }

    #[test]
    fn files_without_an_end() {
        let folder = Folder::new("endless");
        let [left, _] = folder.example(0);
        let zeros = Path::new("/dev/zero");
        for (files, line) in [
            ([zeros, &left], "left refused 14 at 0\n"),
            ([&left, zeros], "right refused 14 at 0\n"),
            ([zeros, zeros], "left refused 14 at 0\n"),
        ] {
            let mut command = Command::new("timeout");
            command.args(["60", PROGRAM]).args(files).stdin(Stdio::null());
            assert_eq!(text_of(command.output().unwrap()), line);
        }
        assert_eq!(sheet_of(&[0; 34_004], &[]), b"left refused 14 at 0\n");
    }

    #[test]
    fn the_longest_files() {
        let folder = Folder::new("longest");
        let entries: Vec<_> = (0..500).map(|reader| (AltDude, reader, vec![b'a'; 63])).collect();
        let tables = both_forms(&entries);
        assert_eq!(tables.each_ref().map(Vec::len), [33_503, 34_003]);
        let last = "same 500 other 0 respelled 0 left 0 right 0\n";
        let [old, new] = [0, 1].map(|form| folder.file(["old", "new"][form], &tables[form]));
        assert_eq!(printed(&[&old, &new]), last);
        assert_eq!(printed(&[&new, &new]), last);
        for table in &tables {
            for more in [1, 2, 500, 501, 502, 4096, 65_536, 1 << 20] {
                let longer = folder.file("longer", &[&table[..], &vec![0; more]].concat());
                assert_eq!(printed(&[&longer, &new]), "left refused 14 at 0\n", "{more}");
                assert_eq!(printed(&[&new, &longer]), "right refused 14 at 0\n", "{more}");
            }
            let cut = folder.file("cut", &table[..table.len() - 1]);
            assert_eq!(printed(&[&cut, &new]), LEFT_EMPTY);
            assert_eq!(printed(&[&new, &cut]), RIGHT_EMPTY);
        }
    }

    #[test]
    fn the_longest_sheet() {
        let folder = Folder::new("sheet");
        for left in both_forms(&stepping(500, 1, 2)) {
            for right in both_forms(&stepping(500, 0, 2)) {
                let sheet = printed(&[folder.file("left", &left), folder.file("right", &right)]);
                assert_eq!(sheet.len(), CAPACITY);
                assert_eq!(sheet.as_bytes(), sheet_of(&left, &right));
            }
        }
    }

    #[test]
    fn a_file_that_comes_in_scraps() {
        let folder = Folder::new("scraps");
        let [old, new] = both_forms(&stepping(500, 0, 3));
        let whole = folder.file("whole", &old);
        for (table, scrap) in [(&old, 1000), (&new, 4096), (&new[..60].to_vec(), 1)] {
            let mut command = Command::new(PROGRAM);
            command.arg("/dev/stdin").arg(&whole).stdin(Stdio::piped()).stdout(Stdio::piped());
            let mut program = command.spawn().expect("the program is at hand");
            let mut input = program.stdin.take().unwrap();
            for part in table.chunks(scrap) {
                input.write_all(part).unwrap();
                std::thread::sleep(Duration::from_millis(2));
            }
            drop(input);
            let sheet = text_of(program.wait_with_output().unwrap());
            assert_eq!(sheet.as_bytes(), sheet_of(table, &old));
        }
    }

    #[test]
    fn every_cut_of_the_papers_table() {
        let folder = Folder::new("cuts");
        for table in both_forms(&sample()) {
            let whole = folder.file("whole", &table);
            for length in 0..table.len() {
                let cut = folder.file("cut", &table[..length]);
                assert_eq!(printed(&[&cut, &whole]), LEFT_EMPTY);
                assert_eq!(printed(&[&whole, &cut]), RIGHT_EMPTY);
            }
            let longer = folder.file("longer", &[&table[..], &[0]].concat());
            assert_eq!(printed(&[&longer, &whole]), "left refused 14 at 0\n");
            assert_eq!(printed(&[&whole, &longer]), "right refused 14 at 0\n");
        }
    }

    #[test]
    fn generated_pairs() {
        let folder = Folder::new("pairs");
        let mut source = Source::new(45);
        for turn in 0..2000 {
            let [left, right] = pair(&mut source);
            let sheet = printed(&[folder.file("left", &left), folder.file("right", &right)]);
            assert_eq!(sheet.as_bytes(), sheet_of(&left, &right), "{turn}: {left:X?}, {right:X?}");
        }
    }
}
