//! The converter between points and units, on each implementation at hand.

mod shared;

use distelhut_host::functions::{implementations, Implementation};
use distelhut_host::papers::known;
use shared::{called, Error};

/// The units of the first `count` points, or the error.
fn units(
    one: &Implementation,
    points: &[u32],
    count: usize,
    capacity: usize,
) -> Result<Vec<u16>, Error> {
    called(one.to_units, points, count, capacity)
}

/// The points of the first `count` units, or the error.
fn points(
    one: &Implementation,
    units: &[u16],
    count: usize,
    capacity: usize,
) -> Result<Vec<u32>, Error> {
    called(one.to_points, units, count, capacity)
}

#[test]
fn empty_rows_need_no_capacity() {
    for one in implementations() {
        assert_eq!(units(&one, &[], 0, 0), Ok(vec![]));
        assert_eq!(points(&one, &[], 0, 0), Ok(vec![]));
    }
}

// Also where twice the count would wrap.
#[test]
fn a_count_above_the_row_is_refused_first() {
    for one in implementations() {
        assert_eq!(units(&one, &[], 1 << 63, 8), Err((1, 0)));
        assert_eq!(units(&one, &[], usize::MAX, 8), Err((1, 0)));
        assert_eq!(units(&one, &[0x61], 2, 8), Err((1, 0)));
        assert_eq!(units(&one, &[0xD800], 2, 8), Err((1, 0)));
        assert_eq!(points(&one, &[], 1 << 63, 8), Err((1, 0)));
        assert_eq!(points(&one, &[0x61], 2, 8), Err((1, 0)));
        assert_eq!(points(&one, &[0xD800], 2, 8), Err((1, 0)));
    }
}

// Pairs, halves of pairs, and a count below the row.
#[test]
fn rows_with_surrogates() {
    for one in implementations() {
        assert_eq!(points(&one, &[0xD83E, 0xDDF6], 2, 1), Err((1, 0)));
        assert_eq!(points(&one, &[0xD83E, 0xDDF6], 2, 2), Ok(vec![0x1F9F6]));
        assert_eq!(points(&one, &[0x61, 0xD800], 1, 1), Ok(vec![0x61]));
        assert_eq!(points(&one, &[0x61, 0xDC00], 2, 2), Err((10, 1)));
        assert_eq!(points(&one, &[0xD800, 0xD83E, 0xDDF6], 3, 3), Err((10, 0)));
        assert_eq!(units(&one, &[0x61, 0xD800], 1, 2), Ok(vec![0x61]));
    }
}

#[test]
fn a_pair_cut_by_the_count_is_unpaired() {
    for one in implementations() {
        assert_eq!(points(&one, &[0xD83E, 0xDDF6], 1, 2), Err((10, 0)));
    }
}

#[test]
fn capacity_is_by_count_whatever_the_content() {
    for one in implementations() {
        assert_eq!(units(&one, &[0x61], 1, 1), Err((1, 0)));
        assert_eq!(units(&one, &[0x61], 1, 2), Ok(vec![0x61]));
        assert_eq!(units(&one, &[0xD800], 1, 1), Err((1, 0)));
        assert_eq!(units(&one, &[0x61, 0x110000], 2, 4), Err((4, 1)));
        assert_eq!(points(&one, &[0xDC00], 1, 0), Err((1, 0)));
    }
}

#[test]
fn texts_of_the_papers_there_and_back() {
    for one in implementations() {
        for text in known().into_iter().map(|known| known.text) {
            let length = text.len();
            let there = units(&one, &text, length, 2 * length).unwrap();
            assert_eq!(points(&one, &there, there.len(), there.len()), Ok(text));
        }
        assert_eq!(units(&one, &[0x1F9F6], 1, 2), Ok(vec![0xD83E, 0xDDF6]));
    }
}

#[test]
fn every_point_there_and_back() {
    for one in implementations() {
        for number in 0..=0x110000 {
            let answer = units(&one, &[number], 1, 2);
            let Some(character) = char::from_u32(number) else {
                assert_eq!(answer, Err((4, 0)));
                continue;
            };
            let there = answer.unwrap();
            assert_eq!(there, character.encode_utf16(&mut [0; 2]));
            assert_eq!(points(&one, &there, there.len(), 2), Ok(vec![number]));
        }
    }
}

#[test]
fn borders_of_surrogates_in_pairs() {
    let borders = [0xD7FF, 0xD800, 0xDBFF, 0xDC00, 0xDFFF, 0xE000];
    for one in implementations() {
        for first in borders {
            for second in borders {
                let row = [first, second];
                let expected: Result<Vec<u32>, _> =
                    char::decode_utf16(row).map(|one| one.map(u32::from)).collect();
                assert_eq!(points(&one, &row, 2, 2).ok(), expected.ok(), "{first:X} {second:X}");
            }
        }
    }
}
