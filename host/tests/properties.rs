//! What must hold of every input, tried on generated and on all short ones.
//!
//! The drafts describe decoding as: decode loosely, encode again, compare. The
//! library goes by the rules of form instead, so here the two are compared. What
//! is tried of labels and texts is AltDUDE and LACE; BRACE has `tests/brace.rs`.

use distelhut_host::generate::calls::capacity_around;
use distelhut_host::generate::{labels, tables, texts, Source};
use distelhut_host::point::{is_ldh, is_point, same_but_for_case};
use distelhut_host::scheme::Scheme;
use distelhut_host::{altdude, lace, nametable, utf16};
use std::collections::HashMap;

const BOTH: [Scheme; 2] = [Scheme::AltDude, Scheme::Lace];
const TURNS: usize = 30_000;

/// The text of an accepted label.
fn decoded(scheme: Scheme, label: &[u8]) -> Option<Vec<u32>> {
    let mut buffer = [0; 63];
    scheme.decode(label, &mut buffer).ok().map(|count| buffer[..count].to_vec())
}

/// The label of a text that may be encoded.
fn encoded(scheme: Scheme, text: &[u32]) -> Option<Vec<u8>> {
    let mut buffer = [0; 63];
    scheme.encode(text, &mut buffer).ok().map(|count| buffer[..count].to_vec())
}

/// 003's decoding procedure before its comparison, with sums that wrap.
fn loose_altdude(label: &[u8]) -> Option<Vec<u32>> {
    let mut text = Vec::new();
    let mut remembered = 96u32;
    let mut bytes = label.iter().map(|byte| byte.to_ascii_lowercase());
    while let Some(byte) = bytes.next() {
        if byte == b'-' {
            text.push(45);
            continue;
        }
        let mut difference = 0u32;
        let mut next = byte;
        loop {
            let value = altdude::CHARACTERS.iter().position(|&one| one == next)? as u32;
            difference = (difference << 4) | (value & 15);
            if value < 16 {
                break;
            }
            next = bytes.next()?;
        }
        remembered ^= difference;
        text.push(remembered);
    }
    Some(text)
}

/// 004's steps 2.5.2 and 2.4.2 before their comparison.
fn loose_lace(label: &[u8]) -> Option<Vec<u32>> {
    if label.len() < 5 || !label[..4].eq_ignore_ascii_case(b"lq--") {
        return None;
    }
    let (mut bits, mut width, mut octets) = (0u32, 0, Vec::new());
    for byte in label[4..].iter().map(|byte| byte.to_ascii_lowercase()) {
        bits = (bits << 5) | lace::CHARACTERS.iter().position(|&one| one == byte)? as u32;
        width += 5;
        if width >= 8 {
            width -= 8;
            octets.push((bits >> width) as u8);
            bits &= (1 << width) - 1;
        }
    }
    let mut units = Vec::new();
    let mut next = octets.iter().copied();
    if octets.first() == Some(&0xFF) {
        next.next();
        while let Some(high) = next.next() {
            units.push(u16::from_be_bytes([high, next.next()?]));
        }
    } else {
        while let Some(count) = next.next() {
            let high = next.next()?;
            for _ in 0..count {
                units.push(u16::from_be_bytes([high, next.next()?]));
            }
        }
    }
    utf16::points_of(&units).ok()
}

/// Decoding as 003 and 004 describe it: decode loosely, encode again, compare.
fn by_the_draft(scheme: Scheme, label: &[u8]) -> Option<Vec<u32>> {
    let loose = if scheme == Scheme::AltDude { loose_altdude } else { loose_lace };
    let text = loose(label)?;
    let again = encoded(scheme, &text)?;
    same_but_for_case(&again, label).then_some(text)
}

#[test]
fn generated_labels_agree_with_the_drafts() {
    let mut source = Source::new(11);
    let mut accepted = 0;
    for _ in 0..TURNS {
        let scheme = source.pick(&BOTH);
        let label = labels::label(&mut source, scheme);
        let text = decoded(scheme, &label);
        accepted += usize::from(text.is_some());
        assert_eq!(text, by_the_draft(scheme, &label), "{scheme:?} {label:X?}");
    }
    assert!(accepted > TURNS / 5 && accepted < 4 * TURNS / 5);
}

/// Calls a function on every row of `length` bytes from some characters.
fn every_row(characters: &[u8], length: usize, call: &mut impl FnMut(&[u8])) {
    let mut digits = vec![0; length];
    loop {
        let row: Vec<u8> = digits.iter().map(|&digit: &usize| characters[digit]).collect();
        call(&row);
        let Some(position) = digits.iter().rposition(|&digit| digit + 1 < characters.len()) else {
            return;
        };
        digits[position] += 1;
        digits[position + 1..].fill(0);
    }
}

#[test]
fn all_short_altdude_labels_agree_with_the_draft() {
    let mut characters = altdude::CHARACTERS.to_vec();
    characters.push(b'-');
    let mut seen = HashMap::new();
    for length in 1..=3 {
        every_row(&characters, length, &mut |label| {
            let text = decoded(Scheme::AltDude, label);
            assert_eq!(text, by_the_draft(Scheme::AltDude, label), "{label:?}");
            if let Some(text) = text {
                assert_eq!(seen.insert(text, label.to_vec()), None);
            }
        });
    }
}

#[test]
fn all_short_lace_labels_agree_with_the_draft() {
    let mut seen = HashMap::new();
    for length in 1..=3 {
        every_row(lace::CHARACTERS, length, &mut |tail| {
            let label = [lace::PREFIX.as_slice(), tail].concat();
            assert_eq!(decoded(Scheme::Lace, &label), None, "{tail:?}");
            assert_eq!(by_the_draft(Scheme::Lace, &label), None, "{tail:?}");
        });
    }
    // Five characters are three octets: FF and one unit, or a run.
    every_row(b"abcdefghijklmnop234567", 4, &mut |tail| {
        let label = [b"lq--7".as_slice(), tail].concat();
        let text = decoded(Scheme::Lace, &label);
        assert_eq!(text, by_the_draft(Scheme::Lace, &label), "{tail:?}");
        if let Some(text) = text {
            assert_eq!(seen.insert(text, label), None);
        }
    });
    assert!(!seen.is_empty());
}

#[test]
fn every_single_point_is_encoded_and_decoded() {
    for number in 0..0x110000 {
        let point = is_point(number);
        let altdude = encoded(Scheme::AltDude, &[number]);
        assert_eq!(altdude.is_some(), point && number != 45);
        let lace = encoded(Scheme::Lace, &[number]);
        assert_eq!(lace.is_some(), point && (number == 45 || !is_ldh(number)));
        for (scheme, label) in [(Scheme::AltDude, altdude), (Scheme::Lace, lace)] {
            if let Some(label) = label {
                assert_eq!(decoded(scheme, &label), Some(vec![number]));
            }
        }
    }
}

#[test]
fn encoded_texts_are_decoded_again() {
    let mut source = Source::new(12);
    for _ in 0..TURNS {
        let scheme = source.pick(&BOTH);
        let text = texts::text(&mut source);
        if let Some(mut label) = encoded(scheme, &text) {
            assert!(label
                .iter()
                .all(|&byte| is_ldh(u32::from(byte)) && !byte.is_ascii_uppercase()));
            assert_eq!(decoded(scheme, &label), Some(text.clone()));
            labels::change_case(&mut source, &mut label);
            assert_eq!(decoded(scheme, &label), Some(text));
        }
    }
}

#[test]
fn decoded_labels_are_encoded_again() {
    let mut source = Source::new(13);
    for _ in 0..TURNS {
        let scheme = source.pick(&BOTH);
        let label = labels::label(&mut source, scheme);
        if let Some(text) = decoded(scheme, &label) {
            assert!(same_but_for_case(&encoded(scheme, &text).unwrap(), &label));
        }
    }
}

#[test]
fn errors_of_encoding_name_their_cause() {
    let mut source = Source::new(14);
    for _ in 0..TURNS {
        let scheme = source.pick(&BOTH);
        let text = texts::text(&mut source);
        let mut buffer = [0x5A; 63];
        let Err(error) = scheme.encode(&text, &mut buffer) else {
            continue;
        };
        assert_eq!(buffer, [0x5A; 63]);
        let bad = text.iter().position(|&number| !is_point(number));
        let edge = text.first() == Some(&45) || text.last() == Some(&45);
        let ldh = text.iter().all(|&point| is_ldh(point));
        let expected = match (scheme, bad) {
            _ if text.is_empty() => (2, 0),
            (_, Some(position)) => (4, position),
            (Scheme::AltDude, None) if edge => (5, 0),
            (Scheme::Lace, None) if ldh && !edge && text.len() < 64 => (6, 0),
            _ => (3, 0),
        };
        assert_eq!((error.number(), error.position), expected);
    }
}

#[test]
fn buffers_keep_what_they_held() {
    let mut source = Source::new(15);
    for _ in 0..TURNS {
        let scheme = source.pick(&BOTH);
        let label = labels::label(&mut source, scheme);
        let mut buffer = vec![0x5A; capacity_around(&mut source, 63)];
        let count = scheme.decode(&label, &mut buffer).unwrap_or(0);
        assert!(buffer[count..].iter().all(|&point| point == 0x5A));
        let text = texts::text(&mut source);
        let mut buffer = vec![0x5A; capacity_around(&mut source, 63)];
        let count = scheme.encode(&text, &mut buffer).unwrap_or(0);
        assert!(buffer[count..].iter().all(|&byte| byte == 0x5A));
    }
}

#[test]
fn generated_units_agree_with_the_language() {
    let mut source = Source::new(16);
    for _ in 0..TURNS {
        let units = texts::units(&mut source);
        let expected: Result<Vec<u32>, _> =
            char::decode_utf16(units.iter().copied()).map(|one| one.map(u32::from)).collect();
        let points = utf16::points_of(&units);
        assert_eq!(points.clone().ok(), expected.ok());
        if let Ok(points) = points {
            assert_eq!(utf16::units_of(&points), Ok(units));
        }
    }
}

#[test]
fn whole_tables_are_read_and_every_cut_is_13() {
    let mut source = Source::new(17);
    for turn in 0..60 {
        let entries = 1 + turn % 4;
        let whole = tables::whole_table(&mut source, entries, None);
        assert_eq!(nametable::read(&whole), Ok(entries));
        for length in 0..whole.len() {
            assert_eq!(nametable::read(&whole[..length]).unwrap_err().number(), 13);
        }
    }
}

#[test]
fn an_entry_is_answered_only_from_a_readable_table() {
    let mut source = Source::new(18);
    for _ in 0..3000 {
        let bytes = tables::table(&mut source, None);
        let index = source.below(6);
        let mut buffer = [0x5A; 63];
        let answer = nametable::entry(&bytes, index, &mut buffer);
        match nametable::read(&bytes) {
            Err(error) => assert_eq!(answer, Err(error)),
            Ok(entries) => {
                assert_eq!(answer.is_ok(), index < entries);
                let mut other = [0x5A; 63];
                assert_eq!(nametable::judged_entry(&bytes, index, &mut other), answer);
                assert_eq!(other, buffer);
            }
        }
        let count = answer.map_or(0, |entry| entry.count);
        assert!(buffer[count..].iter().all(|&point| point == 0x5A));
    }
}
