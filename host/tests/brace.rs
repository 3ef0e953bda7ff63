//! BRACE: the examples of source documents 000, 002 and 001 and our own, the order
//! of the errors, and what must hold of every input. On each implementation at hand.

mod shared;

use distelhut_host::brace::{symbols_of, Symbol, CHARACTERS};
use distelhut_host::functions::{implementations, Implementation};
use distelhut_host::generate::{labels, texts, Source};
use distelhut_host::papers::brace::{known, units_of, EXAMPLES_001, READ, REFUSED};
use distelhut_host::papers::{table_of, Says};
use distelhut_host::point::{is_ldh, is_surrogate, same_but_for_case};
use distelhut_host::scheme::Scheme;
use shared::{called, numbers, Error};

/// The label of a text, or the error.
fn encoded(one: &Implementation, units: &[u16]) -> Result<Vec<u8>, Error> {
    called(one.brace_encode, units, 0, 70)
}

/// The text of a label, or the error.
fn decoded(one: &Implementation, label: &[u8]) -> Result<Vec<u16>, Error> {
    called(one.brace_decode, label, 0, 70)
}

/// The big-endian bytes of units.
fn bytes_of(units: &[u16]) -> Vec<u8> {
    units.iter().flat_map(|unit| unit.to_be_bytes()).collect()
}

/// A label with the case of its coded letters changed by a rule.
fn recoded(symbols: &[Symbol], change: fn(&u8) -> u8) -> Vec<u8> {
    let byte = |symbol: &Symbol| match symbol {
        Symbol::Coded(byte) => change(byte),
        Symbol::Copied(byte) => *byte,
    };
    symbols.iter().map(byte).collect()
}

/// Decoding a label, reading it through the C interface and from a table gives a
/// text.
fn is_read_as(one: &Implementation, label: &[u8], units: &[u16]) {
    assert_eq!(decoded(one, label), Ok(units.to_vec()));
    assert_eq!(called(one.read, label, 3, 252), Ok(bytes_of(units)));
    let table = table_of(&[(0x42, 7, label.to_vec())]);
    let points: Vec<u32> =
        char::decode_utf16(units.iter().copied()).map(|one| u32::from(one.unwrap())).collect();
    assert_eq!(called(one.table_entry, &table, 0, 63), Ok(points));
}

/// Decoding a label, reading it through the C interface and from a table gives an
/// error.
fn is_refused(one: &Implementation, label: &[u8], error: Error) {
    assert_eq!(decoded(one, label), Err(error), "{label:?}");
    assert_eq!(called(one.read, label, 3, 252), Err((error.0, 0)), "{label:?}");
    if (1..=63).contains(&label.len()) {
        let table = table_of(&[(0x42, 7, label.to_vec())]);
        let verdict = numbers(|five| (one.table_read)(&table, 0, &mut [], five));
        assert_eq!(verdict, Err((error.0, 0)), "{label:?}");
    }
}

#[test]
fn known_labels() {
    assert_eq!(known().len(), 5 + 7 + 12 + 6);
    for one in implementations() {
        for known in known() {
            let units = known.units;
            let through_c = called(one.write, &bytes_of(&units), 3, 63);
            let label = match (encoded(&one, &units), known.says) {
                (answer, Says::Error(code)) => {
                    assert_eq!(answer, Err((code, 0)), "{units:X?}");
                    assert_eq!(through_c, Err((code, 0)), "{units:X?}");
                    continue;
                }
                (Ok(label), Says::Label(said)) if label == said.as_bytes() => label,
                (Ok(label), Says::Length(said)) if label.len() == said => label,
                (answer, _) => panic!("{}: {units:X?}: {answer:?}", one.name),
            };
            assert_eq!(through_c.as_ref(), Ok(&label));
            is_read_as(&one, &label, &units);
            is_read_as(&one, &recoded(&symbols_of(&units), u8::to_ascii_lowercase), &units);
        }
    }
}

#[test]
fn labels_in_other_cases() {
    for one in implementations() {
        READ.iter().for_each(|(label, shown)| is_read_as(&one, label.as_bytes(), &units_of(shown)));
    }
}

#[test]
fn refused_with_the_signature() {
    for one in implementations() {
        for label in REFUSED {
            is_refused(&one, label.as_bytes(), (9, 0));
            is_refused(&one, label.to_ascii_lowercase().as_bytes(), (9, 0));
        }
    }
}

#[test]
fn order_of_encoding() {
    let a = |times: usize| vec![0x61; times];
    let surrogate = |before: usize| [a(before), vec![0xD800]].concat();
    for one in implementations() {
        assert_eq!(encoded(&one, &[]), Err((2, 0)));
        assert_eq!(encoded(&one, &surrogate(64)), Err((10, 64)));
        assert_eq!(encoded(&one, &surrogate(299)), Err((10, 299)));
        assert_eq!(encoded(&one, &[0xDDF6, 0xD83E]), Err((10, 0)));
        assert_eq!(encoded(&one, &[0xD83E, 0xD83E, 0xDDF6]), Err((10, 0)));
        assert_eq!(encoded(&one, &[0xD83E, 0xDDF6, 0xDC00]), Err((10, 2)));
        assert_eq!(encoded(&one, &a(64)), Err((3, 0)));
        assert_eq!(encoded(&one, &[0x2D; 64]), Err((3, 0)));
        for capacity in 0..70 {
            let code = if capacity < 63 { 1 } else { 2 };
            assert_eq!(called(one.brace_encode, &[], 0, capacity), Err((code, 0)));
            assert_eq!(called(one.brace_decode, &[], 0, capacity), Err((code, 0)));
        }
    }
}

#[test]
fn order_of_decoding() {
    let cases: [(&[u8], Error); 14] = [
        (b"", (2, 0)),
        (&[0xFF; 64], (3, 0)),
        (&[b'-'; 64], (3, 0)),
        (&[0xFF; 63], (7, 0)),
        (b"a.b", (7, 1)),
        (b"-a.b", (7, 2)),
        (b"-a\xADb-", (7, 2)),
        (b"-ab", (5, 0)),
        (b"ab-", (5, 0)),
        (b"-", (5, 0)),
        (b"-8Q8", (5, 0)),
        (b".-8Q9", (9, 0)),
        (b"-8q9", (9, 0)),
        (b"a.b\x0D8Q9", (7, 1)),
    ];
    for one in implementations() {
        cases.iter().for_each(|(label, error)| is_refused(&one, label, *error));
    }
}

/// The label of an example of 001, however long, without the signature.
fn without_signature(units: &[u16]) -> Vec<Symbol> {
    let mut symbols = symbols_of(units);
    symbols.truncate(symbols.len() - 4);
    symbols
}

#[test]
fn examples_of_001_as_printed() {
    let letters: String = EXAMPLES_001.iter().map(|example| example.letter).collect();
    assert_eq!(letters, "ABCDEFGHIJKLMNOPQR");
    for example in EXAMPLES_001 {
        let small = recoded(&without_signature(&example.units()), u8::to_ascii_lowercase);
        let printed = example.printed.as_bytes();
        assert!(small.starts_with(printed), "{}", example.letter);
        assert_eq!(small.len() > printed.len(), example.cut, "{}", example.letter);
    }
}

#[test]
fn examples_of_001() {
    for one in implementations() {
        for example in EXAMPLES_001 {
            let units = example.units();
            if example.cut {
                assert_eq!(encoded(&one, &units), Err((3, 0)));
                continue;
            }
            let signed = format!("{}-8Q9", example.printed);
            assert!(same_but_for_case(&encoded(&one, &units).unwrap(), signed.as_bytes()));
            is_read_as(&one, signed.as_bytes(), &units);
        }
    }
}

// Four characters and the signature are the label of one unit, and of no other text.
#[test]
fn every_single_unit_is_encoded_and_decoded() {
    for one in implementations() {
        for unit in 0..=0xFFFF {
            match encoded(&one, &[unit]) {
                Ok(label) => assert_eq!(decoded(&one, &label), Ok(vec![unit])),
                Err(error) => assert!(error == (10, 0) && is_surrogate(u32::from(unit))),
            }
        }
        let mut accepted = 0;
        for number in 0..1 << 20 {
            let character = |shift: usize| CHARACTERS[number >> shift & 31];
            let label = [[15, 10, 5, 0].map(character), *b"-8Q9"].concat();
            if let Ok(units) = decoded(&one, &label) {
                assert!(units.len() == 1 && !is_ldh(u32::from(units[0])));
                accepted += 1;
            }
        }
        assert_eq!(accepted, 0x10000 - 0x800 - 63);
    }
}

#[test]
fn encoded_texts_are_decoded_again() {
    for one in implementations() {
        let mut source = Source::new(31);
        let mut done = 0;
        for _ in 0..30_000 {
            let units = texts::text_units(&mut source, Scheme::Brace);
            let Ok(label) = encoded(&one, &units) else {
                continue;
            };
            done += 1;
            assert!(label.iter().all(|&byte| is_ldh(u32::from(byte))));
            assert!(label[0] != b'-' && label[label.len() - 1] != b'-');
            assert_eq!(decoded(&one, &label), Ok(units.clone()));
            let small = recoded(&symbols_of(&units), u8::to_ascii_lowercase);
            assert_eq!(decoded(&one, &small), Ok(units));
        }
        assert!(done > 10_000);
    }
}

// Demand 3 as 02 words it for BRACE: labels equal but for case have texts equal
// but for the case of A to Z. A text's own label tells its copies' case.
#[test]
fn labels_equal_but_for_case() {
    for one in implementations() {
        let mut source = Source::new(32);
        let mut met = 0;
        for _ in 0..30_000 {
            let label = labels::label(&mut source, Scheme::Brace);
            let mut other = label.clone();
            labels::change_case(&mut source, &mut other);
            let texts = [&label, &other].map(|label| decoded(&one, label));
            assert_eq!(texts[0].is_ok(), texts[1].is_ok(), "{label:?}");
            if let [Ok(text), Ok(other)] = texts {
                met += 1;
                let [text, other] = [text, other].map(|units| String::from_utf16(&units).unwrap());
                assert!(text.eq_ignore_ascii_case(&other));
            }
        }
        assert!(met > 10_000);
    }
}
