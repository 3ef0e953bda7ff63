//! The C interface: what the papers say of labels, through its two functions, its
//! order of errors, its limits and what it answers. On each implementation at
//! hand.

mod shared;

use distelhut_host::functions::{implementations, Implementation};
use distelhut_host::generate::calls::{self, Row};
use distelhut_host::generate::Source;
use distelhut_host::papers::{known, Known, Says, SLIPS};
use distelhut_host::scheme::Scheme;
use distelhut_host::utf16::units_of;
use shared::{called, Error};

/// The bytes of the label, or the error, whose position is not told.
fn written(
    one: &Implementation,
    scheme: usize,
    text: &[u8],
    capacity: usize,
) -> Result<Vec<u8>, Error> {
    called(one.write, text, scheme, capacity)
}

/// The bytes of the text, or the error.
fn read(
    one: &Implementation,
    scheme: usize,
    label: &[u8],
    capacity: usize,
) -> Result<Vec<u8>, Error> {
    called(one.read, label, scheme, capacity)
}

/// The big-endian UTF-16 bytes of a text.
fn bytes_of(text: &[u32]) -> Vec<u8> {
    let units = units_of(text).expect("the papers' texts have points only");
    units.iter().flat_map(|unit| unit.to_be_bytes()).collect()
}

/// The numbers that name a scheme.
fn numbers(scheme: Scheme) -> &'static [usize] {
    match scheme {
        Scheme::AltDude => &[0, 1],
        Scheme::Lace => &[2],
        Scheme::Brace => &[3],
    }
}

/// A text is written as the paper says, and its label read in either case.
fn check(one: &Implementation, scheme: usize, known: &Known) {
    let text = bytes_of(&known.text);
    let label = match (written(one, scheme, &text, 63), &known.says) {
        (answer, Says::Error(code)) => return assert_eq!(answer, Err((*code, 0))),
        (Ok(label), Says::Label(said)) if label == said.as_bytes() => label,
        (Ok(label), Says::Length(said)) if label.len() == *said => label,
        (answer, _) => panic!("{}: scheme {scheme}: {text:X?}: {answer:?}", one.name),
    };
    for label in [label.to_ascii_uppercase(), label] {
        assert_eq!(read(one, scheme, &label, 252), Ok(text.clone()));
    }
}

#[test]
fn rows_edges_and_examples() {
    for one in implementations() {
        for known in known() {
            numbers(known.scheme).iter().for_each(|&scheme| check(&one, scheme, &known));
        }
    }
}

#[test]
fn slips() {
    for one in implementations() {
        for slip in SLIPS {
            for &scheme in numbers(slip.scheme) {
                let answer = read(&one, scheme, slip.label.as_bytes(), 252);
                assert_eq!(answer, Err((slip.code, 0)), "{}", slip.label);
            }
        }
    }
}

// Each error of writing where others stand behind it.
#[test]
fn order_when_writing() {
    let a = |times: usize| [0x00, 0x61].repeat(times);
    let surrogates = |times: usize| [0xD8, 0x00].repeat(times);
    let cases: [(usize, &[u8], usize, u64); 34] = [
        (9, &[0xD8; 255], 0, 11),
        (4, &[0x00, 0xFC], 63, 11),
        (u32::MAX as usize, &[], 62, 11),
        (1, &[0x00], 0, 1),
        (2, &[0x00], 62, 1),
        (1, &[], 62, 1),
        (2, &[0x00; 253], 63, 12),
        (1, &[0x00], 63, 12),
        (0, &[], 63, 2),
        (1, &[], 63, 2),
        (2, &a(127), 63, 3),
        (2, &surrogates(127), 63, 3),
        (2, &surrogates(126), 63, 10),
        (1, &[0x00, 0x2D, 0xD8, 0x00], 63, 10),
        (1, &[0xDC, 0x00, 0xD8, 0x00], 63, 10),
        (1, &[0x00, 0x2D].repeat(126), 63, 5),
        (1, &[0x00, 0x2D], 63, 5),
        (0, &[0x00, 0x2D], 63, 5),
        (2, &a(63), 63, 6),
        (2, &[0x00, 0x61], 63, 6),
        (2, &a(126), 63, 3),
        (0, &a(126), 63, 3),
        (1, &a(126), 63, 3),
        (1, &a(64), 63, 3),
        (0, &[0x04, 0x31].repeat(126), 63, 3),
        (2, &[0x04, 0x31].repeat(126), 63, 3),
        (3, &[0x00], 62, 1),
        (3, &[0xD8; 253], 63, 12),
        (3, &[], 63, 2),
        (3, &surrogates(127), 63, 3),
        (3, &surrogates(126), 63, 10),
        (3, &[a(64), surrogates(1)].concat(), 63, 10),
        (3, &a(64), 63, 3),
        (3, &[0x00, 0xFC].repeat(41), 63, 3),
    ];
    for one in implementations() {
        for (scheme, text, capacity, code) in cases {
            let answer = written(&one, scheme, text, capacity);
            assert_eq!(answer, Err((code, 0)), "scheme {scheme}, {text:X?}");
        }
    }
}

// Each error of reading where others stand behind it.
#[test]
fn order_when_reading() {
    let cases: [(usize, &[u8], usize, u64); 26] = [
        (9, &[0xFF; 64], 0, 11),
        (u32::MAX as usize, b"3n", 252, 11),
        (4, b"", 0, 11),
        (1, b"", 251, 1),
        (0, b"", 251, 1),
        (2, b"lq--74apy", 0, 1),
        (1, b"", 252, 2),
        (2, b"", 252, 2),
        (1, &[0xFF; 64], 252, 3),
        (2, &[0xFF; 64], 252, 3),
        (1, b"-0", 252, 7),
        (1, b"-sb", 252, 5),
        (1, b"x", 252, 9),
        (2, b"lq-", 252, 8),
        (2, b"lr--0", 252, 8),
        (2, b"lq--a0", 252, 7),
        (2, b"lq--", 252, 9),
        (2, b"lq--aiagcyr", 252, 9),
        (2, b"lq--aiagcyq", 252, 6),
        (3, b"22ZI-8Q9", 251, 1),
        (3, b"", 252, 2),
        (3, &[0xFF; 64], 252, 3),
        (3, b"-a.b", 252, 7),
        (3, b"-ab", 252, 5),
        (3, b"-a.b-8Q9", 252, 9),
        (3, b"22ZJ-8Q9", 252, 9),
    ];
    for one in implementations() {
        for (scheme, label, capacity, code) in cases {
            let answer = read(&one, scheme, label, capacity);
            assert_eq!(answer, Err((code, 0)), "scheme {scheme}, {label:X?}");
        }
    }
}

#[test]
fn the_default_is_altdude() {
    for one in implementations() {
        let label = |text: &[u32]| written(&one, 0, &bytes_of(text), 63);
        assert_eq!(label(&[0x61, 0x62, 0x63]), Ok(b"bdb".to_vec()));
        assert_eq!(label(&[0xFC]), Ok(b"3n".to_vec()));
        assert_eq!(read(&one, 0, b"3n", 252), Ok(vec![0x00, 0xFC]));
        assert_eq!(read(&one, 0, b"lq--74apy", 252), Err((7, 0)));
        assert_eq!(label(&[0x2D, 0x61, 0x62]), Err((5, 0)));
        assert_eq!(label(&[0x61; 63]), Ok(format!("b{}", "a".repeat(62)).into_bytes()));
        assert_eq!(label(&[0x61; 126]), Err((3, 0)));
    }
}

#[test]
fn a_pair_is_one_point() {
    let pair = vec![0xD8, 0x3E, 0xDD, 0xF6];
    for one in implementations() {
        assert_eq!(written(&one, 1, &pair, 63), Ok(b"t933g".to_vec()));
        assert_eq!(read(&one, 1, b"t933g", 252), Ok(pair.clone()));
    }
}

#[test]
fn brace_has_scheme_3() {
    for one in implementations() {
        let pair = vec![0xD8, 0x3E, 0xDD, 0xF6];
        assert_eq!(written(&one, 3, &pair, 63), Ok(b"YS9VGZE-8Q9".to_vec()));
        assert_eq!(read(&one, 3, b"yS9vgzE-8q9", 252), Ok(pair));
        assert_eq!(written(&one, 3, &[0x00, 0x41], 63), Ok(b"A".to_vec()));
        assert_eq!(read(&one, 3, &[b'A'; 63], 252), Ok([0x00, 0x41].repeat(63)));
        assert_eq!(read(&one, 3, b"22zI-Ab-8q9", 252), Ok(vec![0, 0xFC, 0, 0x41, 0, 0x62]));
    }
}

#[test]
fn the_longest_texts() {
    for one in implementations() {
        let label = format!("b{}", "a".repeat(62));
        assert_eq!(read(&one, 1, label.as_bytes(), 252).unwrap().len(), 126);
        // 58 of the 63 characters write one digit each after the first pair.
        let label = format!("t933g{}", "a".repeat(58));
        assert_eq!(read(&one, 1, label.as_bytes(), 252).unwrap().len(), 4 * 59);
    }
}

#[test]
fn what_is_written_is_read_back() {
    for one in implementations() {
        let mut source = Source::new(5);
        for _ in 0..20_000 {
            let call = calls::write(&mut source);
            let Row { elements: text, number: scheme } = call.given;
            if let Ok(label) = written(&one, scheme, &text, call.capacity) {
                assert_eq!(read(&one, scheme, &label, 252), Ok(text));
            }
        }
    }
}
