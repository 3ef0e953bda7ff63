//! What the papers say of AltDUDE and LACE labels: rows, edges, slips and examples,
//! host labels, and the order of the errors. On each implementation at hand.

mod shared;

use distelhut_host::functions::{implementations, Implementation};
use distelhut_host::papers::{known, known_rows, Known, Says, SLIPS};
use distelhut_host::scheme::Scheme;
use shared::{called, Error};

const BOTH: [Scheme; 2] = [Scheme::AltDude, Scheme::Lace];

/// The label of a text, or the error.
fn encoded(one: &Implementation, scheme: Scheme, text: &[u32]) -> Result<String, Error> {
    let label = called(one.encode(scheme).expect("on points"), text, 0, 63)?;
    Ok(String::from_utf8(label).expect("labels are ASCII"))
}

/// The text of a label, or the error.
fn decoded(one: &Implementation, scheme: Scheme, label: &[u8]) -> Result<Vec<u32>, Error> {
    called(one.decode(scheme).expect("on points"), label, 0, 63)
}

/// A text is encoded as the paper says, and its label decoded in either case.
fn check(one: &Implementation, known: &Known) {
    let label = match (encoded(one, known.scheme, &known.text), &known.says) {
        (answer, Says::Error(code)) => return assert_eq!(answer, Err((*code, 0))),
        (Ok(label), Says::Label(said)) if label == *said => label,
        (Ok(label), Says::Length(said)) if label.len() == *said => label,
        (answer, _) => panic!("{}: {:X?}: {answer:?}", one.name, known.text),
    };
    for label in [label.to_ascii_uppercase(), label] {
        assert_eq!(decoded(one, known.scheme, label.as_bytes()), Ok(known.text.clone()));
    }
}

#[test]
fn rows_edges_and_examples() {
    for one in implementations() {
        known().iter().for_each(|known| check(&one, known));
    }
}

#[test]
fn eleven_starred_cells() {
    let rows = known_rows();
    let labels = rows.iter().filter(|known| matches!(known.says, Says::Label(_)));
    assert_eq!((rows.len(), labels.count()), (13, 11));
    assert_eq!(known().len(), 13 + 8 + 13 + 19 + 3);
}

#[test]
fn slips() {
    for one in implementations() {
        for slip in SLIPS {
            let answer = decoded(&one, slip.scheme, slip.label.as_bytes());
            assert_eq!(answer, Err((slip.code, 0)), "{}", slip.label);
        }
        // A hyphen does not reset the remembered number.
        let b_a = decoded(&one, Scheme::AltDude, b"b-a");
        assert_eq!(b_a, Ok(vec![0x61, 0x2D, 0x61]));
        let b_b = decoded(&one, Scheme::AltDude, b"b-b");
        assert_eq!(b_b, Ok(vec![0x61, 0x2D, 0x60]));
    }
}

// 4 at the last of 100 numbers comes before 3, and so do 5 and 6.
#[test]
fn whole_text_is_judged_before_its_length() {
    let late = |before: usize, number: u32| [vec![0x61; before], vec![number]].concat();
    for one in implementations() {
        for scheme in BOTH {
            assert_eq!(encoded(&one, scheme, &late(99, 0xD800)), Err((4, 99)));
            assert_eq!(encoded(&one, scheme, &[0x2D, 0xD800]), Err((4, 1)));
            assert_eq!(encoded(&one, scheme, &late(64, 0x110000)), Err((4, 64)));
        }
        assert_eq!(encoded(&one, Scheme::AltDude, &[0x2D; 64]), Err((5, 0)));
        assert_eq!(encoded(&one, Scheme::Lace, &[0x61; 63]), Err((6, 0)));
    }
}

// A sum of any width that wraps would make a point of one of these groups.
#[test]
fn no_group_wraps() {
    for one in implementations() {
        for label in ["9".repeat(63), format!("{}a", "9".repeat(62))] {
            assert_eq!(decoded(&one, Scheme::AltDude, label.as_bytes()), Err((9, 0)));
        }
        for zeros in 5..=61 {
            let label = format!("t{}b", "s".repeat(zeros));
            assert_eq!(decoded(&one, Scheme::AltDude, label.as_bytes()), Err((9, 0)));
        }
    }
}

// A byte OR 20 hex is no fold: 0D is not the hyphen, 13 is not the 3.
#[test]
fn only_a_to_z_fold() {
    let label = [0x6C, 0x71, 0x0D, 0x0D, 0x37, 0x34, 0x61, 0x70, 0x79];
    for one in implementations() {
        assert_eq!(decoded(&one, Scheme::Lace, &label), Err((8, 0)));
        assert_eq!(decoded(&one, Scheme::AltDude, &[0x13, 0x6E]), Err((7, 0)));
    }
}

// 60 characters after the prefix make 64 bytes.
#[test]
fn lace_limits_of_the_label() {
    for one in implementations() {
        for (count, code) in [(57, 9), (58, 9), (59, 9), (60, 3)] {
            let label = format!("lq--{}", "a".repeat(count));
            assert_eq!(decoded(&one, Scheme::Lace, label.as_bytes()), Err((code, 0)));
        }
    }
}

#[test]
fn order_of_decoding_altdude() {
    let cases: [(&[u8], u64, u64); 11] = [
        (b"", 2, 0),
        (&[0xFF; 64], 3, 0),
        (&[0xFF; 63], 7, 0),
        (b"-0", 7, 1),
        (b"-sb-", 5, 0),
        (b"-", 5, 0),
        (b"b-", 5, 0),
        (b"x-", 5, 0),
        (b"x-b", 9, 0),
        (b"bl", 7, 1),
        (b"bO", 7, 1),
    ];
    for one in implementations() {
        for (label, code, position) in cases {
            let answer = decoded(&one, Scheme::AltDude, label);
            assert_eq!(answer, Err((code, position)), "{label:?}");
        }
        let answer = decoded(&one, Scheme::AltDude, b"b--b");
        assert_eq!(answer, Ok(vec![0x61, 0x2D, 0x2D, 0x60]));
    }
}

#[test]
fn order_of_decoding_lace() {
    let cases: [(&[u8], u64, u64); 16] = [
        (b"", 2, 0),
        (&[b'-'; 64], 3, 0),
        (b"l", 8, 0),
        (b"lq-", 8, 0),
        (b"lr--0", 8, 0),
        (b"lq--", 9, 0),
        (b"lq--a", 9, 0),
        (b"lq---", 7, 4),
        (b"lq--a0", 7, 5),
        (b"lq--74ap8", 7, 8),
        (b"LQ--AIAGCYQ", 6, 0),
        (b"lq--aiagcyr", 9, 0),
        (b"lq--amagcllc", 6, 0),
        (b"lq--74agc", 6, 0),
        (b"lq--aeagc", 9, 0),
        (b"lq--aeac2", 9, 0),
    ];
    for one in implementations() {
        for (label, code, position) in cases {
            let answer = decoded(&one, Scheme::Lace, label);
            assert_eq!(answer, Err((code, position)), "{label:?}");
        }
    }
}

// A host label is of any case, and the neighbours of LDH make none.
#[test]
fn host_labels_of_one_point() {
    for one in implementations() {
        for point in [0x30, 0x39, 0x41, 0x5A, 0x61, 0x7A] {
            assert_eq!(encoded(&one, Scheme::Lace, &[point]), Err((6, 0)));
        }
        for point in [0x2C, 0x2E, 0x2F, 0x3A, 0x40, 0x5B, 0x60, 0x7B] {
            assert!(encoded(&one, Scheme::Lace, &[point]).is_ok());
        }
    }
}

#[test]
fn capacity_comes_first_and_63_is_enough() {
    for one in implementations() {
        for scheme in BOTH {
            let (encode, decode) = (one.encode(scheme).unwrap(), one.decode(scheme).unwrap());
            for capacity in 0..70 {
                let code = if capacity < 63 { 1 } else { 2 };
                assert_eq!(called(encode, &[], 0, capacity), Err((code, 0)));
                assert_eq!(called(decode, b"", 0, capacity), Err((code, 0)));
            }
        }
    }
}
