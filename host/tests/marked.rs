//! Texts with marks (02): what the papers say of them, the published capitals of source
//! document 003, the order of the errors, and what must hold of every input. On each
//! implementation at hand.

mod shared;

use distelhut_host::functions::{implementations, Implementation};
use distelhut_host::generate::calls::{
    altdude_decode_marked, altdude_encode_marked, lace_decode_marked, lace_encode_marked,
};
use distelhut_host::generate::marks::{marked_label, marked_text, MarkedText};
use distelhut_host::generate::{texts, Source};
use distelhut_host::papers::{Example, EXAMPLES_003};
use distelhut_host::scheme::Scheme;
use distelhut_host::{altdude, lace};
use shared::{called, filled, Error};
use std::collections::{BTreeMap, BTreeSet};

const BOTH: [Scheme; 2] = [Scheme::AltDude, Scheme::Lace];
const TURNS: usize = 30_000;

/// The label of a text with marks, or the error.
fn encoded(
    one: &Implementation,
    scheme: Scheme,
    text: &[u32],
    marks: &[u8],
) -> Result<String, Error> {
    encoded_in(one, scheme, text, marks, 63)
}

/// The same with a label buffer of a capacity.
fn encoded_in(
    one: &Implementation,
    scheme: Scheme,
    text: &[u32],
    marks: &[u8],
    capacity: usize,
) -> Result<String, Error> {
    let encode = one.encode_marked(scheme).expect("takes marks");
    let label = filled(capacity, |label, five| encode((text, marks), label, five))?;
    Ok(String::from_utf8(label).expect("labels are ASCII"))
}

/// The text and the marks of a label, or the error.
fn decoded(
    one: &Implementation,
    scheme: Scheme,
    label: &[u8],
) -> Result<(Vec<u32>, Vec<u8>), Error> {
    decoded_in(one, scheme, label, [63, 63])
}

/// The same with a text buffer and a marks buffer of two capacities. What was not written
/// of either is as it was.
fn decoded_in(
    one: &Implementation,
    scheme: Scheme,
    label: &[u8],
    capacities: [usize; 2],
) -> Result<(Vec<u32>, Vec<u8>), Error> {
    let decode = one.decode_marked(scheme).expect("gives marks");
    let mut marks = Ok(Vec::new());
    let text = filled(capacities[0], |text, five| {
        marks = filled(capacities[1], |marks, same| {
            decode(label, (text, marks), same);
            five.copy_from_slice(same);
        });
    });
    Ok((text?, marks?))
}

/// The label of a text without marks, or the error.
fn without_marks(one: &Implementation, scheme: Scheme, text: &[u32]) -> Result<String, Error> {
    let label = called(one.encode(scheme).expect("on points"), text, 0, 63)?;
    Ok(String::from_utf8(label).expect("labels are ASCII"))
}

/// The points of a text.
fn points(text: &str) -> Vec<u32> {
    text.chars().map(u32::from).collect()
}

/// Marks that are 0 but for the last.
fn last_mark(length: usize, last: u8) -> Vec<u8> {
    let mut marks = vec![0; length];
    marks[length - 1] = last;
    marks
}

#[test]
fn labels_with_capitals() {
    let a_63 = format!("B{}", "A".repeat(62));
    let rows: [(&[u32], &[u8], &str); 8] = [
        (&[0xFC], &[1], "3N"),
        (&[0xFC], &[0], "3n"),
        (&points("a-a"), &[1, 0, 1], "B-A"),
        (&points("a-a"), &[0, 0, 1], "b-A"),
        (&[0x10FFFF], &[1], "ts993R"),
        (&[0x61; 63], &[1; 63], &a_63),
        // A point that has no capital may be marked, and a capital need not be.
        (&[0x3042, 0x31], &[1, 1], "vsuCvszD"),
        (&points("Aa"), &[0, 1], "ubuA"),
    ];
    for one in implementations() {
        for (text, marks, label) in rows {
            let answer = encoded(&one, Scheme::AltDude, text, marks);
            assert_eq!(answer.as_deref(), Ok(label));
            let answer = decoded(&one, Scheme::AltDude, label.as_bytes());
            assert_eq!(answer, Ok((text.to_vec(), marks.to_vec())));
        }
    }
}

#[test]
fn labels_without_capitals_under_lace() {
    for one in implementations() {
        let answer = encoded(&one, Scheme::Lace, &[0xFC], &[0]);
        assert_eq!(answer.as_deref(), Ok("lq--74apy"));
        for label in [b"lq--74apy", b"LQ--74APY", b"lQ--74aPy"] {
            assert_eq!(decoded(&one, Scheme::Lace, label), Ok((vec![0xFC], vec![0])));
        }
        let answer = decoded(&one, Scheme::Lace, b"LQ--AIAPZ7A");
        assert_eq!(answer, Ok((vec![0xFC, 0xFC], vec![0, 0])));
    }
}

#[test]
fn only_the_last_character_of_a_group_is_a_mark() {
    let rows: [(&[u8], &[u32], &[u8]); 8] = [
        (b"TS993r", &[0x10FFFF], &[0]),
        (b"ts993R", &[0x10FFFF], &[1]),
        (b"TS993R", &[0x10FFFF], &[1]),
        (b"ts993r", &[0x10FFFF], &[0]),
        (b"B--a", &[0x61, 0x2D, 0x2D, 0x61], &[1, 0, 0, 0]),
        (b"b--A", &[0x61, 0x2D, 0x2D, 0x61], &[0, 0, 0, 1]),
        (b"3n3N", &[0xFC, 0x60], &[0, 1]),
        (b"B-A", &[0x61, 0x2D, 0x61], &[1, 0, 1]),
    ];
    for one in implementations() {
        for (label, text, marks) in rows {
            let answer = decoded(&one, Scheme::AltDude, label);
            assert_eq!(answer, Ok((text.to_vec(), marks.to_vec())), "{label:?}");
        }
    }
}

#[test]
fn errors_of_marks() {
    use Scheme::{AltDude, Lace};
    let rows: [(Scheme, &[u32], &[u8], Error); 21] = [
        (AltDude, &[0x61; 64], &last_mark(64, 2), (15, 63)),
        (AltDude, &[0x61; 64], &last_mark(64, 1), (3, 0)),
        (AltDude, &points("ab"), &[0, 2, 0], (15, 0)),
        (AltDude, &points("ab"), &[0], (15, 0)),
        (AltDude, &points("ab"), &[], (15, 0)),
        (AltDude, &points("ab"), &[0, 255], (15, 1)),
        (AltDude, &points("-a"), &[1, 0], (15, 0)),
        (AltDude, &points("-a"), &[0, 1], (5, 0)),
        (AltDude, &points("a-"), &[0, 1], (15, 1)),
        (AltDude, &points("a-b"), &[0, 1, 2], (15, 1)),
        (AltDude, &points("a-b"), &[2, 1, 0], (15, 0)),
        (AltDude, &points("a-b"), &[0, 0, 2], (15, 2)),
        (AltDude, &[], &[2], (2, 0)),
        (AltDude, &[0x61, 0xD800], &[], (4, 1)),
        (Lace, &points("a"), &[1], (15, 0)),
        (Lace, &points("a"), &[0], (6, 0)),
        (Lace, &[0x431; 35], &last_mark(35, 1), (15, 34)),
        (Lace, &[0x431; 35], &[0; 35], (3, 0)),
        (Lace, &[0xFC, 0x2D], &[0, 1], (15, 1)),
        (Lace, &[], &[1], (2, 0)),
        (Lace, &[0x61, 0xD800], &[1], (4, 1)),
    ];
    for one in implementations() {
        for (scheme, text, marks, error) in rows {
            let answer = encoded(&one, scheme, text, marks);
            assert_eq!(answer, Err(error), "{scheme:?} {text:X?} {marks:?}");
        }
    }
}

#[test]
fn no_other_number_is_a_mark() {
    for one in implementations() {
        for number in 2..=255 {
            let marks = [0, number];
            assert_eq!(encoded(&one, Scheme::AltDude, &[0xFC; 2], &marks), Err((15, 1)));
            assert_eq!(encoded(&one, Scheme::Lace, &[0xFC; 2], &marks), Err((15, 1)));
        }
    }
}

/// A text of source document 003 with capitals, folded.
struct Folded {
    letter: char,
    text: &'static [u32],
    /// The indexes of the points that were capitals.
    capitals: &'static [usize],
    label: &'static str,
}

/// The examples of source document 003 whose labels have capitals and at most 63 bytes.
/// The capitals A to Z and U+041F are folded, each to one point. K is over 63 bytes.
const CAPITALS_003: [Folded; 7] = [
    Folded {
        letter: 'C',
        text: &[
            0x70, 0x72, 0x6F, 0x10D, 0x70, 0x72, 0x6F, 0x73, 0x74, 0x11B, 0x6E, 0x65, 0x6D, 0x6C,
            0x75, 0x76, 0xED, 0x10D, 0x65, 0x73, 0x6B, 0x79,
        ],
        capitals: &[0],
        label: "tActptyctzpctptnhtyrtzfmibtjd3mt8atyitgtitc",
    },
    Folded {
        letter: 'H',
        text: &[
            0x43F, 0x43E, 0x447, 0x435, 0x43C, 0x443, 0x436, 0x435, 0x43E, 0x43D, 0x438, 0x43D,
            0x435, 0x433, 0x43E, 0x432, 0x43E, 0x440, 0x44F, 0x442, 0x43F, 0x43E, 0x440, 0x443,
            0x441, 0x441, 0x43A, 0x438,
        ],
        capitals: &[0],
        label: "wxRbzjzcjzrzfdmdffigpnnzqrpzpbzqdcazmc",
    },
    Folded {
        letter: 'I',
        text: &[
            0x70, 0x6F, 0x72, 0x71, 0x75, 0xE9, 0x6E, 0x6F, 0x70, 0x75, 0x65, 0x64, 0x65, 0x6E,
            0x73, 0x69, 0x6D, 0x70, 0x6C, 0x65, 0x6D, 0x65, 0x6E, 0x74, 0x65, 0x68, 0x61, 0x62,
            0x6C, 0x61, 0x72, 0x65, 0x6E, 0x65, 0x73, 0x70, 0x61, 0xF1, 0x6F, 0x6C,
        ],
        capitals: &[0, 33],
        label: "tAtrtpde3n2hbtrftabbmtptketptnjiimtktbpjdqptdthmMtgdtb3a3qd",
    },
    Folded {
        letter: 'L',
        text: &[0x33, 0x5E74, 0x62, 0x7D44, 0x91D1, 0x516B, 0x5148, 0x751F],
        capitals: &[2],
        label: "xdx8whx8tGz7ug863f6s5kuduwxh",
    },
    Folded {
        letter: 'M',
        text: &[
            0x5B89, 0x5BA4, 0x5948, 0x7F8E, 0x6075, 0x2D, 0x77, 0x69, 0x74, 0x68, 0x2D, 0x73, 0x75,
            0x70, 0x65, 0x72, 0x2D, 0x6D, 0x6F, 0x6E, 0x6B, 0x65, 0x79, 0x73,
        ],
        capitals: &[11, 12, 13, 14, 15, 17, 18, 19, 20, 21, 22, 23],
        label: "x58jupu8nuy6gt99m-yssctqtptn-tMGFtFtH-tRCBFQtNK",
    },
    Folded {
        letter: 'N',
        text: &[
            0x68, 0x65, 0x6C, 0x6C, 0x6F, 0x2D, 0x61, 0x6E, 0x6F, 0x74, 0x68, 0x65, 0x72, 0x2D,
            0x77, 0x61, 0x79, 0x2D, 0x305D, 0x308C, 0x305E, 0x308C, 0x306E, 0x5834, 0x6240,
        ],
        capitals: &[0, 6, 14],
        label: "Ipjad-Qrbtmtnpth-Ftgti-vsue7b7c7c8cy2xkv4ze",
    },
    Folded {
        letter: 'P',
        text: &[
            0x6D, 0x61, 0x6A, 0x69, 0x3067, 0x6B, 0x6F, 0x69, 0x3059, 0x308B, 0x35, 0x79D2, 0x524D,
        ],
        capitals: &[0, 5],
        label: "PnmdvssqvssNegvsva7cvs5qz38hu53r",
    },
];

#[test]
fn published_capitals() {
    for one in implementations() {
        for Folded { letter, text, capitals, label } in CAPITALS_003 {
            let mut marks = vec![0; text.len()];
            capitals.iter().for_each(|&index| marks[index] = 1);
            let answer = encoded(&one, Scheme::AltDude, text, &marks);
            assert_eq!(answer.as_deref(), Ok(label), "example {letter}");
            let answer = decoded(&one, Scheme::AltDude, label.as_bytes());
            assert_eq!(answer, Ok((text.to_vec(), marks)), "example {letter}");
        }
    }
}

/// The marks of an example: 1 where the draft shows a capital.
fn marks_shown(example: &Example) -> Vec<u8> {
    example.shown.chars().map(|shown| u8::from(shown.is_uppercase())).collect()
}

// The same of all 19 examples, from the texts as the draft shows them. Without capitals the
// marks are 0. G and K are over 63 bytes, S has a hyphen at both ends.
#[test]
fn every_published_example() {
    for one in implementations() {
        for example in EXAMPLES_003 {
            let (text, marks) = (example.text(), marks_shown(&example));
            let written = encoded(&one, Scheme::AltDude, &text, &marks);
            let read = decoded(&one, Scheme::AltDude, example.label.as_bytes());
            match example.code {
                None => {
                    assert_eq!(written.as_deref(), Ok(example.label));
                    assert_eq!(read, Ok((text, marks)));
                }
                Some(code) => {
                    assert_eq!(written, Err((code, 0)));
                    assert_eq!(read, Err((code, 0)));
                }
            }
        }
    }
}

#[test]
fn the_examples_with_capitals() {
    let capitals = |example: &&Example| marks_shown(example).contains(&1);
    let shown: String =
        EXAMPLES_003.iter().filter(capitals).map(|example| example.letter).collect();
    assert_eq!(shown, "CHIKLMNP");
    for folded in CAPITALS_003 {
        let example = EXAMPLES_003.iter().find(|example| example.letter == folded.letter).unwrap();
        assert_eq!((folded.text, folded.label), (&example.text()[..], example.label));
    }
}

#[test]
fn capacities_come_first() {
    for one in implementations() {
        for scheme in BOTH {
            for capacity in 0..70 {
                let code = if capacity < 63 { 1 } else { 2 };
                assert_eq!(encoded_in(&one, scheme, &[], &[2], capacity), Err((code, 0)));
            }
            for text in [0, 1, 62, 63, 64, 200] {
                for marks in [0, 1, 62, 63, 64, 200] {
                    let code = if text < 63 || marks < 63 { 1 } else { 2 };
                    let answer = decoded_in(&one, scheme, b"", [text, marks]);
                    assert_eq!(answer, Err((code, 0)), "{text} {marks}");
                    let long = decoded_in(&one, scheme, &[0xFF; 64], [text, marks]);
                    assert_eq!(long, Err((if code == 1 { 1 } else { 3 }, 0)));
                }
            }
        }
    }
}

// 63 marks are filled, and none more.
#[test]
fn the_longest_row_of_marks() {
    let label = [b'B'; 63];
    let text: Vec<u32> = (0..63).map(|index| 0x61 - index % 2).collect();
    for one in implementations() {
        for capacities in [[63, 63], [63, 64], [64, 63], [130, 99]] {
            let answer = decoded_in(&one, Scheme::AltDude, &label, capacities);
            assert_eq!(answer, Ok((text.clone(), vec![1; 63])));
        }
    }
}

/// The errors whose causes stand against encoding a text with marks, each cause looked for
/// by itself, in the order in which they are reported.
fn causes(scheme: Scheme, given: &MarkedText, capacity: usize) -> Vec<Error> {
    let MarkedText { text, marks } = given;
    let hyphen_at_edge = text.first() == Some(&45) || text.last() == Some(&45);
    let bad_mark = |index: usize| match (marks[index], text[index]) {
        (0, _) => false,
        (1, 45) => true,
        (1, _) => scheme == Scheme::Lace,
        _ => true,
    };
    let fifteen = match marks.len() == text.len() {
        true => (0..marks.len()).find(|&index| bad_mark(index)),
        false => Some(0),
    };
    let (own, stands) = match scheme {
        Scheme::AltDude => (5, hyphen_at_edge),
        _ => (6, !hyphen_at_edge && is_short_ldh(text)),
    };
    let all = [
        (1, (capacity < 63).then_some(0)),
        (2, text.is_empty().then_some(0)),
        (4, text.iter().position(|&number| char::from_u32(number).is_none())),
        (15, fifteen),
        (own, stands.then_some(0)),
        (3, is_too_long(scheme, text).then_some(0)),
    ];
    all.into_iter().filter_map(|(code, position)| Some((code, position? as u64))).collect()
}

/// Whether points are 1 to 63 letters, digits and hyphens.
fn is_short_ldh(text: &[u32]) -> bool {
    let ldh = |byte: u8| byte == b'-' || byte.is_ascii_alphanumeric();
    let all = text.iter().all(|&point| u8::try_from(point).is_ok_and(ldh));
    all && (1..=63).contains(&text.len())
}

/// Whether the label of the points among some numbers is over 63 bytes.
fn is_too_long(scheme: Scheme, numbers: &[u32]) -> bool {
    let text: String = numbers.iter().filter_map(|&number| char::from_u32(number)).collect();
    match scheme {
        Scheme::AltDude => altdude::encoding(&points(&text)).len() > 63,
        _ => lace::octets_of(&text.encode_utf16().collect::<Vec<_>>()).is_none(),
    }
}

/// Any two codes of encoding with marks whose causes can stand together, in the order in
/// which they are reported. An empty text has none of 4, 5, 6 and 3, a host label no 4.
fn together(scheme: Scheme) -> BTreeSet<(u64, u64)> {
    let own = if scheme == Scheme::AltDude { 5 } else { 6 };
    let mut codes = BTreeSet::from([(1, 2), (1, 4), (1, 15), (1, own), (1, 3), (2, 15), (4, 15)]);
    codes.extend([(4, 3), (15, own), (15, 3), (own, 3)]);
    if scheme == Scheme::AltDude {
        codes.insert((4, 5));
    }
    codes
}

// The generator makes any two causes that can stand together do so, often enough for the
// comparison to tell their order.
#[test]
fn the_first_cause_is_reported() {
    let calls = [altdude_encode_marked, lace_encode_marked];
    for (scheme, call) in BOTH.into_iter().zip(calls) {
        let mut source = Source::new(21);
        let mut met = BTreeMap::new();
        for _ in 0..TURNS {
            let call = call(&mut source);
            let MarkedText { text, marks } = &call.given;
            let causes = causes(scheme, &call.given, call.capacity);
            for one in implementations() {
                let answer = encoded_in(&one, scheme, text, marks, call.capacity);
                assert_eq!(answer.err(), causes.first().copied(), "{:?}", call.given);
            }
            for (index, first) in causes.iter().enumerate() {
                for second in &causes[index + 1..] {
                    *met.entry((first.0, second.0)).or_insert(0) += 1;
                }
            }
        }
        assert!(met.values().all(|&times| times > 20), "{met:?}");
        assert_eq!(met.into_keys().collect::<BTreeSet<_>>(), together(scheme));
    }
}

#[test]
fn marks_of_0_give_the_label_without_marks() {
    let mut source = Source::new(22);
    for one in implementations() {
        for _ in 0..TURNS {
            let scheme = source.pick(&BOTH);
            let text = texts::text(&mut source);
            let answer = encoded(&one, scheme, &text, &vec![0; text.len()]);
            assert_eq!(answer, without_marks(&one, scheme, &text), "{scheme:?} {text:X?}");
        }
    }
}

// Capacities of 0, 62, 63, 64 and more are met in any two buffers.
#[test]
fn decoding_without_marks_is_decoding_with_the_marks_dropped() {
    let calls = [altdude_decode_marked, lace_decode_marked];
    for (scheme, call) in BOTH.into_iter().zip(calls) {
        let mut source = Source::new(23);
        let mut met = BTreeSet::new();
        for _ in 0..TURNS {
            let call = call(&mut source);
            let label = &call.given.elements;
            for one in implementations() {
                let without = match call.capacity.iter().all(|&capacity| capacity >= 63) {
                    true => called(one.decode(scheme).unwrap(), label, 0, 63),
                    false => Err((1, 0)),
                };
                let with = decoded_in(&one, scheme, label, call.capacity);
                assert_eq!(with.map(|(text, _)| text), without, "{scheme:?} {label:X?}");
            }
            met.insert(call.capacity.map(|capacity| capacity.min(65)));
        }
        for text in [0, 62, 63, 64, 65] {
            assert!([0, 62, 63, 64, 65].iter().all(|&marks| met.contains(&[text, marks])));
        }
    }
}

#[test]
fn texts_with_marks_are_decoded_again() {
    let mut source = Source::new(24);
    for one in implementations() {
        let mut marked = 0;
        for _ in 0..TURNS {
            let scheme = source.pick(&BOTH);
            let MarkedText { text, marks } = marked_text(&mut source, scheme);
            if let Ok(label) = encoded(&one, scheme, &text, &marks) {
                assert_eq!(without_marks(&one, scheme, &text), Ok(label.to_ascii_lowercase()));
                marked += usize::from(marks.contains(&1));
                assert_eq!(decoded(&one, scheme, label.as_bytes()), Ok((text, marks)));
            }
        }
        assert!(marked > TURNS / 10);
    }
}

/// A label with every character made small but the last of each group, which is one of the
/// first 16 characters.
fn small_but_last(label: &[u8]) -> Vec<u8> {
    let last = |byte: u8| b"ABCDEFGHIJKMNPQR".contains(&byte);
    label.iter().map(|&byte| if last(byte) { byte } else { byte.to_ascii_lowercase() }).collect()
}

#[test]
fn decoded_labels_are_encoded_again() {
    let mut source = Source::new(25);
    for one in implementations() {
        let mut accepted = 0;
        for _ in 0..TURNS {
            let scheme = source.pick(&BOTH);
            let label = marked_label(&mut source, scheme);
            let Ok((text, marks)) = decoded(&one, scheme, &label) else {
                continue;
            };
            accepted += 1;
            let kept = match scheme {
                Scheme::AltDude => small_but_last(&label),
                _ => label.to_ascii_lowercase(),
            };
            let again = encoded(&one, scheme, &text, &marks).map(String::into_bytes);
            assert_eq!(again, Ok(kept), "{scheme:?} {label:X?}");
        }
        assert!(accepted > TURNS / 3);
    }
}

/// The flags of an AltDUDE label as 003's sample code makes them, with one character after
/// the other: whether the last of each group is a capital. None of a hyphen.
fn flags_by_the_draft(label: &[u8]) -> Vec<u8> {
    let mut flags = Vec::new();
    let mut next = label.iter();
    while let Some(&first) = next.next() {
        let mut character = first;
        while b"stuvwxyz23456789".contains(&character.to_ascii_lowercase()) {
            character = *next.next().expect("the label is accepted");
        }
        flags.push(u8::from((65..=90).contains(&character)));
    }
    flags
}

#[test]
fn generated_marks_agree_with_the_draft() {
    let mut source = Source::new(26);
    for one in implementations() {
        for _ in 0..TURNS {
            let scheme = source.pick(&BOTH);
            let label = marked_label(&mut source, scheme);
            let Ok((text, marks)) = decoded(&one, scheme, &label) else {
                continue;
            };
            match scheme {
                Scheme::AltDude => assert_eq!(marks, flags_by_the_draft(&label)),
                _ => assert_eq!(marks, vec![0; text.len()]),
            }
        }
    }
}

#[test]
fn all_short_altdude_labels_in_either_case() {
    let mut characters = altdude::CHARACTERS.to_vec();
    characters.extend(altdude::CHARACTERS[..24].to_ascii_uppercase());
    characters.push(b'-');
    assert_eq!(characters.len(), 57);
    for one in implementations() {
        for index in 0..characters.len().pow(3) {
            let digits = [index % 57, index / 57 % 57, index / 57 / 57];
            let label = digits.map(|digit| characters[digit]);
            if let Ok((_, marks)) = decoded(&one, Scheme::AltDude, &label) {
                assert_eq!(marks, flags_by_the_draft(&label), "{label:?}");
            }
        }
    }
}

#[test]
fn every_point_but_the_hyphen_can_be_marked() {
    for one in implementations() {
        for character in '\0'..=char::MAX {
            let text = [u32::from(character)];
            let answer = encoded(&one, Scheme::AltDude, &text, &[1]);
            if character == '-' {
                assert_eq!(answer, Err((15, 0)));
                continue;
            }
            let mut label = without_marks(&one, Scheme::AltDude, &text).unwrap().into_bytes();
            label.last_mut().unwrap().make_ascii_uppercase();
            assert_eq!(answer.map(String::into_bytes).as_ref(), Ok(&label));
            assert_eq!(decoded(&one, Scheme::AltDude, &label), Ok((text.to_vec(), vec![1])));
        }
    }
}
