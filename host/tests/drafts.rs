//! The published examples of source documents 003 and 004. `tests/known.rs`
//! encodes their texts, `tests/marked.rs` those of 003 with their capitals.

mod shared;

use distelhut_host::functions::implementations;
use distelhut_host::papers::{octets_004, Example, BASE32_004, EXAMPLES_003};
use distelhut_host::point::same_but_for_case;
use distelhut_host::{altdude, lace, utf16};
use shared::called;

// Each text is the draft's, with its names such as <ccaron> replaced by the code
// points given under it, and then folded. Labels that the draft breaks with a
// backslash are joined. They are compared ignoring case, those over 63 bytes too.
#[test]
fn label_of_every_example() {
    let letters: String = EXAMPLES_003.iter().map(|example| example.letter).collect();
    assert_eq!(letters, "ABCDEFGHIJKLMNOPQRS");
    for example in EXAMPLES_003 {
        let label = altdude::encoding(&example.text());
        let said = example.label.as_bytes();
        assert!(same_but_for_case(&label, said), "example {}", example.letter);
    }
}

#[test]
fn decoding_every_example_as_printed() {
    for one in implementations() {
        for example in EXAMPLES_003 {
            let answer = called(one.altdude_decode, example.label.as_bytes(), 0, 63);
            match example.code {
                None => assert_eq!(answer, Ok(example.text())),
                Some(code) => assert_eq!(answer, Err((code, 0))),
            }
        }
    }
}

/// The label with a capital where the draft's text has one: on the last
/// character of the group, as the case-preserving model says.
fn case_preserving_label(example: &Example) -> String {
    let mut label = String::new();
    let mut remembered = altdude::START;
    for shown in example.shown.chars() {
        if shown == '-' {
            label.push('-');
            continue;
        }
        let folded = u32::from(shown.to_lowercase().next().unwrap());
        let mut group = String::from_utf8(altdude::group_for(folded ^ remembered)).unwrap();
        if shown.is_uppercase() {
            let last = group.pop().unwrap();
            group.push(last.to_ascii_uppercase());
        }
        label.push_str(&group);
        remembered = folded;
    }
    label
}

// A check on the copying: even the draft's capitals come out.
#[test]
fn capitals_of_every_example() {
    for example in EXAMPLES_003 {
        assert_eq!(case_preserving_label(&example), example.label, "example {}", example.letter);
    }
}

#[test]
fn g_and_k_are_the_only_long_ones() {
    for example in EXAMPLES_003 {
        assert_eq!(example.label.len() > 63, example.code == Some(3));
        assert_eq!(example.label.starts_with('-'), example.code == Some(5));
    }
}

#[test]
fn octets_of_the_compression_examples() {
    for example in octets_004() {
        let units = utf16::units_of(example.text).unwrap();
        assert_eq!(lace::octets_of(&units).unwrap(), example.octets);
    }
}

#[test]
fn base32_example() {
    let (octets, characters) = BASE32_004;
    assert_eq!(lace::base32_of(&octets), characters.as_bytes());
}

// As octets of a label, 3A 27 0F 93 is a run of 58 cut short.
#[test]
fn base32_example_as_a_label() {
    for one in implementations() {
        assert_eq!(called(one.lace_decode, b"lq--hitq7ey", 0, 63), Err((9, 0)));
    }
}

// The sample code of 003 wraps in 32 bits and relies on encoding again; the
// rules of form alone must refuse the same labels.
#[test]
fn sample_code_of_003_would_wrap() {
    for one in implementations() {
        assert_eq!(called(one.altdude_decode, b"tsssssssb", 0, 63), Err((9, 0)));
    }
}

// The sample code of 004 takes at most 62 text octets; the draft's text and the
// scope paper allow 34 units of one row, 68 octets.
#[test]
fn text_of_004_stands_above_its_sample_code() {
    for one in implementations() {
        assert_eq!(called(one.lace_encode, &[0x431; 34], 0, 63).unwrap().len(), 62);
    }
}
