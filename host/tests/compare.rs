//! The comparison itself, without the proved library: the independent
//! implementation agrees with itself, and one with a planted error is found out.

#[path = "shared/handed_in.rs"]
mod handed_in;

use distelhut_host::altdude::group_for;
use distelhut_host::brace::{loose_text, style_of, symbols_in, Style};
use distelhut_host::compare::COMPARISONS;
use distelhut_host::functions::{
    store, DecodeMarked, EncodeMarked, Function, Implementation, Receive, TableDiff, INDEPENDENT,
};
use distelhut_host::point::{is_host_label, is_ldh};
use handed_in::handed_in;

const CASES: usize = 20_000;

#[test]
fn the_independent_implementation_agrees_with_itself() {
    for (name, compare) in COMPARISONS {
        let line = compare(CASES, 1, &[INDEPENDENT; 2]).unwrap();
        assert!(line.starts_with(&format!("{name}: 20000 cases agree: ")), "{line}");
    }
}

#[test]
fn too_few_cases_are_no_comparison() {
    for (_, compare) in COMPARISONS {
        // Each function has two codes or more, and is done at times.
        let line = compare(2, 1, &[INDEPENDENT; 2]).unwrap_err();
        assert!(line.contains("; the codes must be ["), "{line}");
    }
}

/// The comparison of a function finds an error in each of some implementations.
fn found(function: &str, planted: &[Implementation]) {
    let (_, compare) = COMPARISONS.iter().find(|(name, _)| *name == function).unwrap();
    for (index, &wrong) in planted.iter().enumerate() {
        let difference = compare(CASES, 1, &[INDEPENDENT, wrong]).unwrap_err();
        assert!(difference.contains(" differs: "), "{index}: {difference}");
    }
}

/// The comparison of a function finds each of some wrong ones, put in its place.
fn found_in<F: Copy>(function: &str, put: fn(F) -> Implementation, wrong: &[F]) {
    let planted: Vec<Implementation> = wrong.iter().map(|&wrong| put(wrong)).collect();
    found(function, &planted);
}

/// Makes a call, and answers the five numbers with it.
fn numbers<G, B, N: Copy>(
    function: Function<G, B, N>,
    given: &[G],
    number: N,
    buffer: &mut [B],
    answer: &mut [u64],
) -> [u64; 5] {
    let mut five = [0; 5];
    function(given, number, buffer, &mut five);
    function(given, number, buffer, answer);
    five
}

#[test]
fn errors_of_to_units() {
    found(
        "to_units",
        &[
            // twice the count wraps
            Implementation {
                to_units: |points, count, units, answer| {
                    (INDEPENDENT.to_units)(points, count & !(1 << 63), units, answer);
                },
                ..INDEPENDENT
            },
            // the whole row is converted
            Implementation {
                to_units: |points, count, units, answer| {
                    let count = if count < points.len() { points.len() } else { count };
                    (INDEPENDENT.to_units)(points, count, units, answer);
                },
                ..INDEPENDENT
            },
        ],
    );
}

#[test]
fn errors_of_to_points() {
    found(
        "to_points",
        &[
            // the position is one too high
            Implementation {
                to_points: |units, count, points, answer| {
                    let function = INDEPENDENT.to_points;
                    let five = numbers(function, units, count, points, answer);
                    if five[0] == 10 && answer.len() >= 5 {
                        answer[1] += 1;
                    }
                },
                ..INDEPENDENT
            },
            // the buffer is cleared to its end
            Implementation {
                to_points: |units, count, points, answer| {
                    let function = INDEPENDENT.to_points;
                    let five = numbers(function, units, count, points, answer);
                    if five[0] == 0 {
                        points[five[2] as usize..].fill(0);
                    }
                },
                ..INDEPENDENT
            },
        ],
    );
}

#[test]
fn errors_of_altdude_encode() {
    found(
        "altdude_encode",
        &[
            // a capacity of 62 is enough
            Implementation {
                altdude_encode: |text, _, label, answer| {
                    if label.len() != 62 {
                        return (INDEPENDENT.altdude_encode)(text, 0, label, answer);
                    }
                    let mut longer = [0; 63];
                    (INDEPENDENT.altdude_encode)(text, 0, &mut longer, answer);
                    label.copy_from_slice(&longer[..62]);
                },
                ..INDEPENDENT
            },
            // the numbers are stored where there is capacity for four
            Implementation {
                altdude_encode: |text, _, label, answer| {
                    let function = INDEPENDENT.altdude_encode;
                    let five = numbers(function, text, 0, label, answer);
                    if answer.len() == 4 {
                        answer.copy_from_slice(&five[..4]);
                    }
                },
                ..INDEPENDENT
            },
        ],
    );
}

#[test]
fn errors_of_altdude_decode() {
    found(
        "altdude_decode",
        &[
            // a label of 64 bytes is taken for one of 63
            Implementation {
                altdude_decode: |label, _, text, answer| {
                    let label = if label.len() == 64 { &label[..63] } else { label };
                    (INDEPENDENT.altdude_decode)(label, 0, text, answer);
                },
                ..INDEPENDENT
            },
            // 9 is reported before 5
            Implementation {
                altdude_decode: |label, _, text, answer| {
                    let five = numbers(INDEPENDENT.altdude_decode, label, 0, text, answer);
                    if five[0] == 5 && label.contains(&b's') && answer.len() >= 5 {
                        answer[0] = 9;
                    }
                },
                ..INDEPENDENT
            },
        ],
    );
}

#[test]
fn errors_of_lace_encode() {
    found(
        "lace_encode",
        &[
            // the prefix is stored before the text is judged
            Implementation {
                lace_encode: |text, _, label, answer| {
                    if let Some(front) = label.get_mut(..4) {
                        front.copy_from_slice(b"lq--");
                    }
                    (INDEPENDENT.lace_encode)(text, 0, label, answer);
                },
                ..INDEPENDENT
            },
            // every text of LDH is kept back
            Implementation {
                lace_encode: |text, _, label, answer| {
                    let ldh = text.iter().all(|&point| is_ldh(point));
                    let text = if ldh && !text.is_empty() { &[0x61] } else { text };
                    (INDEPENDENT.lace_encode)(text, 0, label, answer);
                },
                ..INDEPENDENT
            },
            // 64 points are taken for a host label
            Implementation {
                lace_encode: |text, _, label, answer| {
                    let text = if text.len() == 64 { &text[..63] } else { text };
                    (INDEPENDENT.lace_encode)(text, 0, label, answer);
                },
                ..INDEPENDENT
            },
            // the count is not stored
            Implementation {
                lace_encode: |text, _, label, answer| {
                    let kept = answer.get(2).copied();
                    (INDEPENDENT.lace_encode)(text, 0, label, answer);
                    if let Some(kept) = kept {
                        answer[2] = kept;
                    }
                },
                ..INDEPENDENT
            },
        ],
    );
}

#[test]
fn errors_of_lace_decode() {
    found(
        "lace_decode",
        &[
            // the position is counted from behind the prefix
            Implementation {
                lace_decode: |label, _, text, answer| {
                    let five = numbers(INDEPENDENT.lace_decode, label, 0, text, answer);
                    if five[0] == 7 && answer.len() >= 5 {
                        answer[1] -= 4;
                    }
                },
                ..INDEPENDENT
            },
            // 6 is reported of LDH with a hyphen at an edge
            Implementation {
                lace_decode: |label, _, text, answer| {
                    let five = numbers(INDEPENDENT.lace_decode, label, 0, text, answer);
                    let ldh = text.iter().take(five[2] as usize).all(|&point| is_ldh(point));
                    if five[0] == 0 && ldh && answer.len() >= 5 {
                        answer[0] = 6;
                    }
                },
                ..INDEPENDENT
            },
            // the prefix is compared with its case
            Implementation {
                lace_decode: |label, _, text, answer| {
                    let label = if label.starts_with(b"LQ--") { b"zq--" } else { label };
                    (INDEPENDENT.lace_decode)(label, 0, text, answer);
                },
                ..INDEPENDENT
            },
        ],
    );
}

/// Encodes a text with marks under AltDUDE, but shows in another way that a group's point is
/// marked.
fn otherwise_shown(
    (text, marks): (&[u32], &[u8]),
    label: &mut [u8],
    answer: &mut [u64],
    show: fn(&mut [u8]),
) {
    let mut five = [0; 5];
    (INDEPENDENT.altdude_encode_marked)((text, marks), label, &mut five);
    if five[0] == 0 {
        let mut remembered = 96;
        let mut made = Vec::new();
        for (&point, &mark) in text.iter().zip(marks) {
            let mut item = if point == 45 { vec![b'-'] } else { group_for(point ^ remembered) };
            if mark == 1 {
                show(&mut item);
            }
            remembered = if point == 45 { remembered } else { point };
            made.extend(item);
        }
        label[..made.len()].copy_from_slice(&made);
    }
    store(five, answer);
}

/// Encodes a text with marks, but reports an error of this code before 15: the one that the
/// text has with marks of 0.
fn before_15(
    encode: EncodeMarked,
    (text, marks): (&[u32], &[u8]),
    label: &mut [u8],
    answer: &mut [u64],
    code: u64,
) {
    let [mut five, mut other] = [[0; 5]; 2];
    encode((text, marks), label, &mut five);
    if five[0] == 15 {
        encode((text, &vec![0; text.len()]), &mut [0; 63], &mut other);
        five = if other[0] == code { other } else { five };
    }
    store(five, answer);
}

#[test]
fn errors_of_the_capitals_of_altdude_encode_marked() {
    found_in::<EncodeMarked>(
        "altdude_encode_marked",
        |altdude_encode_marked| Implementation { altdude_encode_marked, ..INDEPENDENT },
        &[
            // there are no capitals
            |given, label, answer| otherwise_shown(given, label, answer, |_| {}),
            // the first character of a group is the capital
            |given, label, answer| {
                otherwise_shown(given, label, answer, |group| group[0].make_ascii_uppercase());
            },
            // the whole group is in capitals
            |given, label, answer| {
                otherwise_shown(given, label, answer, |group| group.make_ascii_uppercase());
            },
            // groups take marks, hyphens do not
            |(text, marks), label, answer| {
                let mut five = [0; 5];
                (INDEPENDENT.altdude_encode_marked)((text, marks), label, &mut five);
                if five[0] == 0 {
                    let mut next = marks.iter().copied();
                    let mark = |&point: &u32| if point == 45 { 0 } else { next.next().unwrap() };
                    let marks: Vec<u8> = text.iter().map(mark).collect();
                    (INDEPENDENT.altdude_encode_marked)((text, &marks), label, &mut five);
                }
                store(five, answer);
            },
            // any number but 0 is a mark
            |(text, marks), label, answer| {
                let marks: Vec<u8> = marks.iter().map(|&mark| mark.min(1)).collect();
                (INDEPENDENT.altdude_encode_marked)((text, &marks), label, answer);
            },
        ],
    );
}

#[test]
fn errors_of_the_refusals_of_altdude_encode_marked() {
    found_in::<EncodeMarked>(
        "altdude_encode_marked",
        |altdude_encode_marked| Implementation { altdude_encode_marked, ..INDEPENDENT },
        &[
            // a hyphen may be marked
            |(text, marks), label, answer| {
                let mut marks = marks.to_vec();
                for (mark, _) in marks.iter_mut().zip(text).filter(|(_, point)| **point == 45) {
                    *mark = if *mark == 1 { 0 } else { *mark };
                }
                (INDEPENDENT.altdude_encode_marked)((text, &marks), label, answer);
            },
            // a row that is too long is cut
            |(text, marks), label, answer| {
                let marks = &marks[..marks.len().min(text.len())];
                (INDEPENDENT.altdude_encode_marked)((text, marks), label, answer);
            },
            // marks that are missing are 0
            |(text, marks), label, answer| {
                let mut marks = marks.to_vec();
                marks.resize(marks.len().max(text.len()), 0);
                (INDEPENDENT.altdude_encode_marked)((text, &marks), label, answer);
            },
            // another length is reported where the shorter row ends
            |(text, marks), label, answer| {
                let mut five = [0; 5];
                (INDEPENDENT.altdude_encode_marked)((text, marks), label, &mut five);
                if five[0] == 15 && marks.len() != text.len() {
                    five[1] = marks.len().min(text.len()) as u64;
                }
                store(five, answer);
            },
            // a row of marks of another length stands against an empty text
            |(text, marks), label, answer| {
                if text.is_empty() && !marks.is_empty() && label.len() >= 63 {
                    return store([15, 0, 0, 0, 0], answer);
                }
                (INDEPENDENT.altdude_encode_marked)((text, marks), label, answer);
            },
            // 15 before 4
            |(text, marks), label, answer| {
                let point = |&number: &u32| char::from_u32(number).map_or(0x61, u32::from);
                let points: Vec<u32> = text.iter().map(point).collect();
                let mut five = [0; 5];
                (INDEPENDENT.altdude_encode_marked)((&points, marks), &mut [0; 63], &mut five);
                match five[0] == 15 && label.len() >= 63 {
                    true => store(five, answer),
                    false => (INDEPENDENT.altdude_encode_marked)((text, marks), label, answer),
                }
            },
            // 5 before 15
            |given, label, answer| {
                before_15(INDEPENDENT.altdude_encode_marked, given, label, answer, 5);
            },
            // 3 before 15
            |given, label, answer| {
                before_15(INDEPENDENT.altdude_encode_marked, given, label, answer, 3);
            },
        ],
    );
}

#[test]
fn errors_of_lace_encode_marked() {
    found_in::<EncodeMarked>(
        "lace_encode_marked",
        |lace_encode_marked| Implementation { lace_encode_marked, ..INDEPENDENT },
        &[
            // the marks are not looked at
            |(text, _), label, answer| (INDEPENDENT.lace_encode)(text, 0, label, answer),
            // a mark of 1 is taken for 0
            |(text, marks), label, answer| {
                let marks: Vec<u8> = marks.iter().map(|&mark| mark & !1).collect();
                (INDEPENDENT.lace_encode_marked)((text, &marks), label, answer);
            },
            // 15 is reported at 0
            |given, label, answer| {
                let mut five = [0; 5];
                (INDEPENDENT.lace_encode_marked)(given, label, &mut five);
                five[1] = if five[0] == 15 { 0 } else { five[1] };
                store(five, answer);
            },
            // 6 before 15
            |given, label, answer| {
                before_15(INDEPENDENT.lace_encode_marked, given, label, answer, 6);
            },
            // 3 before 15
            |given, label, answer| {
                before_15(INDEPENDENT.lace_encode_marked, given, label, answer, 3);
            },
        ],
    );
}

/// The marks for a label and its text, and a marks buffer that held this.
type MarksOf = fn(&[u8], &[u32], &[u8]) -> Vec<u8>;

/// Decodes a label to a text and its marks under AltDUDE, with other marks.
fn otherwise_marked(
    label: &[u8],
    (text, marks): (&mut [u32], &mut [u8]),
    answer: &mut [u64],
    marks_of: MarksOf,
) {
    let held = marks.to_vec();
    let mut five = [0; 5];
    (INDEPENDENT.altdude_decode_marked)(label, (text, marks), &mut five);
    if five[0] == 0 {
        let made = marks_of(label, &text[..five[2] as usize], &held);
        marks[..made.len()].copy_from_slice(&made);
    }
    store(five, answer);
}

/// What a rule says of each group of an accepted label of AltDUDE; of a hyphen 0.
fn marks_by(label: &[u8], rule: fn(&[u8]) -> bool) -> Vec<u8> {
    let last = |byte: &u8| b"abcdefghijkmnpqr-".contains(&byte.to_ascii_lowercase());
    label.split_inclusive(last).map(|item| u8::from(item != b"-" && rule(item))).collect()
}

#[test]
fn errors_of_the_marks_of_altdude_decode_marked() {
    found_in::<DecodeMarked>(
        "altdude_decode_marked",
        |altdude_decode_marked| Implementation { altdude_decode_marked, ..INDEPENDENT },
        &[
            // the first character of a group is looked at
            |label, filled, answer| {
                otherwise_marked(label, filled, answer, |label, _, _| {
                    marks_by(label, |group| group[0].is_ascii_uppercase())
                });
            },
            // any character of a group is looked at
            |label, filled, answer| {
                otherwise_marked(label, filled, answer, |label, _, _| {
                    marks_by(label, |group| group.iter().any(u8::is_ascii_uppercase))
                });
            },
            // a mark is 20 hex
            |label, filled, answer| {
                otherwise_marked(label, filled, answer, |label, _, _| {
                    let marks = marks_by(label, |group| group[group.len() - 1] < 0x61);
                    marks.iter().map(|mark| mark * 0x20).collect()
                });
            },
            // a hyphen has no mark
            |label, filled, answer| {
                otherwise_marked(label, filled, answer, |label, text, _| {
                    let marks = marks_by(label, |group| group[group.len() - 1] < 0x61);
                    let marks = marks.iter().zip(text).filter(|(_, &point)| point != 45);
                    marks.map(|(&mark, _)| mark).collect()
                });
            },
            // the mark of a hyphen is left as it was
            |label, filled, answer| {
                otherwise_marked(label, filled, answer, |label, text, held| {
                    let marks = marks_by(label, |group| group[group.len() - 1] < 0x61);
                    let kept = |index: usize| if text[index] == 45 { held } else { &marks }[index];
                    (0..marks.len()).map(kept).collect()
                });
            },
        ],
    );
}

#[test]
fn errors_of_the_buffers_of_altdude_decode_marked() {
    found_in::<DecodeMarked>(
        "altdude_decode_marked",
        |altdude_decode_marked| Implementation { altdude_decode_marked, ..INDEPENDENT },
        &[
            // 62 marks are enough
            |label, (text, marks), answer| {
                if marks.len() != 62 {
                    return (INDEPENDENT.altdude_decode_marked)(label, (text, marks), answer);
                }
                let mut longer = [0; 63];
                longer[..62].copy_from_slice(marks);
                (INDEPENDENT.altdude_decode_marked)(label, (text, &mut longer), answer);
                marks.copy_from_slice(&longer[..62]);
            },
            // the capacity of the marks is asked after the label is judged
            |label, (text, marks), answer| {
                let mut five = [0; 5];
                if text.len() >= 63 && marks.len() < 63 {
                    (INDEPENDENT.altdude_decode)(label, 0, &mut [0; 63], &mut five);
                    five = if five[0] == 0 { [1, 0, 0, 0, 0] } else { five };
                    return store(five, answer);
                }
                (INDEPENDENT.altdude_decode_marked)(label, (text, marks), answer);
            },
            // the marks are cleared to their end
            |label, (text, marks), answer| {
                let mut five = [0; 5];
                (INDEPENDENT.altdude_decode_marked)(label, (text, marks), &mut five);
                if five[0] == 0 {
                    marks[five[2] as usize..].fill(0);
                }
                store(five, answer);
            },
            // a mark is stored before the label is judged
            |label, (text, marks), answer| {
                if let (Some(byte), Some(mark)) = (label.first(), marks.first_mut()) {
                    *mark = u8::from(byte.is_ascii_uppercase());
                }
                (INDEPENDENT.altdude_decode_marked)(label, (text, marks), answer);
            },
            // the text is left as it was
            |label, (text, marks), answer| {
                let held = text.to_vec();
                (INDEPENDENT.altdude_decode_marked)(label, (text, marks), answer);
                text.copy_from_slice(&held);
            },
        ],
    );
}

#[test]
fn errors_of_lace_decode_marked() {
    found_in::<DecodeMarked>(
        "lace_decode_marked",
        |lace_decode_marked| Implementation { lace_decode_marked, ..INDEPENDENT },
        &[
            // the marks are left as they were
            |label, (text, marks), answer| {
                if marks.len() < 63 {
                    return store([1, 0, 0, 0, 0], answer);
                }
                (INDEPENDENT.lace_decode)(label, 0, text, answer);
            },
            // the last character tells the last mark
            |label, (text, marks), answer| {
                let mut five = [0; 5];
                (INDEPENDENT.lace_decode_marked)(label, (text, marks), &mut five);
                if five[0] == 0 {
                    marks[five[2] as usize - 1] = u8::from(label.last().unwrap() < &0x61);
                }
                store(five, answer);
            },
            // 63 marks are stored
            |label, (text, marks), answer| {
                let mut five = [0; 5];
                (INDEPENDENT.lace_decode_marked)(label, (text, marks), &mut five);
                if five[0] == 0 {
                    marks[..63].fill(0);
                }
                store(five, answer);
            },
            // the marks need no more capacity than the text has points
            |label, (text, marks), answer| {
                let mut five = [0; 5];
                (INDEPENDENT.lace_decode)(label, 0, text, &mut five);
                if five[0] == 0 && marks.len() >= five[2] as usize {
                    marks[..five[2] as usize].fill(0);
                    return store(five, answer);
                }
                (INDEPENDENT.lace_decode_marked)(label, (text, marks), answer);
            },
        ],
    );
}

/// The style that a text has if BRACE's rule of mixed style were another: the bits
/// of a unit in the complementary half-row, the half-row chosen on ties, and the
/// style chosen if both are as long.
fn other_style(units: &[u16], nine: usize, lowest: bool, no_row_on_ties: bool) -> Style {
    if let style @ (Style::HalfRow(_) | Style::FullRow(_)) = style_of(units) {
        return style;
    }
    let codes: Vec<u16> = units.iter().copied().filter(|&unit| !is_ldh(unit.into())).collect();
    let length = |half_row: u16| {
        let count = |wanted: u16| codes.iter().filter(|&code| code >> 7 == wanted).count();
        let (chosen, near) = (count(half_row), count(half_row ^ 1));
        (15 + 18 * (codes.len() - chosen - near) + 8 * chosen + nine * near) / 5
    };
    let key = |half_row: u16| (length(half_row), if lowest { half_row } else { !half_row });
    let no_row = (6 + 16 * codes.len()) / 5;
    match codes.iter().map(|code| code >> 7).min_by_key(|&half_row| key(half_row)) {
        Some(best) if no_row > length(best) => Style::Mixed(best),
        Some(best) if no_row == length(best) && !no_row_on_ties => Style::Mixed(best),
        _ => Style::NoRow,
    }
}

/// Encodes with BRACE, and where the label is not plain in a given style.
fn in_style(units: &[u16], label: &mut [u8], answer: &mut [u64], style: Style) {
    let mut five = [0; 5];
    (INDEPENDENT.brace_encode)(units, 0, label, &mut five);
    let plain = units.len() as u64 == five[2];
    let symbols = symbols_in(style, units);
    if five[0] == 0 && !plain && symbols.len() <= 63 {
        five[2] = symbols.len() as u64;
        symbols.iter().zip(label).for_each(|(symbol, byte)| *byte = symbol.byte());
    }
    store(five, answer);
}

#[test]
fn errors_of_brace_encode() {
    found(
        "brace_encode",
        &[
            // a unit of the complementary half-row is counted as eight bits
            Implementation {
                brace_encode: |units, _, label, answer| {
                    in_style(units, label, answer, other_style(units, 8, true, true));
                },
                ..INDEPENDENT
            },
            // the highest half-row is chosen on ties
            Implementation {
                brace_encode: |units, _, label, answer| {
                    in_style(units, label, answer, other_style(units, 9, false, true));
                },
                ..INDEPENDENT
            },
            // mixed style is chosen on ties
            Implementation {
                brace_encode: |units, _, label, answer| {
                    in_style(units, label, answer, other_style(units, 9, true, false));
                },
                ..INDEPENDENT
            },
            // a text of LDH alone is in half-row style
            Implementation {
                brace_encode: |units, _, label, answer| {
                    let ldh = units.iter().all(|&unit| is_ldh(unit.into()));
                    let style = if ldh { Style::HalfRow(0) } else { style_of(units) };
                    in_style(units, label, answer, style);
                },
                ..INDEPENDENT
            },
            // the signature is known in capitals only
            Implementation {
                brace_encode: |units, _, label, answer| {
                    let unsigned: Vec<u16> =
                        units.iter().map(|&unit| if unit == 0x71 { 0x70 } else { unit }).collect();
                    let small = units.ends_with(&[0x2D, 0x38, 0x71, 0x39]);
                    let units = if small { &unsigned } else { units };
                    (INDEPENDENT.brace_encode)(units, 0, label, answer);
                },
                ..INDEPENDENT
            },
            // 3 is reported before 10
            Implementation {
                brace_encode: |units, _, label, answer| {
                    let five = numbers(INDEPENDENT.brace_encode, units, 0, label, answer);
                    if five[0] == 10 && units.len() > 63 {
                        store([3, 0, 0, 0, 0], answer);
                    }
                },
                ..INDEPENDENT
            },
        ],
    );
}

#[test]
fn errors_of_brace_decode() {
    found(
        "brace_decode",
        &[
            // the label is not compared with that of its text
            Implementation {
                brace_decode: |label, _, units, answer| {
                    let five = numbers(INDEPENDENT.brace_decode, label, 0, units, answer);
                    let coded = &label[..label.len().saturating_sub(4)];
                    if let (9, Some(text)) = (five[0], loose_text(coded)) {
                        units[..text.len()].copy_from_slice(&text);
                        store([0, 0, text.len() as u64, 0, 0], answer);
                    }
                },
                ..INDEPENDENT
            },
            // copied letters are made small
            Implementation {
                brace_decode: |label, _, units, answer| {
                    let five = numbers(INDEPENDENT.brace_decode, label, 0, units, answer);
                    for unit in &mut units[..five[2] as usize] {
                        *unit += if (0x41..0x5B).contains(unit) { 0x20 } else { 0 };
                    }
                },
                ..INDEPENDENT
            },
            // base-32 characters are known in capitals only
            Implementation {
                brace_decode: |label, _, units, answer| {
                    let label = if label.starts_with(b"s-") { b"22-8Q9" } else { label };
                    (INDEPENDENT.brace_decode)(label, 0, units, answer);
                },
                ..INDEPENDENT
            },
            // 7 is reported of a label with the signature
            Implementation {
                brace_decode: |label, _, units, answer| {
                    let five = numbers(INDEPENDENT.brace_decode, label, 0, units, answer);
                    let outside = label.iter().position(|&byte| !is_ldh(byte.into()));
                    if let (9, Some(position)) = (five[0], outside) {
                        store([7, position as u64, 0, 0, 0], answer);
                    }
                },
                ..INDEPENDENT
            },
            // an unpaired surrogate is reported as such
            Implementation {
                brace_decode: |label, _, units, answer| {
                    let five = numbers(INDEPENDENT.brace_decode, label, 0, units, answer);
                    let coded = &label[..label.len().saturating_sub(4)];
                    let text = loose_text(coded).unwrap_or_default();
                    if five[0] == 9 && String::from_utf16(&text).is_err() {
                        store([10, 0, 0, 0, 0], answer);
                    }
                },
                ..INDEPENDENT
            },
        ],
    );
}

/// How a name is written or read part by part: what parts it, what each part gives or the
/// code of its refusal, and how long what is given and what is made may be.
#[derive(Clone, Copy)]
struct ByParts<G: 'static, B> {
    dots: &'static [G],
    dot: B,
    part: fn(&[G]) -> Result<Vec<B>, u64>,
    given_max: usize,
    made_max: usize,
}

const WRITING: ByParts<u32, u8> = ByParts {
    dots: &[0x2E],
    dot: b'.',
    part: |part| alone(INDEPENDENT.name_encode, part),
    given_max: usize::MAX,
    made_max: 253,
};

const READING: ByParts<u8, u32> = ByParts {
    dots: b".",
    dot: 0x2E,
    part: |label| alone(INDEPENDENT.name_decode, label),
    given_max: 253,
    made_max: usize::MAX,
};

/// What a function gives for a text or a name by itself, or its code.
fn alone<G, B: Copy + From<u8>>(function: Function<G, B>, given: &[G]) -> Result<Vec<B>, u64> {
    let mut made = [B::from(0); 253];
    let mut five = [0; 5];
    function(given, 0, &mut made, &mut five);
    match five[0] {
        0 => Ok(made[..five[2] as usize].to_vec()),
        code => Err(code),
    }
}

/// Writes or reads a name part by part.
fn by_parts<G, B>(rules: ByParts<G, B>, given: &[G], buffer: &mut [B], answer: &mut [u64])
where
    G: PartialEq,
    B: Copy,
{
    let refused =
        [(1, buffer.len() < 253), (2, given.is_empty()), (3, given.len() > rules.given_max)];
    if let Some((code, _)) = refused.into_iter().find(|(_, stands)| *stands) {
        return store([code, 0, 0, 0, 0], answer);
    }
    let mut made = Vec::new();
    for (index, part) in given.split(|element| rules.dots.contains(element)).enumerate() {
        match (rules.part)(part) {
            Ok(elements) => made.push(elements),
            Err(code) => return store([code, index as u64, 0, 0, 0], answer),
        }
    }
    let made = made.join(&rules.dot);
    if made.len() > rules.made_max.min(buffer.len()) {
        return store([3, 0, 0, 0, 0], answer);
    }
    buffer[..made.len()].copy_from_slice(&made);
    store([0, 0, made.len() as u64, 0, 0], answer);
}

/// Calls a function, and stores the position of a refusal as it is changed.
fn elsewhere<G: PartialEq, B>(
    function: Function<G, B>,
    given: &[G],
    buffer: &mut [B],
    answer: &mut [u64],
    position: fn(&[G], [u64; 5]) -> u64,
) {
    let mut five = [0; 5];
    function(given, 0, buffer, &mut five);
    if five[0] != 0 {
        five[1] = position(given, five);
    }
    store(five, answer);
}

/// Calls a function with a buffer of one element more than there is, if 252 are.
fn with_252<G, B>(function: Function<G, B>, given: &[G], buffer: &mut [B], answer: &mut [u64])
where
    B: Copy + From<u8>,
{
    if buffer.len() != 252 {
        return function(given, 0, buffer, answer);
    }
    let mut longer = [&*buffer, &[B::from(0)]].concat();
    function(given, 0, &mut longer, answer);
    buffer.copy_from_slice(&longer[..252]);
}

/// How many elements stand before the part of an index.
fn start_of<G: PartialEq>(given: &[G], dot: &G, index: u64) -> usize {
    let parts = given.split(|element| element == dot);
    parts.take(index as usize).map(|part| part.len() + 1).sum()
}

/// Whether numbers begin with LACE's prefix in any case.
fn has_prefix(numbers: &[u32]) -> bool {
    matches!(numbers, [0x4C | 0x6C, 0x51 | 0x71, 0x2D, 0x2D, ..])
}

/// The bytes of points.
fn bytes_of(points: &[u32]) -> Vec<u8> {
    points.iter().map(|&point| point as u8).collect()
}

/// The points of bytes.
fn points_of(bytes: &[u8]) -> Vec<u32> {
    bytes.iter().map(|&byte| u32::from(byte)).collect()
}

#[test]
fn a_name_goes_part_by_part() {
    let parts = Implementation {
        name: "by parts",
        name_encode: |text, _, name, answer| by_parts(WRITING, text, name, answer),
        name_decode: |name, _, text, answer| by_parts(READING, name, text, answer),
        ..INDEPENDENT
    };
    for function in ["name_encode", "name_decode"] {
        let (_, compare) = COMPARISONS.iter().find(|(name, _)| *name == function).unwrap();
        compare(200_000, 1, &[INDEPENDENT, parts]).unwrap();
    }
}

#[test]
fn errors_of_the_parts_of_name_encode() {
    found_in::<Function<u32, u8>>(
        "name_encode",
        |name_encode| Implementation { name_encode, ..INDEPENDENT },
        &[
            // a host label that begins with lq-- is copied
            |text, _, name, answer| {
                let part = |part: &[u32]| match (WRITING.part)(part) {
                    Err(16) => Ok(bytes_of(part)),
                    label => label,
                };
                by_parts(ByParts { part, ..WRITING }, text, name, answer);
            },
            // it is reported as LACE reports a host label
            |text, _, name, answer| {
                let part = |part: &[u32]| match (WRITING.part)(part) {
                    Err(16) => Err(6),
                    label => label,
                };
                by_parts(ByParts { part, ..WRITING }, text, name, answer);
            },
            // lq-- is known in small letters only
            |text, _, name, answer| {
                let part = |part: &[u32]| match (WRITING.part)(part) {
                    Err(16) if part[0] < 0x60 || part[1] < 0x60 => Ok(bytes_of(part)),
                    label => label,
                };
                by_parts(ByParts { part, ..WRITING }, text, name, answer);
            },
            // whatever begins with lq-- is 16
            |text, _, name, answer| {
                let part = |part: &[u32]| match has_prefix(part) {
                    true => Err(16),
                    false => (WRITING.part)(part),
                };
                by_parts(ByParts { part, ..WRITING }, text, name, answer);
            },
            // plain parts are made small
            |text, _, name, answer| {
                let part = |part: &[u32]| {
                    let mut label = (WRITING.part)(part)?;
                    label.make_ascii_lowercase();
                    Ok(label)
                };
                by_parts(ByParts { part, ..WRITING }, text, name, answer);
            },
            // LDH with a hyphen at an edge is copied
            |text, _, name, answer| {
                let part = |part: &[u32]| {
                    let ldh = part.iter().all(|&point| is_ldh(point)) && !has_prefix(part);
                    match ldh && (1..=63).contains(&part.len()) {
                        true => Ok(bytes_of(part)),
                        false => (WRITING.part)(part),
                    }
                };
                by_parts(ByParts { part, ..WRITING }, text, name, answer);
            },
            // 3 is reported before 4
            |text, _, name, answer| {
                let part = |part: &[u32]| match (WRITING.part)(part) {
                    Err(4) if part.len() > 63 => Err(3),
                    label => label,
                };
                by_parts(ByParts { part, ..WRITING }, text, name, answer);
            },
            // U+3002 is a dot
            |text, _, name, answer| {
                by_parts(ByParts { dots: &[0x2E, 0x3002], ..WRITING }, text, name, answer);
            },
            // the dot is looked for in the last two bytes
            |text, _, name, answer| {
                let dots = &[0x2E, 0x1002E, 0x8000002E];
                by_parts(ByParts { dots, ..WRITING }, text, name, answer);
            },
        ],
    );
}

#[test]
fn errors_of_the_whole_of_name_encode() {
    found_in::<Function<u32, u8>>(
        "name_encode",
        |name_encode| Implementation { name_encode, ..INDEPENDENT },
        &[
            // 254 bytes are written
            |text, _, name, answer| {
                by_parts(ByParts { made_max: 254, ..WRITING }, text, name, answer);
            },
            // the whole is judged with each part
            |text, _, name, answer| {
                let mut five = [0; 5];
                (INDEPENDENT.name_encode)(text, 0, name, &mut five);
                if five[1] > 0 {
                    let before = &text[..start_of(text, &0x2E, five[1]) - 1];
                    let long = alone(INDEPENDENT.name_encode, before) == Err(3);
                    five = if long { [3, 0, 0, 0, 0] } else { five };
                }
                store(five, answer);
            },
            // a refusal is reported at the part's first point
            |text, _, name, answer| {
                elsewhere(INDEPENDENT.name_encode, text, name, answer, |text, five| {
                    start_of(text, &0x2E, five[1]) as u64
                });
            },
            // 4 is reported at the number's index
            |text, _, name, answer| {
                elsewhere(INDEPENDENT.name_encode, text, name, answer, |text, five| {
                    let no_point = |&number: &u32| char::from_u32(number).is_none();
                    let position = text.iter().position(no_point).unwrap_or(0);
                    if five[0] == 4 {
                        position as u64
                    } else {
                        five[1]
                    }
                });
            },
            // the index is counted in one byte
            |text, _, name, answer| {
                elsewhere(INDEPENDENT.name_encode, text, name, answer, |_, five| five[1] % 256);
            },
            // a dot at the end is left out
            |text, _, name, answer| {
                let text = match text {
                    [front @ .., 0x2E] if !front.is_empty() => front,
                    _ => text,
                };
                (INDEPENDENT.name_encode)(text, 0, name, answer);
            },
            // a capacity of 252 is enough
            |text, _, name, answer| with_252(INDEPENDENT.name_encode, text, name, answer),
            // the first label is stored before the others are judged
            |text, _, name, answer| {
                let mut five = [0; 5];
                (INDEPENDENT.name_encode)(text, 0, name, &mut five);
                if five[1] > 0 {
                    let first = text.split(|&point| point == 0x2E).next().unwrap();
                    let label = (WRITING.part)(first).unwrap();
                    name[..label.len()].copy_from_slice(&label);
                }
                store(five, answer);
            },
        ],
    );
}

#[test]
fn errors_of_the_parts_of_name_decode() {
    found_in::<Function<u8, u32>>(
        "name_decode",
        |name_decode| Implementation { name_decode, ..INDEPENDENT },
        &[
            // a LACE label may have a dot in its text
            |name, _, text, answer| {
                let part = |label: &[u8]| match (READING.part)(label) {
                    Err(16) => alone(INDEPENDENT.lace_decode, label),
                    points => points,
                };
                by_parts(ByParts { part, ..READING }, name, text, answer);
            },
            // so may one whose dot is not at an edge
            |name, _, text, answer| {
                let part = |label: &[u8]| match (READING.part)(label) {
                    Err(16) => match &alone(INDEPENDENT.lace_decode, label)?[..] {
                        [0x2E, ..] | [.., 0x2E] => Err(16),
                        points => Ok(points.to_vec()),
                    },
                    points => points,
                };
                by_parts(ByParts { part, ..READING }, name, text, answer);
            },
            // plain parts are made small
            |name, _, text, answer| {
                let part = |label: &[u8]| match has_prefix(&points_of(label)) {
                    true => (READING.part)(label),
                    false => (READING.part)(&label.to_ascii_lowercase()),
                };
                by_parts(ByParts { part, ..READING }, name, text, answer);
            },
            // lq-- is known in small letters only
            |name, _, text, answer| {
                let part = |label: &[u8]| {
                    let points = points_of(label);
                    let other = has_prefix(&points) && !label.starts_with(b"lq--");
                    match (READING.part)(label) {
                        Ok(_) if other => Ok(points),
                        points => points,
                    }
                };
                by_parts(ByParts { part, ..READING }, name, text, answer);
            },
            // a label that LACE refuses is plain if it is a host label
            |name, _, text, answer| {
                let part = |label: &[u8]| match (READING.part)(label) {
                    Err(6 | 7 | 9) if is_host_label(&points_of(label)) => Ok(points_of(label)),
                    points => points,
                };
                by_parts(ByParts { part, ..READING }, name, text, answer);
            },
            // a host label under LACE is 9
            |name, _, text, answer| {
                let part = |label: &[u8]| match (READING.part)(label) {
                    Err(6) => Err(9),
                    points => points,
                };
                by_parts(ByParts { part, ..READING }, name, text, answer);
            },
            // 7 is reported before 3
            |name, _, text, answer| {
                let part = |label: &[u8]| match (READING.part)(label) {
                    Err(3) if !label.iter().all(|&byte| is_ldh(byte.into())) => Err(7),
                    points => points,
                };
                by_parts(ByParts { part, ..READING }, name, text, answer);
            },
            // 5 is reported before 7
            |name, _, text, answer| {
                let part = |label: &[u8]| match ((READING.part)(label), label) {
                    (Err(7), [b'-', ..] | [.., b'-']) if !has_prefix(&points_of(label)) => Err(5),
                    (points, _) => points,
                };
                by_parts(ByParts { part, ..READING }, name, text, answer);
            },
            // a hyphen may be last
            |name, _, text, answer| {
                let part = |label: &[u8]| match ((READING.part)(label), label) {
                    (Err(5), [first, ..]) if *first != b'-' => Ok(points_of(label)),
                    (points, _) => points,
                };
                by_parts(ByParts { part, ..READING }, name, text, answer);
            },
            // the highest bit of a dot is not looked at
            |name, _, text, answer| {
                by_parts(ByParts { dots: b".\xAE", ..READING }, name, text, answer);
            },
        ],
    );
}

#[test]
fn errors_of_the_whole_of_name_decode() {
    found_in::<Function<u8, u32>>(
        "name_decode",
        |name_decode| Implementation { name_decode, ..INDEPENDENT },
        &[
            // 254 bytes are read
            |name, _, text, answer| {
                by_parts(ByParts { given_max: 254, ..READING }, name, text, answer);
            },
            // the whole is judged after the parts
            |name, _, text, answer| {
                let rules = ByParts { given_max: usize::MAX, ..READING };
                let (mut longer, mut five) = ([0; 400], [0; 5]);
                by_parts(rules, name, &mut longer, &mut five);
                match five[0] != 0 && name.len() > 253 && text.len() >= 253 {
                    true => store(five, answer),
                    false => (INDEPENDENT.name_decode)(name, 0, text, answer),
                }
            },
            // a refusal is reported at the part's first byte
            |name, _, text, answer| {
                elsewhere(INDEPENDENT.name_decode, name, text, answer, |name, five| {
                    start_of(name, &b'.', five[1]) as u64
                });
            },
            // 7 is reported at the byte's index in the label
            |name, _, text, answer| {
                elsewhere(INDEPENDENT.name_decode, name, text, answer, |name, five| {
                    let label = &name[start_of(name, &b'.', five[1])..];
                    let outside = label.iter().position(|&byte| !is_ldh(byte.into()));
                    if five[0] == 7 {
                        outside.unwrap_or(0) as u64
                    } else {
                        five[1]
                    }
                });
            },
            // an empty part is reported before what is wrong with one before it
            |name, _, text, answer| {
                let mut five = [0; 5];
                (INDEPENDENT.name_decode)(name, 0, text, &mut five);
                let mut parts = name.split(|&byte| byte == b'.');
                if let (3.., Some(index)) = (five[0], parts.position(|part| part.is_empty())) {
                    five = if name.len() > 253 { five } else { [2, index as u64, 0, 0, 0] };
                }
                store(five, answer);
            },
            // a dot at the end is left out
            |name, _, text, answer| {
                let name = match name {
                    [front @ .., b'.'] if !front.is_empty() && name.len() <= 253 => front,
                    _ => name,
                };
                (INDEPENDENT.name_decode)(name, 0, text, answer);
            },
            // a capacity of 252 is enough
            |name, _, text, answer| with_252(INDEPENDENT.name_decode, name, text, answer),
            // the first part is stored before the others are judged
            |name, _, text, answer| {
                let mut five = [0; 5];
                (INDEPENDENT.name_decode)(name, 0, text, &mut five);
                if five[1] > 0 {
                    let first = name.split(|&byte| byte == b'.').next().unwrap();
                    let points = (READING.part)(first).unwrap();
                    text[..points.len()].copy_from_slice(&points);
                }
                store(five, answer);
            },
        ],
    );
}

#[test]
fn errors_of_tables_with_brace() {
    // units are counted and not points
    found(
        "table_entry, BRACE",
        &[Implementation {
            table_entry: |table, index, text, answer| {
                let five = numbers(INDEPENDENT.table_entry, table, index, text, answer);
                let points = text.iter().take(five[2] as usize);
                let above = points.filter(|&&point| point > 0xFFFF).count() as u64;
                if five[4] == 3 && above > 0 {
                    store([0, 0, five[2] + above, five[3], 3], answer);
                }
            },
            ..INDEPENDENT
        }],
    );
    // BRACE is told as LACE
    found(
        "table_judged_entry, BRACE",
        &[Implementation {
            table_judged_entry: |table, index, text, answer| {
                (INDEPENDENT.table_judged_entry)(table, index, text, answer);
                if answer.len() >= 5 && answer[4] == 3 {
                    answer[4] = 2;
                }
            },
            ..INDEPENDENT
        }],
    );
    // a label of BRACE is judged as one of LACE
    found(
        "table_read, BRACE",
        &[Implementation {
            table_read: |table, _, none, answer| {
                let mut table = table.to_vec();
                for kind in table.iter_mut().skip(3).step_by(67).filter(|kind| **kind == 0x42) {
                    *kind = 0x4C;
                }
                (INDEPENDENT.table_read)(&table, 0, none, answer);
            },
            ..INDEPENDENT
        }],
    );
    // 10 is reported and not 4
    found(
        "table_write, BRACE",
        &[Implementation {
            table_write: |readers, schemes, lengths, points, table, answer| {
                let mut five = [0; 5];
                let function = INDEPENDENT.table_write;
                function(readers, schemes, lengths, points, table, &mut five);
                if five[0] == 4 && schemes[five[1] as usize] == 3 {
                    five[0] = 10;
                }
                store(five, answer);
            },
            ..INDEPENDENT
        }],
    );
}

#[test]
fn errors_of_the_c_interface_with_brace() {
    // more than 63 units are cut to 63
    found(
        "write, BRACE",
        &[Implementation {
            write: |text, scheme, label, answer| {
                let text = if text.len() % 2 == 0 { &text[..text.len().min(126)] } else { text };
                (INDEPENDENT.write)(text, scheme, label, answer);
            },
            ..INDEPENDENT
        }],
    );
    // room for 126 bytes is enough
    found(
        "read, BRACE",
        &[Implementation {
            read: |label, scheme, text, answer| {
                if !(126..252).contains(&text.len()) {
                    return (INDEPENDENT.read)(label, scheme, text, answer);
                }
                let mut longer = [&*text, &[0; 252]].concat();
                (INDEPENDENT.read)(label, scheme, &mut longer, answer);
                text.copy_from_slice(&longer[..text.len()]);
            },
            ..INDEPENDENT
        }],
    );
}

#[test]
fn errors_of_table_read() {
    found(
        "table_read",
        &[
            // what follows the last entry is not looked at
            Implementation {
                table_read: |table, _, none, answer| {
                    let length = match table {
                        [0x48, high, low, ..] => {
                            3 + 67 * (usize::from(*high) * 256 + usize::from(*low))
                        }
                        _ => table.len(),
                    };
                    let kept = &table[..length.min(table.len())];
                    (INDEPENDENT.table_read)(kept, 0, none, answer);
                },
                ..INDEPENDENT
            },
            // 501 entries are one too many only once they are there
            Implementation {
                table_read: |table, _, none, answer| {
                    let table = if table.starts_with(&[0x48, 0x01, 0xF5]) { &[] } else { table };
                    (INDEPENDENT.table_read)(table, 0, none, answer);
                },
                ..INDEPENDENT
            },
        ],
    );
}

#[test]
fn errors_of_table_entry() {
    found(
        "table_entry",
        &[
            // the index is looked at in 32 bits
            Implementation {
                table_entry: |table, index, text, answer| {
                    (INDEPENDENT.table_entry)(table, index % (1 << 32), text, answer);
                },
                ..INDEPENDENT
            },
            // the reader number of the first entry is told for all
            Implementation {
                table_entry: |table, index, text, answer| {
                    let function = INDEPENDENT.table_entry;
                    let five = numbers(function, table, index, text, answer);
                    if five[0] == 0 && answer.len() >= 5 {
                        answer[3] = u64::from(u16::from_be_bytes([table[4], table[5]]));
                    }
                },
                ..INDEPENDENT
            },
            // AltDUDE is told as the default, 0
            Implementation {
                table_entry: |table, index, text, answer| {
                    (INDEPENDENT.table_entry)(table, index, text, answer);
                    if answer.len() >= 5 && answer[4] == 1 {
                        answer[4] = 0;
                    }
                },
                ..INDEPENDENT
            },
        ],
    );
}

#[test]
fn errors_of_table_judged_entry() {
    found(
        "table_judged_entry",
        &[
            // the table is judged again
            Implementation { table_judged_entry: INDEPENDENT.table_entry, ..INDEPENDENT },
            // the entry's own refusal is reported at 0
            Implementation {
                table_judged_entry: |table, index, text, answer| {
                    (INDEPENDENT.table_judged_entry)(table, index, text, answer);
                    if answer.len() >= 5 {
                        answer[1] = 0;
                    }
                },
                ..INDEPENDENT
            },
            // where an entry ends is computed in 32 bits
            Implementation {
                table_judged_entry: |table, index, text, answer| {
                    (INDEPENDENT.table_judged_entry)(table, index % (1 << 32), text, answer);
                },
                ..INDEPENDENT
            },
        ],
    );
}

#[test]
fn errors_of_table_write() {
    found(
        "table_write",
        &[
            // a buffer that is one byte short is enough
            Implementation {
                table_write: |readers, schemes, lengths, points, table, answer| {
                    let function = INDEPENDENT.table_write;
                    let mut longer = [&*table, &[0]].concat();
                    function(readers, schemes, lengths, points, &mut longer, answer);
                    table.copy_from_slice(&longer[..table.len()]);
                },
                ..INDEPENDENT
            },
            // the lengths are added modulo 2^64
            Implementation {
                table_write: |readers, schemes, lengths, points, table, answer| {
                    let sum = lengths.iter().fold(0usize, |sum, &length| sum.wrapping_add(length));
                    let mut left = points.len();
                    let cut = |&length: &usize| {
                        let taken = left.min(length);
                        left -= taken;
                        taken
                    };
                    let cut: Vec<usize> = lengths.iter().map(cut).collect();
                    let lengths = if sum == points.len() { &cut } else { lengths };
                    (INDEPENDENT.table_write)(readers, schemes, lengths, points, table, answer);
                },
                ..INDEPENDENT
            },
            // the reader numbers are looked at last
            Implementation {
                table_write: |readers, schemes, lengths, points, table, answer| {
                    let function = INDEPENDENT.table_write;
                    let rising: Vec<u16> = (0..readers.len()).map(|index| index as u16).collect();
                    let (mut other, mut five) = (table.to_vec(), [0; 5]);
                    function(&rising, schemes, lengths, points, &mut other, &mut five);
                    let readers = if five[0] == 0 { readers } else { &rising };
                    function(readers, schemes, lengths, points, table, answer);
                },
                ..INDEPENDENT
            },
            // 0 is the default scheme
            Implementation {
                table_write: |readers, schemes, lengths, points, table, answer| {
                    let schemes: Vec<u32> = schemes.iter().map(|&scheme| scheme.max(1)).collect();
                    (INDEPENDENT.table_write)(readers, &schemes, lengths, points, table, answer);
                },
                ..INDEPENDENT
            },
            // only the last byte of a scheme number is looked at
            Implementation {
                table_write: |readers, schemes, lengths, points, table, answer| {
                    let schemes: Vec<u32> = schemes.iter().map(|scheme| scheme % 256).collect();
                    (INDEPENDENT.table_write)(readers, &schemes, lengths, points, table, answer);
                },
                ..INDEPENDENT
            },
            // the first entry is stored before the others are judged
            Implementation {
                table_write: |readers, schemes, lengths, points, table, answer| {
                    let function = INDEPENDENT.table_write;
                    let mut five = [0; 5];
                    function(readers, schemes, lengths, points, table, &mut five);
                    function(readers, schemes, lengths, points, table, answer);
                    if five[1] > 0 {
                        table[3] = if schemes[0] == 1 { 0x41 } else { 0x4C };
                    }
                },
                ..INDEPENDENT
            },
            // the bytes after a label are left as they were
            Implementation {
                table_write: |readers, schemes, lengths, points, table, answer| {
                    let before = table.to_vec();
                    let mut five = [0; 5];
                    let function = INDEPENDENT.table_write;
                    function(readers, schemes, lengths, points, table, &mut five);
                    function(readers, schemes, lengths, points, table, answer);
                    for start in (3..five[2] as usize).step_by(67) {
                        let filling = start + 4 + usize::from(table[start + 3])..start + 67;
                        table[filling.clone()].copy_from_slice(&before[filling]);
                    }
                },
                ..INDEPENDENT
            },
        ],
    );
}

#[test]
fn errors_of_table_header() {
    found_in::<Function<u8, u8>>(
        "table_header",
        |table_header| Implementation { table_header, ..INDEPENDENT },
        &[
            // 501 entries are taken
            |table, kind, none, answer| {
                let five = numbers(INDEPENDENT.table_header, table, kind, none, answer);
                if five[0] == 14 && table[0] == kind as u8 && table[1..].starts_with(&[1, 0xF5]) {
                    store([0, 0, 501, 0, 0], answer);
                }
            },
            // a header that is cut is 13, whatever its kind
            |table, kind, none, answer| {
                let table = if table.len() < 3 { &[] } else { table };
                (INDEPENDENT.table_header)(table, kind, none, answer);
            },
            // either form's kind is taken
            |table, kind, none, answer| {
                let either = matches!(table, [0x48 | 0x49, ..]);
                let kind = if either { table[0].into() } else { kind };
                (INDEPENDENT.table_header)(table, kind, none, answer);
            },
            // only the last byte of the count is looked at
            |table, kind, none, answer| {
                let mut table = table.to_vec();
                if let Some(high) = table.get_mut(1) {
                    *high = 0;
                }
                (INDEPENDENT.table_header)(&table, kind, none, answer);
            },
        ],
    );
}

#[test]
fn errors_of_table_lone_entry() {
    found_in::<Function<u8, u32, [usize; 2]>>(
        "table_lone_entry",
        |table_lone_entry| Implementation { table_lone_entry, ..INDEPENDENT },
        &[
            // the least reader number is looked at in 16 bits
            |entry, [least, position], text, answer| {
                let numbers = [least % (1 << 16), position];
                (INDEPENDENT.table_lone_entry)(entry, numbers, text, answer);
            },
            // the reader number must be above the least
            |entry, [least, position], text, answer| {
                let numbers = [least.saturating_add(1), position];
                (INDEPENDENT.table_lone_entry)(entry, numbers, text, answer);
            },
            // the entry's own refusal is reported at 0
            |entry, [least, _], text, answer| {
                (INDEPENDENT.table_lone_entry)(entry, [least, 0], text, answer);
            },
            // another length is reported at the position
            |entry, [least, position], text, answer| {
                let function = INDEPENDENT.table_lone_entry;
                let five = numbers(function, entry, [least, position], text, answer);
                if [13, 14].contains(&five[0]) {
                    store([five[0], position as u64, 0, 0, 0], answer);
                }
            },
            // what follows the 67 bytes is not looked at
            |entry, numbers, text, answer| {
                let entry = &entry[..entry.len().min(67)];
                (INDEPENDENT.table_lone_entry)(entry, numbers, text, answer);
            },
        ],
    );
}

/// The bytes of an entry of a short table, by its kind; none for an unknown one.
fn entry_length(kind: u8) -> Option<usize> {
    match kind {
        0x51 => Some(21),
        0x52 => Some(37),
        0x53 => Some(68),
        _ => None,
    }
}

/// How many entries a table announces.
fn announced(table: &[u8]) -> usize {
    match table {
        [_, high, low, ..] => u16::from_be_bytes([*high, *low]).into(),
        _ => 0,
    }
}

/// The whole entries of a short table, as far as their kinds are known and they are
/// announced, and the bytes after them.
fn walked(table: &[u8]) -> (Vec<&[u8]>, &[u8]) {
    let (mut entries, mut rest) = (Vec::new(), table.get(3..).unwrap_or_default());
    while entries.len() < announced(table) {
        let length = rest.first().and_then(|&kind| entry_length(kind));
        let Some((entry, later)) = length.and_then(|length| rest.split_at_checked(length)) else {
            break;
        };
        entries.push(entry);
        rest = later;
    }
    (entries, rest)
}

/// A short table with each of its whole entries changed.
fn each_changed(table: &[u8], change: fn(&mut Vec<u8>)) -> Vec<u8> {
    let (entries, rest) = walked(table);
    let mut entries: Vec<Vec<u8>> = entries.into_iter().map(<[u8]>::to_vec).collect();
    entries.iter_mut().for_each(change);
    [&table[..table.len().min(3)], &entries.concat(), rest].concat()
}

/// Puts an entry into a smaller kind, if only zeros are cut off.
fn in_kind(entry: &mut Vec<u8>, kind: u8) {
    let length = entry_length(kind).unwrap();
    if entry.len() > length && entry[length..].iter().all(|&byte| byte == 0) {
        entry[0] = kind;
        entry.truncate(length);
    }
}

#[test]
fn errors_of_short_read() {
    found_in::<Function<u8, u8>>(
        "short_read",
        |short_read| Implementation { short_read, ..INDEPENDENT },
        &[
            // what follows the last entry is not looked at
            |table, _, none, answer| {
                let (entries, rest) = walked(table);
                let after = if entries.len() == announced(table) { rest.len() } else { 0 };
                (INDEPENDENT.short_read)(&table[..table.len() - after], 0, none, answer);
            },
            // every entry must be whole before the first is judged
            |table, _, none, answer| {
                let five = numbers(INDEPENDENT.short_read, table, 0, none, answer);
                let (entries, rest) = walked(table);
                let known = rest.first().is_none_or(|&kind| entry_length(kind).is_some());
                if five[0] < 10 && entries.len() < announced(table) && known {
                    store([13, 0, 0, 0, 0], answer);
                }
            },
            // an entry that is cut is reported at its index
            |table, _, none, answer| {
                let five = numbers(INDEPENDENT.short_read, table, 0, none, answer);
                if five[0] == 13 {
                    store([13, walked(table).0.len() as u64, 0, 0, 0], answer);
                }
            },
        ],
    );
}

#[test]
fn errors_of_the_entries_of_short_read() {
    found_in::<Function<u8, u8>>(
        "short_read",
        |short_read| Implementation { short_read, ..INDEPENDENT },
        &[
            // 0 is the default scheme
            |table, _, none, answer| {
                let table = each_changed(table, |entry| entry[3] += u8::from(entry[3] == 0));
                (INDEPENDENT.short_read)(&table, 0, none, answer);
            },
            // a kind may be larger than needed
            |table, _, none, answer| {
                let table = each_changed(table, |entry| match entry[4] {
                    1..=16 => in_kind(entry, 0x51),
                    17..=32 => in_kind(entry, 0x52),
                    _ => {}
                });
                (INDEPENDENT.short_read)(&table, 0, none, answer);
            },
            // a label of 32 bytes may be in the third kind
            |table, _, none, answer| {
                let table = each_changed(table, |entry| {
                    if entry[4] == 32 {
                        in_kind(entry, 0x52);
                    }
                });
                (INDEPENDENT.short_read)(&table, 0, none, answer);
            },
            // the filling is not looked at
            |table, _, none, answer| {
                let table = each_changed(table, |entry| {
                    let end = entry.len().min(5 + usize::from(entry[4]));
                    entry[end..].fill(0);
                });
                (INDEPENDENT.short_read)(&table, 0, none, answer);
            },
        ],
    );
}

#[test]
fn errors_of_short_entry() {
    found_in::<Function<u8, u32>>(
        "short_entry",
        |short_entry| Implementation { short_entry, ..INDEPENDENT },
        &[
            // the index is looked at in 32 bits
            |table, index, text, answer| {
                (INDEPENDENT.short_entry)(table, index % (1 << 32), text, answer);
            },
            // an index too high is reported at the index
            |table, index, text, answer| {
                let five = numbers(INDEPENDENT.short_entry, table, index, text, answer);
                let mut read = [0; 5];
                (INDEPENDENT.short_read)(table, 0, &mut [], &mut read);
                if five[0] == 14 && read[0] == 0 {
                    store([14, index as u64, 0, 0, 0], answer);
                }
            },
            // the reader number of the first entry is told for all
            |table, index, text, answer| {
                let mut five = numbers(INDEPENDENT.short_entry, table, index, text, answer);
                if five[0] == 0 {
                    five[3] = u64::from(u16::from_be_bytes([table[4], table[5]]));
                    store(five, answer);
                }
            },
            // the table is judged no further than the entry
            |table, index, text, answer| {
                let (entries, _) = walked(table);
                let mut table = table.to_vec();
                if index < entries.len() {
                    table.truncate(3 + entries[..=index].concat().len());
                    table[1..3].copy_from_slice(&(index as u16 + 1).to_be_bytes());
                }
                (INDEPENDENT.short_entry)(&table, index, text, answer);
            },
        ],
    );
}

/// A move for which a buffer that is one byte short is enough.
fn one_byte_short(function: Function<u8, u8>, given: &[u8], out: &mut [u8], answer: &mut [u64]) {
    let mut longer = [&*out, &[0]].concat();
    function(given, 0, &mut longer, answer);
    out.copy_from_slice(&longer[..out.len()]);
}

/// A move that asks whether there is any capacity before it judges the table.
fn capacity_first(function: Function<u8, u8>, given: &[u8], out: &mut [u8], answer: &mut [u64]) {
    match out.len() {
        0 => store([1, 0, 0, 0, 0], answer),
        _ => function(given, 0, out, answer),
    }
}

/// A move that stores the second byte of the count before it judges the table.
fn count_first(function: Function<u8, u8>, given: &[u8], out: &mut [u8], answer: &mut [u64]) {
    function(given, 0, out, answer);
    if let (Some(stored), Some(count)) = (out.get_mut(2), given.get(2)) {
        *stored = *count;
    }
}

#[test]
fn errors_of_the_capacity_of_moves() {
    found_in::<Function<u8, u8>>(
        "to_short",
        |to_short| Implementation { to_short, ..INDEPENDENT },
        &[
            |table, _, short, answer| one_byte_short(INDEPENDENT.to_short, table, short, answer),
            |table, _, short, answer| capacity_first(INDEPENDENT.to_short, table, short, answer),
            |table, _, short, answer| count_first(INDEPENDENT.to_short, table, short, answer),
        ],
    );
    found_in::<Function<u8, u8>>(
        "to_long",
        |to_long| Implementation { to_long, ..INDEPENDENT },
        &[
            |short, _, table, answer| one_byte_short(INDEPENDENT.to_long, short, table, answer),
            |short, _, table, answer| capacity_first(INDEPENDENT.to_long, short, table, answer),
            |short, _, table, answer| count_first(INDEPENDENT.to_long, short, table, answer),
        ],
    );
}

/// A move whose table is changed before it is stored. The change is also told what the
/// buffer holds.
fn changed(
    function: Function<u8, u8>,
    given: &[u8],
    out: &mut [u8],
    answer: &mut [u64],
    change: fn(Vec<u8>, &[u8]) -> Vec<u8>,
) {
    let mut five = [0; 5];
    let mut made = vec![0; 34_003];
    function(given, 0, &mut made, &mut five);
    if five[0] == 0 {
        made.truncate(five[2] as usize);
        let made = change(made, out);
        five = [1, 0, 0, 0, 0];
        if let Some(front) = out.get_mut(..made.len()) {
            front.copy_from_slice(&made);
            five = [0, 0, made.len() as u64, 0, 0];
        }
    }
    store(five, answer);
}

/// A table with what a buffer holds in place of the filling of each entry. The entries
/// have so many bytes, and the label of each stands after so many.
fn filling_kept(
    mut table: Vec<u8>,
    held: &[u8],
    lengths: &[usize],
    before_label: usize,
) -> Vec<u8> {
    let mut start = 3;
    for length in lengths {
        let label = usize::from(table[start + before_label - 1]);
        let filling = start + before_label + label..start + length;
        if let Some(held) = held.get(filling.clone()) {
            table[filling].copy_from_slice(held);
        }
        start += length;
    }
    table
}

#[test]
fn errors_of_to_short() {
    found_in::<Function<u8, u8>>(
        "to_short",
        |to_short| Implementation { to_short, ..INDEPENDENT },
        &[
            // labels are made small
            |table, _, short, answer| {
                changed(INDEPENDENT.to_short, table, short, answer, |made, _| {
                    each_changed(&made, |entry| entry[5..].make_ascii_lowercase())
                });
            },
            // a label of 16 bytes gets the second kind
            |table, _, short, answer| {
                changed(INDEPENDENT.to_short, table, short, answer, |made, _| {
                    each_changed(&made, |entry| {
                        if entry[4] == 16 {
                            entry[0] = 0x52;
                            entry.resize(37, 0);
                        }
                    })
                });
            },
            // the bytes after a label are left as they were
            |table, _, short, answer| {
                changed(INDEPENDENT.to_short, table, short, answer, |made, held| {
                    let lengths: Vec<_> = walked(&made).0.iter().map(|entry| entry.len()).collect();
                    filling_kept(made, held, &lengths, 5)
                });
            },
        ],
    );
}

#[test]
fn errors_of_to_long() {
    found_in::<Function<u8, u8>>(
        "to_long",
        |to_long| Implementation { to_long, ..INDEPENDENT },
        &[
            // labels are made small
            |short, _, table, answer| {
                changed(INDEPENDENT.to_long, short, table, answer, |mut made, _| {
                    made[3..].chunks_mut(67).for_each(|entry| entry[4..].make_ascii_lowercase());
                    made
                });
            },
            // the kind is 4C under BRACE too
            |short, _, table, answer| {
                changed(INDEPENDENT.to_long, short, table, answer, |mut made, _| {
                    for kind in made.iter_mut().skip(3).step_by(67).filter(|kind| **kind == 0x42) {
                        *kind = 0x4C;
                    }
                    made
                });
            },
            // the bytes after a label are left as they were
            |short, _, table, answer| {
                changed(INDEPENDENT.to_long, short, table, answer, |made, held| {
                    let entries = made.len() / 67;
                    filling_kept(made, held, &vec![67; entries], 4)
                });
            },
        ],
    );
}

/// Makes the sheet of two tables, and stores it as it is changed.
fn other_sheet(
    tables: [&[u8]; 2],
    sheet: &mut [u8],
    answer: &mut [u64],
    change: fn(String) -> String,
) {
    let mut five = [1, 0, 0, 0, 0];
    if sheet.len() >= 16_546 {
        let mut made = vec![0; 16_546];
        (INDEPENDENT.table_diff)(tables, &mut made, &mut five);
        made.truncate(five[2] as usize);
        let changed = change(String::from_utf8(made).unwrap());
        five[2] = changed.len() as u64;
        sheet[..changed.len()].copy_from_slice(changed.as_bytes());
    }
    store(five, answer);
}

/// A short table with small letters in its labels; any other table as it is.
fn in_small_letters(table: &[u8]) -> Vec<u8> {
    match table.first() {
        Some(0x49) => each_changed(table, |entry| entry[5..].make_ascii_lowercase()),
        _ => table.to_vec(),
    }
}

#[test]
fn errors_of_the_buffer_of_table_diff() {
    found_in::<TableDiff>(
        "table_diff",
        |table_diff| Implementation { table_diff, ..INDEPENDENT },
        &[
            // a capacity of 16,545 is enough
            |tables, sheet, answer| {
                if sheet.len() != 16_545 {
                    return (INDEPENDENT.table_diff)(tables, sheet, answer);
                }
                let mut longer = [0; 16_546];
                longer[..16_545].copy_from_slice(sheet);
                (INDEPENDENT.table_diff)(tables, &mut longer, answer);
                sheet.copy_from_slice(&longer[..16_545]);
            },
            // a table's refusal comes before the capacity
            |tables, sheet, answer| {
                if sheet.len() < 16_546 && tables[0].is_empty() {
                    return store([13, 0, 0, 0, 0], answer);
                }
                (INDEPENDENT.table_diff)(tables, sheet, answer);
            },
            // a table's refusal is an error
            |tables, sheet, answer| {
                let held = sheet.to_vec();
                (INDEPENDENT.table_diff)(tables, sheet, answer);
                if sheet.starts_with(b"left refused 14") {
                    sheet.copy_from_slice(&held);
                    store([14, 0, 0, 0, 0], answer);
                }
            },
            // the buffer is cleared to its end
            |tables, sheet, answer| {
                let mut five = [0; 5];
                (INDEPENDENT.table_diff)(tables, sheet, &mut five);
                if five[0] == 0 {
                    sheet[five[2] as usize..].fill(0);
                }
                store(five, answer);
            },
        ],
    );
}

#[test]
fn errors_of_the_lines_of_table_diff() {
    found_in::<TableDiff>(
        "table_diff",
        |table_diff| Implementation { table_diff, ..INDEPENDENT },
        &[
            // the right table's refusal first
            |[left, right], sheet, answer| {
                let mut made = [0; 16_546];
                (INDEPENDENT.table_diff)([right, left], &mut made, &mut []);
                if made.starts_with(b"left refused") {
                    return other_sheet([right, left], sheet, answer, |made| {
                        made.replace("left", "right")
                    });
                }
                (INDEPENDENT.table_diff)([left, right], sheet, answer);
            },
            // an entry whose text is another is told as one on each side
            |tables, sheet, answer| {
                other_sheet(tables, sheet, answer, |made| {
                    let twice = |line: &str| match line.strip_suffix(" other text") {
                        Some(reader) => format!("{reader} only left\n{reader} only right\n"),
                        None => format!("{line}\n"),
                    };
                    made.lines().map(twice).collect()
                });
            },
            // respelled is told as another text
            |tables, sheet, answer| {
                other_sheet(tables, sheet, answer, |made| {
                    made.replace(" respelled\n", " other text\n")
                });
            },
            // zeros before a reader number are left out
            |tables, sheet, answer| {
                other_sheet(tables, sheet, answer, |made| made.replace("\n0", "\n"));
            },
            // the counts of the two sides are swapped
            |tables, sheet, answer| {
                other_sheet(tables, sheet, answer, |made| {
                    let Some((front, counts)) = made.split_once(" left ") else {
                        return made;
                    };
                    match counts.trim_end().split_once(" right ") {
                        Some((left, right)) => format!("{front} left {right} right {left}\n"),
                        None => made,
                    }
                });
            },
            // capitals that BRACE copies are taken for small letters, in a short table
            |[left, right], sheet, answer| {
                let (left, right) = (in_small_letters(left), in_small_letters(right));
                (INDEPENDENT.table_diff)([&left, &right], sheet, answer);
            },
        ],
    );
}

/// Receives a table by reading at once what is handed in.
fn read_at_once(lengths: &[usize], bytes: &[u8], answer: &mut [u64]) {
    (INDEPENDENT.table_read)(handed_in(lengths, bytes), 0, &mut [], answer);
}

#[test]
fn receiving_is_reading_at_once() {
    let (_, compare) = COMPARISONS.iter().find(|(name, _)| *name == "receive").unwrap();
    let reading = Implementation { name: "at once", receive: read_at_once, ..INDEPENDENT };
    compare(200_000, 1, &[reading, INDEPENDENT]).unwrap();
}

/// A table that is whole but for its length: what is announced and not there is filled up
/// with good entries, what follows the last entry is left out.
fn of_announced_length(table: &[u8]) -> Vec<u8> {
    let count = match table {
        [0x48, high, low, ..] => u16::from_be_bytes([*high, *low]),
        _ => return table.to_vec(),
    };
    let mut whole = table.to_vec();
    for index in (whole.len() - 3) / 67..usize::from(count.min(500)) {
        whole.truncate(3 + 67 * index);
        whole.extend([0x41, 0xFE + (index / 256) as u8, index as u8, 1, b'a']);
        whole.resize(3 + 67 * (index + 1), 0);
    }
    whole.truncate(3 + 67 * usize::from(count));
    whole
}

#[test]
fn errors_of_the_chunks_of_receive() {
    found_in::<Receive>(
        "receive",
        |receive| Implementation { receive, ..INDEPENDENT },
        &[
            // all bytes are handed in
            |_, bytes, answer| (INDEPENDENT.receive)(&[bytes.len()], bytes, answer),
            // a chunk of no bytes ends the table
            |lengths, bytes, answer| {
                let end = lengths.iter().position(|&length| length == 0).unwrap_or(lengths.len());
                (INDEPENDENT.receive)(&lengths[..end], bytes, answer);
            },
            // a length past the end takes nothing
            |lengths, bytes, answer| {
                let mut rest = bytes.len();
                let within = |&length: &usize| {
                    let taken = if length <= rest { length } else { 0 };
                    rest -= taken;
                    taken
                };
                let lengths: Vec<usize> = lengths.iter().map(within).collect();
                (INDEPENDENT.receive)(&lengths, bytes, answer);
            },
            // the lengths are added modulo 2^64
            |lengths, bytes, answer| {
                let sum = lengths.iter().fold(0, |sum: usize, &length| sum.wrapping_add(length));
                (INDEPENDENT.receive)(&[sum], bytes, answer);
            },
            // the first chunk makes a fresh start of its own
            |lengths, bytes, answer| {
                let first = lengths.first().map_or(0, |&first| first.min(bytes.len()));
                let first = if first == bytes.len() { 0 } else { first };
                let rest = lengths.get(1..).unwrap_or_default();
                let lengths = if first == 0 { lengths } else { rest };
                (INDEPENDENT.receive)(lengths, &bytes[first..], answer);
            },
        ],
    );
}

#[test]
fn errors_of_the_count_of_receive() {
    found_in::<Receive>(
        "receive",
        |receive| Implementation { receive, ..INDEPENDENT },
        &[
            // no more than 33,503 bytes are counted
            |lengths, bytes, answer| {
                let bytes = handed_in(lengths, bytes);
                let bytes = &bytes[..bytes.len().min(33_503)];
                (INDEPENDENT.receive)(&[bytes.len()], bytes, answer);
            },
            // the bytes are counted in 16 bits
            |lengths, bytes, answer| {
                let bytes = handed_in(lengths, bytes);
                let bytes = &bytes[..bytes.len() % 65_536];
                (INDEPENDENT.receive)(&[bytes.len()], bytes, answer);
            },
            // nothing received is a table of no entries
            |lengths, bytes, answer| {
                (INDEPENDENT.receive)(lengths, bytes, answer);
                if handed_in(lengths, bytes).is_empty() {
                    store([0; 5], answer);
                }
            },
        ],
    );
}

#[test]
fn errors_of_the_refusals_of_receive() {
    found_in::<Receive>(
        "receive",
        |receive| Implementation { receive, ..INDEPENDENT },
        &[
            // an entry's refusal is told before the length decides
            |lengths, bytes, answer| {
                let mut five = [0; 5];
                let whole = of_announced_length(handed_in(lengths, bytes));
                (INDEPENDENT.receive)(&[whole.len()], &whole, &mut five);
                if five[0] == 0 {
                    (INDEPENDENT.receive)(lengths, bytes, &mut five);
                }
                store(five, answer);
            },
            // the position is that of the entry after
            |lengths, bytes, answer| {
                let mut five = [0; 5];
                (INDEPENDENT.receive)(lengths, bytes, &mut five);
                five[1] += u64::from(![0, 13, 14].contains(&five[0]));
                store(five, answer);
            },
        ],
    );
}

#[test]
fn errors_of_write() {
    found(
        "write",
        &[
            // 254 bytes are taken for 252
            Implementation {
                write: |text, scheme, label, answer| {
                    let text = if text.len() == 254 { &text[..252] } else { text };
                    (INDEPENDENT.write)(text, scheme, label, answer);
                },
                ..INDEPENDENT
            },
            // the low byte of a unit is taken first
            Implementation {
                write: |text, scheme, label, answer| {
                    let swapped: Vec<u8> =
                        text.chunks(2).flat_map(|pair| pair.iter().rev().copied()).collect();
                    (INDEPENDENT.write)(&swapped, scheme, label, answer);
                },
                ..INDEPENDENT
            },
            // the default is LACE
            Implementation {
                write: |text, scheme, label, answer| {
                    let scheme = if scheme == 0 { 2 } else { scheme };
                    (INDEPENDENT.write)(text, scheme, label, answer);
                },
                ..INDEPENDENT
            },
        ],
    );
}

#[test]
fn errors_of_read() {
    found(
        "read",
        &[
            // only the last byte of the scheme number is looked at
            Implementation {
                read: |label, scheme, text, answer| {
                    (INDEPENDENT.read)(label, scheme % 256, text, answer);
                },
                ..INDEPENDENT
            },
            // a capacity of 251 is enough
            Implementation {
                read: |label, scheme, text, answer| {
                    if text.len() != 251 {
                        return (INDEPENDENT.read)(label, scheme, text, answer);
                    }
                    let mut longer = [0; 252];
                    (INDEPENDENT.read)(label, scheme, &mut longer, answer);
                    text.copy_from_slice(&longer[..251]);
                },
                ..INDEPENDENT
            },
            // a zero ends the text
            Implementation {
                read: |label, scheme, text, answer| {
                    let five = numbers(INDEPENDENT.read, label, scheme, text, answer);
                    if let Some(byte) = text.get_mut(five[2] as usize) {
                        *byte = 0;
                    }
                },
                ..INDEPENDENT
            },
        ],
    );
}
