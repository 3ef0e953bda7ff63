//! Texts with marks, lawful and not, and labels whose letters are of either case.

use super::labels::{self, change_case};
use super::texts::{self, ROW_MAX};
use super::Source;
use crate::point::HYPHEN;
use crate::scheme::Scheme;

/// Numbers that are no marks.
const NOT_MARKS: [u8; 8] = [2, 2, 3, 0x30, 0x31, 0x80, 0xFE, 0xFF];

/// A text, and a row of marks for it.
#[derive(Clone, Debug)]
pub struct MarkedText {
    pub text: Vec<u32>,
    pub marks: Vec<u8>,
}

/// Puts some hyphens after points of a text.
fn insert_hyphens(source: &mut Source, text: &mut Vec<u32>) {
    for _ in 0..source.between(1, 3) {
        let position = source.between(text.len().min(1), text.len());
        text.insert(position, HYPHEN);
    }
}

/// A text for a scheme: one that may be encoded about as often as any other, some with
/// more hyphens.
fn text_to_mark(source: &mut Source, scheme: Scheme) -> Vec<u32> {
    let mut text = match source.below(2) {
        0 => labels::lawful_text(source, scheme),
        _ => texts::text(source),
    };
    if source.once_in(4) {
        insert_hyphens(source, &mut text);
    }
    text
}

/// Marks that a scheme takes for a text: of LACE all 0, of AltDUDE on none of its points,
/// on all, on one, or on some; never on a hyphen.
fn lawful_marks(source: &mut Source, scheme: Scheme, text: &[u32]) -> Vec<u8> {
    let one = source.below(text.len().max(1));
    let way = if scheme == Scheme::AltDude { source.below(8) } else { 0 };
    let mut mark = |(index, &point): (usize, &u32)| {
        let marked = match way {
            0 => false,
            1 => true,
            2 => index == one,
            _ => source.once_in(2),
        };
        u8::from(marked && point != HYPHEN)
    };
    text.iter().enumerate().map(&mut mark).collect()
}

/// Puts another number in the place of a mark: 1, on a hyphen or on any point, or one that
/// is no mark.
fn other_mark(source: &mut Source, text: &[u32], marks: &mut [u8]) {
    let hyphens: Vec<usize> =
        (0..marks.len()).filter(|&index| text.get(index) == Some(&HYPHEN)).collect();
    let Some(last) = marks.len().checked_sub(1) else {
        return;
    };
    let any = source.below(marks.len());
    match source.below(5) {
        0 | 1 if !hyphens.is_empty() => marks[source.pick(&hyphens)] = 1,
        2 => marks[any] = 1,
        _ => marks[source.pick(&[0, any, any, last])] = source.pick(&NOT_MARKS),
    }
}

/// One fault of a row of marks: another length, another number in it, or other numbers
/// throughout. AltDUDE takes a 1 on any point but a hyphen, so that this may be none.
fn fault(source: &mut Source, text: &[u32], marks: &mut Vec<u8>) {
    let number = source.pick(&[0, 1, 2]);
    match source.below(9) {
        0 => marks.clear(),
        1 => marks.truncate(marks.len().saturating_sub(1)),
        2 => marks.push(number),
        3 => marks.resize(source.below(ROW_MAX + 1), number),
        4 => marks.fill_with(|| source.pick(&[0, 0, 0, 1, 2])),
        _ => other_mark(source, text, marks),
    }
}

/// A text with marks for a scheme, lawful or not: both the text and the marks may have up
/// to three faults.
pub fn marked_text(source: &mut Source, scheme: Scheme) -> MarkedText {
    let text = text_to_mark(source, scheme);
    let mut marks = lawful_marks(source, scheme, &text);
    for _ in 0..source.faults() {
        fault(source, &text, &mut marks);
    }
    MarkedText { text, marks }
}

/// A label for a scheme: mostly with letters of either case, at times of capitals alone;
/// of AltDUDE at times with one hyphen more.
pub fn marked_label(source: &mut Source, scheme: Scheme) -> Vec<u8> {
    let mut label = match source.below(3) {
        0 => labels::lawful(source, scheme),
        _ => labels::label(source, scheme),
    };
    match source.below(8) {
        0 => {}
        1 => label.make_ascii_uppercase(),
        _ => change_case(source, &mut label),
    }
    if scheme == Scheme::AltDude && source.once_in(8) {
        label.insert(source.below(label.len() + 1), b'-');
    }
    label
}
