//! AltDUDE (source document 003): encoding a text, and decoding a label.

use crate::error::{error, error_at, Error, ErrorCode};
use crate::marks;
use crate::point::{first_not_point, is_point, value_in, HYPHEN, LABEL_MAX};

/// The characters for 0 to 31.
pub const CHARACTERS: &[u8; 32] = b"abcdefghijkmnpqrstuvwxyz23456789";

/// The remembered number at the start.
pub const START: u32 = 96;

/// Encodes a text as a label. Order: 1, 2, 4, 5, 3.
pub fn encode(text: &[u32], out: &mut [u8]) -> Result<usize, Error> {
    if out.len() < LABEL_MAX {
        return error(ErrorCode::Capacity);
    }
    if text.is_empty() {
        return error(ErrorCode::Empty);
    }
    if let Some(position) = first_not_point(text) {
        return error_at(ErrorCode::NotAPoint, position);
    }
    if text.first() == Some(&HYPHEN) || text.last() == Some(&HYPHEN) {
        return error(ErrorCode::EdgeHyphen);
    }
    let label = encoding(text);
    if label.len() > LABEL_MAX {
        return error(ErrorCode::TooLong);
    }
    out[..label.len()].copy_from_slice(&label);
    Ok(label.len())
}

/// Decodes a label to a text. Order: 1, 2, 3, 7, 5, 9.
pub fn decode(label: &[u8], out: &mut [u32]) -> Result<usize, Error> {
    if out.len() < LABEL_MAX {
        return error(ErrorCode::Capacity);
    }
    if label.is_empty() {
        return error(ErrorCode::Empty);
    }
    if label.len() > LABEL_MAX {
        return error(ErrorCode::TooLong);
    }
    let characters = match characters_of(label) {
        Ok(characters) => characters,
        Err(position) => return error_at(ErrorCode::OutsideAlphabet, position),
    };
    if label.first() == Some(&b'-') || label.last() == Some(&b'-') {
        return error(ErrorCode::EdgeHyphen);
    }
    let text = items_of(&characters).and_then(|items| text_of(&items));
    match text {
        None => error(ErrorCode::NotWellFormed),
        Some(text) => {
            out[..text.len()].copy_from_slice(&text);
            Ok(text.len())
        }
    }
}

/// Encodes a text with its marks: the last character of a group is a capital exactly when
/// its point is marked. A hyphen can't be marked. Order: 1, 2, 4, 15, 5, 3.
pub fn encode_marked(text: &[u32], marks: &[u8], out: &mut [u8]) -> Result<usize, Error> {
    marks::judge(text, marks, out.len(), |point| point != HYPHEN)?;
    let count = encode(text, out)?;
    for (item, &mark) in out[..count].split_inclusive_mut(ends_item).zip(marks) {
        if let (1, Some(last)) = (mark, item.last_mut()) {
            last.make_ascii_uppercase();
        }
    }
    Ok(count)
}

/// Decodes a label to a text and its marks. Order: 1 for either buffer, 2, 3, 7, 5, 9.
pub fn decode_marked(label: &[u8], out: &mut [u32], marks: &mut [u8]) -> Result<usize, Error> {
    if marks.len() < LABEL_MAX {
        return error(ErrorCode::Capacity);
    }
    let count = decode(label, out)?;
    for (item, mark) in label.split_inclusive(ends_item).zip(marks) {
        *mark = u8::from(item.last().is_some_and(u8::is_ascii_uppercase));
    }
    Ok(count)
}

/// Whether a byte of a label that is accepted is the last of its item: a hyphen, or a
/// character for 0 to 15. Each item stands for one point.
fn ends_item(byte: &u8) -> bool {
    *byte == b'-' || value_in(CHARACTERS, *byte).is_some_and(|value| value < 16)
}

/// The label of a text, of whatever length.
pub fn encoding(text: &[u32]) -> Vec<u8> {
    let mut label = Vec::new();
    let mut remembered = START;
    for &point in text {
        if point == HYPHEN {
            label.push(b'-');
        } else {
            label.extend(group_for(point ^ remembered));
            remembered = point;
        }
    }
    label
}

/// The group of characters that stands for a number.
pub fn group_for(number: u32) -> Vec<u8> {
    let mut digits = vec![(number % 16) as usize];
    let mut left = number / 16;
    while left > 0 {
        digits.push((left % 16) as usize);
        left /= 16;
    }
    // The digits are in rising order: index 0 holds the last one.
    let character = |index: usize| match index {
        0 => CHARACTERS[digits[0]],
        _ => CHARACTERS[16 + digits[index]],
    };
    (0..digits.len()).rev().map(character).collect()
}

/// One byte of a label, understood.
#[derive(Clone, Copy)]
enum Character {
    Hyphen,
    Quintet(u8),
}

/// The characters of a label, or the index of the first byte that is none.
fn characters_of(label: &[u8]) -> Result<Vec<Character>, usize> {
    let mut characters = Vec::new();
    for (index, &byte) in label.iter().enumerate() {
        if byte == b'-' {
            characters.push(Character::Hyphen);
        } else {
            match value_in(CHARACTERS, byte) {
                Some(value) => characters.push(Character::Quintet(value)),
                None => return Err(index),
            }
        }
    }
    Ok(characters)
}

/// An item of a label: a hyphen, or a group with its hexadecimal digits.
enum Item {
    Hyphen,
    Group(Vec<u8>),
}

/// The label as a row of items, if it is one.
fn items_of(characters: &[Character]) -> Option<Vec<Item>> {
    let mut items = Vec::new();
    let mut left = characters;
    while !left.is_empty() {
        let (item, rest) = item_at(left)?;
        items.push(item);
        left = rest;
    }
    Some(items)
}

/// The first item and what follows it.
fn item_at(characters: &[Character]) -> Option<(Item, &[Character])> {
    match characters.split_first()? {
        (Character::Hyphen, rest) => Some((Item::Hyphen, rest)),
        (Character::Quintet(_), _) => group_at(characters),
    }
}

/// The first group and what follows it.
///
/// Any number of values 16 to 31 and then one of 0 to 15. A hyphen or the end
/// of the label leaves the group unfinished. Two or more do not begin with `s`.
fn group_at(characters: &[Character]) -> Option<(Item, &[Character])> {
    let mut digits = Vec::new();
    let mut left = characters;
    loop {
        let (&first, rest) = left.split_first()?;
        left = rest;
        match first {
            Character::Hyphen => return None,
            Character::Quintet(value) if value >= 16 => digits.push(value - 16),
            Character::Quintet(value) => {
                digits.push(value);
                break;
            }
        }
    }
    if digits.len() >= 2 && digits[0] == 0 {
        return None;
    }
    Some((Item::Group(digits), left))
}

/// The text of a row of items, if each group gives a point that is not 45.
fn text_of(items: &[Item]) -> Option<Vec<u32>> {
    let mut text = Vec::new();
    let mut remembered = START;
    for item in items {
        match item {
            Item::Hyphen => text.push(HYPHEN),
            Item::Group(digits) => {
                let number = u64::from(remembered) ^ value_of(digits);
                remembered = u32::try_from(number).ok()?;
                if !is_point(remembered) || remembered == HYPHEN {
                    return None;
                }
                text.push(remembered);
            }
        }
    }
    Some(text)
}

/// The value of hexadecimal digits, highest first, stopping at the greatest u64.
///
/// A value that stops there is far above every point, and stays above after the
/// XOR with a point. So a group of 63 digits never wraps to a small number.
fn value_of(digits: &[u8]) -> u64 {
    let step = |value: u64, &digit: &u8| value.saturating_mul(16).saturating_add(u64::from(digit));
    digits.iter().fold(0, step)
}
