//! Host names (02): labels with dots between, each a LACE label or a host label itself.

use crate::error::{error, error_at, Error, ErrorCode};
use crate::lace::{self, has_prefix};
use crate::point::{is_host_label, is_ldh, LABEL_MAX};

/// The most bytes in a name, and the capacity that a name or points buffer needs.
pub const NAME_MAX: usize = 253;

/// The point of the dot, and its byte. No other point parts a text.
const DOT: u32 = 0x2E;
const DOT_BYTE: u8 = b'.';

/// Writes a text as a name. Order: 1, 2; then part by part, at the part's index, 2, 16 and
/// LACE's own; then 3 for the whole name.
pub fn encode(text: &[u32], name: &mut [u8]) -> Result<usize, Error> {
    if name.len() < NAME_MAX {
        return error(ErrorCode::Capacity);
    }
    if text.is_empty() {
        return error(ErrorCode::Empty);
    }
    let made = joined(text.split(|&point| point == DOT), label_of, DOT_BYTE)?;
    if made.len() > NAME_MAX {
        return error(ErrorCode::TooLong);
    }
    name[..made.len()].copy_from_slice(&made);
    Ok(made.len())
}

/// Reads a name as a text. Order: 1, 2, 3; then part by part, at the part's index, 2; of a
/// part with LACE's prefix LACE's own and 16; of any other 3, 7, 5.
pub fn decode(name: &[u8], text: &mut [u32]) -> Result<usize, Error> {
    if text.len() < NAME_MAX {
        return error(ErrorCode::Capacity);
    }
    if name.is_empty() {
        return error(ErrorCode::Empty);
    }
    if name.len() > NAME_MAX {
        return error(ErrorCode::TooLong);
    }
    let made = joined(name.split(|&byte| byte == DOT_BYTE), points_of, DOT)?;
    text[..made.len()].copy_from_slice(&made);
    Ok(made.len())
}

/// What a rule gives for each part, with dots between; or the error of the first part that
/// is refused, at its index.
fn joined<'a, G: 'a, B: Copy>(
    parts: impl Iterator<Item = &'a [G]>,
    rule: fn(&[G]) -> Result<Vec<B>, ErrorCode>,
    dot: B,
) -> Result<Vec<B>, Error> {
    let mut made = Vec::new();
    for (index, part) in parts.enumerate() {
        match rule(part) {
            Ok(elements) => made.push(elements),
            Err(code) => return error_at(code, index),
        }
    }
    Ok(made.join(&dot))
}

/// The label of a part of a text: a host label as it is, any other under LACE.
fn label_of(part: &[u32]) -> Result<Vec<u8>, ErrorCode> {
    if part.is_empty() {
        return Err(ErrorCode::Empty);
    }
    if is_host_label(part) {
        let label: Vec<u8> = part.iter().map(|&point| point as u8).collect();
        return if has_prefix(&label) { Err(ErrorCode::Ambiguous) } else { Ok(label) };
    }
    let mut label = [0; LABEL_MAX];
    let count = lace::encode(part, &mut label).map_err(|error| error.code)?;
    Ok(label[..count].to_vec())
}

/// The points of a label of a name.
fn points_of(label: &[u8]) -> Result<Vec<u32>, ErrorCode> {
    if label.is_empty() {
        Err(ErrorCode::Empty)
    } else if has_prefix(label) {
        points_under_lace(label)
    } else {
        plain_points(label)
    }
}

/// The points of a LACE label, which hold no dot.
fn points_under_lace(label: &[u8]) -> Result<Vec<u32>, ErrorCode> {
    let mut points = [0; LABEL_MAX];
    let count = lace::decode(label, &mut points).map_err(|error| error.code)?;
    let points = points[..count].to_vec();
    if points.contains(&DOT) {
        return Err(ErrorCode::Ambiguous);
    }
    Ok(points)
}

/// The bytes of a host label as they are. Order: 3, 7, 5.
fn plain_points(label: &[u8]) -> Result<Vec<u32>, ErrorCode> {
    let points: Vec<u32> = label.iter().map(|&byte| u32::from(byte)).collect();
    if points.len() > LABEL_MAX {
        return Err(ErrorCode::TooLong);
    }
    if !points.iter().all(|&point| is_ldh(point)) {
        return Err(ErrorCode::OutsideAlphabet);
    }
    if !is_host_label(&points) {
        return Err(ErrorCode::EdgeHyphen);
    }
    Ok(points)
}
