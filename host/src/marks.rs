//! The marks of a text (02): a row beside it, one mark a point, 1 for a capital and else 0.

use crate::error::{error, error_at, Error, ErrorCode};
use crate::point::{first_not_point, LABEL_MAX};

/// Judges a label buffer's capacity, a text and its marks; a scheme judges the rest. The
/// scheme says which points can be marked. Order: 1, 2, 4, 15.
pub fn judge(
    text: &[u32],
    marks: &[u8],
    capacity: usize,
    can_be_marked: fn(u32) -> bool,
) -> Result<(), Error> {
    if capacity < LABEL_MAX {
        return error(ErrorCode::Capacity);
    }
    if text.is_empty() {
        return error(ErrorCode::Empty);
    }
    if let Some(position) = first_not_point(text) {
        return error_at(ErrorCode::NotAPoint, position);
    }
    if marks.len() != text.len() {
        return error(ErrorCode::BadMark);
    }
    let lawful = |point: u32, mark: u8| mark == 0 || (mark == 1 && can_be_marked(point));
    match text.iter().zip(marks).position(|(&point, &mark)| !lawful(point, mark)) {
        Some(position) => error_at(ErrorCode::BadMark, position),
        None => Ok(()),
    }
}
