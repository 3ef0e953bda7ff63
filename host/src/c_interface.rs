//! The C interface (01's face of the firmware): a scheme number and byte
//! slices, one number back.

use crate::brace;
use crate::error::{error, Error, ErrorCode};
use crate::point::LABEL_MAX;
use crate::scheme::Scheme;
use crate::utf16::{points_of, units_of};

/// The capacity that a text needs, and the most text bytes that are taken.
pub const TEXT_MAX: usize = 252;

/// What is added to an error's number.
pub const ERROR_BASE: u32 = 1000;

/// Writes a big-endian UTF-16 text as a label.
/// Order: 11, 1, 12, 2, 3 for more than 252 bytes, 10, then the scheme's.
pub fn write(scheme: u32, text: &[u8], label: &mut [u8]) -> u32 {
    one_number(try_write(scheme, text, label))
}

/// Reads a label as a big-endian UTF-16 text. Order: 11, then the scheme's.
pub fn read(scheme: u32, label: &[u8], text: &mut [u8]) -> u32 {
    one_number(try_read(scheme, label, text))
}

/// The bytes written, or 1000 plus the error's number.
fn one_number(answer: Result<usize, Error>) -> u32 {
    match answer {
        Ok(count) => count as u32,
        Err(error) => ERROR_BASE + error.number(),
    }
}

fn try_write(scheme: u32, text: &[u8], label: &mut [u8]) -> Result<usize, Error> {
    let Some(scheme) = Scheme::of_number(scheme) else {
        return error(ErrorCode::UnknownScheme);
    };
    if label.len() < LABEL_MAX {
        return error(ErrorCode::Capacity);
    }
    if !text.len().is_multiple_of(2) {
        return error(ErrorCode::OddByteCount);
    }
    if text.is_empty() {
        return error(ErrorCode::Empty);
    }
    if text.len() > TEXT_MAX {
        return error(ErrorCode::TooLong);
    }
    let unit = |pair: &[u8]| u16::from_be_bytes([pair[0], pair[1]]);
    let units: Vec<u16> = text.chunks(2).map(unit).collect();
    match (points_of(&units), scheme) {
        (Err(_), _) => error(ErrorCode::UnpairedSurrogate),
        (Ok(_), Scheme::Brace) => brace::encode(&units, label),
        (Ok(points), _) => scheme.encode(&points, label),
    }
}

fn try_read(scheme: u32, label: &[u8], text: &mut [u8]) -> Result<usize, Error> {
    let Some(scheme) = Scheme::of_number(scheme) else {
        return error(ErrorCode::UnknownScheme);
    };
    if text.len() < TEXT_MAX {
        return error(ErrorCode::Capacity);
    }
    let units = decoded_units(scheme, label)?;
    let bytes: Vec<u8> = units.iter().flat_map(|unit| unit.to_be_bytes()).collect();
    text[..bytes.len()].copy_from_slice(&bytes);
    Ok(bytes.len())
}

/// The units of a label: BRACE's own, or those of the points that a scheme answers.
fn decoded_units(scheme: Scheme, label: &[u8]) -> Result<Vec<u16>, Error> {
    if scheme == Scheme::Brace {
        let mut units = [0; LABEL_MAX];
        let count = brace::decode(label, &mut units)?;
        return Ok(units[..count].to_vec());
    }
    let mut points = [0; LABEL_MAX];
    let count = scheme.decode(label, &mut points)?;
    Ok(units_of(&points[..count]).expect("a scheme answers points only"))
}
