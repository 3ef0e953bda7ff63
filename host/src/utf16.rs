//! The converter between points and UTF-16 units, both ways.

use crate::error::{error, error_at, Error, ErrorCode};
use crate::point::{is_point, is_surrogate};

/// How many points: what the screen counts.
#[derive(Clone, Copy, Debug, PartialEq, Eq)]
pub struct PointCount(pub usize);

/// How many units: what the radio counts.
#[derive(Clone, Copy, Debug, PartialEq, Eq)]
pub struct UnitCount(pub usize);

/// Converts the first `count` points to units.
///
/// A count above the row's length is error 1 at position 0, before anything else.
pub fn to_units(points: &[u32], count: PointCount, out: &mut [u16]) -> Result<UnitCount, Error> {
    let PointCount(count) = count;
    if count > points.len() || out.len() < 2 * count {
        return error(ErrorCode::Capacity);
    }
    match units_of(&points[..count]) {
        Err(position) => error_at(ErrorCode::NotAPoint, position),
        Ok(units) => {
            out[..units.len()].copy_from_slice(&units);
            Ok(UnitCount(units.len()))
        }
    }
}

/// Converts the first `count` units to points.
///
/// A count above the row's length is error 1 at position 0, before anything else.
pub fn to_points(units: &[u16], count: UnitCount, out: &mut [u32]) -> Result<PointCount, Error> {
    let UnitCount(count) = count;
    if count > units.len() || out.len() < count {
        return error(ErrorCode::Capacity);
    }
    match points_of(&units[..count]) {
        Err(position) => error_at(ErrorCode::UnpairedSurrogate, position),
        Ok(points) => {
            out[..points.len()].copy_from_slice(&points);
            Ok(PointCount(points.len()))
        }
    }
}

/// The units of a text, or the index of the first number that is no point.
pub fn units_of(points: &[u32]) -> Result<Vec<u16>, usize> {
    let mut units = Vec::new();
    for (index, &point) in points.iter().enumerate() {
        if !is_point(point) {
            return Err(index);
        }
        if point < 0x10000 {
            units.push(point as u16);
        } else {
            let above = point - 0x10000;
            units.push(0xD800 + (above >> 10) as u16);
            units.push(0xDC00 + (above & 0x3FF) as u16);
        }
    }
    Ok(units)
}

/// The points of a row of units, or the index of the first unpaired surrogate.
pub fn points_of(units: &[u16]) -> Result<Vec<u32>, usize> {
    let mut points = Vec::new();
    let mut index = 0;
    while index < units.len() {
        let unit = u32::from(units[index]);
        if !is_surrogate(unit) {
            points.push(unit);
            index += 1;
            continue;
        }
        let second = units.get(index + 1).map(|&unit| u32::from(unit));
        match second {
            Some(low) if unit < 0xDC00 && (0xDC00..=0xDFFF).contains(&low) => {
                points.push(0x10000 + (unit - 0xD800) * 0x400 + (low - 0xDC00));
                index += 2;
            }
            _ => return Err(index),
        }
    }
    Ok(points)
}
