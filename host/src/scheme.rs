//! The three schemes, by number, by kind of record and by letter.

use crate::error::{error, error_at, Error, ErrorCode};
use crate::point::LABEL_MAX;
use crate::utf16::{points_of, units_of};
use crate::{altdude, brace, lace};

/// A label scheme. The discriminant is its number.
#[derive(Clone, Copy, Debug, PartialEq, Eq)]
pub enum Scheme {
    AltDude = 1,
    Lace = 2,
    Brace = 3,
}

/// All schemes, in the order of their numbers.
pub const SCHEMES: [Scheme; 3] = [Scheme::AltDude, Scheme::Lace, Scheme::Brace];

/// The default scheme, number 0.
pub const DEFAULT: Scheme = Scheme::AltDude;

impl Scheme {
    /// The scheme that the firmware's number names.
    pub fn of_number(number: u32) -> Option<Scheme> {
        match number {
            0 => Some(DEFAULT),
            1 => Some(Scheme::AltDude),
            2 => Some(Scheme::Lace),
            3 => Some(Scheme::Brace),
            _ => None,
        }
    }

    /// The scheme whose own number this is: none for the default's 0.
    pub fn of_own_number(number: u32) -> Option<Scheme> {
        Scheme::of_number(number).filter(|scheme| scheme.number() == number)
    }

    /// The scheme of an entry's kind.
    pub fn of_kind(kind: u8) -> Option<Scheme> {
        match kind {
            0x41 => Some(Scheme::AltDude),
            0x42 => Some(Scheme::Brace),
            0x4C => Some(Scheme::Lace),
            _ => None,
        }
    }

    /// The kind of an entry with this scheme.
    pub fn kind(self) -> u8 {
        match self {
            Scheme::AltDude => 0x41,
            Scheme::Lace => 0x4C,
            Scheme::Brace => 0x42,
        }
    }

    /// The letter of the scheme in the listing: its kind, read as a character.
    pub fn letter(self) -> char {
        char::from(self.kind())
    }

    /// The scheme's number.
    pub fn number(self) -> u32 {
        self as u32
    }

    /// Encodes a text as a label of this scheme.
    pub fn encode(self, text: &[u32], out: &mut [u8]) -> Result<usize, Error> {
        match self {
            Scheme::AltDude => altdude::encode(text, out),
            Scheme::Lace => lace::encode(text, out),
            Scheme::Brace => brace_encode(text, out),
        }
    }

    /// Decodes a label of this scheme to a text.
    pub fn decode(self, label: &[u8], out: &mut [u32]) -> Result<usize, Error> {
        match self {
            Scheme::AltDude => altdude::decode(label, out),
            Scheme::Lace => lace::decode(label, out),
            Scheme::Brace => brace_decode(label, out),
        }
    }
}

/// Encodes points with BRACE. 4 takes the place of 10: the order is 1, 2, 4, 5, 3.
fn brace_encode(text: &[u32], out: &mut [u8]) -> Result<usize, Error> {
    if out.len() < LABEL_MAX {
        return error(ErrorCode::Capacity);
    }
    match units_of(text) {
        Ok(units) => brace::encode(&units, out),
        Err(position) => error_at(ErrorCode::NotAPoint, position),
    }
}

/// Decodes a label of BRACE to points.
fn brace_decode(label: &[u8], out: &mut [u32]) -> Result<usize, Error> {
    if out.len() < LABEL_MAX {
        return error(ErrorCode::Capacity);
    }
    let mut units = [0; LABEL_MAX];
    let count = brace::decode(label, &mut units)?;
    let points = points_of(&units[..count]).expect("BRACE answers no unpaired surrogate");
    out[..points.len()].copy_from_slice(&points);
    Ok(points.len())
}
