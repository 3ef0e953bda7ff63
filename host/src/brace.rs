//! BRACE (source document 002): plain labels, four styles, and the draft's own
//! procedure with a queue of bits and a buffer of LDH characters.

use crate::error::{error, error_at, Error, ErrorCode};
use crate::point::{fold, is_host_label, is_ldh, HYPHEN, LABEL_MAX};
use crate::utf16::points_of;

/// The base-32 characters for 0 to 31, as they are written.
pub const CHARACTERS: &[u8; 32] = b"23456789ABCDEFGHIJKMNPQRSTUVWXYZ";

/// What every label that is not plain ends with, as it is written.
pub const SIGNATURE: &[u8; 4] = b"-8Q9";

/// How the codes that are not LDH are written as bits, with the row or half-row
/// that the style names.
#[derive(Clone, Copy, Debug, PartialEq, Eq)]
pub enum Style {
    HalfRow(u16),
    FullRow(u16),
    Mixed(u16),
    NoRow,
}

/// A byte of a label: coded ones are known in either case, copied ones stand for
/// themselves.
#[derive(Clone, Copy, Debug, PartialEq, Eq)]
pub enum Symbol {
    Coded(u8),
    Copied(u8),
}

impl Symbol {
    /// The byte as it is written.
    pub fn byte(self) -> u8 {
        match self {
            Symbol::Coded(byte) | Symbol::Copied(byte) => byte,
        }
    }

    /// Whether a byte of a label can be read as this symbol.
    fn spells(self, byte: u8) -> bool {
        match self {
            Symbol::Coded(coded) => fold(coded) == fold(byte),
            Symbol::Copied(copied) => copied == byte,
        }
    }
}

/// Bits in a row, the first one highest: at most 22, as the draft says.
#[derive(Default)]
struct Queue {
    bits: u32,
    width: u32,
}

impl Queue {
    fn enqueue(&mut self, (number, width): (u32, u32)) {
        self.bits = self.bits << width | number;
        self.width += width;
    }

    fn dequeue(&mut self, width: u32) -> u32 {
        self.width -= width;
        let number = self.bits >> self.width;
        self.bits -= number << self.width;
        number
    }
}

impl Style {
    /// The number of two bits and the row or half-row that a label begins with,
    /// with the number of bits of both.
    fn opening(self) -> (u32, u32) {
        match self {
            Style::HalfRow(half_row) => (u32::from(half_row), 11),
            Style::FullRow(row) => (1 << 8 | u32::from(row), 10),
            Style::Mixed(half_row) => (2 << 9 | u32::from(half_row), 11),
            Style::NoRow => (3, 2),
        }
    }

    /// The bits of a code, with how many they are.
    fn bits_of(self, code: u16) -> (u32, u32) {
        let low_seven = u32::from(code & 0x7F);
        match self {
            Style::HalfRow(_) => (low_seven, 7),
            Style::FullRow(_) => (u32::from(code & 0xFF), 8),
            Style::Mixed(chosen) if code >> 7 == chosen => (low_seven, 8),
            Style::Mixed(chosen) if code >> 7 == chosen ^ 1 => (2 << 7 | low_seven, 9),
            Style::Mixed(_) => (3 << 16 | u32::from(code), 18),
            Style::NoRow => (u32::from(code), 16),
        }
    }

    /// The style that a label opens with, if it has enough characters for it.
    fn opened(queue: &mut Queue, characters: &mut std::slice::Iter<u8>) -> Option<Style> {
        queue.enqueue((value_of(*characters.next()?)?, 5));
        let number = queue.dequeue(2);
        let width = [9, 8, 9, 0][number as usize];
        while queue.width < width {
            queue.enqueue((value_of(*characters.next()?)?, 5));
        }
        let row = queue.dequeue(width) as u16;
        Some(match number {
            0 => Style::HalfRow(row),
            1 => Style::FullRow(row),
            2 => Style::Mixed(row),
            _ => Style::NoRow,
        })
    }

    /// The next code of a queue that holds five bits or more, if it has enough.
    fn next_code(self, queue: &mut Queue) -> Option<u16> {
        // How many bits stand before the code's own, how many those are, the others.
        let (before, own, upper) = match self {
            Style::HalfRow(half_row) => (0, 7, half_row << 7),
            Style::FullRow(row) => (0, 8, row << 8),
            Style::NoRow => (0, 16, 0),
            Style::Mixed(chosen) => match queue.bits >> (queue.width - 2) {
                0 | 1 => (1, 7, chosen << 7),
                2 => (2, 7, (chosen ^ 1) << 7),
                _ => (2, 16, 0),
            },
        };
        if queue.width < before + own {
            return None;
        }
        queue.dequeue(before);
        Some(upper | queue.dequeue(own) as u16)
    }
}

/// Encodes units as a label. Order: 1, 2, 10, 5, 3.
pub fn encode(units: &[u16], out: &mut [u8]) -> Result<usize, Error> {
    if out.len() < LABEL_MAX {
        return error(ErrorCode::Capacity);
    }
    if units.is_empty() {
        return error(ErrorCode::Empty);
    }
    if let Err(position) = points_of(units) {
        return error_at(ErrorCode::UnpairedSurrogate, position);
    }
    let label: Vec<u8> = symbols_of(units).iter().map(|symbol| symbol.byte()).collect();
    if label.first() == Some(&b'-') || label.last() == Some(&b'-') {
        return error(ErrorCode::EdgeHyphen);
    }
    if units.len() > LABEL_MAX || label.len() > LABEL_MAX {
        return error(ErrorCode::TooLong);
    }
    out[..label.len()].copy_from_slice(&label);
    Ok(label.len())
}

/// Decodes a label to units. Order: 1, 2, 3, then 9 with the signature, and
/// without it 7 and 5.
pub fn decode(label: &[u8], out: &mut [u16]) -> Result<usize, Error> {
    if out.len() < LABEL_MAX {
        return error(ErrorCode::Capacity);
    }
    if label.is_empty() {
        return error(ErrorCode::Empty);
    }
    if label.len() > LABEL_MAX {
        return error(ErrorCode::TooLong);
    }
    let bytes: Vec<u16> = label.iter().map(|&byte| u16::from(byte)).collect();
    let units = if has_signature(&bytes) { signed_text(label)? } else { plain_text(bytes)? };
    out[..units.len()].copy_from_slice(&units);
    Ok(units.len())
}

/// The text of a label without the signature: its own bytes, if it is a host label.
fn plain_text(bytes: Vec<u16>) -> Result<Vec<u16>, Error> {
    if let Some(position) = bytes.iter().position(|&byte| !is_ldh(u32::from(byte))) {
        return error_at(ErrorCode::OutsideAlphabet, position);
    }
    if bytes.first() == Some(&(HYPHEN as u16)) || bytes.last() == Some(&(HYPHEN as u16)) {
        return error(ErrorCode::EdgeHyphen);
    }
    Ok(bytes)
}

/// The text of a label with the signature: what the draft's procedure reads, if it
/// may be encoded and its symbols spell this label.
fn signed_text(label: &[u8]) -> Result<Vec<u16>, Error> {
    let units = loose_text(&label[..label.len() - SIGNATURE.len()]);
    match units.filter(|units| points_of(units).is_ok() && spells(&symbols_of(units), label)) {
        Some(units) => Ok(units),
        None => error(ErrorCode::NotWellFormed),
    }
}

/// Whether a label can be read as these symbols.
fn spells(symbols: &[Symbol], label: &[u8]) -> bool {
    let each = symbols.iter().zip(label).all(|(symbol, &byte)| symbol.spells(byte));
    symbols.len() == label.len() && each
}

/// Whether a row ends with the signature, case ignored.
fn has_signature(row: &[u16]) -> bool {
    let in_capitals = SIGNATURE.map(u16::from);
    let in_small = SIGNATURE.map(fold).map(u16::from);
    row.ends_with(&in_capitals) || row.ends_with(&in_small)
}

/// Whether a text is its own label.
fn is_plain(units: &[u16]) -> bool {
    let numbers: Vec<u32> = units.iter().map(|&unit| u32::from(unit)).collect();
    is_host_label(&numbers) && !has_signature(units)
}

/// The symbols of a text's label, however long it is.
pub fn symbols_of(units: &[u16]) -> Vec<Symbol> {
    if is_plain(units) {
        return units.iter().map(|&unit| Symbol::Copied(unit as u8)).collect();
    }
    symbols_in(style_of(units), units)
}

/// The style in which a text is encoded that is not plain.
pub fn style_of(units: &[u16]) -> Style {
    let codes: Vec<u16> = units.iter().copied().filter(|&unit| !is_ldh(u32::from(unit))).collect();
    let Some(&first) = codes.first() else {
        return Style::NoRow;
    };
    if codes.iter().all(|code| code >> 7 == first >> 7) {
        return Style::HalfRow(first >> 7);
    }
    if codes.iter().all(|code| code >> 8 == first >> 8) {
        return Style::FullRow(first >> 8);
    }
    let candidate = |code: &u16| (mixed_length(&codes, code >> 7), code >> 7);
    let (least, half_row) = codes.iter().map(candidate).min().unwrap_or_default();
    if no_row_length(&codes) <= least {
        Style::NoRow
    } else {
        Style::Mixed(half_row)
    }
}

/// The draft's M: how many base-32 characters codes take in mixed style with a
/// half-row.
fn mixed_length(codes: &[u16], half_row: u16) -> usize {
    let in_half_row = |wanted: u16| codes.iter().filter(|&code| code >> 7 == wanted).count();
    let (all, chosen, complement) = (codes.len(), in_half_row(half_row), in_half_row(half_row ^ 1));
    3 + (18 * all - 10 * chosen - 9 * complement) / 5
}

/// The draft's M': how many base-32 characters codes take in no-row style.
fn no_row_length(codes: &[u16]) -> usize {
    (6 + 16 * codes.len()) / 5
}

/// What the draft's procedure works with: the queue of bits, the buffer of LDH
/// characters, and what was output.
struct Encoder {
    queue: Queue,
    buffer: Vec<u8>,
    output: Vec<Symbol>,
}

impl Encoder {
    /// Outputs the character of the next five bits.
    fn output_character(&mut self) {
        let value = self.queue.dequeue(5);
        self.output.push(Symbol::Coded(CHARACTERS[value as usize]));
    }

    /// Outputs characters while there are five bits.
    fn output_characters(&mut self) {
        while self.queue.width >= 5 {
            self.output_character();
        }
    }

    fn output_buffer(&mut self) {
        self.output.extend(self.buffer.drain(..).map(Symbol::Copied));
    }

    fn buffers_non_hyphens(&self) -> bool {
        self.buffer.iter().any(|&byte| byte != b'-')
    }

    /// Takes an LDH code.
    fn take_ldh(&mut self, byte: u8) {
        if byte == b'-' {
            return self.buffer.extend(b"--");
        }
        if !self.buffers_non_hyphens() {
            self.buffer.push(b'-');
        }
        self.buffer.push(byte);
    }

    /// Takes the bits of a code that is not LDH.
    fn take_bits(&mut self, bits: (u32, u32)) {
        if self.buffers_non_hyphens() {
            self.buffer.push(b'-');
        }
        if self.queue.width == 0 {
            self.output_buffer();
        }
        self.queue.enqueue(bits);
        self.output_character();
        self.output_buffer();
        self.output_characters();
    }

    /// Fills up the last character, and outputs what is left and the signature.
    fn finish(mut self) -> Vec<Symbol> {
        if self.queue.width > 0 {
            self.queue.enqueue((0, 5 - self.queue.width));
            self.output_character();
        }
        self.output_buffer();
        self.output.extend(SIGNATURE.map(Symbol::Coded));
        self.output
    }
}

/// The symbols of a text in a style: the draft's encoding procedure.
pub fn symbols_in(style: Style, units: &[u16]) -> Vec<Symbol> {
    let mut encoder = Encoder { queue: Queue::default(), buffer: Vec::new(), output: Vec::new() };
    encoder.queue.enqueue(style.opening());
    encoder.output_characters();
    for &unit in units {
        if is_ldh(u32::from(unit)) {
            encoder.take_ldh(unit as u8);
        } else {
            encoder.take_bits(style.bits_of(unit));
        }
    }
    encoder.finish()
}

/// The value of a base-32 character in either case.
fn value_of(byte: u8) -> Option<u32> {
    CHARACTERS.iter().position(|&one| fold(one) == fold(byte)).map(|value| value as u32)
}

/// The draft's decoding procedure on what stands before the signature.
pub fn loose_text(coded: &[u8]) -> Option<Vec<u16>> {
    let mut queue = Queue::default();
    let mut characters = coded.iter();
    let style = Style::opened(&mut queue, &mut characters)?;
    let (mut units, mut literal) = (Vec::new(), false);
    while let Some(&byte) = characters.next() {
        if byte != b'-' && literal {
            units.push(u16::from(byte));
        } else if byte != b'-' {
            queue.enqueue((value_of(byte)?, 5));
            units.extend(style.next_code(&mut queue));
        } else if characters.as_slice().first() == Some(&b'-') {
            characters.next();
            units.push(HYPHEN as u16);
        } else {
            literal = !literal;
        }
    }
    (!units.is_empty() && queue.width <= 4 && queue.bits == 0).then_some(units)
}
