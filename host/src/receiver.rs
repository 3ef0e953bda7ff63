//! The receiver (02): a name table of 01's form that comes in chunks. A small state is
//! changed in place by each chunk. It goes from phase to phase byte by byte, and of the
//! table it keeps no more than the label of the entry under way. Told that the table is
//! over, it answers what reading the same bytes at once does.

use crate::error::{error, error_at, Error, ErrorCode};
use crate::nametable::{ENTRIES_MAX, ENTRY_LENGTH, HEADER_KIND, HEADER_LENGTH};
use crate::point::LABEL_MAX;
use crate::scheme::Scheme;
use std::cmp::Ordering;

/// The most bytes that are counted: one more than the longest table has.
const COUNTED_MAX: usize = 33_504;

/// A table that is being received.
#[derive(Clone, Debug, PartialEq, Eq)]
pub struct Receiver {
    counted: usize,
    phase: Phase,
}

/// What the next byte is.
#[derive(Clone, Debug, PartialEq, Eq)]
enum Phase {
    /// The header's kind.
    Kind,
    /// The first byte of the number of entries.
    CountHigh,
    /// The second one, after this first one.
    CountLow(u8),
    /// One that is only counted, as the header is refused.
    BadHeader,
    /// One of an entry, or one after the entries.
    Entries(Entries),
}

/// The entries of a table whose header is in order.
#[derive(Clone, Debug, PartialEq, Eq)]
struct Entries {
    /// How many the header announces.
    announced: usize,
    /// How many were taken, which is the index of the one under way.
    taken: usize,
    /// The least reader number that the next one may have.
    least: usize,
    part: Part,
}

/// What the next byte is, once the header is in order.
#[derive(Clone, Debug, PartialEq, Eq)]
enum Part {
    /// An entry's kind.
    Kind,
    /// The first byte of the reader number.
    ReaderHigh(Scheme),
    /// The second one, after this first one.
    ReaderLow(Scheme, u8),
    /// The label's length.
    Length(Scheme),
    /// One of the label or of the filling.
    Label(Label),
    /// One that is only counted, as the entry under way is refused.
    Refused(ErrorCode),
    /// One after the last entry, which is only counted.
    After,
}

/// The label of the entry under way, and the filling after it.
#[derive(Clone, Debug, PartialEq, Eq)]
struct Label {
    scheme: Scheme,
    length: usize,
    filled: usize,
    bytes: [u8; LABEL_MAX],
}

impl Receiver {
    /// A fresh start: no byte was received.
    pub fn start() -> Receiver {
        Receiver { counted: 0, phase: Phase::Kind }
    }

    /// Takes the next chunk, which may have no bytes.
    pub fn take(&mut self, chunk: &[u8]) {
        for &byte in chunk {
            if self.counted == COUNTED_MAX {
                return;
            }
            self.counted += 1;
            self.phase.take(byte);
        }
    }

    /// The table is over: answers its number of entries, or its error. Nothing is
    /// changed, and more chunks may follow.
    pub fn finish(&self) -> Result<usize, Error> {
        match &self.phase {
            Phase::Kind | Phase::CountHigh | Phase::CountLow(_) => error(ErrorCode::Truncated),
            Phase::BadHeader => error(ErrorCode::Malformed),
            Phase::Entries(entries) => entries.finish(self.counted),
        }
    }
}

impl Phase {
    /// Takes the next byte.
    fn take(&mut self, byte: u8) {
        match self {
            Phase::Kind if byte == HEADER_KIND => *self = Phase::CountHigh,
            Phase::Kind => *self = Phase::BadHeader,
            Phase::CountHigh => *self = Phase::CountLow(byte),
            Phase::CountLow(high) => *self = Phase::announced(u16::from_be_bytes([*high, byte])),
            Phase::BadHeader => {}
            Phase::Entries(entries) => entries.take(byte),
        }
    }

    /// The phase after a header that announces so many entries.
    fn announced(count: u16) -> Phase {
        match usize::from(count) {
            announced @ 1..=ENTRIES_MAX => {
                Phase::Entries(Entries { announced, taken: 0, least: 0, part: Part::Kind })
            }
            _ => Phase::BadHeader,
        }
    }
}

impl Entries {
    /// Takes the next byte.
    fn take(&mut self, byte: u8) {
        let next = match &mut self.part {
            Part::Kind => Scheme::of_kind(byte).map(Part::ReaderHigh).ok_or(ErrorCode::Malformed),
            Part::ReaderHigh(scheme) => Ok(Part::ReaderLow(*scheme, byte)),
            Part::ReaderLow(scheme, high) => {
                let (scheme, reader) = (*scheme, u16::from_be_bytes([*high, byte]));
                self.after_reader(scheme, reader)
            }
            Part::Length(scheme) => Label::announced(*scheme, byte).map(Part::Label),
            Part::Label(label) => match label.take(byte) {
                Ok(()) if label.filled < LABEL_MAX => return,
                Ok(()) => Ok(self.after_entry()),
                Err(code) => Err(code),
            },
            Part::Refused(_) | Part::After => return,
        };
        self.part = next.unwrap_or_else(Part::Refused);
    }

    /// What comes after an entry's reader number, which must rise.
    fn after_reader(&mut self, scheme: Scheme, reader: u16) -> Result<Part, ErrorCode> {
        if usize::from(reader) < self.least {
            return Err(ErrorCode::Malformed);
        }
        self.least = usize::from(reader) + 1;
        Ok(Part::Length(scheme))
    }

    /// What comes after a whole entry that is in order.
    fn after_entry(&mut self) -> Part {
        self.taken += 1;
        if self.taken < self.announced {
            Part::Kind
        } else {
            Part::After
        }
    }

    /// What the whole table answers if it has so many bytes. The length decides first.
    fn finish(&self, counted: usize) -> Result<usize, Error> {
        match counted.cmp(&(HEADER_LENGTH + ENTRY_LENGTH * self.announced)) {
            Ordering::Less => error(ErrorCode::Truncated),
            Ordering::Greater => error(ErrorCode::Malformed),
            Ordering::Equal => match self.part {
                Part::Refused(code) => error_at(code, self.taken),
                _ => Ok(self.taken),
            },
        }
    }
}

impl Label {
    /// A label that is announced to be so long.
    fn announced(scheme: Scheme, length: u8) -> Result<Label, ErrorCode> {
        match usize::from(length) {
            length @ 1..=LABEL_MAX => {
                Ok(Label { scheme, length, filled: 0, bytes: [0; LABEL_MAX] })
            }
            _ => Err(ErrorCode::Malformed),
        }
    }

    /// Takes a byte of the label or of the filling, which is zeros. After the last one
    /// the label itself is judged.
    fn take(&mut self, byte: u8) -> Result<(), ErrorCode> {
        if self.filled >= self.length && byte != 0 {
            return Err(ErrorCode::Malformed);
        }
        self.bytes[self.filled] = byte;
        self.filled += 1;
        if self.filled < LABEL_MAX {
            return Ok(());
        }
        match self.scheme.decode(&self.bytes[..self.length], &mut [0; LABEL_MAX]) {
            Ok(_) => Ok(()),
            Err(error) => Err(error.code),
        }
    }
}

/// A fresh start, then the bytes in chunks of these lengths, then the answer. A length
/// past the end takes what is left; bytes after the last chunk are not handed in.
pub fn receive(lengths: &[usize], bytes: &[u8]) -> Result<usize, Error> {
    let mut receiver = Receiver::start();
    let mut rest = bytes;
    for &length in lengths {
        let (chunk, later) = rest.split_at(length.min(rest.len()));
        receiver.take(chunk);
        rest = later;
    }
    receiver.finish()
}
