//! The papers' errors: the scope paper's fourteen codes and 02's 15 and 16, each reported
//! at a position.

/// Why an input is refused. The discriminant is the paper's number.
#[derive(Clone, Copy, Debug, PartialEq, Eq)]
pub enum ErrorCode {
    /// The output buffer is too short.
    Capacity = 1,
    /// The text, the label, the host name or a part of one is empty.
    Empty = 2,
    /// The label is over 63 bytes, given or needed, or the host name over 253.
    TooLong = 3,
    /// A number is no point.
    NotAPoint = 4,
    /// A text or label of AltDUDE, a label of BRACE, or a label of a host name that is not
    /// LACE's begins or ends with a hyphen.
    EdgeHyphen = 5,
    /// A LACE text is a host label itself.
    HostLabel = 6,
    /// A byte is outside the scheme's characters.
    OutsideAlphabet = 7,
    /// The LACE prefix is missing.
    NoPrefix = 8,
    /// The rules of form do not admit the label, or it is no lawful label of BRACE.
    NotWellFormed = 9,
    /// A surrogate is unpaired.
    UnpairedSurrogate = 10,
    /// The scheme number is unknown.
    UnknownScheme = 11,
    /// The number of text bytes is odd.
    OddByteCount = 12,
    /// The name table is cut short.
    Truncated = 13,
    /// The name table is badly formed.
    Malformed = 14,
    /// The row of marks is not as long as the text, or a mark in it is not lawful.
    BadMark = 15,
    /// A part of a host name would come back as another: of a text, a host label that begins
    /// with LACE's prefix; of a name, a LACE label whose text holds a dot.
    Ambiguous = 16,
}

/// An error: its code and its position.
#[derive(Clone, Copy, Debug, PartialEq, Eq)]
pub struct Error {
    pub code: ErrorCode,
    pub position: usize,
}

impl Error {
    /// The paper's number for this error.
    pub fn number(&self) -> u32 {
        self.code as u32
    }
}

/// An error at a position.
pub fn error_at<T>(code: ErrorCode, position: usize) -> Result<T, Error> {
    Err(Error { code, position })
}

/// An error at position 0.
pub fn error<T>(code: ErrorCode) -> Result<T, Error> {
    error_at(code, 0)
}
