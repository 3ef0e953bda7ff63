//! Points, LDH, host labels, and the folding of case.

/// The most bytes in a label, and the capacity that a label or points buffer needs.
pub const LABEL_MAX: usize = 63;

/// The point of the hyphen.
pub const HYPHEN: u32 = 45;

/// Whether a number lies in D800 to DFFF.
pub fn is_surrogate(number: u32) -> bool {
    (0xD800..=0xDFFF).contains(&number)
}

/// Whether a number is a point: 0 to 10FFFF without the surrogates.
pub fn is_point(number: u32) -> bool {
    number <= 0x10FFFF && !is_surrogate(number)
}

/// The index of the first number that is no point.
pub fn first_not_point(numbers: &[u32]) -> Option<usize> {
    numbers.iter().position(|&number| !is_point(number))
}

/// Whether a number is the hyphen, a digit, A to Z or a to z.
pub fn is_ldh(number: u32) -> bool {
    let digit = (0x30..=0x39).contains(&number);
    let capital = (0x41..=0x5A).contains(&number);
    let small = (0x61..=0x7A).contains(&number);
    number == HYPHEN || digit || capital || small
}

/// Whether numbers are a host label: all LDH, 1 to 63 long, no hyphen at either end.
pub fn is_host_label(numbers: &[u32]) -> bool {
    let (Some(&first), Some(&last)) = (numbers.first(), numbers.last()) else {
        return false;
    };
    let short = numbers.len() <= LABEL_MAX;
    short && first != HYPHEN && last != HYPHEN && numbers.iter().all(|&number| is_ldh(number))
}

/// The small form of A to Z; any other byte stays as it is.
pub fn fold(byte: u8) -> u8 {
    if byte.is_ascii_uppercase() {
        byte + 32
    } else {
        byte
    }
}

/// Whether two rows of bytes differ at most in the case of A to Z.
pub fn same_but_for_case(one: &[u8], other: &[u8]) -> bool {
    one.len() == other.len() && one.iter().zip(other).all(|(&a, &b)| fold(a) == fold(b))
}

/// The value of a byte in a table of 32 small characters, case ignored.
pub fn value_in(characters: &[u8; 32], byte: u8) -> Option<u8> {
    let wanted = fold(byte);
    (0..32u8).find(|&value| characters[usize::from(value)] == wanted)
}
