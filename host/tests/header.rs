//! The C header's constants against the scope paper's numbers.

use distelhut_host::c_interface::{ERROR_BASE, TEXT_MAX};
use distelhut_host::error::ErrorCode;
use distelhut_host::point::LABEL_MAX;
use distelhut_host::scheme::{Scheme, DEFAULT};

const HEADER: &str = include_str!("../../include/distelhut.h");

/// The constants of the header with their values.
fn constants() -> Vec<(&'static str, u32)> {
    let constant = |line: &'static str| {
        let mut words = line.strip_prefix("#define DISTELHUT_")?.split_whitespace();
        let name = words.next()?;
        Some((name, words.next()?.strip_suffix('u')?.parse().ok()?))
    };
    HEADER.lines().filter_map(constant).collect()
}

/// The number that the C interface answers with a code.
fn answer(code: ErrorCode) -> u32 {
    ERROR_BASE + code as u32
}

#[test]
fn constants_are_the_papers() {
    let expected = [
        ("SCHEME_DEFAULT", 0),
        ("SCHEME_ALTDUDE", Scheme::AltDude.number()),
        ("SCHEME_LACE", Scheme::Lace.number()),
        ("SCHEME_BRACE", Scheme::Brace.number()),
        ("SIZE_LABEL", LABEL_MAX as u32),
        ("SIZE_TEXT", TEXT_MAX as u32),
        ("ERR_BASE", ERROR_BASE),
        ("ERR_CAPACITY", answer(ErrorCode::Capacity)),
        ("ERR_EMPTY", answer(ErrorCode::Empty)),
        ("ERR_TOO_LONG", answer(ErrorCode::TooLong)),
        ("ERR_EDGE_HYPHEN", answer(ErrorCode::EdgeHyphen)),
        ("ERR_HOST_LABEL", answer(ErrorCode::HostLabel)),
        ("ERR_OUTSIDE_ALPHABET", answer(ErrorCode::OutsideAlphabet)),
        ("ERR_NO_PREFIX", answer(ErrorCode::NoPrefix)),
        ("ERR_NOT_WELL_FORMED", answer(ErrorCode::NotWellFormed)),
        ("ERR_UNPAIRED_SURROGATE", answer(ErrorCode::UnpairedSurrogate)),
        ("ERR_UNKNOWN_SCHEME", answer(ErrorCode::UnknownScheme)),
        ("ERR_ODD_BYTE_COUNT", answer(ErrorCode::OddByteCount)),
    ];
    assert_eq!(constants(), expected);
    assert_eq!(Scheme::of_number(0), Some(DEFAULT));
}
