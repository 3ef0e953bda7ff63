//! One call of a function, and what it answers.

use distelhut_host::functions::{Function, Numbers};
use std::fmt::Debug;

/// An error's code and position.
pub type Error = (u64, u64);

/// Makes a call that stores five numbers. Answers them, or the error, whose other
/// numbers are 0.
pub fn numbers(call: impl FnOnce(&mut [u64])) -> Result<Numbers, Error> {
    let mut five = [u64::MAX; 5];
    call(&mut five);
    match five {
        [0, position, ..] => {
            assert_eq!(position, 0);
            Ok(five)
        }
        [code, position, rest @ ..] => {
            assert_eq!(rest, [0, 0, 0]);
            Err((code, position))
        }
    }
}

/// Makes a call that fills a buffer of a capacity. Answers the elements written,
/// or the error; what was not written is as it was.
pub fn filled<B>(capacity: usize, call: impl FnOnce(&mut [B], &mut [u64])) -> Result<Vec<B>, Error>
where
    B: Copy + Debug + PartialEq + From<u8>,
{
    let held = B::from(0x5A);
    let mut buffer = vec![held; capacity];
    let answer = numbers(|five| call(&mut buffer, five));
    let count = answer.map_or(0, |five| five[2] as usize);
    assert!(buffer[count..].iter().all(|&element| element == held));
    buffer.truncate(count);
    answer.map(|_| buffer)
}

/// Calls a function with a buffer of a capacity. Answers the elements written,
/// or the error.
pub fn called<G, B, N>(
    function: Function<G, B, N>,
    given: &[G],
    number: N,
    capacity: usize,
) -> Result<Vec<B>, Error>
where
    B: Copy + Debug + PartialEq + From<u8>,
{
    filled(capacity, |buffer, five| function(given, number, buffer, five))
}
