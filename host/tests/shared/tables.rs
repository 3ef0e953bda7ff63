//! Calls of the functions that read a table, of either form.

use crate::shared::{called, numbers, Error};
use distelhut_host::functions::Function;

/// The number of entries that reading a table answers, or the error.
pub fn verdict(read: Function<u8, u8>, table: &[u8]) -> Result<u64, Error> {
    numbers(|five| read(table, 0, &mut [], five)).map(|five| five[2])
}

/// The reader number, the scheme number and the points of an entry, or the error.
pub fn entry<N: Copy>(
    function: Function<u8, u32, N>,
    table: &[u8],
    number: N,
) -> Result<(u64, u64, Vec<u32>), Error> {
    let call = |five: &mut [u64]| function(table, number, &mut [0; 63], five);
    let [_, _, _, reader, scheme] = numbers(call)?;
    Ok((reader, scheme, called(function, table, number, 63)?))
}
